#!/usr/bin/env python3
"""Writes what the fuzzer starts from, a file for each: seeds.py route|write|report|sheet DIR"""
import os
import random
import sys

from cases import needs, stored
from sheets import samples

SMALL = 2000


def inputs():
    """small inputs of the stored cases, each after the two bytes by which what is lent differs from what it needs"""
    for numbers, data in stored():
        if len(data) <= SMALL:
            yield bytes((lent - need) % 256 for lent, need in zip(numbers[2:4], needs(data))) + data


def main(target, folder):
    for nth, seed in enumerate(samples(random.Random(1)) if target == 'sheet' else inputs()):
        with open(os.path.join(folder, str(nth)), 'wb') as f:
            f.write(seed)


if __name__ == '__main__':
    main(*sys.argv[1:])
