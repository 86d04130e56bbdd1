#!/usr/bin/env python3
"""Runs program `report` on whole, piecewise, damaged and long inputs and holds what it prints against document 02, paper 6; then with input and output
that fail, that are late and that are slow: report_program.py PROGRAM"""
import random
import sys

from days import by_hand, some_days, text
from program import SHEET, WORK
from reference import Day
from streams import failing, report, slow, whole


def printed(data):
    return text(Day(data, WORK, SHEET).lines())


def main(program):
    rnd = random.Random(7)
    cases = [*by_hand(), *((data, printed(data)) for data in some_days(rnd, 300))]
    longest = max((data for data, want in cases if want != 'too long\n'), key=len)
    out = printed(longest).encode()
    trials = [*whole(program, [(data, (want.encode(), b'')) for data, want in cases], rnd)]
    trials += [*failing(program, b'', longest, out), *slow(program, longest, out)]
    return not report('report_program', trials)


if __name__ == '__main__':
    sys.exit(main(*sys.argv[1:]))
