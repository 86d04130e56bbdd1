#!/usr/bin/env python3
"""Turns a listing, a map and its job written as text, into the records of an input, and back:

listing.py records < LISTING > INPUT
listing.py listing < INPUT > LISTING

A line of a listing is one record; what follows a # is a comment.

    places 4                            the head; its M is the number of arc lines, unless one is given: places 4 arcs 7
    arc from 0 to 1 cost 1
    arc from 0 to 1 length 30 class 2
    estimate at 1 is 4
    default 5                           the estimate of every place that has none of its own, goals excepted
    wait at 3 is 40
    factors 1 1 2 2 3 3 4 4             of the classes 0 to 7
    job start 0 allowance 944 goals 3   several goals: goals 3 5 9
    record 9 01 00 FF                   any other record: its kind, then its body in hex
    bytes 0A 00 04                      bytes that are no whole record, in hex

Every input has a listing that gives it back, a damaged one too."""
import sys

from reference import arc, default, estimate, factors, fits, frame, head, is_arc, is_known, job, measured, record, u16, u32, wait

FORMS = {
    'places': 'places N, or places N arcs M',
    'arc': 'arc from PLACE to PLACE cost NUMBER, or .. length NUMBER class NUMBER',
    'estimate': 'estimate at PLACE is NUMBER',
    'default': 'default NUMBER',
    'wait': 'wait at PLACE is NUMBER',
    'factors': 'factors NUMBER ..., eight of them',
    'job': 'job start PLACE allowance NUMBER goals PLACE ...',
    'record': 'record KIND HEX ...',
    'bytes': 'bytes HEX ...',
}


def number(word, size):
    """a number that fits a field of so many bytes; what the papers refuse in it is let through"""
    if not (word.isascii() and word.isdigit() and int(word) < 256 ** size):
        raise ValueError(f'{word!r} is not a number from 0 to {256 ** size - 1}')
    return int(word)


def numbers(*words):
    return [number(word, 2) for word in words]


def unhex(words):
    for word in words:
        if len(word) % 2 or not set(word) <= set('0123456789abcdefABCDEF'):
            raise ValueError(f'{word!r} is not bytes in hex')
    return bytes.fromhex(''.join(words))


def encode(words, arcs):
    """one line's bytes, in a listing of so many arc lines"""
    match words:
        case ['places', n]:
            return head(*numbers(n, str(arcs)))
        case ['places', n, 'arcs', m]:
            return head(*numbers(n, m))
        case ['arc', 'from', u, 'to', v, 'cost', c]:
            return arc(*numbers(u, v, c))
        case ['arc', 'from', u, 'to', v, 'length', l, 'class', c]:
            return measured(*numbers(u, v, l, c))
        case ['estimate', 'at', v, 'is', h]:
            return estimate(number(v, 2), number(h, 4))
        case ['default', h]:
            return default(number(h, 4))
        case ['wait', 'at', v, 'is', w]:
            return wait(*numbers(v, w))
        case ['factors', _, _, _, _, _, _, _, _]:
            return factors(numbers(*words[1:]))
        case ['job', 'start', s, 'allowance', a, 'goals', *goals]:
            return job(number(s, 2), number(a, 4), numbers(*goals))
        case ['record', kind, *body]:
            return record(number(kind, 2), unhex(body))
        case ['bytes', _, *_]:
            return unhex(words[1:])
    raise ValueError(f'expected: {FORMS[words[0]]}' if words[0] in FORMS else f'unknown word {words[0]!r}')


def statements(text):
    """(line number, words) of the lines that say something"""
    lines = enumerate((line.partition('#')[0].split() for line in text.split('\n')), 1)
    return [(i, words) for i, words in lines if words]


def records(text):
    lines, data = statements(text), bytearray()
    arcs = sum(words[0] == 'arc' for _, words in lines)
    for i, words in lines:
        try:
            data += encode(words, arcs)
        except OverflowError:  # each number fits its field by now, so it is the record's length that does not
            raise ValueError(f'line {i}: a body of more than 65535 bytes')
        except ValueError as wrong:
            raise ValueError(f'line {i}: {wrong}')
    return bytes(data)


def row(front, body):
    """what the line begins with, and then all numbers"""
    return ' '.join([front, *(str(u16(body, i)) for i in range(0, len(body), 2))])


def decode(kind, body, arcs):
    """one record's line, in a listing of so many arc lines"""
    if not is_known(kind) or not fits(kind, body):
        return f'record {kind} {body.hex(" ").upper()}'.rstrip()
    if kind == 1:
        return f'places {u16(body, 0)}' + (f' arcs {u16(body, 2)}' if u16(body, 2) != arcs else '')
    if kind == 2:
        return f'arc from {u16(body, 0)} to {u16(body, 2)} cost {u16(body, 4)}'
    if kind == 5:
        return f'arc from {u16(body, 0)} to {u16(body, 2)} length {u16(body, 4)} class {u16(body, 6)}'
    if kind == 3:
        return f'estimate at {u16(body, 0)} is {u32(body, 2)}'
    if kind == 6:
        return f'wait at {u16(body, 0)} is {u16(body, 2)}'
    if kind == 7:
        return row('factors', body)
    if kind == 8:
        return f'default {u32(body, 0)}'
    return row(f'job start {u16(body, 0)} allowance {u32(body, 2)} goals', body[8:])


def listing(data):
    whole, _ = frame(data)
    arcs = sum(is_arc(kind) and fits(kind, body) for kind, body in whole)
    lines = [decode(kind, body, arcs) for kind, body in whole]
    tail = data[sum(4 + len(body) for _, body in whole):]
    if tail:
        lines.append(f'bytes {tail.hex(" ").upper()}')
    return ''.join(line + '\n' for line in lines)


def main(words):
    if words not in (['records'], ['listing']):
        sys.exit(__doc__)
    data = sys.stdin.buffer.read()
    try:
        out = records(data.decode(errors='backslashreplace')) if words == ['records'] else listing(data).encode()
    except ValueError as wrong:
        sys.exit(str(wrong))
    sys.stdout.buffer.write(out)


if __name__ == '__main__':
    main(sys.argv[1:])
