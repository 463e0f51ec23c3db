#!/usr/bin/env python3
"""Cases of numeric marking with their right answers, computed with whole numbers and fractions only.

  number-cases.py               prints the cases, one a line: the case, a tab, its answer
  number-cases.py check FILE    holds this script's arithmetic to the `number` cases of FILE

A case is `number KIND AMOUNT SPEED TOLERANCE UNIT PATTERN ROOM`, its answer `REFUSAL LINE`: LINE the 13 bytes in hex, `-` where refused.
The cases are the same at every run."""
import random
import sys
from fractions import Fraction

SIGN = 1 << 31
INFINITE = 0x7F800000
GREATEST = INFINITE - 1  # the pattern of the greatest finite float
NAN = 0x7FC00000
LINE = 13  # bytes of a sheet line


# ---- the document's rules

def in_range(kind, amount, speed, tolerance, unit):
    most = {1: 20000, 2: 10000}.get(kind, 0)
    return 1 <= amount <= most and 1 <= speed <= 200 and 0 <= tolerance <= 10000 and unit <= 2


def exact_answer(kind, amount, speed):
    return Fraction(18 * amount, 5 * speed) if kind == 1 else Fraction(5 * speed * amount, 18)


def value(bits):
    """The float's exact value; None where it is no number."""
    field, digits = bits % SIGN >> 23, bits & 0x7FFFFF
    if field == 255:
        return None
    size = Fraction(digits, 2 ** 149) if field == 0 else Fraction((digits + 2 ** 23) * 2 ** (field - 1), 2 ** 149)
    return -size if bits & SIGN else size


def below(x):
    """The pattern of the greatest float of at most x, for x from 0 on: patterns are in the order of their values."""
    low, high = 0, GREATEST
    while low < high:
        middle = (low + high + 1) // 2
        if value(middle) <= x:
            low = middle
        else:
            high = middle - 1
    return low


def nearest(x):
    low = below(x)
    down, up = x - value(low), value(low + 1) - x
    return low if down < up or (down == up and low % 2 == 0) else low + 1


def line(kind, amount, speed, tolerance, unit, bits, room):
    if not in_range(kind, amount, speed, tolerance, unit):
        return '23 -'
    if room < LINE:
        return '24 -'
    exact = exact_answer(kind, amount, speed)
    given, error = (0 if unit == 0 else bits), 0
    if unit == 0:
        verdict = 2
    elif unit != kind:
        verdict = 3
    elif value(bits) is None:
        verdict = 4
    else:
        miss = 1000 * (value(bits) - exact)
        verdict = 1 if abs(miss) <= tolerance else 0
        error = min(abs(miss.numerator) // miss.denominator, 1000000) * (-1 if miss < 0 else 1)
    parts = [(given, 4), (nearest(exact), 4), (verdict, 1), (error % 2 ** 32, 4)]
    return '0 ' + b''.join(n.to_bytes(size, 'little') for n, size in parts).hex()


# ---- the cases

QUESTIONS = [(1, 1, 200), (1, 1, 1), (1, 20000, 1), (1, 20000, 200), (1, 1500, 100), (1, 1000, 70), (1, 9, 72), (1, 16127, 189),
             (2, 1, 1), (2, 1, 200), (2, 10000, 1), (2, 10000, 200), (2, 18, 40), (2, 7, 13), (2, 3600, 120), (2, 9999, 199)]
TOLERANCES = [0, 1, 31, 32, 33, 50, 999, 10000]


def float_at(x):
    """The pattern of a float at x, or the next one toward zero."""
    return below(x) if x >= 0 else SIGN + below(-x)


def around(x):
    """The patterns of the floats at x and next to it, on both sides."""
    at = float_at(x)
    return sorted({max(at - 1, 0), at, min(at + 1, 2 ** 32 - 1)})


def tolerance_borders():
    for kind, amount, speed in QUESTIONS:
        exact = exact_answer(kind, amount, speed)
        for number, tolerance in enumerate(TOLERANCES):
            side = 1 if (number + amount) % 2 else -1
            for bits in around(exact + side * Fraction(tolerance, 1000))[-2:]:
                yield kind, amount, speed, tolerance, kind, bits


def error_borders():
    """The error at a whole number of thousandths, and where it begins to be held."""
    for kind, amount, speed in QUESTIONS:
        exact = exact_answer(kind, amount, speed)
        for thousandths in (1, -1, 1000000, -1000000):
            for bits in around(exact + Fraction(thousandths, 1000))[::2]:
                yield kind, amount, speed, 500, kind, bits


def model_values():
    for kind, amount, speed in QUESTIONS:
        model = nearest(exact_answer(kind, amount, speed))
        for tolerance in (0, 31, 32):
            yield kind, amount, speed, tolerance, kind, model


def small_and_huge():
    for bits in (0, SIGN, 1, SIGN + 1, 0x7FFFFF, 0x800000, SIGN + 0x800000, 0x4B800000, GREATEST, SIGN + GREATEST):
        for kind, amount, speed, tolerance in ((1, 1, 200, 17), (1, 1, 200, 18), (2, 1, 1, 278), (2, 10000, 200, 10000)):
            yield kind, amount, speed, tolerance, kind, bits


def no_numbers():
    for bits in (INFINITE, SIGN + INFINITE, NAN, SIGN + NAN, INFINITE + 1, SIGN + INFINITE + 1, 0x7FFFFFFF, 0xFFFFFFFF, 0x7FA5A5A5, 0xFFDEADBE):
        for unit in (0, 1, 2):
            yield 1, 1500, 100, 50, unit, bits
            yield 2, 3600, 120, 10000, unit, bits


def other_units():
    for kind, amount, speed in QUESTIONS:
        model = nearest(exact_answer(kind, amount, speed))
        yield kind, amount, speed, 32, 3 - kind, model
        yield kind, amount, speed, 32, 0, model
    for bits in (0, SIGN, 1, SIGN + GREATEST):
        yield 1, 1, 200, 18, 2, bits
        yield 2, 1, 1, 278, 1, bits


def out_of_range():
    good = (1, 1500, 100, 50, 1)
    for place, wrong in ((0, (0, 3, 255)), (1, (0, 20001, 65536, 2 ** 32 - 1)), (2, (0, 201, 2 ** 32 - 1)), (3, (10001, 2 ** 32 - 1)), (4, (3, 128, 255))):
        for n in wrong:
            for bits in (0x42580000, NAN):
                yield good[:place] + (n,) + good[place + 1:] + (bits,)
    for amount in (10000, 10001, 20000, 20001):
        for kind in (1, 2):
            yield kind, amount, 200, 10000, kind, 0x42580000
    yield 0, 0, 0, 10001, 3, 0


def drawn(count):
    draw = random.Random(1)
    for _ in range(count):
        kind = draw.choice((1, 2))
        amount, speed, tolerance = draw.randint(1, 20000 // kind), draw.randint(1, 200), draw.choice(TOLERANCES)
        near = exact_answer(kind, amount, speed) + Fraction(draw.randint(-2 * tolerance - 2, 2 * tolerance + 2), 1000)
        yield kind, amount, speed, tolerance, kind, draw.choice((float_at(near), draw.getrandbits(32)))


def rooms():
    for room in (*range(LINE + 2), 100, 4096):
        for typed in ((1, 1500, 100, 50, 1, 0x42580000), (1, 1500, 100, 50, 2, NAN), (2, 3600, 120, 0, 0, 1), (2, 10001, 120, 0, 2, 0)):
            yield typed + (room,)


def cases():
    for group in (tolerance_borders(), error_borders(), model_values(), small_and_huge(), no_numbers(), other_units(), out_of_range(), drawn(40)):
        for typed in group:
            yield typed + (LINE + 2,)
    yield from rooms()


def check(path):
    seen = wrong = 0
    for text in open(path):
        case, answer = text.rstrip('\n').split('\t')
        if case.startswith('number '):
            seen += 1
            got = line(*map(int, case.split()[1:]))
            if got != answer:
                wrong += 1
                print(case, answer, 'but', got)
    print(f'{seen} cases, {wrong} wrong')
    return wrong


if __name__ == '__main__':
    if sys.argv[1:2] == ['check']:
        sys.exit(1 if check(sys.argv[2]) else 0)
    for case in dict.fromkeys(cases()):
        print('number', *case, end='\t')
        print(line(*case))
