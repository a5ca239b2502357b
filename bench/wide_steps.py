#!/usr/bin/env python3
"""Prints the tables of steps that the tests of wide_step hold.

Under a test's name each line has a, b, c, d, e as written there, and the exact quotient (a * b - c * d) / e by Python's
integers. Factors stand on both sides of 2^31 and 2^62, up to which steps are made directly, divisors on both
sides of 2^63, and all of them just below 2^120.
"""

NAMES = {"SHORT": 2**31, "EDGE": 2**62, "LONG": 2**63, "WIDE": 2**120 - 1}
STEPS = {
    # on both sides of the size up to which products have 64 bits
    "steps_around_31_bits": [
        ("SHORT - 1", "SHORT - 1", "1 - SHORT", "SHORT - 1", "2"),
        ("1 - SHORT", "SHORT - 1", "SHORT - 1", "SHORT - 1", "SHORT - 1"),
        ("SHORT", "SHORT", "-SHORT", "SHORT", "SHORT"),
        ("SHORT - 1", "12", "SHORT - 1", "-12", "24"),
        ("7", "SHORT - 2", "-21", "0", "14"),
    ],
    # on both sides of the size up to which products are formed directly, and of that of divisors
    "steps_around_62_bits": [
        ("EDGE - 1", "EDGE - 1", "1", "1 - EDGE", "EDGE - 1"),
        ("EDGE", "EDGE - 1", "0", "5", "-EDGE"),
        ("EDGE", "EDGE", "-EDGE", "EDGE", "-2"),
        ("1 - EDGE", "EDGE - 1", "EDGE - 1", "EDGE - 1", "1"),
        ("LONG - 1", "EDGE - 1", "LONG - 1", "1 - EDGE", "LONG - 1"),
        ("SHORT - 1", "0", "0", "1 - SHORT", "LONG"),
        ("SHORT", "SHORT", "-SHORT", "SHORT", "LONG"),
        ("EDGE", "EDGE", "0", "0", "EDGE"),
    ],
    # products of about 240 bits; in the last, remainders cancel, though neither product is a multiple
    "steps_around_120_bits": [
        ("WIDE", "WIDE", "WIDE", "WIDE - 1", "WIDE"),
        ("WIDE", "WIDE - 1", "-WIDE", "1", "-WIDE"),
        ("-WIDE", "WIDE - 6", "WIDE - 6", "7", "WIDE - 6"),
        ("WIDE", "WIDE", "WIDE - 2", "WIDE", "2"),
        ("WIDE", "2 * LONG + 1", "-WIDE", "2 * LONG - 1", "LONG / 4"),
    ],
}


def line(names):
    a, b, c, d, e = (eval(name.replace("/", "//"), {}, NAMES) for name in names)
    quotient, rest = divmod(a * b - c * d, e)
    if rest or max(map(abs, (a, b, c, d, e))) >= 2**120 or abs(quotient) >= 2**126:
        raise SystemExit(f"no step: {names}")
    return f"assert_step(&rt, {', '.join(names)}, {quotient});"


def main():
    for test, steps in STEPS.items():
        print(test, *map(line, steps), sep="\n    ")


if __name__ == "__main__":
    main()
