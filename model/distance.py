#!/usr/bin/env python3
"""Document 02, W6, with fractions: "When both prices are positive and the new one is at least half and at most twice the
old, the yield that a feed stores lies within 1/2^38 basis point of the exact (new/old - 1) × 10000."

Asks it of every hold in the stored set of the Rust's answers and in the season, and of the model's own yields of seeded
prices from the smallest double to the largest. The witness must pass 1/2^39: 38 is the most that holds."""
import os
import random
import sys
from fractions import Fraction

sys.dont_write_bytecode = True
import model

TOP = os.path.join(os.path.dirname(os.path.abspath(__file__)), "..")
WITNESS = 1.7998211893163374, 3.524503590475548


def double(text):
    """of the bits in hexadecimal digits; `-` is none"""
    return None if text == "-" else model.of_bits(int(text, 16))


def asked(old, new):
    """is W6 about these prices?"""
    positive = all(model.finite(price) and price > 0 for price in (old, new))
    return positive and Fraction(old) / 2 <= Fraction(new) <= Fraction(old) * 2


def distance(old, new, stored):
    """from the exact yield, in 1/2^38 basis point"""
    return abs(Fraction(stored) - (Fraction(new) / Fraction(old) - 1) * 10000) * 2**38


def held(path):
    """each hold with the next one of its run: both prices and the yield between them"""
    before = None
    for line in open(os.path.join(TOP, path), encoding="latin-1"):
        fields = line.rstrip("\n").split("|")
        hold = fields if fields[0] == "H" else None
        if before and hold:
            yield double(before[3]), double(hold[3]), double(before[4])
        before = hold


def seeded(count):
    rng = random.Random(38)
    for _ in range(count):
        old = model.of_bits(rng.randrange(1, 0x7FF << 52))
        new = old * rng.uniform(0.5, 2)
        yield old, new, model.hold_yield(old, new)


def main():
    far = []
    for source in held("crates/test_cases/stdout"), held("examples/season.out"), seeded(20_000):
        far.append([distance(*hold) if hold[2] is not None else Fraction(2) for hold in source if asked(*hold[:2])])
    witness = distance(*WITNESS, model.hold_yield(*WITNESS))
    most = max(map(max, far))
    print(f"distance: {' + '.join(f'{len(one):,}' for one in far)} yields are off by at most {float(most):.3f} / 2^38 basis point, the witness by {float(witness):.3f}")
    return 0 if most <= 1 and witness > Fraction(1, 2) else 1


if __name__ == "__main__":
    sys.exit(main())
