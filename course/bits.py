#!/usr/bin/env python3
"""Shannon's measures and min-entropy of what `kuifje hyper` prints, in bits.

    kuifje hyper FILE | python3 course/bits.py

Logarithms aren't fractions: they are worked out in floating point and rounded to three decimals. Ends with 2 where the text is no hyper.
"""

from __future__ import annotations

import sys
from collections import defaultdict
from collections.abc import Iterable
from fractions import Fraction
from math import log2

Inner = dict[str, Fraction]


def hyper_of(text: str) -> list[tuple[Fraction, Inner]]:
    """Each inner with its outer. A line of an inner is its value, which may hold spaces, and its probability."""
    inners: list[tuple[Fraction, Inner]] = []
    for line in text.splitlines():
        if line.startswith("inner "):
            inners.append((Fraction(line.rpartition(" ")[2]), {}))
        elif line.startswith("  "):
            value, _, probability = line.strip().rpartition(" ")
            inners[-1][1][value] = Fraction(probability)
    if not inners or sum(outer for outer, _ in inners) != 1:
        raise ValueError("no hyper")
    return inners


def entropy(probabilities: Iterable[Fraction]) -> float:
    """Shannon's: the sum of p times the logarithm of 1/p."""
    return sum(float(p) * log2(1 / p) for p in probabilities)


def main() -> None:
    try:
        inners = hyper_of(sys.stdin.read())
    except (ValueError, IndexError, ZeroDivisionError):
        print("bits.py: standard input isn't what kuifje hyper prints", file=sys.stderr)
        sys.exit(2)
    prior: Inner = defaultdict(Fraction)
    for outer, inner in inners:
        for value, probability in inner.items():
            prior[value] += outer * probability
    before, after = entropy(prior.values()), sum(float(outer) * entropy(inner.values()) for outer, inner in inners)
    quotient = sum(outer * max(inner.values()) for outer, inner in inners) / max(prior.values())
    print(f"Shannon entropy before {before:.3f}, after {after:.3f}")
    print(f"Shannon leakage {max(0.0, before - after):.3f}, min-entropy leakage {log2(quotient):.3f}")
    print("bits, rounded")


if __name__ == "__main__":
    main()
