"""Square and multiply: a bit of the exponent that is 1 costs one multiplication more, and the total time is seen.

One guess in twelve becomes one in three; with two bits of blinding 13/48, and after thirty measurements nearly one half; with a ladder nothing is
learned.
"""

from kuifje.model import Public, Secret, model, observe, uniform


def time(exponent, bits):
    return sum(1 + (exponent >> i & 1) for i in range(bits))


@model
def plain(exponent: Secret = uniform(range(12))):
    observe(time(exponent, 4))


@model
def blinded(exponent: Secret = uniform(range(12)), measurements: Public = 1):
    for _ in range(measurements):
        observe(time(exponent + 12 * uniform(range(4)), 6))


@model
def ladder(exponent: Secret = uniform(range(12))):
    observe(8)
