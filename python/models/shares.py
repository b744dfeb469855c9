"""A secret of seven is shared by a line: one share of a random line tells nothing, 1/7.

With a slope that is never 0 it is 1/6, with whole numbers that aren't reduced 13/49, and two shares tell all.
"""

from kuifje.model import Noise, Public, Secret, model, observe, uniform


@model
def line(secret: Secret = uniform(range(7)), slope: Noise = uniform(range(7)), shares: Public = 1, reduced: Public = True):
    for x in range(1, shares + 1):
        observe((secret + slope * x) % 7 if reduced else secret + slope * x)


@model
def never_level(secret: Secret = uniform(range(7)), slope: Noise = uniform(range(1, 7))):
    observe((secret + slope) % 7)
