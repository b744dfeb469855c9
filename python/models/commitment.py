"""A number of a lottery is committed to with a nonce: without one it is known, with a weak one 21/40, with one as long as the number 1/10.

And a coin that two parties toss, one of whom may break off once and have it tossed again: it falls its way with probability 3/4.
"""

from kuifje.model import Noise, Public, Secret, flip, model, observe, one_of, uniform


@model
def lottery(number: Secret = uniform(range(10)), nonce: Public = one_of(range(3))):
    if nonce == 0:
        observe(number)
    elif nonce == 1:
        observe((2 * number + uniform(range(4))) % 21)
    else:
        observe((number + uniform(range(10))) % 10)


@model
def coin(first: Noise = flip(1, 2), again: Noise = flip(1, 2), wins: Secret = lambda first, again: first or again):
    pass
