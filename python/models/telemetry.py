"""A bit that is reported each day with noise: fresh noise each day, noise that is drawn once and kept, or both (as RAPPOR does).

One in ten has the bit. After seven days of fresh noise a guess is right with probability 15795/16384 and not 9/10; kept noise, and both, leave 9/10.
"""

from kuifje.model import Public, Secret, choose, model, observe


def noisy(bit):
    return choose((bit, 3), (1 - bit, 1))


@model
def reports(bit: Secret = choose({0: 9, 1: 1}), kept: Public = True, fresh: Public = True, days: Public = 7):
    memo = noisy(bit) if kept else bit
    for _ in range(days):
        observe(noisy(memo) if fresh else memo)
