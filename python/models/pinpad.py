"""A pad for PINs: grease shows which digits are used, a camera catches each digit with probability 1/4, a pad is laid out anew each time.

Of four digits of ten grease leaves 77/2000 and 14 tries for one half, the camera (13/40)^4. Of three digits of four, grease leaves 7/32 and the new
layout 5/64; yet neither leaks less than the other to every adversary.
"""

from itertools import permutations

from kuifje.model import Noise, Secret, choose, model, observe, uniform


@model
def smudge(pin: Secret = [uniform(range(10))] * 4):
    observe(set(pin))


@model
def camera(pin: Secret = [uniform(range(10))] * 4):
    for digit in pin:
        observe(choose((digit, 1), (10, 3)))


@model
def smudge_of_four(pin: Secret = [uniform(range(4))] * 3):
    observe(set(pin))


@model
def scrambled(pin: Secret = [uniform(range(4))] * 3, layout: Noise = uniform(permutations(range(4)))):
    for digit in pin:
        observe(layout[digit])
