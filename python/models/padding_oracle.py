"""A padding oracle on blocks of two bytes of three bits: padding is right where the last byte is 1, or both are 2.

The adversary changes the last byte until the padding is right, makes it 2, and does the same with the first: 1/64 becomes 15/16. The time of a
hash over what the padding leaves gives 3/64; a hash of one length, or a checksum that is looked at first, nothing.
"""

from kuifje.model import Public, Secret, model, observe, uniform


def search(first, last, change_first):
    change, right = 0, False
    while change < 8 and not right:
        a, b = (first ^ change, last) if change_first else (first, last ^ change)
        right = b == 1 or b == 2 and a == 2
        observe(right)
        change += not right
    return change


@model
def oracle(first: Secret = uniform(range(8)), last: Secret = uniform(range(8))):
    found = search(first, last, False)
    search(first, last ^ found ^ 3, True)


@model
def blocks(padding: Secret = uniform(range(8)), secret: Secret = uniform(range(8)), constant: Public = False):
    observe(4 if constant else (18 - padding) // 4)
