"""A cache shows which line of a table is read: two rounds with the S-box of AES, two bytes of the key, known plaintexts, lines of 16 entries.

Of 65,536 keys one guess is right with probability 1/256, 11/256, 251/4096 and 1/16 after one to four plaintexts; where the whole table is read
before, nothing is learned.
"""

from kuifje.model import Public, Secret, model, observe, uniform


def times(a, b):
    found = 0
    for i in range(8):
        found ^= a * (b >> i & 1)
        a = a << 1 ^ 0x11B * (a >> 7)
    return found


def entry(x):
    inverse, found = next((y for y in range(256) if times(x, y) == 1), 0), 0x63
    for i in range(5):
        found ^= (inverse << i | inverse >> 8 - i) & 255
    return found


SBOX = [entry(x) for x in range(256)]


@model
def lines(key: Secret = [uniform(range(256))] * 2, plaintexts: Public = (17, 200, 33, 66), preloaded: Public = False):
    for plaintext in plaintexts:
        x = plaintext ^ key[0]
        y = SBOX[x] ^ key[1]
        if not preloaded:
            observe((x // 16, y // 16))
