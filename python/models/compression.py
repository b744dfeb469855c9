"""A secret cookie of three letters of six is compressed with a guess: each letter of a common beginning makes it shorter. Eight requests.

The adversary goes on from the length that it sees: 1/216 becomes 5/8; with random padding of up to three bytes 58721/1572864, with blocks nothing.
"""

from kuifje.model import Public, Secret, model, observe, one_of, uniform


@model
def requests(cookie: Secret = [uniform(range(6))] * 3, padding: Public = one_of(range(3))):
    guess = [0] * 3
    for _ in range(8):
        length = 20 - sum(cookie[: i + 1] == guess[: i + 1] for i in range(3))
        if padding == 1:
            length += uniform(range(4))
        observe(length if padding < 2 else (length + 15) // 16 * 16)
        if padding < 2:
            guess = [(g + (length >= 20 if k == 0 else length == 20 - k)) % 6 for k, g in enumerate(guess)]
