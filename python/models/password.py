"""A password that is compared letter by letter, or as a whole: the adversary adapts its guesses, and some tries are allowed.

Three letters of four, three tries: one guess is right with probability 1/64 before, 5/16 after, and as a whole 1/16.
"""

from kuifje.model import Public, Secret, model, observe, uniform


def attack(password, letters, tries):
    guess, tried, opened = [0] * len(password), 0, False
    while tried < tries and not opened:
        for i in range(len(password)):
            if password[i] != guess[i]:
                guess[i] = (guess[i] + 1) % letters
                break
        else:
            opened = True
        tried += 1
    observe(opened)


@model
def early(password: Secret = [uniform(range(4))] * 3, tries: Public = 3):
    attack(password, 4, tries)


@model
def early_pin(pin: Secret = [uniform(range(10))] * 4, tries: Public = 10):
    attack(pin, 10, tries)


@model
def whole(password: Secret = [uniform(range(4))] * 3, tries: Public = 3):
    tried, opened = 0, False
    while tried < tries and not opened:
        opened = password == [0, 0, tried]
        tried += 1
    observe(opened)
