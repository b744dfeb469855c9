"""A one-time code of six digits, and five tries: one guess after them is right with probability 6/10^6."""

from kuifje.model import Public, Secret, model, observe, uniform


@model
def lockout(code: Secret = [uniform(range(10))] * 6, tries: Public = 5):
    tried, opened = 0, False
    while tried < tries and not opened:
        opened = code == [0, 0, 0, 0, 0, tried]
        tried += 1
    observe(opened)
