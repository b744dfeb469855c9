"""A log has a user's group, and in debug mode the user; a collector keeps one half of the groups apart from the other.

Sixteen users in four groups: the log's capacity is 4, what the collector keeps of it 2, and with debug mode in one case of a hundred 103/25.
"""

from kuifje.model import Public, Secret, model, observe, uniform


@model
def log(user: Secret = uniform(range(16)), debug: Public = False):
    observe(user if debug else user // 4)


@model
def collector(group: Secret = uniform(range(4))):
    observe(group // 2)
