"""Two queries to an encrypted index: a server sees how many documents each finds, and whether both are the same. Keywords are asked for by Zipf.

Both are guessed with probability 78400/579121 before; after counts 432201/579121, after counts up to powers of two 2933329/5212089, after one count
for all 117600/579121, where that they are the same is left.
"""

from kuifje.model import Public, Secret, choose, model, observe

EXACT = [90, 41, 33, 33, 17, 12, 12, 3]
ZIPF = choose(dict(enumerate([840, 420, 280, 210, 168, 140, 120, 105])))


@model
def search(queries: Secret = [ZIPF] * 2, counts: Public = EXACT, pattern: Public = True):
    for query in queries:
        observe(counts[query])
    if pattern:
        observe(queries[0] == queries[1])
