"""Five logins under a name that exists with probability 1/5: after three failures the status is 429, and a password's hash takes time, with jitter.

Where failures are counted for existing users alone, it is known whether the name exists; counted for every name, time is left, 112/125; with a hash
for every name nothing more than 4/5.
"""

from kuifje.model import Public, Secret, choose, flip, model, observe


@model
def logins(exists: Secret = flip(1, 5), per_name: Public = False, hashes_all: Public = False):
    for failures in range(5):
        limited = failures >= 3 and (per_name or exists)
        slow = not limited and (hashes_all or exists)
        observe(429 if limited else 401)
        observe(choose((slow, 4), (not slow, 1)))
