"""Ages and diagnoses of three patients are published as a set; a neighbour knows one of the ages. Ages are rounded down to so many years.

The neighbour's guess is right with probability 11/30 before, then with exact ages 166694407/172800000, and less the coarser the ages are.
"""

from kuifje.model import Noise, Public, Secret, choose, model, observe, one_of, uniform


def diagnosis(age):
    return choose((0, 4), (1, 3), (2, 2), (3, 3 if age >= 50 else 1))


@model
def published(
    ages: Noise = [uniform(range(40, 60))] * 3,
    patient: Secret = lambda ages: diagnosis(ages[0]),
    years: Public = one_of([1, 5, 10, 100]),
):
    others = [diagnosis(age) for age in ages[1:]]
    observe(ages[0])
    observe({(age // years, found) for age, found in zip(ages, [patient] + others)})
