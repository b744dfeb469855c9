"""A log shows the last digit of a number of four, and the check digit of all four: 1/10000 becomes 1/100, and without the check digit 1/1000."""

from kuifje.model import Public, Secret, model, observe, uniform


def doubled(digit):
    return 2 * digit - (9 if digit > 4 else 0)


@model
def log(number: Secret = [uniform(range(10))] * 4, check_digit: Public = True):
    observe(number[3])
    if check_digit:
        observe((doubled(number[0]) + number[1] + doubled(number[2]) + number[3]) % 10)
