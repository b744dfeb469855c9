"""Programs of any size, each after an example or a study of this repository."""

from __future__ import annotations

from collections.abc import Callable


def program(*lines: str) -> str:
    """The text of these lines."""
    return "".join(f"{line}\n" for line in lines)


def remainders(n: int) -> str:
    """A number up to n, and its remainders by small primes."""
    return program(f"var x : 0..{n} := uniform 0..{n};", *(f"observe x mod {prime};" for prime in (2, 3, 5, 7)))


def secret_digits(n: int) -> tuple[list[str], list[str]]:
    """The names of so many digits, and their declarations."""
    digits = [f"digit_{k}" for k in range(n)]
    declared = [f"var {digit} : 0..9 := uniform 0..9;" for digit in digits]
    return digits, declared + [f"about {', '.join(f'old {digit}' for digit in digits)};"]


def digit_by_digit(n: int) -> str:
    """A code of n digits is compared with a guess, up to the first difference: examples/pin.kf."""
    digits, declared = secret_digits(n)
    tests = [f"if {digit} = {3 * k % 10} {{" for k, digit in enumerate(digits)]
    return program(*declared, *tests, "skip;", *["} else { skip; }"] * n)


def at_once(n: int) -> str:
    """The same, compared as a whole: examples/pin_whole.kf."""
    digits, declared = secret_digits(n)
    guess = ", ".join(str(3 * k % 10) for k in range(n))
    return program(*declared, f"observe ({', '.join(digits)}) = ({guess});")


def noisy(n: int) -> str:
    """The last bit of a number is seen n times, each time wrong with 1/4: examples/noisy.kf."""
    return program("var x : 0..63 := uniform 0..63;", *["observe choose { x mod 2 : 3, (x + 1) mod 2 : 1 };"] * n)


def coins(n: int) -> str:
    """n coins are tossed in a loop, and seen."""
    return program(f"var left : 0..200 := {n};", "while left > 0 { observe flip 1/2; left := left - 1; }")


def doors(n: int) -> str:
    """The host opens one of n doors: examples/doors.kf."""
    every = ", ".join(str(door) for door in range(n))
    return program(
        f"var car : 0..{n - 1} := uniform 0..{n - 1};",
        f"var pick : 0..{n - 1} := uniform 0..{n - 1};",
        "about car;",
        "observe pick;",
        f"observe uniform ({{{every}}} less {{car, pick}});",
    )


def letter_by_letter(n: int) -> str:
    """A password of n letters is compared in a loop: examples/password."""
    letters = [f"letter_{k}" for k in range(n)]
    chosen = letters[-1]
    for k in reversed(range(n - 1)):
        chosen = f"cond(at = {k}, {letters[k]}, {chosen})"
    return program(
        *(f"var {letter} : 0..{n - 1} := uniform 0..{n - 1};" for letter in letters),
        f"var at : 0..{n} := 0;",
        "var same : bool := true;",
        f"about {', '.join(letters)};",
        f"while at < {n} and same {{ same := {chosen} = at; at := at + 1; }}",
    )


def dinner(n: int) -> str:
    """n diners, one of whom may have paid: examples/dinner.kf."""
    return program(
        f"var payer : 0..{n} := uniform 0..{n};",
        *(f"var coin_{k} : bool := flip 1/2;" for k in range(n)),
        "about payer;",
        *(f"observe (coin_{k} != coin_{(k + 1) % n}) != (payer = {k});" for k in range(n)),
    )


def answers(n: int) -> str:
    """n questions answered at random where a coin says so: examples/survey.kf."""
    asked = ["coin := flip 1/2;", "other := uniform 0..3;", "observe cond(coin, truth, other);"]
    return program("var truth : 0..3 := uniform 0..3;", "var coin : bool := false;", "var other : 0..3 := 0;", "about truth;", *asked * n)


def halves(n: int) -> str:
    """A number among 4,096, found by n comparisons: examples/binary_search."""
    middle = "(low + high) div 2"
    return program(
        "var x : 0..4095 := uniform 0..4095;",
        "var low : 0..4095 := 0;",
        "var high : 0..4095 := 4095;",
        f"var left : 0..{n} := {n};",
        "about x;",
        "while left > 0 {",
        f"if x <= {middle} {{ high := {middle}; }} else {{ low := {middle} + 1; }}",
        "left := left - 1;",
        "}",
    )


def relays(n: int) -> str:
    """A message goes to random members of a crowd, up to n times: examples/crowds."""
    return program(
        "var sender : 0..4 := uniform 0..4;",
        "var holder : 0..4 := sender;",
        "var seen : 0..5 := 5;",
        "var live : bool := true;",
        "var next : 0..5 := 0;",
        f"var left : 0..{n} := {n};",
        "about sender;",
        "while left > 0 {",
        "next := uniform 0..5;",
        "seen := cond(live and next >= 5, holder, seen);",
        "live := live and next < 5;",
        "holder := cond(live, next, holder);",
        "live := choose { live : 3, false : 1 };",
        "left := left - 1;",
        "}",
        "observe seen;",
    )


ROWS: list[tuple[Callable[[int], str], tuple[int, ...]]] = [
    (remainders, (1023, 16383, 65535)),
    (digit_by_digit, (4, 5, 6)),
    (at_once, (4, 5, 6)),
    (noisy, (10, 30, 60)),
    (coins, (10, 60, 120)),
    (doors, (8, 16, 60)),
    (letter_by_letter, (5, 6, 7)),
    (dinner, (8, 10, 12, 14)),
    (relays, (5, 10, 27)),
    (answers, (5, 20, 40)),
    (halves, (4, 8, 12)),
]
