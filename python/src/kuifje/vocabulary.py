"""Commands, operators, reserved words and signs: written by .ci/tables."""

COMMANDS: dict[str, tuple[int, str, str]] = {  # how many files each names, what stands after them, and whether it has a gain
    "hyper": (1, "", "no"),
    "traces": (1, "", "no"),
    "leak": (1, "", "needs"),
    "attack": (1, "", "needs"),
    "reach": (1, "N/D", "no"),
    "lines": (1, "", "may"),
    "blame": (1, "", "no"),
    "quiet": (1, "A..B", "no"),
    "trail": (1, "", "no"),
    "refine": (2, "", "no"),
    "covers": (2, "", "no"),
    "check": (3, "", "no"),
    "channel": (1, "", "no"),
    "capacity": (1, "", "no"),
    "cascade": (2, "", "no"),
    "parallel": (2, "", "no"),
    "choice": (2, "N/D", "no"),
    "make": (0, "N", "no"),
}
LEVELS: tuple[tuple[str, ...], ...] = (  # of operators, from the loosest to the tightest, without the minus before a number
    ("or", "xor", "implies"),
    ("and",),
    ("not",),
    ("=", "!=", "<", "<=", ">", ">=", "in", "subset"),
    ("+", "-", "union", "less"),
    ("*", "div", "mod", "inter"),
)
CALLS = frozenset(["size", "cond", "min", "max", "abs"])  # operators that are written before brackets
RESERVED = frozenset(
    "var vis about old bool set of skip observe if else while uniform choose flip true false "
    "or and not in union less div mod inter xor implies subset size cond min max abs".split()
)
SIGNS = (":=", "..", "!=", "<=", ">=", ":", ";", ",", "(", ")", "{", "}", ".", "/", "=", "<", ">", "+", "-", "*")
