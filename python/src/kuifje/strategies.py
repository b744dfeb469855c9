"""Public inputs, and those who choose them: the inputs that leak most and least, and the best strategy of several rounds.

``worst``, ``best`` and ``minimax`` ask the proved program about each input. ``adaptive`` asks it for the channel of each query, and works out here,
exactly, which query is best after what was seen. It writes a program that plays this strategy, and the proved program confirms what that program
reaches. That no strategy reaches more is computed here, and isn't proved.
"""

from __future__ import annotations

import html
from collections.abc import Iterable, Mapping, Sequence
from dataclasses import dataclass
from fractions import Fraction
from itertools import groupby
from math import gcd, lcm
from operator import add, mul

from .arguments import whole
from .channels import _lowest, _whole, reduced
from .errors import KuifjeError, TooLarge
from .expressions import choose, lookup
from .gains import MOST_TRIES
from .games import Saddle, check_saddle, minimax
from .model import Model
from .observations import Fork, Leaf, Tree, drawn, written
from .priors import Prior
from .program import Program
from .public_inputs import Best, Inputs, Worst, best, inputs_text, worst
from .texts import Leakage
from .values import Value, format_value

__all__ = ["Best", "Saddle", "Strategy", "Worst", "adaptive", "best", "check_saddle", "minimax", "worst"]

MOST_POSTERIORS = 1_000_000
MOST_ROUNDS = 1_000
MOST_LEAVES = 100_000  # of the tree of a strategy

# ---- strategies


@dataclass(frozen=True)
class _Query:
    """A query: its inputs in words, what each column of its reduced channel shows, and the columns, with whole weights over ``over``."""

    text: str
    labels: tuple[str, ...]
    columns: tuple[tuple[int, ...], ...]
    over: int


@dataclass(frozen=True)
class _Part:
    """Columns of a query that leave one posterior on some secrets: their numbers, and their sum there."""

    numbers: tuple[int, ...]
    weights: tuple[int, ...]


@dataclass(frozen=True)
class _Posterior:
    """A posterior: the numbers of the secrets that are possible, with whole weights that have no common factor."""

    secrets: tuple[int, ...]
    weights: tuple[int, ...]


def _posterior(secrets: Sequence[int], weights: Iterable[int]) -> tuple[_Posterior, int]:
    """The posterior of joint weights, and the factor that was left out."""
    pairs = [(x, w) for x, w in zip(secrets, weights) if w]
    common = gcd(*(w for _, w in pairs))
    return _Posterior(tuple(x for x, _ in pairs), tuple(w // common for _, w in pairs)), common


class _Game:
    """What is reached from each posterior that was met, with so many rounds left, and by which query."""

    def __init__(self, queries: Sequence[_Query], tries: int) -> None:
        self.queries, self.tries = queries, tries
        self.best: dict[tuple[int, _Posterior], tuple[Fraction, int | None]] = {}
        self._parts: dict[tuple[int, ...], list[tuple[int, list[_Part]]]] = {}

    def now(self, weights: Iterable[int]) -> int:
        """The weight of the best guesses."""
        return max(weights) if self.tries == 1 else sum(sorted(weights)[-self.tries :])

    def parts(self, secrets: tuple[int, ...]) -> list[tuple[int, list[_Part]]]:
        """The queries that tell some secrets apart, each with its parts; of those that tell them apart alike the first one."""
        if (found := self._parts.get(secrets)) is None:
            different: dict[object, tuple[int, list[_Part]]] = {}
            for number, query in enumerate(self.queries):
                parts = _parts_on(query, secrets)
                if len(parts) > 1:
                    different.setdefault(frozenset(tuple(Fraction(w, query.over) for w in part.weights) for part in parts), (number, parts))
            found = self._parts[secrets] = list(different.values())
        return found

    def value(self, rounds: int, posterior: _Posterior) -> Fraction:
        """The weight of the best guesses after the best rounds, over the posterior's weights. Raises ``TooLarge`` where too many are met."""
        total = sum(posterior.weights)
        if rounds == 0 or self.now(posterior.weights) == total:
            return Fraction(self.now(posterior.weights))
        if (found := self.best.get((rounds, posterior))) is not None:
            return found[0]
        best: tuple[Fraction, int | None] = (Fraction(self.now(posterior.weights)), None)
        for number, parts in self.parts(posterior.secrets):
            value = self._after(rounds - 1, posterior, parts) / self.queries[number].over
            if value > best[0]:
                best = value, number
            if value == total:
                break
        self.best[rounds, posterior] = best
        if len(self.best) > MOST_POSTERIORS:
            raise TooLarge(f"{len(self.best)} posteriors were met, and there may be {MOST_POSTERIORS}: ask for fewer rounds or queries")
        return best[0]

    def _after(self, rounds: int, posterior: _Posterior, parts: Sequence[_Part]) -> Fraction:
        """What is reached after a query, over the product of the weights: the sum over what it may show."""
        joints = [list(map(mul, posterior.weights, part.weights)) for part in parts]
        if rounds == 0:
            return Fraction(sum(map(self.now, joints)))
        after = (_posterior(posterior.secrets, joint) for joint in joints)
        return sum((self.value(rounds, left) * factor for left, factor in after), Fraction())


def _parts_on(query: _Query, secrets: tuple[int, ...]) -> list[_Part]:
    """The columns of a query on some secrets, those in proportion together."""
    found: dict[tuple[int, ...], tuple[list[int], list[int]]] = {}
    for number, column in enumerate(query.columns):
        weights = [column[x] for x in secrets]
        if common := gcd(*weights):
            numbers, whole = found.setdefault(tuple(w // common for w in weights), ([], [0] * len(secrets)))
            numbers.append(number)
            whole[:] = map(add, whole, weights)
    return [_Part(tuple(numbers), tuple(weights)) for numbers, weights in found.values()]


def _query(inputs: Inputs, program: Program, secrets: Sequence[Value]) -> _Query:
    """A query by its channel. Raises ``ValueError`` where its secrets are others."""
    channel = reduced(program.channel())
    if list(channel.rows) != list(secrets):
        raise ValueError(f"with {inputs_text(inputs)} other secrets are possible")
    over = lcm(*(cell.denominator for row in channel.rows.values() for cell in row))
    columns = tuple(tuple(int(row[j] * over) for row in channel.rows.values()) for j in range(len(channel.columns)))
    return _Query(inputs_text(inputs), tuple(written(label) for label in channel.columns), columns, over)


@dataclass(frozen=True, repr=False)
class Strategy:
    """The best strategy of some rounds.

    ``vulnerability`` is the posterior vulnerability that it reaches. ``program`` plays it, and ``confirmed`` is the proved program's answer about
    that: it confirms what is reached. That no strategy reaches more is computed here; ``posteriors`` counts the posteriors that were met on the way.
    In the program ``x`` is the number of the secret in ``secrets``, from 0.
    """

    rounds: int
    vulnerability: Fraction
    posteriors: int
    secrets: tuple[Value, ...]
    tree: Tree
    program: Program
    confirmed: Leakage

    def __str__(self) -> str:
        head = f"rounds {self.rounds}, gain {self.confirmed.gain}, posterior vulnerability {self.vulnerability}\n"
        proved = f"the proved program confirms that it is reached; that none is better is computed here, from {self.posteriors} posteriors\n"
        root = f"{self.tree.text}\n" if isinstance(self.tree, Fork) else ""
        return head + proved + root + "".join(f"{line}\n" for line in drawn(self.tree))

    def __repr__(self) -> str:
        return f"<Strategy>\n{self}".rstrip()

    def _repr_html_(self) -> str:
        return f"<pre>{html.escape(str(self))}</pre>"


class _Playing:
    """Goes along the best strategy, and writes it as a tree and as a program."""

    def __init__(self, game: _Game, secrets: tuple[Value, ...]) -> None:
        self.game, self.secrets = game, secrets
        self._counted: dict[tuple[int, _Posterior], int] = {}

    def leaves(self, rounds: int, posterior: _Posterior) -> int:
        """How many leaves the tree from a posterior on has."""
        if (move := self.move(rounds, posterior)) is None:
            return 1
        if (rounds, posterior) not in self._counted:
            after = (_posterior(posterior.secrets, map(mul, posterior.weights, part.weights))[0] for part in move[1])
            self._counted[rounds, posterior] = sum(self.leaves(rounds - 1, left) for left in after)
        return self._counted[rounds, posterior]

    def move(self, rounds: int, posterior: _Posterior) -> tuple[_Query, list[_Part]] | None:
        """The best query with its parts; none where nothing is asked any more."""
        _, number = self.game.best.get((rounds, posterior), (0, None))
        if number is None:
            return None
        return self.game.queries[number], next(parts for other, parts in self.game.parts(posterior.secrets) if other == number)

    def tree(self, rounds: int, posterior: _Posterior, probability: Fraction) -> Tree:
        """The strategy from a posterior on, which is met with this probability."""
        if (move := self.move(rounds, posterior)) is None:
            total = sum(posterior.weights)
            likeliest = sorted(zip(posterior.weights, posterior.secrets), key=lambda pair: (-pair[0], pair[1]))[: self.game.tries]
            guesses = ", then ".join(format_value(self.secrets[x]) for _, x in likeliest)
            return Leaf(f"guess {guesses} (value {Fraction(self.game.now(posterior.weights), total)}, probability {probability})")
        query, parts = move
        branches = []
        for part in parts:
            joint = list(map(mul, posterior.weights, part.weights))
            share = Fraction(sum(joint), sum(posterior.weights) * query.over)
            shown = " or ".join(query.labels[number] for number in part.numbers)
            branches.append((shown, self.tree(rounds - 1, _posterior(posterior.secrets, joint)[0], probability * share)))
        return Fork(tuple(branches), query.text)

    def statements(self, rounds: int, posterior: _Posterior) -> list[str]:
        """The lines that play the strategy from a posterior on."""
        if (move := self.move(rounds, posterior)) is None:
            return []
        query, parts = move
        after: dict[int, tuple[str, ...]] = {}
        for part in parts:
            lines = self.statements(rounds - 1, _posterior(posterior.secrets, map(mul, posterior.weights, part.weights))[0])
            after |= {number: tuple(lines) for number in part.numbers}
        return [f"seen := {self.shown(query, posterior)};  # {query.text}", *_branches(after, "")]

    def shown(self, query: _Query, posterior: _Posterior) -> str:
        """The number of the column that a query shows, by the number of the secret; a secret that isn't possible shows what its neighbour does."""
        rows = [_whole([Fraction(column[x]) for column in query.columns]) for x in posterior.secrets]
        nearest = [max((i for i, x in enumerate(posterior.secrets) if x <= secret), default=0) for secret in range(len(self.secrets))]
        if all(sum(map(bool, row)) == 1 for row in rows):
            return lookup("x", [rows[i].index(1) for i in nearest])
        possible = [j for j in range(len(query.columns)) if any(row[j] for row in rows)]
        return choose({j: lookup("x", [rows[i][j] for i in nearest]) for j in possible})


def _branches(after: Mapping[int, tuple[str, ...]], indent: str) -> list[str]:
    """The lines that come after each number that is seen: by halves, so that few brackets are open."""
    runs = [(next(numbers), lines) for lines, numbers in groupby(sorted(after), key=lambda number: after[number])]
    if len(runs) == 1:
        return [f"{indent}{line}" for line in runs[0][1]]
    middle = runs[len(runs) // 2][0]
    low = _branches({number: lines for number, lines in after.items() if number < middle}, f"{indent}  ")
    high = _branches({number: lines for number, lines in after.items() if number >= middle}, f"{indent}  ")
    skip = [f"{indent}  skip;"]
    return [f"{indent}if seen < {middle} {{", *(low or skip), f"{indent}}} else {{", *(high or skip), f"{indent}}}"]


def _queries(model: Model, queries: Iterable[Inputs] | None) -> list[Inputs]:
    """The queries of a strategy. Raises ``TypeError`` and ``ValueError`` where they are none."""
    if not isinstance(model, Model):
        raise TypeError(f"{model!r} has no public inputs: adaptive is asked of a model")
    if queries is None:
        return list(model.inputs())
    listed = list(queries) if isinstance(queries, Iterable) and not isinstance(queries, Mapping) else None
    if listed is None or not all(isinstance(inputs, Mapping) for inputs in listed):
        raise TypeError(f"queries is {queries!r}, and has to be a list of public inputs by their names, like [{{'guess': 3}}]")
    if not listed:
        raise ValueError("queries is empty, and a strategy has at least one query")
    return listed


def adaptive(model: Model, queries: Iterable[Inputs] | None = None, rounds: int = 1, *, tries: int = 1, timeout: float | None = None) -> Strategy:
    """The best strategy of some rounds: which query to ask after what was seen, so that ``tries`` guesses are right with the greatest probability.

    A query is the public inputs with which the model runs; all that they may be where none are given. The secret stays what it is, and each round is
    a run of its own: its noise is drawn anew, and nothing else is carried from one to the next. Raises ``TooLarge`` where more than a million
    posteriors are met or the strategy ends in more than 100,000 ways, with their count, ``ValueError`` where there is no query, queries have
    different priors, a number is out of its bounds, or the strategy can't be written in the language, ``TypeError`` where an argument is no such
    thing, and what a question raises.
    """
    rounds, tries = whole("rounds", rounds, 0, MOST_ROUNDS), whole("tries", tries, 1, MOST_TRIES)
    asked = [(dict(inputs), model.program(**inputs)) for inputs in _queries(model, queries)]
    priors = [program.hyper(timeout).prior for _, program in asked]
    if other := [inputs for (inputs, _), prior in zip(asked, priors) if prior != priors[0]]:
        raise ValueError(f"the prior with {inputs_text(other[0])} isn't the one with {inputs_text(asked[0][0])}")
    try:
        return _best(model, [_query(inputs, program, tuple(priors[0])) for inputs, program in asked], rounds, tries, priors[0], timeout)
    except RecursionError:
        raise TooLarge(f"{rounds} rounds are too many for these queries: ask for fewer") from None


def _best(model: Model, queries: list[_Query], rounds: int, tries: int, prior: Prior, timeout: float | None) -> Strategy:
    """The best strategy of some rounds with these queries, confirmed by the proved program."""
    secrets = tuple(prior)
    game = _Game(queries, tries)
    start = _Posterior(tuple(range(len(secrets))), tuple(_lowest(list(prior.values()))))
    vulnerability = game.value(rounds, start) / sum(start.weights)
    playing = _Playing(game, secrets)
    if (leaves := playing.leaves(rounds, start)) > MOST_LEAVES:
        ways = leaves if leaves < 10**12 else "more than 10^12"
        raise TooLarge(f"the best strategy of {rounds} rounds ends in {ways} ways, and may in {MOST_LEAVES}: ask for fewer rounds")
    program = Program(_text(playing, rounds, start), name="strategy.kf", turns=model.turns, engine=model.engine)
    confirmed = program.leak("bayes" if tries == 1 else f"tries:{tries}", timeout)
    if confirmed.posterior_vulnerability != vulnerability:
        raise KuifjeError(f"the proved program reaches {confirmed.posterior_vulnerability} by a strategy of which {vulnerability} was computed here")
    return Strategy(rounds, vulnerability, len(game.best), secrets, playing.tree(rounds, start, Fraction(1)), program, confirmed)


def _text(playing: _Playing, rounds: int, start: _Posterior) -> str:
    """The program in which a strategy is played."""
    last = len(playing.secrets) - 1
    weights = _whole([Fraction(weight) for weight in start.weights])
    prior = f"uniform 0..{last}" if len(set(weights)) == 1 else choose(dict(enumerate(weights)))
    columns = max(len(query.columns) for query in playing.game.queries)
    lines = [
        f"# The best strategy of {rounds} rounds. x is the number of the secret among {', '.join(map(format_value, playing.secrets))}.",
        f"var x : 0..{last} := {prior};",
        f"vis seen : 0..{columns - 1} := 0;  # what a query shows: the number of its column",
        "about old x;",
    ]
    return "\n".join([*lines, *playing.statements(rounds, start)]) + "\n"
