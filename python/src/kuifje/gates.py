"""Policies for pipelines: which programs may leak how much, and which must leak no more than which others.

A policy is a TOML file. Files in it are named from its folder; bounds are whole numbers, or fractions as texts::

    [[program]]
    file = "login.kf"
    gain = "bayes"                     # as for kuifje leak; bayes where it isn't said
    posterior_vulnerability = "2/9"    # the greatest value that still holds, and so of these:
    prior_vulnerability = "1/9"
    multiplicative_leakage = 2
    additive_leakage = "1/9"
    capacity = 2                       # by no gain

    [[program]]
    file = "login.kf"
    gain = "guessing"                  # fewer guesses are worse for the secret, so the bounds are
    least_guesses = 4                  # the least number that still holds after a run,
    least_prior_guesses = 5            # and before one
    keep = [10]                        # the observation that the program is for, by its line: a bound that doesn't hold names its repair

    [[refinement]]                     # login_whole.kf leaks no more than ..
    file = "login_whole.kf"
    of = "login.kf"                    # .. this one,
    # revision = "main"                # or than itself at a revision of git
    priors = "all"                     # for every prior on the secret; where it isn't said, for the declared one
    times = "21/20"                    # leaks no more than 21/20 times as much, to any adversary with gains from 0 to 1 ..
    plus = "1/100"                     # .. and 1/100 more; where one isn't said it is 1, or 0

A program whose target has no ``old`` item, or has one value alone, gets no answer unless its rule has ``as_it_is_left = true``, or ``constant_secret
= true``. What is compared is the proved program's; the comparison is made here. With ``times`` or ``plus`` (``refinement.at_most``) the proof that a
program stays within them is found and multiplied out here, exactly but not proved; where it doesn't, the proved program gives both vulnerabilities
that show it. Rules for compiled code are ``[[measured]]`` (``kuifje.measured.policy``).
"""

from __future__ import annotations

import re
import subprocess
import tomllib
from collections.abc import Callable, Iterator, Mapping
from dataclasses import dataclass, replace
from fractions import Fraction
from pathlib import Path

from .arguments import seconds
from .errors import KuifjeError, Refusal
from .gains import TABLE, Gain, check_word, less_is_worse
from .gate_advice import Searching, advice, places
from .priors import Prior, difference, obstacle, prior_of
from .program import COMPARING, Program, refine
from .questions import warning_of
from .source import Source, every, read
from .texts import GainTable, Leakage, Lines
from .values import Value, ascending, format_value

__all__ = ["Finding", "Policy", "judge", "status"]

AT_MOST = ("prior_vulnerability", "posterior_vulnerability", "multiplicative_leakage", "additive_leakage")
AT_LEAST = {"least_prior_guesses": "prior_vulnerability", "least_guesses": "posterior_vulnerability"}  # each with the number that it bounds
BOUNDS = {"capacity", *AT_MOST, *AT_LEAST}
MEANT = ("as_it_is_left", "constant_secret")
LIMITS = ("times", "plus")
KEYS = {"program": {"file", "gain", "keep", *BOUNDS, *MEANT}, "refinement": {"file", "of", "revision", "priors", *LIMITS, *MEANT}}
TEXTS = ("file", "gain", "of", "revision", "priors")
SHOWN = 3  # bets and values that a finding names
BOUND = re.compile(r"-?[0-9]{1,1000}(?:/[0-9]{1,1000}|\.[0-9]{1,1000})?")


@dataclass(frozen=True)
class Finding:
    """Whether a rule holds of a file: ``held`` is none where the question got no answer.

    ``by`` says by which gain, or of which other program, the rule is meant. ``found`` is the number that was compared, and ``bound`` what with, as
    ``at most 2/9``. ``line``, from 1, is the place without which most is lost under the rule's gain, or that is refused. ``advice`` is what
    ``gate_advice`` says of a repair, where the rule has ``keep``, with the numbers of the ``floor`` and of the ``repaired`` program.
    """

    rule: str
    file: str
    held: bool | None
    text: str
    line: int | None = None
    by: str = ""
    found: Fraction | None = None
    bound: str | None = None
    advice: str = ""
    floor: Fraction | None = None
    repaired: Fraction | None = None

    @property
    def name(self) -> str:
        """The rule with its gain, or with the other program: no two rules of a policy have one file and one name."""
        return f"{self.rule} {self.by}".rstrip()

    @property
    def verdict(self) -> str:
        """``held`` in words."""
        return "holds" if self.held else "no answer" if self.held is None else "does not hold"

    def __str__(self) -> str:
        place = self.file if self.line is None else f"{self.file}:{self.line}"
        return f"{place}: {self.name}: {self.verdict}: {self.text}{'; ' if self.advice else ''}{self.advice}"


# ---- reading a policy

Entry = Mapping[str, object]


@dataclass(frozen=True)
class Policy:
    """The rules of a policy, and the folder from which its files are named."""

    folder: Path
    programs: tuple[Entry, ...]
    refinements: tuple[Entry, ...]
    measured: tuple[Entry, ...] = ()

    @classmethod
    def from_file(cls, path: Path) -> Policy:
        """Reads a policy. Raises ``ValueError`` where it isn't one, or has no rule, which nothing could break; ``OSError`` where it can't be read."""
        with path.open("rb") as source:
            found = tomllib.load(source)
        if unknown := set(found) - {*KEYS, "measured"}:
            raise ValueError(f"there is no {min(unknown)!r} in a policy, which has [[program]], [[refinement]] and [[measured]]")
        for kind, entries in found.items():
            if not isinstance(entries, list) or not all(isinstance(entry, dict) for entry in entries):
                raise ValueError(f"{kind!r} is written as [[{kind}]]")
            for entry in entries:
                _check(kind, entry)
        if not any(found.values()):
            raise ValueError("the policy has no rule")
        policy = cls(path.parent, tuple(found.get("program", ())), tuple(found.get("refinement", ())), tuple(found.get("measured", ())))
        _check_names(policy)
        return policy


def _check(kind: str, entry: Entry) -> None:
    """Raises ``ValueError`` where an entry isn't one of its kind."""
    if kind == "measured":
        from .measured import policy as for_code

        return for_code.check(entry)
    where = f"[[{kind}]] of {entry['file']}" if "file" in entry else f"[[{kind}]]"
    if unknown := set(entry) - KEYS[kind]:
        raise ValueError(f"{where} has no {min(unknown)!r}: there are {', '.join(sorted(KEYS[kind]))}")
    if not isinstance(entry.get("file"), str) or not entry["file"]:
        raise ValueError(f"[[{kind}]] needs a file, by its name")
    for key in TEXTS:
        if not isinstance(entry.get(key, ""), str):
            raise ValueError(f"{where}: {key} is {entry[key]!r}, and has to be a text")
    for key in MEANT:
        if not isinstance(entry.get(key, True), bool):
            raise ValueError(f"{where}: {key} is {entry[key]!r}, and may be true or false")
    try:
        CHECKS[kind](entry)
    except ValueError as cause:
        raise ValueError(f"{where}: {cause}") from None


def _check_bounds(entry: Entry) -> None:
    bounds = sorted(set(entry) & BOUNDS)
    if not bounds:
        raise ValueError("there is no bound")
    if "keep" in entry:
        places(entry["keep"])
    for key in bounds:
        _bound(key, entry[key])
    gain = str(entry.get("gain", "bayes"))
    check_word(gain)
    if bounds == ["capacity"] and "gain" in entry:
        raise ValueError("capacity has no gain: leave gain out, or add a bound that has one")
    for key in bounds:
        if key in AT_MOST and less_is_worse(gain):
            least = next((least for least, number in AT_LEAST.items() if number == key), "least_guesses")
            raise ValueError(f'{key} is a greatest value, and with gain = "{gain}" fewer guesses are worse for the secret: write {least}')
        if key in AT_LEAST and not less_is_worse(gain):
            raise ValueError(f'{key} is a number of guesses: write gain = "guessing", or {AT_LEAST[key]} for the greatest value under "{gain}"')


def _check_refinement(entry: Entry) -> None:
    if ("of" in entry) == ("revision" in entry):
        raise ValueError("it needs 'of' or 'revision', and not both")
    if str(entry.get("revision", "")).startswith("-"):
        raise ValueError("a revision doesn't begin with -")
    if entry.get("priors", "all") != "all":
        raise ValueError(f"priors is {entry['priors']!r}, and may be \"all\", or be left out for the declared prior")
    times, plus = _limits(entry)
    if times <= 0 or not 0 <= plus <= 1:
        raise ValueError("times is above 0, and plus is from 0 to 1")
    if plus and "priors" in entry:
        raise ValueError("plus depends on the prior, and times doesn't: leave out one of plus and priors")


def _limits(entry: Entry) -> tuple[Fraction, Fraction]:
    """By how much a program may leak more than another one: by a factor, and by an amount."""
    return _bound("times", entry.get("times", 1)), _bound("plus", entry.get("plus", 0))


CHECKS = {"program": _check_bounds, "refinement": _check_refinement}


def _check_names(policy: Policy) -> None:
    """Raises ``ValueError`` where two rules have one file and one name, so that reports couldn't tell them apart."""
    names = [(str(entry["file"]), f"{rule} {_by(rule, entry)}".rstrip()) for entry in policy.programs for rule in sorted(set(entry) & BOUNDS)]
    names += [(str(entry["file"]), f"refinement {_by('refinement', entry)}") for entry in policy.refinements]
    if double := [name for name in names if names.count(name) > 1]:
        raise ValueError(f"two rules of {double[0][0]} are {double[0][1]!r}")


def _by(rule: str, entry: Entry) -> str:
    """The gain of a rule, or what it compares with, in words."""
    if rule == "refinement":
        limits = "".join(f", {key} {_bound(key, entry[key])}" for key in LIMITS if key in entry)
        return f"of {_other(entry)}{limits}{' for every prior' if 'priors' in entry else ''}"
    return f"under {entry.get('gain', 'bayes')}" if rule in AT_MOST else ""


def _other(entry: Entry) -> str:
    """What a program is compared with, in words."""
    return str(entry["of"]) if "of" in entry else f"itself at {entry['revision']}"


def _bound(key: str, found: object) -> Fraction:
    """A bound: a whole number, or the text of a fraction; a decimal number in TOML isn't exact."""
    if isinstance(found, bool) or not (isinstance(found, int) or isinstance(found, str) and BOUND.fullmatch(found)):
        raise ValueError(f'the bound {key} is {found!r}, and has to be a whole number, or a text like "1/4"')
    try:
        return Fraction(found)
    except ZeroDivisionError:
        raise ValueError(f"the bound {key} is {found}, which has the denominator 0") from None


# ---- judging it


def _worst_line(program: Program, gain: Gain, timeout: float | None) -> int | None:
    """The line of the statement without which most is lost under a gain; none where none loses anything, or there is no answer."""
    try:
        lines = program.lines(gain, timeout)
    except KuifjeError:
        return None
    return worst_line(program, lines, isinstance(gain, str) and less_is_worse(gain))


def worst_line(program: Program, lines: Lines, guesses: bool = False) -> int | None:
    """The line, from 1, of the statement without which most is lost, by an answer of ``lines``; none where none loses anything.

    Of statements that lose as much it is the first one, and of those in each other the inner one. ``guesses`` says that the answer counts guesses.
    """
    losses = _losses(lines, guesses)
    greatest = max(losses.values(), default=Fraction(0))
    places = [place for place, loss in losses.items() if loss == greatest]
    source = _source(program)
    if greatest <= 0 or source is None:
        return None
    spans = {source.place(statement.at): (statement.at, statement.end) for statement in every(source.statements)}
    found = [place for place in places if not any(_within(spans.get(place), spans.get(other)) for other in places if other != place)]
    return min(found or places)[0]


def _losses(lines: Lines, guesses: bool) -> dict[tuple[int, int], Fraction]:
    """What is lost without the statement at each place, by its line and column: of guesses, how many more are needed."""
    sign = -1 if guesses else 1
    return {(silent.line, silent.column): sign * (lines.all.posterior - silent.posterior) for silent in lines.without}


def _within(outer: tuple[int, int] | None, inner: tuple[int, int] | None) -> bool:
    return outer is not None and inner is not None and outer[0] <= inner[0] and inner[1] <= outer[1]


def _source(program: Program) -> Source | None:
    try:
        return read(program.text.decode())
    except ValueError:
        return None


def _secret_line(program: Program) -> int | None:
    """The line, from 1, that declares the first item of the target."""
    if (source := _source(program)) is None:
        return None
    name = source.target.items[0].name
    return next(source.line(declared.at) for declared in source.declarations if declared.name == name)


class _Judge:
    """Asks what the rules of a policy need, each question once."""

    def __init__(self, policy: Policy, timeout: float | None) -> None:
        self.folder, self.timeout = policy.folder, timeout
        self.comparing = COMPARING if timeout is None else timeout
        self._programs: dict[str, Program] = {}
        self._leaks: dict[tuple[Program, str], Leakage] = {}
        self._priors: dict[Program, Prior] = {}
        self._searching = Searching(timeout)

    def program(self, file: str) -> Program:
        """The program in a file. Raises ``OSError`` where it can't be read."""
        if file not in self._programs:
            self._programs[file] = Program.from_file(self.folder / file)
        return self._programs[file]

    def prior(self, program: Program) -> Prior:
        """The prior of a program's target."""
        if program not in self._priors:
            self._priors[program] = prior_of(program, self.timeout)
        return self._priors[program]

    def unmeant(self, program: Program, entry: Entry) -> tuple[str, int | None] | None:
        """Why a program has no secret to judge by, with the line, unless the rule says that this is meant; none where it has one."""
        later = warning_of(program.text.decode(errors="replace"))
        if later is not None and entry.get("as_it_is_left") is not True:
            return f"{later}; where the values after the last statement are meant, the policy says as_it_is_left = true", _secret_line(program)
        prior = self.prior(program)
        if len(prior) == 1 and entry.get("constant_secret") is not True:
            text = f"the secret has one value, {format_value(next(iter(prior)))}, in every run, so nothing can leak"
            return f"{text}; where that is meant, the policy says constant_secret = true", _secret_line(program)
        return None

    def bounds(self, entry: Entry) -> Iterator[Finding]:
        """What is found of each bound on a program."""
        for rule in sorted(set(entry) & BOUNDS):
            yield self._answered(rule, entry, lambda rule=rule: self._bounded(rule, entry))  # type: ignore[misc]

    def _answered(self, rule: str, entry: Entry, question: Callable[[], Finding]) -> Finding:
        """What a question finds, or that it got no answer."""
        file, by = str(entry["file"]), _by(rule, entry)
        try:
            return question()
        except Refusal as cause:
            text = cause.text if cause.file != TABLE else f"{str(entry['gain']).removeprefix('table:')}: {cause.kind}"
            return Finding(rule, file, None, text, cause.line if cause.file == Path(file).name else None, by)
        except (KuifjeError, OSError, ValueError) as cause:
            return Finding(rule, file, None, str(cause), by=by)

    def _gain(self, entry: Entry) -> str:
        gain = str(entry.get("gain", "bayes"))
        return f"table:{self.folder / gain.removeprefix('table:')}" if gain.startswith("table:") else gain

    def _number(self, rule: str, program: Program, entry: Entry) -> Fraction | None:
        """The number that a rule bounds; none where it is undefined."""
        if rule == "capacity":
            return program.capacity(self.timeout)
        key = program, self._gain(entry)
        if key not in self._leaks:
            self._leaks[key] = program.leak(key[1], self.timeout)
        found: Fraction | None = getattr(self._leaks[key], AT_LEAST.get(rule, rule))
        return found

    def _advised(self, rule: str, program: Program, entry: Entry, finding: Finding) -> Finding:
        """What is found, with what is said of a repair where the policy has ``keep``: of a bound on what a run adds to the prior."""
        keep = entry.get("keep")
        if not isinstance(keep, list) or finding.held is not False or AT_LEAST.get(rule, rule) == "prior_vulnerability":
            return finding

        def number(other: Program, numbered: bool) -> Fraction | None:
            return None if numbered and self._gain(entry).startswith("table:") and rule != "capacity" else self._number(rule, other, entry)

        def holds(found: Fraction) -> bool:
            return found >= _bound(rule, entry[rule]) if rule in AT_LEAST else found <= _bound(rule, entry[rule])

        said = advice(self._searching, program, keep, number, holds)
        return replace(finding, advice=said.text, floor=said.floor, repaired=said.repaired)

    def _bounded(self, rule: str, entry: Entry) -> Finding:
        file, by = str(entry["file"]), _by(rule, entry)
        program, bound = self.program(file), _bound(rule, entry[rule])
        found = self._number(rule, program, entry)
        if (unmeant := self.unmeant(program, entry)) is not None:
            return Finding(rule, file, None, *unmeant, by)
        if found is None:
            return Finding(rule, file, None, "it is undefined, since the prior vulnerability isn't above 0", by=by)
        least = rule in AT_LEAST
        held = found >= bound if least else found <= bound
        compared = f"at {'least' if least else 'most'} {bound}"
        line = None if held else self._line(rule, program, entry)
        return self._advised(rule, program, entry, Finding(rule, file, held, f"{found}, {compared}", line, by, found, compared))

    def _line(self, rule: str, program: Program, entry: Entry) -> int | None:
        """The line of a bound that doesn't hold: of one on the prior, the secret's. A capacity, which has no gain, is looked at under one guess."""
        if AT_LEAST.get(rule, rule) == "prior_vulnerability":
            return _secret_line(program)
        return _worst_line(program, "bayes" if rule == "capacity" else self._gain(entry), self.timeout)

    def refinement(self, entry: Entry) -> Finding:
        """What is found of a refinement."""
        return self._answered("refinement", entry, lambda: self._refined(entry))

    def _refined(self, entry: Entry) -> Finding:
        file, by, than = str(entry["file"]), _by("refinement", entry), _other(entry)
        program = self.program(file)
        other = self._compared_with(entry, program)
        limited = any(key in entry for key in LIMITS)
        found = None if limited else refine(other, program, self.comparing)
        for one in (program, other):
            if (unmeant := self.unmeant(one, entry)) is not None:
                where = "" if one is program else f"of {than}: "
                return Finding("refinement", file, None, where + unmeant[0], unmeant[1] if one is program else None, by)
        first, second = self.prior(other), self.prior(program)
        if "priors" in entry and (cause := obstacle(other, program, first, second)) is not None:
            return Finding("refinement", file, None, f"refine says nothing of every prior here: {cause}", by=by)
        every_prior = ", for every prior on the secret, since it is old and each of its values is possible" if "priors" in entry else ""
        if found is None:
            return self._limited(entry, program, other, every_prior)
        if found.refines:
            return Finding("refinement", file, True, f"it leaks no more than {than}{every_prior}", by=by)
        if (apart := difference(first, second, (f"in {than}", "here"))) is not None:
            text = f"another prior than {than}, so nothing is said of which leaks more: {apart}"
            return Finding("refinement", file, False, text, _secret_line(program), by)
        assert found.table is not None
        text = f"it leaks more than {than} under some gain function"
        text += ", for every prior under which each value of the secret is possible" if "priors" in entry else ""
        return Finding("refinement", file, False, text, _worst_line(program, found.table, self.timeout), by)

    def _limited(self, entry: Entry, program: Program, other: Program, every_prior: str) -> Finding:
        """What is found of a refinement with a factor or an amount: who gains more, by what the proved program says under that gain function."""
        from .refinement import at_most

        file, by, (times, plus) = str(entry["file"]), _by("refinement", entry), _limits(entry)
        limit = at_most(other, program, times, plus, float(self.comparing))
        more = f"{times} times as much as {_other(entry)}" + (f" and {plus} more" if plus else "")
        if limit.holds:
            return Finding("refinement", file, True, f"it leaks at most {more}{every_prior}", by=by, found=limit.least, bound=f"at most {plus}")
        before, after = (one.leak(limit.table, self.timeout).posterior_vulnerability for one in (other, program))
        if not after > times * before + plus:
            return Finding("refinement", file, None, "the proved program doesn't confirm the gain function that was found", by=by)
        text = f"it leaks more than {more}, to an adversary {bets(limit.table)}: {after} after a run, and {before} in {_other(entry)}"
        return Finding("refinement", file, False, text, _worst_line(program, limit.table, self.timeout), by, limit.least, f"at most {plus}")

    def _compared_with(self, entry: Entry, program: Program) -> Program:
        """The program that a refinement is of, under another name than the program's own."""
        if "of" in entry:
            other = self.program(str(entry["of"]))
            return other if other.name != program.name else Program(other.text, name=f"of-{other.name}")
        return Program(_at_revision(self.folder, str(entry["file"]), str(entry["revision"])), name=f"before-{program.name}")


def bets(table: GainTable) -> str:
    """What an adversary with this gain function does, in words: which bets there are where each gains 1 or nothing, and else how many actions."""
    if table.rest or any(gain not in (0, table.over) for action in table.actions for gain in action.gains.values()):
        most = max(gain for action in table.actions for gain in (table.rest, *action.gains.values()))
        return f"with {len(table.actions)} actions that gain at most {Fraction(most, table.over)}"
    named = {tuple(ascending(x for x, gain in action.gains.items() if gain)) for action in table.actions} - {()}
    actions = sorted((list(values) for values in ascending(named) if isinstance(values, tuple)), key=len)
    listed = [f"that the secret is {_some(values)}" for values in actions[:SHOWN]]
    return f"who gains 1 by a bet {' or '.join(listed)}" + (f", or by one of {len(actions) - SHOWN} more" if len(actions) > SHOWN else "")


def _some(values: list[Value]) -> str:
    texts = [format_value(value) for value in values[:SHOWN]]
    if len(values) > SHOWN:
        texts.append(f"{len(values) - SHOWN} more")
    return texts[0] if len(texts) == 1 else f"one of {', '.join(texts[:-1])} and {texts[-1]}"


def _at_revision(folder: Path, file: str, revision: str) -> bytes:
    """A file's content at a revision of git. Raises ``KuifjeError`` where there is none."""

    def git(*words: str) -> subprocess.CompletedProcess[bytes]:
        try:
            return subprocess.run(["git", "-C", str(folder), *words], capture_output=True, check=False)
        except FileNotFoundError:
            raise KuifjeError("a revision wants git, which isn't installed") from None

    if (asked := git("rev-parse", "--git-dir")).returncode != 0:
        raise KuifjeError(f"git finds no repository for {folder}: {asked.stderr.decode(errors='replace').strip().partition(chr(10))[0]}")
    if git("rev-parse", "--quiet", "--verify", f"{revision}^{{commit}}").returncode != 0:
        raise KuifjeError(f"the repository has no revision {revision!r}")
    shown = git("show", f"{revision}:./{file}")
    if shown.returncode != 0:
        raise KuifjeError(f"the revision {revision!r} has no {file}: where it had another name, keep that text as a file, and name it by 'of'")
    return shown.stdout


def judge(policy: Policy, timeout: float | None = None) -> list[Finding]:
    """What is found of each rule of a policy, with ``timeout`` seconds for a question; a comparison has 60 where none are given.

    Raises ``ValueError`` where that is no number of seconds.
    """
    judging = _Judge(policy, seconds("timeout", timeout))
    found = [finding for entry in policy.programs for finding in judging.bounds(entry)]
    found += [judging.refinement(entry) for entry in policy.refinements]
    if policy.measured:
        from .measured import policy as for_code

        found += for_code.findings(policy.folder, policy.measured, timeout)
    return found


def status(findings: list[Finding]) -> int:
    """0 where all rules hold, 1 where one doesn't, and 2 where a question got no answer, whatever the others say."""
    if any(finding.held is None for finding in findings):
        return 2
    return 0 if all(finding.held for finding in findings) else 1
