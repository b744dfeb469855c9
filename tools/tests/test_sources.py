"""`.ci/believed`, `.ci/map` and `.ci/cases` see a table that isn't that of the sources."""

import re

import pytest
from conftest import Repository

MARKED, BODIES = "crates/kf_make/specs/Making.antt", "crates/kf_io/specs/Counts.antt"
TABLES, MAP, CASES = "docs/TRUST-TABLES.md", "docs/ARCHITECTURE.md", "crates/kf_cases/data/words.cases"


@pytest.mark.parametrize("check", [".ci/believed", ".ci/map", ".ci/cases"])
def test_nothing_is_found_where_nothing_is_wrong(repository: Repository, check: str) -> None:
    repository.passes(check)


@pytest.mark.parametrize(
    "name, old, new, naming",
    [
        (MARKED, "-- Believed: ", "-- For bodies: ", "kf_make/specs/Making.antt: reached from `run`, and not marked"),
        (BODIES, "-- For bodies: ", "-- Believed: ", "kf_io/specs/Counts.antt: marked, and not reached from `run`"),
        ("crates/kf_eval/specs/Answers.antt", "-- For bodies: ", "-- Believed by a caller from C: ", "marked for a caller from C, and not reached"),
        (MARKED, "\nuse ", "\nunused = 1\nuse ", "TRUST-TABLES.md is stale"),
        (TABLES, "| `kf_make/specs/Making.antt` |", "| `kf_make/specs/Made.antt` |", "TRUST-TABLES.md is stale"),
        (TABLES, "| syntax and types | ", "| syntax and types | 1", "TRUST-TABLES.md is stale"),
        ("docs/TRUST.md", " lines of definitions", "0 lines of definitions", "TRUST.md: it doesn't say `some "),
        ("docs/TRUST.md", "`kf_core/specs/Rows.antt`", "`kf_core/specs/Row.antt`", "TRUST.md: there is no kf_core/specs/Row.antt"),
        ("docs/TRUST.md", "`kf_laws::told_answers`", "`kf_laws::all_answers`", "TRUST.md: there is no kf_laws::all_answers"),
        ("tools/gate/believed.py", '"`make`": "kf_make",', "", "kf_make/specs/Making.antt: no subject in SUBJECTS"),
        ("tools/gate/believed.py", '"kf_make"', '"kf_make kf_made"', "SUBJECTS of tools/gate/believed.py has kf_made, and nothing of it is believed"),
    ],
)
def test_what_has_to_be_believed(repository: Repository, name: str, old: str, new: str, naming: str) -> None:
    repository.spoil(name, old, new)
    repository.refuses(".ci/believed", naming)


def test_the_sums_by_what_lines_are_about_make_the_whole(repository: Repository) -> None:
    status, printed = repository.run(".ci/believed")
    sums = [int(number) for number in re.findall(r"^(\d+) lines on ", printed, re.MULTILINE)]
    whole = re.search(r"^believed (\d+) lines", printed, re.MULTILINE)
    assert status == 0 and len(sums) == 9 and whole is not None and sum(sums) == int(whole[1])


@pytest.mark.parametrize(
    "name", ["kf_io/specs/Counts.antt", "kf_io/specs/Reads.antt", "kf_call/specs/Runs.antt", "kf_laws/specs/Held.antt", "kf_laws/specs/Laws.antt"]
)
def test_what_is_read_beside_the_believed_is_named(repository: Repository, name: str) -> None:
    assert f"| `{name}` |" in (repository.top / TABLES).read_text()


@pytest.mark.parametrize(
    "name, old, new, naming",
    [
        (MAP, "| `kf_frac` |", "| `kf_fraction` |", "kf_frac: not one row"),
        (MAP, "| `kf_lex` | `kf_ops`", "| `kf_lex` | `kf_value`", "kf_lex: stands on `kf_ops`"),
        (MAP, "`kf_run/src/pushes.rt`", "`kf_run/src/pushing.rt`", "no src/pushing.rt in kf_run"),
        ("docs/TRUST.md", "`kf_laws::told_answers`", "`kf_laws::all_answers`", "no all_answers in kf_laws"),
        ("docs/decisions/fixed-surface.md", "`program_lines`; the variant", "`kf_lines::all_lines`; the variant", "no all_lines in kf_lines"),
        ("crates/kf_traces/README.md", "`src/parts.rt`", "`src/parting.rt`", "no src/parting.rt in kf_traces"),
        ("crates/kf_traces/README.md", "`traced_laws`", "`traces_laws`", "no traces_laws in kf_traces"),
        ("crates/kf_cert/README.md", "`shows`", "`showing`", "no showing in kf_cert"),
        ("crates.txt", "kf_make", "kf_made", "crates.txt: there is no folder crates/kf_made"),
        ("docs/TRUST.md", "| `.ci/believed` |", "| `.ci/belief` |", "no .ci/belief"),
        ("docs/COSTS.md", "`tools/run bench.costs`", "`tools/run bench.cost`", "no bench.cost for tools/run"),
    ],
)
def test_the_map(repository: Repository, name: str, old: str, new: str, naming: str) -> None:
    repository.spoil(name, old, new)
    repository.refuses(".ci/map", naming)


def test_a_case_that_stands_twice(repository: Repository) -> None:
    text = (repository.top / CASES).read_text()
    found = re.search(r"^case (\S+)\n.*?(?=^case )", text, re.MULTILINE | re.DOTALL)
    last = re.search(r"^end (\d+)\n\Z", text, re.MULTILINE)
    assert found is not None and last is not None
    end = f"end {int(last[1]) + 1}\n"
    repository.write(CASES, text[: last.start()] + found[0] + end)
    repository.refuses(".ci/cases", f"words.cases: {found[1]}: the same as words.cases: {found[1]}")
    repository.write(CASES, text[: last.start()] + found[0].replace(found[1], "another_name") + end)
    repository.refuses(".ci/cases", f"words.cases: another_name: the same as words.cases: {found[1]}")


@pytest.mark.parametrize(
    "name, old, new, naming",
    [
        (CASES, "\nstatus ", "\nstate ", "words.cases: state "),
        (CASES, "\nend ", "\nend 1", "words.cases: ends with end 1"),
        ("crates/kf_cases/args", "words.cases\n", "", "args doesn't fit the files"),
        ("crates/kf_cases/stdout", " agree", "0 agree", "stdout doesn't fit the files"),
    ],
)
def test_cases(repository: Repository, name: str, old: str, new: str, naming: str) -> None:
    repository.spoil(name, old, new)
    repository.refuses(".ci/cases", naming)


LANGUAGE = "audit/coq/definitions/Language.v"


def test_one_operator_more_fits_into_what_may_be_believed_of_coq(repository: Repository) -> None:
    status, printed = repository.run("tools/run", "coq.lines")
    found = re.search(r"^Language.v: (\d+) lines to believe, of at most \d+, and ([\d,]+) tokens", printed, re.MULTILINE)
    assert status == 0 and found is not None
    lines, tokens = int(found[1]), int(found[2].replace(",", ""))
    text = (repository.top / LANGUAGE).read_text()
    repository.write(LANGUAGE, text + "Definition more (a b : Z) : Z :=\n  Z.max a b.\n")
    repository.refuses("tools/run coq.lines", f"Language.v: README.md doesn't say that it has {lines + 2} lines and {tokens + 15:,} tokens")
    repository.spoil("audit/coq/README.md", f"{lines} lines and {tokens:,} tokens", f"{lines + 2} lines and {tokens + 15:,} tokens")
    repository.passes("tools/run", "coq.lines")


def test_a_dense_line_counts_as_much_as_many_short_ones(repository: Repository) -> None:
    text = (repository.top / LANGUAGE).read_text()
    repository.write(LANGUAGE, text + f"Definition more := {'1 + ' * 2000}1.\n")
    status, printed = repository.run("tools/run", "coq.lines")
    found = re.search(r"^Language.v: \d+ lines to believe, of at most \d+, and ([\d,]+) tokens, of at most ([\d,]+)", printed, re.MULTILINE)
    assert status == 1 and found is not None and int(found[1].replace(",", "")) > int(found[2].replace(",", ""))
