"""The runner: how runs end, and what is seen of them. And what judges runs in `gate.hostile`, `gate.bench` and `gate.coq`."""

from __future__ import annotations

import os
import re
import sys
from pathlib import Path

import pytest
from conftest import PROGRAM, TOP
from gate.bench import certificates, lines, steps
from gate.bench.measured import measured
from gate.coq.agreement import changed, excuse, first_places
from gate.coq.confirm import with_a_digit_changed
from gate.coq.lines import without_comments
from gate.coq.verdicts import spoilt_certificate
from gate.hostile.refusing import can_stop_programs, run_refusing
from gate.hostile.report import Report
from gate.hostile.statuses import fault_of
from gate.hostile.texts import Tries, cuts, deep_type, filled, words_for
from gate.program import Outcome, Program, run
from gate.record import with_proof
from gate.repository import CRATES, crates


def python(*lines_of_text: str) -> list[str]:
    return [sys.executable, "-c", "\n".join(lines_of_text)]


def test_status_and_streams_of_a_run(tmp_path: Path) -> None:
    outcome = run(python("import os, sys", "print(os.getcwd())", "print('why', file=sys.stderr)", "sys.exit(7)"), folder=tmp_path)
    assert (outcome.status, outcome.answer, outcome.message) == (7, f"{tmp_path.resolve()}\n", "why\n")


def test_nothing_is_read_from_this_process() -> None:
    assert run(python("print(repr(input()))")).status == 1


def test_a_run_that_takes_too_long_has_no_status() -> None:
    assert run(["sleep", "9"], seconds=0.2).status is None


def test_a_signal_is_below_0() -> None:
    assert run(python("import os", "os.abort()")).status == -6


def test_bytes_that_are_no_text_are_kept(tmp_path: Path) -> None:
    outcome = run(python("import sys", r"sys.stdout.buffer.write(b'a\xff')"))
    assert outcome.out == b"a\xff" and outcome.answer == "a\N{REPLACEMENT CHARACTER}"


def test_a_stream_that_goes_elsewhere_is_none(tmp_path: Path) -> None:
    with open(tmp_path / "out", "wb") as out:
        outcome = run(["echo", "there"], stdout=out)
    assert outcome.out is None and outcome.err == b"" and outcome.answer == "" and (tmp_path / "out").read_text() == "there\n"


def test_what_is_done_before_a_command() -> None:
    assert run(["bash", "-c", "ulimit -t"], before=lambda: os.nice(0)).answer.strip() == "unlimited"
    import resource

    assert run(["bash", "-c", "ulimit -t"], before=lambda: resource.setrlimit(resource.RLIMIT_CPU, (9, 9))).answer == "9\n"


def test_all_that_scripts_run_can_be_run() -> None:
    """Each module that a script, a Makefile or another file names after `tools/run` begins by itself."""
    files = [TOP / "Makefile", TOP / "audit" / "coq" / "Makefile", *(path for path in (TOP / ".ci").iterdir() if path.is_file())]
    named = {name for path in files for name in re.findall(r"tools/run\"? \"?([a-z][a-z.]*[a-z])\b(?!\.)", path.read_text())}
    assert {"pages", "hostile.run", "hostile.library", "bench.run", "coq.lines", "coq.agreement"} <= named
    for name in [*named, "coq.verdicts", "coq.programs", "coq.words", "coq.export", "bench.lines", "bench.costs", "bench.certificates"]:
        assert 'if __name__ == "__main__":\n' in (TOP / "tools" / "gate" / f"{name.replace('.', '/')}.py").read_text(), name


@pytest.mark.parametrize("words", [[], ["none"], ["hostile"], ["plain"], ["../gate/map"]])
def test_no_check_of_that_name(words: list[str]) -> None:
    outcome = run([TOP / "tools" / "run", *words])
    assert outcome.status == 2 and outcome.answer == "" and outcome.message.startswith("tools/run: ") and outcome.message.count("\n") == 1


def test_a_check_without_a_program_says_so(tmp_path: Path) -> None:
    for check in ("beside", "ways", "certificates", "pages"):
        outcome = run([TOP / "tools" / "run", check, tmp_path / "kuifje"])
        assert (outcome.status, outcome.message) == (1, f"there is no {tmp_path / 'kuifje'}: build the program first\n")


def test_the_crates_are_those_of_the_folder() -> None:
    assert set(crates()) == {path.name for path in CRATES.iterdir() if (path / "src").is_dir()}


# ---- what the program may say


@pytest.mark.parametrize(
    "outcome",
    [
        Outcome(("hyper", "p.kf"), 0, b"target x\n", b""),
        Outcome(("hyper", "p.kf"), 3, b"", b"kuifje: p.kf: read failed\n"),
        Outcome(("hyper", "p.kf"), 5, b"", b"kuifje: p.kf:1:2: Syntax\n"),
        Outcome(("leak", "p.kf", "--gain", "table:g.json"), 9, b"", b"kuifje: g.json: Form 3\n"),
        Outcome(("hyper", "a\nb"), 11, b"", b"kuifje: a\nb: longer than 1048576 bytes\n"),
        Outcome(("hyper", "p.kf"), 12, b"", b""),
        Outcome(("hyper", "p.kf"), 4, b"target", b"kuifje: write failed\n"),
        Outcome(("hyper", "p.kf"), 3, b"", None),
    ],
)
def test_what_docs_commands_allows(outcome: Outcome) -> None:
    assert fault_of(outcome) is None


@pytest.mark.parametrize(
    "outcome, fault",
    [
        (Outcome(("hyper", "p.kf"), None), "no end within 60 seconds"),
        (Outcome(("hyper", "p.kf"), 14, b"", b""), "status 14"),
        (Outcome(("hyper", "p.kf"), -11, b"", b""), "status -11"),
        (Outcome(("hyper", "p.kf"), 0, b"target x\n", b"why\n"), "status 0 with b'why\\n' on err"),
        (Outcome(("hyper", "p.kf"), 3, b"", b"kuifje: q.kf: read failed\n"), "status 3 with b'kuifje: q.kf: read failed\\n' on err"),
        (Outcome(("hyper", "p.kf"), 5, b"", b"kuifje: p.kf:1:2: Sintax\n"), "status 5 with b'kuifje: p.kf:1:2: Sintax\\n' on err"),
        (Outcome(("hyper", "p.kf"), 6, b"target", b"kuifje: p.kf:1:2: DivZero\n"), "status 6 with b'target' on out"),
    ],
)
def test_what_it_does_not_allow(outcome: Outcome, fault: str) -> None:
    assert fault_of(outcome) == fault


def test_a_report_counts_what_was_not_to_come(capsys: pytest.CaptureFixture[str]) -> None:
    report = Report()
    report.add(Outcome(("hyper", "p.kf"), 0, b"", b""), "one", wanted={0})
    report.add(Outcome(("hyper", "p.kf"), 0, b"", b""), "other", b"var x", {3, 12})
    report.tell("files", "2 cases")
    assert report.faults == 1 and capsys.readouterr().out.splitlines() == [
        "    other: status 0, where 12 or 3 was to come, words ['hyper', 'p.kf'], text b'var x'",
        "files: 2 cases; 2 runs; statuses: 0 2 times",
    ]


def test_texts_that_try_the_limits() -> None:
    assert filled("a", "bc", "d") == "a" + "bc" * 499_999 + "d" and len(filled("a", "bc", "d")) == 1_000_000
    assert deep_type().count("(") == 64 and deep_type().count("set of") == 63 * 64 // 2
    assert list(cuts(b"abc")[0]) == [3, 2, 1, 0] and [place for part in cuts(b"x" * 5000) for place in part] == list(range(5000, -1, -5))
    assert len({words_for(number)[0] for number in range(17)}) == 16


@pytest.mark.skipif(not PROGRAM.is_file(), reason="there is no bin/kuifje, nor a program that KUIFJE_PROGRAM names")
def test_each_cut_and_each_change_is_a_run(tmp_path: Path) -> None:
    """Of a text of 22 bytes there are 23 cuts. A program that ends with 14 does nothing that is documented."""
    text = b"var x : bool := true;\n"
    wrong = tmp_path / "kuifje"
    wrong.write_text("#!/bin/sh\nexit 14\n")
    wrong.chmod(0o755)
    for path, faults in ((PROGRAM, 0), (wrong, 28)):
        report = Report()
        tries = Tries(Program(path), report, tmp_path / path.parent.name)
        tries.cut("a text", text, cuts(text)[0])
        tries.change([("a text", text)], "1", 5)
        assert (report.runs, report.faults) == (28, faults)


@pytest.mark.skipif(not can_stop_programs(), reason="programs are stopped on Linux on x86-64 alone")
def test_an_allocation_is_refused_and_counted(tmp_path: Path) -> None:
    """A program of C's library that asks for memory three times, and says how often it got some."""
    (tmp_path / "asks.c").write_text(
        "#include <stdio.h>\n#include <stdlib.h>\n#include <unistd.h>\n"
        "int main(void) { char c = '0'; for (int i = 0; i < 3; i++) { char *p = malloc(9); if (p) c++, p[0] = c; } return write(1, &c, 1) != 1; }\n"
    )
    assert run(["cc", "-O0", tmp_path / "asks.c", "-o", tmp_path / "asks"]).status == 0
    whole, count = run_refusing(tmp_path / "asks", [], tmp_path, None)
    assert (whole.status, whole.out, count) == (0, b"3", 3)
    assert [run_refusing(tmp_path / "asks", [], tmp_path, call)[0].out for call in (1, 2, 3)] == [b"2"] * 3


# ---- what is measured


def test_a_measured_run(tmp_path: Path) -> None:
    run_ = measured(python("print('x' * 10)", "a = bytearray(40 << 20)", "sum(a)"), tmp_path / "out", folder=tmp_path)
    assert run_.status == 0 and run_.megabytes > 40 and run_.seconds > 0 and run_.processor > 0 and (tmp_path / "out").read_text() == "x" * 10 + "\n"


def test_a_run_that_takes_too_much_is_ended(tmp_path: Path) -> None:
    assert measured(python("while True: pass"), tmp_path / "out", seconds=1).status < 0
    assert measured(python("a = bytearray(900 << 20)"), tmp_path / "out", megabytes=500).status == 1


@pytest.mark.parametrize(
    "hyper, took, rows, right",
    [
        (lines.Least(0.1, 20, 0), lines.Least(0.4, 30, 0), 4, True),
        (lines.Least(0.1, 20, 0), lines.Least(0.8, 30, 0), 4, False),
        (lines.Least(0.1, 20, 0), lines.Least(0.4, 70, 0), 4, False),
        (lines.Least(0.001, 2, 0), lines.Least(0.9, 3, 0), 2, True),
        (lines.Least(0.1, 20, 8), lines.Least(0.1, 20, 8), 0, True),
        (lines.Least(0.1, 20, 0), lines.Least(0.1, 20, 8), 0, False),
    ],
)
def test_what_a_line_may_take(hyper: lines.Least, took: lines.Least, rows: int, right: bool) -> None:
    assert lines.row("p", hyper, took, rows).right is right


def test_another_answer_of_a_large_certificate_is_seen(tmp_path: Path, capsys: pytest.CaptureFixture[str]) -> None:
    row = certificates.Row("a row", "var", "var", {"verdict": "yes"}, "accepted\n", 60)
    for answer, passed in (("accepted", True), ("rejected sum", False)):
        program = tmp_path / "kuifje"
        program.write_text(f"#!/bin/sh\necho {answer}\n")
        program.chmod(0o755)
        assert certificates.is_passed(row, program, 1, tmp_path) is passed
    assert capsys.readouterr().out.splitlines()[1].endswith("another answer")


def test_steps_by_hand() -> None:
    """Each of two values is drawn in the one observation, in the one column: two steps, two columns after it; silent, they are one again."""
    counted = steps.counted("var x : bool := flip 1/2;\nobserve x;\n")
    assert counted == (2, 2, 2, 1, ["all inners 2 posterior 1", "2:1 inners 1 posterior 1/2"])


# ---- what kuifje-confirm is compared with


def test_what_is_spoilt_of_a_certificate_and_a_hyper() -> None:
    assert with_a_digit_changed("a 1\nb 9", r"b (\d)") == "a 1\nb 0"
    with pytest.raises(ValueError, match="nowhere"):
        with_a_digit_changed("a", r"b (\d)")
    assert spoilt_certificate('{"entries":[["0","0","1"]]}', "yes") == '{"entries":[["0","0","2"]]}'
    assert spoilt_certificate('{"gains":[["(0, 1)","-7"]],"rest":"3"}', "no") == '{"gains":[["(0, 1)","0"]],"rest":"0"}'
    cert = {"a": [1, 2, 3, 4, 5]}
    assert changed(cert, ("a", 1), "x") == {"a": [1, "x", 3, 4, 5]} and cert == {"a": [1, 2, 3, 4, 5]}
    assert [path for path, _ in first_places(cert)] == [(), ("a",), ("a", 0), ("a", 1), ("a", 2), ("a", 3)]


@pytest.mark.parametrize(
    "theirs, ours, why",
    [
        ("Wide", "accepted", "width"),
        ("certificate passes 2^127 - 1", "rejected sum", "width"),
        ("longer than 1048576 bytes", "accepted", "length"),
        ("accepted", "rejected value", "values"),
        ("accepted", "rejected sum", None),
        ("rejected sum", "accepted", None),
    ],
)
def test_in_what_two_checkers_may_differ(theirs: str, ours: str, why: str | None) -> None:
    assert excuse(theirs, ours) == why


def test_comments_of_coq_may_stand_in_one_another() -> None:
    assert without_comments("a (* b (* c *) d *) e (* f *)") == "a  e "


# ---- the record


def test_the_newest_version_gets_one_line_with_its_proof() -> None:
    rows = {
        "`rt version`": "rt 1",
        "date": "2026-12-01",
        "crates proved, with their tests": 45,
        "wrong bodies refused": 140,
        "SHA-256 of the program": "ab",
    }
    line = "- **Proved** by `rt 1` on 2026-12-01: 45 crates, and 140 wrong bodies refused. SHA-256 of the program `ab`.\n"
    before = "# Changes\n\n## 2\n\n- new\n\n## 1\n\n- old\n"
    after = f"# Changes\n\n## 2\n\n{line}- new\n\n## 1\n\n- old\n"
    assert with_proof(before, rows) == after and with_proof(after, rows) == after


def test_a_program_is_the_file_that_a_link_names(tmp_path: Path) -> None:
    (tmp_path / "kuifje").symlink_to("/bin/true")
    assert Program(tmp_path / "kuifje").run("hyper") == Outcome(("hyper",), 0, b"", b"")
