"""`.ci/run` and `.ci/checks`: what is run, what is left out, the last lines and the status. `rt` and all checks are stand-ins."""

import os
import re
import subprocess
from dataclasses import dataclass, field
from pathlib import Path

import pytest
from conftest import TOP

CHEAP = ["tools", "pages", "believed", "tables", "words", "map", "cases", "certificates", "beside", "ways", "python", "testers"]
PARTS = {"page": "page", "library": "library", "coq": "coq", "build-library": "library's build", "web/module/build": "page's build"}
PROVED = "crate kf_frac: proved\n185 passed, 0 failed\n"


@dataclass
class Gate:
    """A folder with the gate's two scripts, and stand-ins for all that they call."""

    top: Path
    environment: dict[str, str] = field(default_factory=dict)

    def script(self, name: str, body: str) -> None:
        """A stand-in: it notes that it was called, and with which words."""
        path = self.top / name
        path.parent.mkdir(parents=True, exist_ok=True)
        path.write_text(f'#!/usr/bin/env bash\necho "{name} $*" >>"{self.top}/called"\n{body}\n')
        path.chmod(0o755)

    def check(self, name: str, body: str) -> None:
        """A stand-in for a script of .ci/, or of another folder where the name has one."""
        self.script(name if "/" in name else f".ci/{name}", body)

    def rt(self, printed: str, status: int = 0, build: bool = True) -> None:
        """A stand-in for the toolchain."""
        made = "mkdir -p crates/kuifje/out && echo program >crates/kuifje/out/kuifje" if build else ":"
        self.script("path/rt", f'cat <<"END"\n{printed}END\n{made}\nexit {status}')

    def run(self, *, ci: bool) -> tuple[int, list[str]]:
        """The gate's status and the lines that it prints, on both streams."""
        kept = {name: value for name, value in os.environ.items() if name != "CI" and not name.startswith("KUIFJE_")}
        environment = {**kept, **self.environment, "PATH": f"{self.top}/path:{os.environ['PATH']}", **({"CI": "true"} if ci else {})}
        done = subprocess.run(
            ["bash", ".ci/run"],
            cwd=self.top,
            env=environment,
            stdin=subprocess.DEVNULL,
            stdout=subprocess.PIPE,
            stderr=subprocess.STDOUT,
            check=False,
        )
        return done.returncode, done.stdout.decode().splitlines()

    def called(self) -> list[str]:
        """What was called, in order, without the folders, and without what is done with the toolchain's answer."""
        found = [line.strip().removeprefix(".ci/") for line in (self.top / "called").read_text().splitlines()]
        return [name for name in found if name.split()[0] not in ("sources", "passed", "build-program")]


@pytest.fixture
def gate(tmp_path: Path) -> Gate:
    """A gate in which all is well."""
    made = Gate(tmp_path)
    for name in [*CHEAP, *PARTS]:
        made.check(name, f"echo {name} says so")
    made.check("sources", "echo sum")
    made.check("passed", '[ "$1" = sum ] && mkdir -p bin && tail -n 1 "$2" >bin/gate')
    made.check("build-program", "install -D -m 755 crates/kuifje/out/kuifje bin/kuifje")
    made.rt(PROVED)
    for name in ("run", "checks"):
        (tmp_path / ".ci" / name).write_bytes((TOP / ".ci" / name).read_bytes())
        (tmp_path / ".ci" / name).chmod(0o755)
    return made


def seconds_of(lines: list[str]) -> list[str]:
    """The parts of which the last lines say how many seconds they took."""
    found = next(line for line in lines if line.startswith("seconds: "))
    return re.findall(r"(?:: |, )(.*?) \d+(?=,|$)", found.removeprefix("seconds"))


def test_all_is_well_and_nothing_is_built_where_ci_is_not_set(gate: Gate) -> None:
    status, lines = gate.run(ci=False)
    assert status == 0 and lines[-1] == f"{185 + len(CHEAP) + 3} passed, 0 failed"
    assert seconds_of(lines) == ["proofs", *CHEAP, "library", "coq", "page"] and "left out: nothing" in lines
    assert gate.called() == ["path/rt ci", *CHEAP, "library", "coq", "page"]
    assert "crate kf_frac: proved" in lines and "words says so" in lines and (gate.top / "bin/kuifje").read_text() == "program\n"


def test_ci_builds_and_tries_all(gate: Gate) -> None:
    status, lines = gate.run(ci=True)
    late = ["page's script", "coq", "library's build", "library", "python with the library", "page's build", "page in a browser"]
    assert status == 0 and lines[-1] == f"{185 + len(CHEAP) + len(late)} passed, 0 failed"
    assert seconds_of(lines) == ["proofs", *CHEAP, *late] and lines[-2] == "left out: nothing"
    called = gate.called()
    assert called.count("tools") == 2 and "path/rt ci" in called[:2], "packages are installed beside the proofs"
    assert called[-7:] == ["page script", "coq", "build-library", "library", "python library", "web/module/build", "page"]
    assert all(any(re.fullmatch(rf"{re.escape(name)}: \d+ seconds", line) for line in lines) for name in [*CHEAP, *late])


@pytest.mark.parametrize("ci", [False, True])
@pytest.mark.parametrize(
    "printed, status, last",
    [
        ("crate kf_frac: refused\n184 passed, 1 failed\n", 1, "184 passed, 1 failed"),
        ("crate kf_frac: refused\n184 passed, 1 failed\n", 3, "184 passed, 1 failed"),
        (PROVED, 2, "185 passed, 1 failed"),
        ("want of memory\n", 137, "0 passed, 1 failed"),
        ("184 passed, 1 failed\n", 0, "184 passed, 1 failed"),
    ],
)
def test_failed_proofs_end_the_gate_with_their_status(gate: Gate, printed: str, status: int, last: str, ci: bool) -> None:
    gate.rt(printed, status)
    ended, lines = gate.run(ci=ci)
    assert ended == (status or 1) and lines[-1] == last
    assert lines[-2] == "failed: proofs" and lines[-3] == "left out: every check (the proofs failed)"
    assert [name for name in gate.called() if name != "tools"] == ["path/rt ci"]


def test_no_toolchain(gate: Gate) -> None:
    (gate.top / "path/rt").unlink()
    gate.environment["PATH"] = "/usr/bin:/bin"
    done = subprocess.run(
        ["bash", ".ci/run"], cwd=gate.top, env={"PATH": "/usr/bin:/bin"}, stdin=subprocess.DEVNULL, capture_output=True, text=True, check=False
    )
    assert done.returncode == 127 and done.stdout.splitlines()[-1] == "0 passed, 1 failed"


def test_no_program_was_built(gate: Gate) -> None:
    gate.rt(PROVED, build=False)
    status, lines = gate.run(ci=False)
    assert status == 1 and lines[-1] == "185 passed, 1 failed"


@pytest.mark.parametrize("ci", [False, True])
@pytest.mark.parametrize("name", ["tools", "words", "testers"])
def test_a_check_that_fails_fails_the_gate_after_all_were_run(gate: Gate, name: str, ci: bool) -> None:
    gate.check(name, "exit 7")
    status, lines = gate.run(ci=ci)
    assert status == 1 and lines[-1].endswith(" passed, 1 failed") and lines[-2] == f"failed: {name}"
    assert gate.called()[-1] == "page"


def test_what_hangs_on_a_build_that_failed_is_left_out_by_name(gate: Gate) -> None:
    gate.check("build-library", "exit 1")
    status, lines = gate.run(ci=True)
    assert status == 1 and lines[-2] == "failed: library's build"
    left = ["library", "python with the library", "page's build", "page in a browser"]
    assert lines[-3] == "left out: " + ", ".join(f"{name} (it needs the library)" for name in left)
    gate.check("build-library", "exit 0")
    gate.check("web/module/build", "exit 1")
    status, lines = gate.run(ci=True)
    assert status == 1 and lines[-2] == "failed: page's build" and lines[-3] == "left out: page in a browser (it needs the page's module)"


@pytest.mark.parametrize("name", ["pages", "library", "python", "coq", "page"])
def test_what_is_skipped_is_a_failure_where_ci_is_set_and_only_there(gate: Gate, name: str) -> None:
    gate.check(name, f"echo {name}: types are skipped, since there is no such tool")
    status, lines = gate.run(ci=False)
    assert status == 0 and f"{name}: types are skipped, since there is no such tool" in lines
    status, lines = gate.run(ci=True)
    assert status == 1 and any(line.startswith("failed: ") and PARTS.get(name, name).split()[0] in line for line in lines)


def test_tests_that_pytest_skips_are_a_failure_where_ci_is_set(gate: Gate) -> None:
    gate.check("python", 'echo "775 passed, 1 skipped in 90 s"')
    assert gate.run(ci=False)[0] == 0
    assert gate.run(ci=True)[0] == 1


def test_what_a_check_leaves_out_itself_is_named_at_the_end(gate: Gate) -> None:
    gate.check("page", "echo 'page: 100 seconds are over, so these are left out: the keyboard, widths'")
    for ci in (False, True):
        status, lines = gate.run(ci=ci)
        assert status == 0 and lines[-2].startswith("left out: ") and lines[-2].endswith(": the keyboard, widths")


def test_past_minute_150_what_takes_long_is_left_out_by_name(gate: Gate) -> None:
    gate.environment["KUIFJE_LATEST"] = "-1"
    status, lines = gate.run(ci=True)
    left = ["coq", "library's build", "library", "python with the library", "page's build", "page in a browser"]
    assert status == 0 and lines[-1] == f"{185 + len(CHEAP) + 1} passed, 0 failed" and lines[-2].startswith("left out: ")
    assert [re.sub(r" \(.*", "", name) for name in lines[-2].removeprefix("left out: ").split(", ")] == left
    assert "build-library" not in gate.called()


def test_what_is_not_done_by_minute_170_is_stopped_and_left_out(gate: Gate) -> None:
    gate.check("build-library", "sleep 100")
    gate.environment["KUIFJE_STOPPED"] = "3"
    status, lines = gate.run(ci=True)
    assert status == 0 and lines[-1].endswith(", 0 failed")
    assert re.match(r"left out: library's build \(it was stopped after \d seconds\), library \(it needs the library\)", lines[-2])
