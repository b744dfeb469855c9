"""`.ci/tools` reads share/debian-packages, and installs where it should. apt-get and dpkg-query are stand-ins."""

import os
import re
import subprocess
from pathlib import Path

import pytest
from conftest import TOP

LIST = TOP / "share" / "debian-packages"
GROUPS = re.findall(r"^\[(\w+)\]", LIST.read_text(), re.MULTILINE)


class Machine:
    """Where these packages are installed. apt-get installs what it is asked for, unless its lock is held or it has no such package."""

    def __init__(self, folder: Path) -> None:
        self.folder = folder
        self.has("", "", root=True)

    def script(self, name: str, body: str) -> None:
        path = self.folder / name
        path.write_text(f"#!/bin/sh\n{body}\n")
        path.chmod(0o755)

    def has(self, lacking: str, unknown: str, *, root: bool, held: int = 0) -> None:
        """The packages that aren't installed, those that can't be, and how often the lock is held."""
        (self.folder / "lacking").write_text(lacking)
        (self.folder / "held").write_text("x" * held)
        self.script("dpkg-query", f'eval name=\\$$#\ncase " $(cat {self.folder}/lacking) " in *" $name "*) exit 1 ;; *) printf installed ;; esac')
        self.script("id", f"echo {0 if root else 1000}")
        self.script(
            "apt-get",
            f"""echo "$*" >>{self.folder}/asked
if [ -s {self.folder}/held ]; then sed -i 's/^x//' {self.folder}/held; echo "E: Could not get lock" >&2; exit 100; fi
case "$*" in *update*) exit 0 ;; esac
for word; do case " {unknown} " in *" $word "*) echo "E: Unable to locate package $word" >&2; exit 100 ;; esac; done
for word; do sed -i "s/\\b$word\\b//" {self.folder}/lacking; done""",
        )

    def run(self, *words: str, **environment: str) -> tuple[int, str]:
        kept = {name: value for name, value in os.environ.items() if name != "CI"}
        path = f"{self.folder}:{os.environ['PATH']}"
        done = subprocess.run(
            [TOP / ".ci/tools", *words], env={**kept, "PATH": path, "KUIFJE_PAUSE": "0", **environment}, capture_output=True, text=True, check=False
        )
        return done.returncode, done.stdout + done.stderr

    def asked(self) -> list[str]:
        """What apt-get was asked for."""
        path = self.folder / "asked"
        return path.read_text().splitlines() if path.exists() else []


@pytest.fixture
def machine(tmp_path: Path) -> Machine:
    return Machine(tmp_path)


def test_every_line_of_the_list_is_a_package_with_a_word_or_a_group() -> None:
    lines = [line for line in LIST.read_text().splitlines() if line and not line.startswith("#")]
    assert all(re.fullmatch(r"\[[a-z]+\] \S.*|[a-z0-9][a-z0-9+.-]+ +\S.*", line) for line in lines) and {"python", "page", "coq", "library"} <= set(
        GROUPS
    )


@pytest.mark.parametrize("group", GROUPS)
def test_a_group_is_printed_for_a_command_line(machine: Machine, group: str) -> None:
    block = LIST.read_text().split(f"[{group}]")[1].split("\n[")[0].split("\n", 1)[1]
    assert machine.run(group) == (0, " ".join(sorted({line.split()[0] for line in block.splitlines() if line.strip()})) + " \n")


def test_other_groups_are_refused(machine: Machine) -> None:
    assert machine.run("coq", "coffee") == (2, "tools: share/debian-packages has no group coffee\n")


def test_nothing_is_asked_of_apt_where_all_is_there(machine: Machine) -> None:
    assert machine.run(CI="true") == (0, "tools: every package of share/debian-packages is installed\n")
    assert machine.asked() == []


def test_without_ci_it_says_what_is_missing(machine: Machine) -> None:
    machine.has("coq esbuild", "", root=True)
    assert machine.run() == (0, "tools: missing are coq esbuild\n") and machine.asked() == []


def test_under_ci_what_is_missing_is_installed_once(machine: Machine) -> None:
    machine.has("coq esbuild", "", root=True)
    status, said = machine.run(CI="true")
    assert status == 0 and said.splitlines() == ["tools: installing coq esbuild", "tools: every package of share/debian-packages is installed"]
    assert [line[line.index(word) :] for line, word in zip(machine.asked(), ("update", "install"), strict=True)] == [
        "update",
        "install --yes --no-install-recommends coq esbuild",
    ]


def test_somebody_who_is_not_root_is_told_and_fails_under_ci(machine: Machine) -> None:
    machine.has("coq", "", root=False)
    assert machine.run(CI="true") == (1, "tools: missing are coq\n") and machine.asked() == []


def test_a_lock_that_is_held_is_waited_for(machine: Machine) -> None:
    machine.has("coq", "", root=True, held=3)
    assert machine.run(CI="true")[0] == 0 and len(machine.asked()) == 5


def test_a_package_that_there_is_not_fails_and_the_others_are_installed(machine: Machine) -> None:
    machine.has("coq esbuild", "esbuild", root=True)
    status, said = machine.run(CI="true")
    assert status == 1 and said.splitlines()[-1] == "tools: missing are esbuild" and "Unable to locate package esbuild" in said


@pytest.mark.parametrize("page", ["docs/BUILDING.md", "python/README.md", "docs/PAGE.md", "audit/coq/README.md"])
def test_pages_take_the_packages_from_the_list(page: str) -> None:
    text = (TOP / page).read_text()
    assert ".ci/tools " in text and not re.search(r"apt(-get)? install (?!\./|--no-install-recommends \$\(|\$\()", text)
