"""What `.ci/record` and `.ci/dist` refuse: builds that no proof left, sources that aren't those of the record, and files that aren't git's."""

import hashlib
import os
import re
import shutil
import subprocess
from collections.abc import Iterator
from pathlib import Path

import pytest

TOP = Path(__file__).resolve().parents[2]
VERSION = "toolchain for tests"
BUILT = {"bin/kuifje": b"a program", "lib/libkuifje.so.0": b"a library", "lib/libkuifje.a": b"an archive"}
# What the two scripts read and pack, with one crate for all.
COPIED = (
    ".ci/",
    ".gitignore",
    "CHANGELOG.md",
    "HANDLES",
    "README.md",
    "VERSION",
    "course/README.md",
    "crates.txt",
    "crates/kf_io/",
    "docs/",
    "examples/c/",
    "examples/first.kf",
    "include/",
    "python/README.md",
    "python/measure/",
    "python/notebooks/",
    "python/src/",
    "share/",
    "tools/",
)


class Repository:
    """A repository of git's with the files of this one, some built files, and what the runs left that built them."""

    def __init__(self, top: Path, tools: Path) -> None:
        self.top, self.tools = top, tools

    def run(self, *words: str) -> tuple[int, str]:
        """The status of a command, and all that it prints. Of the toolchain there is its version alone."""
        environment = {**os.environ, "PATH": f"{self.tools}:{os.environ['PATH']}"}
        done = subprocess.run(
            words, cwd=self.top, env=environment, stdin=subprocess.DEVNULL, stdout=subprocess.PIPE, stderr=subprocess.STDOUT, check=False
        )
        return done.returncode, done.stdout.decode(errors="replace")

    def commit(self) -> None:
        """Commits all that there is."""
        author = ("-c", "user.name=Tests", "-c", "user.email=tests@packages.invalid")
        for words in (("add", "--all"), ("commit", "--quiet", "--allow-empty", "--message", "Test")):
            status, printed = self.run("git", *author, *words)
            assert status == 0, printed

    def sources(self) -> str:
        """The sum of the sources as they stand."""
        return self.run(".ci/sources")[1].strip()

    def build(self) -> None:
        """Leaves what the gate and the builds leave."""
        for name, content in BUILT.items():
            path = self.top / name
            path.parent.mkdir(exist_ok=True)
            path.write_bytes(content)
        crates = [line for line in (self.top / "crates.txt").read_text().splitlines() if line and not line.startswith("#")]
        passed = len(crates) + len(list(self.top.glob("crates/*/must-fail/*.edit")))
        (self.top / "bin" / "gate").write_text(f"sources {self.sources()}\nrt {VERSION}\npassed {passed}\n")
        for folder, files in (("bin", ["kuifje"]), ("lib", ["libkuifje.so.0", "libkuifje.a"])):
            status, printed = self.run(".ci/built", "write", self.sources(), folder, *files)
            assert status == 0, printed

    def record(self) -> None:
        """Records what was built, and commits the record."""
        status, printed = self.run(".ci/record", "--write")
        assert status == 0, printed
        self.commit()

    def refuses(self, script: str, naming: str) -> None:
        """The script ends with 1, and says this."""
        status, printed = self.run(script)
        assert status == 1 and naming in printed, f"status {status}, and nowhere {naming!r}: {printed[-2000:]}"


@pytest.fixture(scope="module")
def recorded(tmp_path_factory: pytest.TempPathFactory) -> Path:
    """A folder with a repository whose build is recorded, and the toolchain that it sees."""
    room = tmp_path_factory.mktemp("recorded")
    top, tools = room / "repository", room / "tools"
    names = subprocess.run(["git", "ls-files", "-z"], cwd=TOP, stdout=subprocess.PIPE, check=True).stdout.decode().split("\0")
    for name in names:
        if name.startswith(COPIED) and (TOP / name).is_file():
            (top / name).parent.mkdir(parents=True, exist_ok=True)
            shutil.copy2(TOP / name, top / name)
    tools.mkdir()
    (tools / "rt").write_text(f"#!/bin/sh\necho {VERSION}\n")
    (tools / "rt").chmod(0o755)
    made = Repository(top, tools)
    assert made.run("git", "init", "--quiet")[0] == 0
    made.commit()
    made.build()
    made.record()
    return room


@pytest.fixture
def repository(recorded: Path, tmp_path: Path) -> Iterator[Repository]:
    """A copy of it."""
    shutil.copytree(recorded / "repository", tmp_path / "repository", symlinks=True)
    yield Repository(tmp_path / "repository", recorded / "tools")
    shutil.rmtree(tmp_path / "repository")


def test_what_the_runs_left_is_recorded(repository: Repository) -> None:
    status, printed = repository.run(".ci/record")
    assert status == 0, printed
    assert f"| SHA-256 of the program | {hashlib.sha256(BUILT['bin/kuifje']).hexdigest()} |" in printed
    assert f"| SHA-256 of the static library | {hashlib.sha256(BUILT['lib/libkuifje.a']).hexdigest()} |" in printed
    assert f"| sources, sum by `.ci/sources` | {repository.sources()} |" in printed


@pytest.mark.parametrize("name", BUILT)
def test_another_file_in_the_place_of_a_built_one_is_neither_recorded_nor_packed(repository: Repository, name: str) -> None:
    shutil.copy("/bin/true", repository.top / name)
    repository.refuses(".ci/record", f"{name} isn't the file that was built with the proof")
    repository.refuses(".ci/dist", f"{name} isn't the ")


@pytest.mark.parametrize("name", ["bin/gate", "bin/proved", "lib/proved"])
def test_without_what_a_run_left_there_is_no_record(repository: Repository, name: str) -> None:
    (repository.top / name).unlink()
    repository.refuses(".ci/record", f"there is no {name}")


def test_a_record_of_other_sources_is_refused(repository: Repository) -> None:
    with open(repository.top / "HANDLES", "a", encoding="utf-8") as file:
        file.write("\n")
    repository.refuses(".ci/record", "the sources aren't those of the last commit")
    repository.commit()
    repository.refuses(".ci/record", "bin/gate is of other sources")
    repository.refuses(".ci/dist", "the sources aren't those that docs/PROVED.md records")


def test_a_gate_that_passed_less_is_refused(repository: Repository) -> None:
    left = repository.top / "bin" / "gate"
    left.write_text(re.sub(r"passed \d+", "passed 7", left.read_text()))
    repository.refuses(".ci/record", "bin/gate counts 7, and there are ")


def test_another_toolchain_is_refused(repository: Repository) -> None:
    left = repository.top / "lib" / "proved"
    left.write_text(left.read_text().replace(VERSION, "another one"))
    repository.refuses(".ci/record", "lib/proved is of another toolchain")


def test_modules_of_the_page_that_no_run_left_are_refused(repository: Repository) -> None:
    (repository.top / "web" / "out").mkdir(parents=True)
    (repository.top / "web" / "out" / "kuifje64.wasm").write_bytes(b"a module")
    repository.refuses(".ci/record", "there is no web/out/proved")


def test_sources_that_change_while_they_are_proved_leave_no_record(repository: Repository) -> None:
    before = repository.sources()
    (repository.top / "crates" / "kf_io" / "src" / "lib.rt").write_text("// another text\n")
    status, printed = repository.run(".ci/built", "write", before, "bin", "kuifje")
    assert status == 1 and "changed while they were proved" in printed


def test_a_record_that_was_changed_is_not_packed(repository: Repository) -> None:
    page = repository.top / "docs" / "PROVED.md"
    found = hashlib.sha256(BUILT["bin/kuifje"]).hexdigest()
    page.write_text(page.read_text().replace(found, found[::-1]))
    repository.commit()
    repository.refuses(".ci/dist", "bin/kuifje isn't the program that docs/PROVED.md records")


@pytest.mark.parametrize("name", ["examples/notes.txt", "docs/draft.md"])
def test_a_file_that_isnt_gits_is_not_packed(repository: Repository, name: str) -> None:
    (repository.top / name).write_text("my password\n")
    repository.refuses(".ci/dist", f"?? {name}")


def test_a_changed_file_is_not_packed(repository: Repository) -> None:
    with open(repository.top / "README.md", "a", encoding="utf-8") as file:
        file.write("More.\n")
    repository.refuses(".ci/dist", " M README.md")


def test_nothing_of_a_refused_build_is_left(repository: Repository) -> None:
    (repository.top / "bin" / "kuifje").unlink()
    repository.refuses(".ci/dist", "there is no bin/kuifje")
    assert not (repository.top / "dist").exists()


@pytest.mark.skipif(not all(map(shutil.which, ("dpkg-deb", "xz", "objdump"))), reason="dpkg-deb, xz or objdump isn't there")
def test_an_unrecorded_build_says_so_and_has_only_gits_files(repository: Repository) -> None:
    """The same programs for both, as the packages want to know what these ask of the C library; without lintian, which finds faults in them."""
    for name in BUILT:
        shutil.copy("/bin/true", repository.top / name)
    (repository.top / "examples" / "notes.txt").write_text("my password\n")
    (repository.top / ".ci" / "dist").write_text((repository.top / ".ci" / "dist").read_text().replace("command -v lintian", "false"))
    status, printed = repository.run(".ci/dist", "unrecorded")
    assert status == 0, printed
    packages = sorted((repository.top / "dist").glob("*.deb"))
    assert len(packages) == 4 and "the page isn't packed" in printed
    for package in packages:
        described = repository.run("dpkg-deb", "--field", str(package))[1]
        assert "Version: 0.1.0~unrecorded" in described and "This build isn't the recorded one" in described and "It is proved" not in described
        contents = repository.run("dpkg-deb", "--contents", str(package))[1]
        assert "notes.txt" not in contents
        for header in ("kuifje.h", "kuifje_ask.h"):
            assert (f"./usr/include/{header}\n" in contents) == package.name.startswith("libkuifje-dev_")


def with_page(repository: Repository) -> None:
    """Modules of the page, and in the place of its build one that leaves a file."""
    for name in ("kuifje64", "kuifje32"):
        path = repository.top / "web" / "out" / f"{name}.wasm"
        path.parent.mkdir(parents=True, exist_ok=True)
        path.write_bytes(b"a module")
    build = repository.top / "web" / "build"
    build.write_text("#!/bin/sh\nmkdir -p dist/page && echo page >dist/page/index.html\n")
    build.chmod(0o755)


@pytest.mark.skipif(not all(map(shutil.which, ("dpkg-deb", "xz", "objdump"))), reason="dpkg-deb, xz or objdump isn't there")
def test_the_page_is_packed_and_stays(repository: Repository) -> None:
    for name in BUILT:
        shutil.copy("/bin/true", repository.top / name)
    with_page(repository)
    (repository.top / ".ci" / "dist").write_text((repository.top / ".ci" / "dist").read_text().replace("command -v lintian", "false"))
    status, printed = repository.run(".ci/dist", "unrecorded")
    assert status == 0, printed
    (package,) = (repository.top / "dist").glob("kuifje-page_*_all.deb")
    assert "./usr/share/kuifje/page/index.html\n" in repository.run("dpkg-deb", "--contents", str(package))[1]
    assert "Depends" not in repository.run("dpkg-deb", "--field", str(package))[1]
    (archive,) = (repository.top / "dist").glob("*.tar.xz")
    assert "/share/kuifje/page/index.html\n" in repository.run("tar", "--list", "--file", str(archive))[1]
    assert (repository.top / "dist" / "page" / "index.html").read_text() == "page\n"


def test_a_page_of_other_modules_is_refused(repository: Repository) -> None:
    with_page(repository)
    repository.commit()
    repository.refuses(".ci/dist", "web/out/kuifje64.wasm isn't the page's module of 64 bits that docs/PROVED.md records")


def test_other_words_are_refused(repository: Repository) -> None:
    status, printed = repository.run(".ci/dist", "unrecord")
    assert status == 2 and "unrecord" in printed
