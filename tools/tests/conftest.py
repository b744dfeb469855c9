"""A scratch copy of the repository, in which a test spoils something and sees a check refuse it."""

import os
import shutil
import subprocess
from collections.abc import Iterator
from pathlib import Path

import pytest

TOP = Path(__file__).resolve().parents[2]
PROGRAM = Path(os.environ.get("KUIFJE_PROGRAM") or TOP / "bin" / "kuifje").resolve()
BUILT = {".git", "bin", "dist", "lib"}  # at the top
MADE = shutil.ignore_patterns("out", "__pycache__", ".hypothesis", ".mypy_cache", "*.vo", "*.vok", "*.vos", "*.glob", "*.aux")


def not_copied(folder: str, names: list[str]) -> set[str]:
    """What builds and checks leave in a folder of the repository."""
    return MADE(folder, names) | (BUILT if Path(folder) == TOP else set())


class Repository:
    """A copy of the repository's files. What a test spoils is put back after it."""

    def __init__(self, top: Path) -> None:
        self.top = top
        self.kept: dict[Path, bytes | None] = {}

    def write(self, name: str, content: str) -> None:
        """Gives a file this content; a file that isn't there is made."""
        path = self.top / name
        self.kept.setdefault(path, path.read_bytes() if path.exists() else None)
        path.write_text(content)

    def spoil(self, name: str, old: str, new: str) -> None:
        """Puts a text in the place of another one, where it stands first in a file."""
        text = (self.top / name).read_text()
        assert old in text, f"{name} has no {old!r}, so nothing can be spoilt"
        self.write(name, text.replace(old, new, 1))

    def restore(self) -> None:
        """Puts back what was spoilt."""
        for path, content in self.kept.items():
            if content is None:
                path.unlink()
            else:
                path.write_bytes(content)
        self.kept.clear()

    def run(self, *words: str, **environment: str) -> tuple[int, str]:
        """The status of a command at the top of the copy, and all that it prints."""
        done = subprocess.run(
            words,
            cwd=self.top,
            env={**os.environ, **environment},
            stdin=subprocess.DEVNULL,
            stdout=subprocess.PIPE,
            stderr=subprocess.STDOUT,
            check=False,
        )
        return done.returncode, done.stdout.decode(errors="replace")

    def passes(self, *words: str) -> None:
        """A check finds nothing."""
        status, printed = self.run(*words)
        assert status == 0, printed

    def refuses(self, command: str, *naming: str) -> list[str]:
        """A check ends with 1, and of what it prints one line has all these texts. The lines are returned."""
        status, printed = self.run(*command.split(" "))
        lines = printed.splitlines()
        assert status == 1 and any(
            all(text in line for text in naming) for line in lines
        ), f"status {status}, and nowhere {naming}: {printed[-2000:]}"
        return lines


@pytest.fixture(scope="session")
def copied(tmp_path_factory: pytest.TempPathFactory) -> Path:
    """The copy, which all tests share."""
    top = tmp_path_factory.mktemp("copy") / "repository"
    shutil.copytree(TOP, top, ignore=not_copied, symlinks=True)
    if PROGRAM.is_file():
        (top / "bin").mkdir()
        (top / "bin" / "kuifje").symlink_to(PROGRAM)
    return top


@pytest.fixture
def repository(copied: Path) -> Iterator[Repository]:
    """The copy as the repository is, whatever tests before have done to it."""
    found = Repository(copied)
    yield found
    found.restore()


@pytest.fixture
def built(repository: Repository) -> Repository:
    """The same, for checks that ask the program."""
    if not (repository.top / "bin" / "kuifje").exists():
        pytest.skip("there is no bin/kuifje, nor a program that KUIFJE_PROGRAM names")
    return repository
