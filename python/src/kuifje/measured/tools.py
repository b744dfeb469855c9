"""The tools that measuring needs: those of Debian, and this package's own in C, which are compiled once and kept."""

from __future__ import annotations

import hashlib
import os
import shutil
import subprocess
import tempfile
import threading
from collections.abc import Sequence
from concurrent.futures import ThreadPoolExecutor
from functools import cache
from pathlib import Path

from .refusals import Unmeasured

__all__ = ["Tools", "default_tools"]

SOURCES = "KUIFJE_MEASURE"  # the environment's name of the folder with the sources in C
INSTALLED = Path("/usr/share/kuifje/measure")
PACKAGES = {
    "gcc": "gcc",
    "clang": "clang",
    "qemu-x86_64": "qemu-user",
    "qemu-aarch64": "qemu-user",
    "aarch64-linux-gnu-gcc": "gcc-aarch64-linux-gnu",
    "Zydis": "libzydis-dev",
    "rustc": "rustc",
}
OPTIONS = ("-O2", "-Wall", "-Wextra")


def lacks(tool: str) -> Unmeasured:
    """What is said where a tool isn't there: how to install it on Debian."""
    return Unmeasured("Tools", f"{tool} isn't installed: apt-get install {PACKAGES.get(tool, tool)}")


def run(words: Sequence[str]) -> None:
    """Runs a compiler. Raises ``Unmeasured`` with what it said where it fails, or isn't there."""
    if shutil.which(words[0]) is None:
        raise lacks(words[0])
    found = subprocess.run(words, capture_output=True, text=True, errors="replace", check=False)
    if found.returncode != 0:
        raise Unmeasured("Build", found.stderr.strip() or f"{words[0]} ended with {found.returncode}")


def _sources() -> Path:
    """The folder of the sources in C: the environment's, else the repository's, else the installed one."""
    if given := os.environ.get(SOURCES):
        return Path(given)
    beside = Path(__file__).resolve().parents[3] / "measure"
    return beside if (beside / "driver.c").exists() else INSTALLED


def _kept() -> Path:
    """The folder that keeps what is compiled: the user's, and where none can be made there one of this user's among temporary files."""
    try:
        base = os.environ.get("XDG_CACHE_HOME")
        folder = (Path(base) if base else Path.home() / ".cache") / "kuifje" / "measure"
        folder.mkdir(parents=True, exist_ok=True)
        if os.access(folder, os.W_OK):
            return folder
    except (OSError, RuntimeError):
        pass
    return Path(tempfile.mkdtemp(prefix="kuifje-tools-"))


def _compiler() -> str:
    for name in ("gcc", "clang"):
        if shutil.which(name):
            return name
    raise lacks("gcc")


class Tools:
    """The compiled tools of one folder of sources. Each is made when it is first asked for, under a name that has the hash of what it is made of."""

    def __init__(self, sources: Path | None = None, kept: Path | None = None) -> None:
        self.sources = sources or _sources()
        if not (self.sources / "driver.c").exists():
            raise Unmeasured("Tools", f"{self.sources} has no driver.c: it is the folder python/measure of the sources, which {SOURCES} may name")
        self.kept = kept or _kept()
        texts = b"".join(path.name.encode() + path.read_bytes() for path in sorted(self.sources.glob("*.[ch]")))
        self._hash = hashlib.sha256(texts).hexdigest()[:20]

    def _made(self, name: str, words: Sequence[str], files: Sequence[str], last: Sequence[str] = ()) -> Path:
        """A tool that is compiled of some sources, unless it was before."""
        said = hashlib.sha256("\0".join([*words, *files, *last]).encode()).hexdigest()[:8]
        path = self.kept / f"{self._hash}-{said}-{name}"
        if not path.exists():
            self.kept.mkdir(parents=True, exist_ok=True)
            partial = path.with_name(f"{os.getpid()}-{threading.get_ident()}-{path.name}")
            run([*words, *OPTIONS, *(str(self.sources / file) for file in files), "-o", str(partial), *last])
            partial.rename(path)
        return path

    def driver(self, target: str) -> list[str]:
        """The objects that are linked to a harness, and the libraries that these need. With ``x86_64`` the single-stepper is among them."""
        names = self._names(target)
        return [*(str(self.object(name, target)) for name in names), *(["-lZydis"] if "stepper" in names else [])]

    def prepare(self, target: str) -> None:
        """Compiles all that is missing, side by side."""
        tools = [self.plugin, self.library, *([self.launcher] if target != "aarch64" else [])]
        with ThreadPoolExecutor() as pool:
            parts = [pool.submit(self.object, name, target) for name in self._names(target)]
            for made in [*(pool.submit(tool) for tool in tools), *parts]:
                made.result()

    def _names(self, target: str) -> list[str]:
        return ["driver", "monitor", "stepper"] if target != "aarch64" and self.has_stepper else ["driver"]

    def object(self, name: str, target: str) -> Path:
        """A part of what is linked to a harness."""
        command = "aarch64-linux-gnu-gcc" if target == "aarch64" else _compiler()
        return self._made(f"{name}-{target}.o", [command, "-c"], [f"{name}.c"])

    @property
    def has_stepper(self) -> bool:
        """Whether single steps can be decoded."""
        return Path("/usr/include/Zydis/Zydis.h").exists()

    def plugin(self) -> Path:
        """The plugin of the emulator."""
        return self._made("emulator.so", [_compiler(), "-fPIC", "-shared"], ["emulator.c", "monitor.c"])

    def launcher(self) -> Path:
        """The program that starts another one on the processor as the emulator does."""
        return self._made("launch", [_compiler()], ["launch.c"])

    def library(self) -> Path:
        """The library by which traces are analysed."""
        return self._made("analyse.so", [_compiler(), "-fPIC", "-shared"], ["analyse.c", "silence.c"])


@cache
def default_tools() -> Tools:
    """The tools of the sources that the environment, the repository, or the installed package has."""
    return Tools()
