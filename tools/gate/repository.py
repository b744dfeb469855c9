"""The repository's folders, and its list of crates."""

from __future__ import annotations

from pathlib import Path

TOP = Path(__file__).resolve().parents[2]
CRATES, DOCS, EXAMPLES, COURSE = (TOP / name for name in ("crates", "docs", "examples", "course"))
BUILT = TOP / "bin" / "kuifje"


def crates() -> dict[str, list[str]]:
    """The crates of crates.txt in its order, each with what it uses: crates of the repository, and of the toolchain."""
    lines = [line for line in (TOP / "crates.txt").read_text().splitlines() if line and not line.startswith("#")]
    return {name.split()[0]: uses.split() for name, uses in (line.split(":") for line in lines)}


def from_top(path: Path) -> Path:
    """The path as it is seen from the top of the repository, where it is below that."""
    return path.relative_to(TOP) if path.is_relative_to(TOP) else path
