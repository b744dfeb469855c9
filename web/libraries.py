#!/usr/bin/env python3
"""Names the libraries that are bundled in the page: those of the modules that esbuild read, each with its version, its Debian package and licence,
and copies what Debian says of their copyright beside the page.

    web/libraries.py INPUTS PAGE

INPUTS is esbuild's metafile, PAGE the folder of the page."""

from __future__ import annotations

import json
import re
import shutil
import subprocess
import sys
from pathlib import Path

MODULES = Path("/usr/share/nodejs")


def package_of(folder: Path) -> tuple[str, str]:
    """The Debian package that has a library, and its version."""
    owner = subprocess.run(["dpkg-query", "--search", str(folder / "package.json")], capture_output=True, text=True, check=True).stdout.split(":")[0]
    version = subprocess.run(["dpkg-query", "--show", "--showformat=${Version}", owner], capture_output=True, text=True, check=True).stdout
    return owner, version


def main() -> None:
    inputs, page = Path(sys.argv[1]), Path(sys.argv[2])
    read = [re.search(r"share/(?:nodejs|javascript)/([^/]+)/", name) for name in json.loads(inputs.read_text())["inputs"]]
    found = []
    for name in sorted({it[1] for it in read if it}):
        said = json.loads((MODULES / name / "package.json").read_text())
        package, debian = package_of(MODULES / name)
        shutil.copyfile(f"/usr/share/doc/{package}/copyright", page / "licences" / f"{package}.txt")
        licence = said.get("license", "see its licence")
        found.append({"name": name, "version": said["version"], "package": package, "debian": debian, "licence": licence, "file": f"licences/{package}.txt"})
    (page / "libraries.json").write_text(json.dumps(found, indent=1) + "\n")


main()
