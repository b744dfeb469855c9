#!/usr/bin/env python3
"""What the pages show of measured code: docs/MEASURED.md, and the gallery beside this file.

    examples/measured/tables.py [--write]

A line `<!-- shown: WORDS -->` stands above a block that has what `kuifje-lab measure WORDS` prints in this folder, and `<!-- classes: HARNESS CODE .. -->`
above the rows of a table: how many classes control flow, lines and constant time see, by compiler and level. With --write the pages get what is printed now.
Ends with 1 where a page shows something else, but for how many runs the processor came to."""
import re
import subprocess
import sys
from pathlib import Path

HERE = Path(__file__).resolve().parent
TOP = HERE.parents[1]
PAGES = [TOP / "docs" / "MEASURED.md", HERE / "README.md"]
MODELS = ["control-flow", "lines", "constant-time"]
BUILDS = [(compiler, level) for compiler in ("gcc", "clang") for level in "02"]
SHOWN = re.compile(r"(<!-- shown: (.*?) -->\n```text\n)(.*?)(```\n)", re.DOTALL)
CLASSES = re.compile(r"(<!-- classes: (\S+) (.*?) -->\n)((?:\|.*\n)*)")


def measure(words):
    done = subprocess.run([sys.executable, "-m", "kuifje.lab", "measure", *words], cwd=HERE, capture_output=True, text=True, check=False)
    if done.returncode > 1:
        sys.exit(f"{' '.join(words)}: {done.stdout}{done.stderr}")
    return done.stdout


def row(harness, code):
    words = [f"{harness}_harness.c", f"{code}.c", *(f"--model={model}" for model in MODELS), "--cc=gcc", "--cc=clang", "-O0", "-O2"]
    lines = measure(words).splitlines()
    found = {line[: line.index("-O") + 3]: line.split()[-3:] for line in lines if re.match(r"(gcc|clang) -O[02]  ", line)}
    cells = [" / ".join(found[f"{compiler} -O{level}"]) for compiler, level in BUILDS]
    return f"| `{code}.c` | {' | '.join(cells)} |\n"


def rows(harness, codes):
    head = f"| classes seen | {' | '.join(f'{compiler} -O{level}' for compiler, level in BUILDS)} |\n|---{'|---' * len(BUILDS)}|\n"
    return head + "".join(row(harness, code) for code in codes)


def steady(text):
    return re.sub(r"on \d+ runs the processor", "on N runs the processor", text)


def main():
    differ = False
    for page in PAGES:
        text = page.read_text()
        new = SHOWN.sub(lambda m: m[1] + measure(m[2].split()) + m[4], text)
        new = CLASSES.sub(lambda m: m[1] + rows(m[2], m[3].split()), new)
        if steady(new) != steady(text):
            differ = True
            print(f"{page.relative_to(TOP)} shows something else")
        if "--write" in sys.argv[1:]:
            page.write_text(new)
    sys.exit(1 if differ else 0)


if __name__ == "__main__":
    main()
