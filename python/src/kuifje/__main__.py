"""``python3 -m kuifje``: runs the program ``kuifje`` with these words, as its command does."""

import os
import sys

from ._protocol import PROGRAM
from ._worker import program

LACKS = f"""kuifje: there is no program kuifje on the path, and {PROGRAM} names none.
`make` in the repository builds bin/kuifje: put it on the path, or give {PROGRAM} its path. The packages of `make dist` install it.
What this package itself has as a command is `python3 -m kuifje.lab`.
"""


def main() -> int:
    """Becomes the program; its status is this one's. Where there is none, 2 and how to get it."""
    path = program()
    if path is None or not os.access(path, os.X_OK):
        sys.stderr.write(LACKS)
        return 2
    os.execv(path, ["kuifje", *sys.argv[1:]])


if __name__ == "__main__":
    sys.exit(main())
