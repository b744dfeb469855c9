"""The command ``kuifje-lab`` as it is installed: says what to install where a package that every command of it wants isn't there."""

import sys

PACKAGES = "python3-click python3-jinja2 python3-matplotlib python3-pandas python3-rich"


def main() -> None:
    """Runs the command. Ends with 2 and a line on standard error where ``kuifje.lab`` can't be loaded."""
    try:
        from .lab import main as lab
    except ModuleNotFoundError as missing:
        if missing.name is None or missing.name.startswith("kuifje"):
            raise
        print(f"kuifje-lab: {missing.name} isn't installed. It comes by: apt install {PACKAGES}, or: pip install 'kuifje[lab]'", file=sys.stderr)
        sys.exit(2)
    lab(prog_name="kuifje-lab")
