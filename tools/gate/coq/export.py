"""Writes a Coq file whose theorem is what is confirmed of two printed hypers, or of a program and a printed hyper.

    tools/run coq.export CERT A B > verdict.v        CERT confirms its verdict of the printed hypers A and B
    tools/run coq.export FILE PRINTED > program.v    PRINTED is the hyper of the program FILE

The files stand in it byte by byte. Nothing has to be believed of this script: look at the texts in the file and at its theorem, and let
`coqc -R . Kuifje verdict.v` check the proof, in audit/coq. What proves nothing makes a file that coqc refuses."""

from __future__ import annotations

import json
import sys
from collections.abc import Sequence
from pathlib import Path

VERDICT = """From Coq Require Import NArith.
From Kuifje Require Import Hypers Confirm.

Definition a : text := bytes "{a}".

Definition b : text := bytes "{b}".

Definition certificate : text := bytes "{certificate}".

Theorem verdict : confirmed_{yes_or_no} a b.
Proof. apply (accepted_{yes_or_no} certificate). vm_cast_no_check (eq_refl (Accepted {true_or_false})). Qed.
Print Assumptions verdict.
"""

PROGRAM = """From Kuifje Require Import Hypers Language Programs.

Definition program : text := bytes "{program}".

Definition printed : text := bytes "{printed}".

Theorem hyper : prints_hyper_of 1024 program printed.
Proof. apply confirmed_hyper. vm_cast_no_check (eq_refl true). Qed.
Print Assumptions hyper.
"""


def quoted(path: Path) -> str:
    """A file's bytes as Coq reads them between quotation marks; latin-1 keeps each byte as it is."""
    return path.read_bytes().decode("latin-1").replace('"', '""')


def exported(files: Sequence[Path]) -> bytes:
    """The text about a certificate and two printed hypers, or about a program and a printed hyper."""
    if len(files) == 2:
        program, printed = map(quoted, files)
        return PROGRAM.format(program=program, printed=printed).encode("latin-1")
    certificate, a, b = map(quoted, files)
    yes = json.loads(files[0].read_bytes())["verdict"] == "yes"
    words = {"yes_or_no": "yes", "true_or_false": "true"} if yes else {"yes_or_no": "no", "true_or_false": "false"}
    return VERDICT.format(certificate=certificate, a=a, b=b, **words).encode("latin-1")


def main(words: Sequence[str]) -> None:
    """Prints the file."""
    if len(words) not in (2, 3):
        sys.exit(__doc__)
    sys.stdout.buffer.write(exported([Path(word) for word in words]))


if __name__ == "__main__":
    main(sys.argv[1:])
