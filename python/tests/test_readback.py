"""Every text that the program prints is read back byte by byte: those of all pages, and of all cases of kf_cases."""

import re
from collections import Counter
from pathlib import Path

import pytest
from gate import case_files, pages

from kuifje import Channel, Hyper, Program, texts

TOP = Path(__file__).resolve().parents[2]
KINDS = {
    "attack": texts.Attack,
    "blame": texts.Blame,
    "capacity": texts.Capacity,
    "cascade": texts.Composition,
    "channel": Channel,
    "check": texts.Mark,
    "choice": texts.Composition,
    "covers": texts.Verdict,
    "hyper": texts.Hyper,
    "leak": texts.Leakage,
    "lines": texts.Lines,
    "make": texts.Made,
    "parallel": texts.Composition,
    "quiet": texts.Hyper,
    "reach": texts.Reach,
    "refine": texts.Verdict,
    "traces": texts.TraceTable,
    "trail": texts.Trail,
}


def is_read_back(words, text):
    """Reads an answer back, and gives the command that it is of; certificates are files of their own."""
    command = next(word for word in words if word in KINDS)
    if "--json" in words:
        return "certificate"
    assert str(KINDS[command].parse(text)) == text
    return command


def test_answers_of_cases_are_read_back():
    """Each case that has an answer: its status is 0 or 1."""
    found = Counter()
    for path in case_files.case_files():
        for case in case_files.cases_of(path.read_text()):
            if case.status <= 1:
                found[is_read_back([word.decode() for word in case.argv[1:]], case.out.decode())] += 1
    assert sum(found.values()) > 5000 and found.keys() >= KINDS.keys(), found


def test_answers_of_pages_are_read_back():
    """Each command of a page that is one of the program's alone, where it has an answer."""
    found = Counter()
    for page in sorted(page for page in TOP.rglob("*.md") if "/." not in str(page.relative_to(TOP))):
        for block in pages.blocks_of(page.read_text(), lambda *_: None):
            for _, command, shown in block.commands() if block.word in pages.RUN else ():
                if re.fullmatch(r"kuifje [\w./:= -]+", command) and not shown.startswith(("kuifje: ", "usage: ")):
                    found[is_read_back(command.split()[1:], shown)] += 1
    assert sum(found.values()) > 400 and found.keys() >= KINDS.keys() - {"make"}, found


@pytest.mark.usefixtures("built")
def test_a_hyper_of_65536_inners_is_read_back():
    hyper = Program("var x : 0..65535 := uniform 0..65535;\nabout old x;\nobserve x;\n").hyper()
    assert len(hyper.inners) == 65536 and hyper.inners[65535].distribution == {65535: 1}
    assert Hyper.parse(str(hyper)) == hyper
