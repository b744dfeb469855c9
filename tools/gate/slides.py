"""Builds the slides of a lecture from the course: its lessons (docs/COURSE.md) and its quiz (course/quiz).

    python3 tools/gate/slides.py [--lessons 1,2,3,4,8] [--program bin/kuifje] OUT.html

One HTML file that loads nothing, with a slide on each page when it is printed, to PDF say. Of each lesson it has the words that the lesson
introduces, its programs, its commands with their answers and pictures, its bold facts, and some questions of the quiz, each with its answer on the
next slide. The program is asked as the slides are built, and every number on them is what it answers then, but for those that it is asked about: of
programs, commands and questions. So sentences of the lessons with numbers are left out. Wants markdown-it, and Jinja2 and matplotlib for the pictures
(Debian: python3-markdown-it, python3-jinja2, python3-matplotlib). Ends with 2 where a word can't be understood, a file can't be read, one of these
isn't there, or an answer of the quiz isn't what the program prints.
"""

from __future__ import annotations

import argparse
import html
import os
import re
import subprocess
import sys
import tempfile
from collections.abc import Iterator, Sequence
from dataclasses import dataclass
from fractions import Fraction
from itertools import takewhile
from pathlib import Path
from typing import Any

from markdown_it import MarkdownIt
from markdown_it.token import Token

TOP = Path(__file__).resolve().parents[2]
QUIZ = TOP / "course" / "quiz"
sys.path.insert(0, str(TOP / "python" / "src"))

LECTURE = (1, 2, 3, 4, 6, 8)  # for 90 minutes: some two minutes a slide
ASKED = (1, 6)  # of each lesson's quiz, the questions that come into the slides
COMMANDS = 3  # of a program, at most
TALL = 15  # lines of a program and an answer that fit below one another
LEAST = 4  # lines of an answer in a column, at least
MOST = 36  # lines of an answer that are shown
FULL = 420  # letters of a list that fit one slide
SECONDS = 300  # that a command may take
PROMPT = "$ "
QUESTION = re.compile(r"^\*\*(\d+)\.\*\* ", re.MULTILINE)
ANSWER = re.compile(r"<details><summary>Answer</summary>\n\n\*\*(.+?)\*\*: (.*?)\n\n(?:```console\n(.*?)```\n\n)?</details>\n", re.DOTALL)
NUMBER = re.compile(r"-?\d+(?:/\d+)?")
NAME_ABOVE = re.compile(r"`([\w./-]+)`:$")
SENTENCE = re.compile(r"(?:(?<=[.?!])|(?<=[.?!]\*\*))\s+(?=[A-Z`*(])")
LEAD = re.compile(r"\*\*[^*]+\*\*")
LINK = re.compile(r"\[([^\]]*)\]\([^)]*\)")
PROGRAM_LINK = re.compile(r"\]\(([^)]+\.kf)\)")
CODE = re.compile(r"`[^`]*`")

parser = MarkdownIt("commonmark").enable("table")


class SlideError(Exception):
    """A word that can't be understood, or a source that isn't as it should be."""


@dataclass(frozen=True)
class Question:
    """A question of a quiz, the word or number that answers it, the sentence that says why, and commands whose answers show it."""

    asked: str
    answer: str
    why: str
    commands: tuple[str, ...]
    printed: str  # what the page has below its commands


@dataclass(frozen=True)
class Slide:
    """A slide: its title as text, and what stands below as HTML."""

    title: str
    body: str
    kind: str = ""


@dataclass(frozen=True)
class Shown:
    """A program of a lesson with its file's name, and the commands that the lesson asks after it."""

    name: str
    text: str
    commands: tuple[str, ...]


@dataclass(frozen=True)
class Lesson:
    """A lesson: its number and title, what one can do afterwards, sentences that introduce words, facts, and programs with commands."""

    number: int
    title: str
    aim: str
    words: tuple[str, ...]
    facts: tuple[str, ...]
    programs: tuple[Shown, ...]


class Asker:
    """Runs the commands of the pages in a folder that has the course, the examples and the program."""

    def __init__(self, program: Path, scratch: Path) -> None:
        self.folder = scratch / "page"
        self.folder.mkdir()
        for name in ("course", "examples"):
            (self.folder / name).symlink_to(TOP / name)
        (scratch / "bin").mkdir()
        (scratch / "bin" / "kuifje").symlink_to(program)
        self.environment = {"PATH": f"{scratch / 'bin'}:/usr/local/bin:/usr/bin:/bin", "LC_ALL": "C.UTF-8"}

    def ask(self, command: str) -> str:
        """What a terminal shows of a command."""
        done = subprocess.run(
            ["bash", "-c", command], cwd=self.folder, env=self.environment, stdin=subprocess.DEVNULL, capture_output=True, text=True, timeout=SECONDS
        )
        return done.stdout + done.stderr


# ---- the quiz


def quiz_of(path: Path) -> list[Question]:
    """The questions of a page of the quiz. Raises ``SlideError`` where the page has another form."""
    parts = QUESTION.split(path.read_text(encoding="utf-8"))[1:]
    found = []
    for number, (label, text) in enumerate(zip(parts[::2], parts[1::2]), 1):
        asked, _, below = text.partition("\n\n")
        answer = ANSWER.fullmatch(below.strip("\n") + "\n")
        if label != str(number) or answer is None:
            raise SlideError(f"{path}: question {label} hasn't the form of a question")
        lines = (answer[3] or "").splitlines()
        commands = tuple(line.removeprefix(PROMPT) for line in lines if line.startswith(PROMPT))
        printed = "\n".join(line for line in lines if not line.startswith(PROMPT))
        found.append(Question(" ".join(asked.split()), answer[1], " ".join(answer[2].split()), commands, printed))
    return found


def is_printed(answer: str, printed: str) -> bool:
    """Whether an answer that is a number is one of the words that were printed. Of other answers nothing is asked."""
    return NUMBER.fullmatch(answer) is None or Fraction(answer) in {Fraction(word) for word in printed.split() if NUMBER.fullmatch(word)}


# ---- a lesson


def without_links(text: str) -> str:
    return LINK.sub(r"\1", " ".join(text.split()))


def has_number(text: str) -> bool:
    """Whether a sentence has a digit outside of code."""
    return re.search(r"\d", CODE.sub("", text)) is not None


def bold_sentences(text: str) -> Iterator[str]:
    """The sentences of a paragraph that introduce a word, and have no number."""
    for sentence in SENTENCE.split(without_links(text)):
        if "**" in sentence and not has_number(sentence):
            yield re.sub(":$", ".", sentence)


def fact_of(text: str) -> str | None:
    """An item that begins with bold text: its sentences up to the first one with a number, or else that text. None of other items."""
    plain = without_links(text)
    lead = LEAD.match(plain)
    if lead is None or has_number(lead[0]):
        return None
    kept = list(takewhile(lambda sentence: not has_number(sentence), SENTENCE.split(plain)))
    return " ".join(kept) or lead[0]


def sections_of(tokens: list[Token]) -> dict[int, tuple[str, list[Token]]]:
    """The lessons of the page: by their number the title, and what stands below."""
    found: dict[int, tuple[str, list[Token]]] = {}
    current: list[Token] = []
    for at, token in enumerate(tokens):
        if token.type == "heading_open" and token.tag == "h2":
            numbered = re.fullmatch(r"(\d+)\. (.*)", tokens[at + 1].content)
            current = []
            if numbered:
                found[int(numbered[1])] = (numbered[2], current)
        elif at == 0 or tokens[at - 1].type != "heading_open":
            current.append(token)
    return found


def lesson_of(number: int, title: str, tokens: list[Token]) -> Lesson:
    """A lesson, from the tokens of its section."""
    words: list[str] = []
    facts: list[str] = []
    programs: list[tuple[str, str, list[str]]] = []
    aim, above, items = "", "", 0
    for token in tokens:
        items += (token.type == "list_item_open") - (token.type == "list_item_close")
        if token.type == "inline":
            above = token.content
            if not aim:
                aim = without_links(above).strip("*")
            elif items:
                facts += [fact] if (fact := fact_of(above)) else []
            else:
                words += bold_sentences(above)
        elif token.type == "fence" and token.info == "kuifje" and (named := NAME_ABOVE.search(above)):
            programs.append((named[1], token.content, []))
        elif token.type == "fence" and token.info == "console":
            commands = [line.removeprefix(PROMPT) for line in token.content.splitlines() if line.startswith(PROMPT)]
            for command in commands:
                owner = next((it for it in reversed(programs) if it[0] in command.split()), programs[-1] if programs else None)
                if owner is None:
                    owner = ("", "", [])
                    programs.append(owner)
                owner[2].append(command)
    return Lesson(number, title, aim, tuple(words), tuple(facts), tuple(Shown(name, text, tuple(commands)) for name, text, commands in programs))


def lessons_of(page: Path) -> dict[int, Lesson]:
    """The lessons of a page by their numbers."""
    return {n: lesson_of(n, title, tokens) for n, (title, tokens) in sections_of(parser.parse(page.read_text(encoding="utf-8"))).items()}


# ---- slides


def line_of(markdown: str) -> str:
    return str(parser.renderInline(markdown))


def list_of(items: Sequence[str]) -> str:
    return "<ul>" + "".join(f"<li>{line_of(item)}</li>" for item in items) + "</ul>"


def asked_of(text: str) -> str:
    """A text that the program is asked about: its numbers are given, and not made."""
    return f'<pre class="given">{html.escape(text)}</pre>'


def answer_of(command: str, printed: str, above: int = 0) -> str:
    """A command, and what it printed, in as many columns as that takes below so many lines of a program."""
    lines = printed.rstrip("\n").split("\n")
    shown = lines[:MOST] + ([f".. and {len(lines) - MOST} more lines"] if len(lines) > MOST else [])
    columns = -(-len(shown) // max(LEAST, TALL - above))
    made = html.escape("\n".join(shown))
    return f'{asked_of(PROMPT + command)}<pre class="made" style="columns:{columns}">{made}</pre>'


def picture_of(command: str) -> str:
    """A picture of what is asked, where there is one: posteriors, a channel, or the lines that leak."""
    from kuifje import Program
    from kuifje.reports import picture

    words = command.split()
    asked = Program.from_file(TOP / words[2]) if len(words) == 3 else None
    draw: dict[str, Any] = {}
    if asked is not None:
        draw = {
            "hyper": lambda p: p.bars(asked.hyper()),
            "channel": lambda p: p.channel(asked.channel()),
            "lines": lambda p: p.lines(asked, asked.lines()),
            "trail": lambda p: p.trail(asked, asked.trail()),
        }
    return f'<div class="made picture">{picture(draw[words[1]], f"The answer of {command}, drawn")}</div>' if words[1] in draw else ""


def pages_of_list(title: str, items: Sequence[str]) -> Iterator[Slide]:
    """Slides with a list, each with as many items as fit, and one at least."""
    some: list[str] = []
    for item in items:
        if some and sum(map(len, [*some, item])) > FULL:
            yield Slide(title, list_of(some))
            some = []
        some.append(item)
    if some:
        yield Slide(title, list_of(some))


def title_of(shown: Shown) -> str:
    """What a program's first comment says up to its first full stop, where that has no number; else its name."""
    said = shown.text.partition("\n")[0]
    sentence = said.removeprefix("# ").partition(". ")[0].rstrip(".")
    return sentence if said.startswith("#") and not has_number(sentence) else f"The program {Path(shown.name).stem}"


def slides_of_program(shown: Shown, lesson: str, asker: Asker) -> Iterator[Slide]:
    """A program with its first command, then the others; the program alone, if it has none. Of another lesson's program the commands alone."""
    title = title_of(shown) if shown.text else lesson
    commands = shown.commands[:COMMANDS]
    for at, command in enumerate(commands):
        text = shown.text if at == 0 else ""
        above, lines = (asked_of(text), text.count("\n") + 1) if text else ("", 0)
        body = f'<div class="beside"><div>{above}{answer_of(command, asker.ask(command), lines)}</div>{picture_of(command)}</div>'
        yield Slide(title, body)
    if not commands:
        yield Slide(title, asked_of(shown.text))


def slides_of(lesson: Lesson, quiz: Sequence[Question], asker: Asker) -> Iterator[Slide]:
    """The slides of a lesson."""
    yield Slide(lesson.title, f"<p>{line_of(lesson.aim)}</p>", "lesson")
    yield from pages_of_list("Words", lesson.words)
    for shown in lesson.programs:
        yield from slides_of_program(shown, lesson.title, asker)
    yield from pages_of_list("To remember", lesson.facts)
    for number in ASKED:
        question = quiz[number - 1]
        asked = f'<p class="given">{line_of(without_links(question.asked))}</p>'
        programs = [(QUIZ / name).read_text(encoding="utf-8") for name in PROGRAM_LINK.findall(question.asked)]
        yield Slide("A question", asked + "".join(map(asked_of, programs)), "quiz")
        printed = [(command, asker.ask(command)) for command in question.commands]
        if not is_printed(question.answer, " ".join(text for _, text in printed)):
            raise SlideError(f"lesson {lesson.number}, question {number}: {question.answer} isn't what the program prints")
        why = "" if has_number(question.why) else f"<p>{line_of(without_links(question.why))}</p>"
        said = f'<p><strong class="made">{html.escape(question.answer)}</strong></p>{why}'
        yield Slide("The answer", asked + said + "".join(answer_of(*each) for each in printed), "quiz")


STYLE = """
@page { size: 320mm 180mm; margin: 0; }
* { box-sizing: border-box; }
body { margin: 0; font: 8.5mm/1.35 system-ui, sans-serif; color: #1a1a1a; background: #ccc; }
section { width: 320mm; height: 180mm; margin: 0 auto 5mm; padding: 11mm 15mm; background: #fff; }
section { position: relative; overflow: hidden; break-after: page; }
@media print { body { background: #fff; } section { margin: 0; } }
h2 { margin: 0 0 6mm; font-size: 11mm; line-height: 1.15; border-bottom: 1mm solid #0072B2; }
section.lesson { background: #eef4fa; padding-top: 55mm; }
section.lesson h2, section.contents h2 { font-size: 16mm; }
section.contents ul { columns: 2; column-gap: 14mm; }
section.quiz h2 { border-color: #D55E00; }
p.given { font-size: 10mm; }
li { margin: 0 0 3mm; }
ul { margin: 0; padding-left: 8mm; }
p { margin: 0 0 4mm; }
pre, code { font-family: ui-monospace, monospace; }
pre { margin: 0 0 3mm; padding: 2mm 3mm; font-size: 5.5mm; line-height: 1.25; white-space: pre-wrap; background: #f4f4f4; }
pre.made { background: #e9f5ef; column-gap: 8mm; }
code { font-size: .9em; }
strong.made { font-size: 12mm; color: #00674c; }
.beside { display: flex; gap: 8mm; align-items: flex-start; }
.beside > div { flex: 1 1 0; min-width: 0; }
.picture img { max-width: 100%; max-height: 135mm; }
footer { position: absolute; right: 8mm; bottom: 4mm; font-size: 4mm; color: #666; }
"""


def page_of(slides: Sequence[Slide], title: str) -> str:
    """The slides as one page of HTML."""
    sections = "\n".join(
        f'<section class="{slide.kind}"><h2>{html.escape(slide.title)}</h2>{slide.body}<footer>{at}</footer></section>'
        for at, slide in enumerate(slides, 1)
    )
    head = f'<meta charset="utf-8"><title>{html.escape(title)}</title><style>{STYLE}</style>'
    return f'<!DOCTYPE html>\n<html lang="en"><head>{head}</head>\n<body>\n{sections}\n</body></html>\n'


def build(numbers: Sequence[int], program: Path) -> str:
    """The page with the slides of these lessons. Raises ``SlideError`` where there is no such lesson."""
    lessons = lessons_of(TOP / "docs" / "COURSE.md")
    if lacking := [number for number in numbers if number not in lessons]:
        raise SlideError(f"the course has no lesson {lacking[0]}")
    chosen = [lessons[number] for number in numbers]
    contents = "<ul>" + "".join(f"<li>{html.escape(lesson.title)}</li>" for lesson in chosen) + "</ul>"
    slides = [Slide("What programs leak", contents, "contents")]
    os.environ["KUIFJE_PROGRAM"] = str(program)  # which the package asks for the pictures
    with tempfile.TemporaryDirectory() as scratch:
        asker = Asker(program, Path(scratch))
        for lesson in chosen:
            slides += slides_of(lesson, quiz_of(QUIZ / f"{lesson.number}.md"), asker)
    return page_of(slides, "What programs leak")


def numbers_of(text: str) -> list[int]:
    """Numbers of lessons, with commas between."""
    if not re.fullmatch(r"\d{1,3}(,\d{1,3})*", text):
        raise argparse.ArgumentTypeError(f"{text!r} isn't like 1,2,3")
    return [int(number) for number in text.split(",")]


def main(words: Sequence[str] | None = None) -> None:
    """Writes the slides, or ends with 2 and a line that says why not."""
    reader = argparse.ArgumentParser(description="Builds the slides of a lecture from the course.")
    reader.add_argument("--lessons", type=numbers_of, default=list(LECTURE), help="the lessons, like 1,2,3")
    reader.add_argument("--program", type=Path, default=Path(os.environ.get("KUIFJE_PROGRAM") or TOP / "bin" / "kuifje"), help="the program to ask")
    reader.add_argument("out", type=Path, help="the file to write")
    asked = reader.parse_args(words)
    program = asked.program.resolve()
    if not program.is_file():
        reader.error(f"there is no {program}: build the program first")
    try:
        page = build(asked.lessons, program)
        asked.out.parent.mkdir(parents=True, exist_ok=True)
        asked.out.write_text(page, encoding="utf-8")
    except (SlideError, ImportError, OSError, subprocess.TimeoutExpired) as cause:
        reader.exit(2, f"slides: {cause}\n")


if __name__ == "__main__":
    main()
