"""The slides: what is taken from the course, what its quiz has to be, and that every number comes from the program and every slide fits its page."""

import os
import re
import shutil
import subprocess
import sys
from collections.abc import Iterator
from html.parser import HTMLParser
from pathlib import Path

import pytest

TOP = Path(__file__).resolve().parents[2]
sys.path.insert(0, str(TOP / "tools"))

pytest.importorskip("markdown_it")

from gate import slides  # noqa: E402

PROGRAM = Path(os.environ.get("KUIFJE_PROGRAM") or TOP / "bin" / "kuifje").resolve()
QUIZZES = sorted((TOP / "course" / "quiz").glob("*.md"))
needs_program = pytest.mark.skipif(not PROGRAM.is_file(), reason="there is no program")

QUESTION = """# Quiz

**1.** How many
faces has a die?

<details><summary>Answer</summary>

**6**: count them.

```console
$ kuifje hyper die.kf | sed -n 3p
inners 6
```

</details>

**2.** Is it fair?

<details><summary>Answer</summary>

**yes**: 1/6 each.

</details>
"""


class Page(HTMLParser):
    """The slides of a page: how many there are, their text outside of what was given or made, what was made, and what would be loaded."""

    def __init__(self, text: str) -> None:
        super().__init__()
        self.sections, self.prose, self.made, self.loads = 0, "", "", list[str]()
        self.open: list[str] = []
        self.feed(text)

    def handle_starttag(self, tag: str, attrs: list[tuple[str, str | None]]) -> None:
        self.sections += tag == "section"
        self.loads += [value or "" for name, value in attrs if name in ("src", "href")]
        if tag not in ("meta", "img"):
            self.open.append(f"{tag} {dict(attrs).get('class') or ''}")

    def handle_endtag(self, tag: str) -> None:
        assert self.open.pop().startswith(tag)

    def handle_data(self, data: str) -> None:
        classes = {word for opened in self.open for word in opened.split()}
        if "made" in classes:
            self.made += data
        elif not classes & {"given", "footer", "style", "code"}:
            self.prose += data


@pytest.fixture(scope="module")
def course() -> Iterator[str]:
    if not PROGRAM.is_file():
        pytest.skip("there is no program")
    pytest.importorskip("matplotlib")
    pytest.importorskip("jinja2")
    yield slides.build(sorted(slides.lessons_of(TOP / "docs" / "COURSE.md")), PROGRAM)


def test_a_quiz_is_read(tmp_path: Path) -> None:
    (tmp_path / "1.md").write_text(QUESTION)
    first, second = slides.quiz_of(tmp_path / "1.md")
    assert first == slides.Question("How many faces has a die?", "6", "count them.", ("kuifje hyper die.kf | sed -n 3p",), "inners 6")
    assert (second.asked, second.answer, second.commands) == ("Is it fair?", "yes", ())


@pytest.mark.parametrize("old, new", [("**6**:", "6:"), ("**2.**", "**3.**"), ("</details>", ""), ("**yes**: 1/6 each.", "**yes**")])
def test_a_quiz_of_another_form_is_refused(tmp_path: Path, old: str, new: str) -> None:
    (tmp_path / "1.md").write_text(QUESTION.replace(old, new, 1))
    with pytest.raises(slides.SlideError):
        slides.quiz_of(tmp_path / "1.md")


def test_a_number_has_to_be_printed() -> None:
    assert slides.is_printed("1/3", "trace [true] weight 1/3")
    assert not slides.is_printed("1/3", "trace [true] weight 1/32") and not slides.is_printed("3", "")
    assert slides.is_printed("2/1", "inners 2") and slides.is_printed("yes", "")


def test_there_is_a_quiz_for_each_lesson() -> None:
    assert {int(path.stem) for path in QUIZZES} == set(slides.lessons_of(TOP / "docs" / "COURSE.md")) == set(range(1, 15))


@pytest.mark.parametrize("path", QUIZZES, ids=lambda path: f"lesson {path.stem}")
def test_each_quiz_has_ten_questions_whose_numbers_the_page_shows(path: Path) -> None:
    """What a page shows below a command is what the program prints: `.ci/pages` compares that."""
    quiz = slides.quiz_of(path)
    assert len(quiz) == 10
    assert [question.answer for question in quiz if not slides.is_printed(question.answer, question.printed)] == []
    for question in quiz:
        choices = re.findall(r"\(([abc])\)", question.asked)
        assert not choices or (choices == ["a", "b", "c"] and question.answer in choices)
        assert not question.asked.startswith("True or false") or question.answer in ("true", "false")


def test_sentences_with_numbers_are_left_out() -> None:
    text = "A **prior** is what is known. It sums to 1, the **sum**. In `x1` stands\nthe **name** of [it](there.md). Nothing is bold. Look **there**:"
    assert list(slides.bold_sentences(text)) == ["A **prior** is what is known.", "In `x1` stands the **name** of it.", "Look **there**."]
    assert slides.fact_of("**It stays.** So it is. And 2 is 2. The end.") == "**It stays.** So it is."
    assert slides.fact_of("**It bounds**: at 3.") == "**It bounds**"
    assert slides.fact_of("**At 1** it ends.") is None and slides.fact_of("It is **bold**.") is None


def test_a_command_goes_with_the_program_that_it_names() -> None:
    def fence(kind: str, text: str) -> str:
        return f"```{kind}\n{text}\n```\n\n"

    page = "## 1. One\n\n*Aim.*\n\nThe first, `a.kf`:\n\n" + fence("kuifje", "A;") + "and `b.kf`:\n\n" + fence("kuifje", "B;")
    page += fence("console", "$ kuifje hyper a.kf\ninners 1\n$ kuifje hyper b.kf\n$ kuifje refine c.kf d.kf")
    tokens = slides.sections_of(slides.parser.parse(page))[1][1]
    lesson = slides.lesson_of(1, "One", tokens)
    assert lesson.aim == "Aim."
    assert [(shown.name, shown.commands) for shown in lesson.programs] == [
        ("a.kf", ("kuifje hyper a.kf",)),
        ("b.kf", ("kuifje hyper b.kf", "kuifje refine c.kf d.kf")),
    ]


def test_long_lists_and_answers_are_spread() -> None:
    """Three items of 200 letters are two slides; 15 lines fit one column, and below 10 lines of a program they take three."""
    assert [slide.body.count("<li>") for slide in slides.pages_of_list("Words", ["x" * 200] * 3)] == [2, 1]
    assert [slide.body.count("<li>") for slide in slides.pages_of_list("Words", ["x" * 500, "y"])] == [1, 1]
    assert not list(slides.pages_of_list("Words", []))
    lines = "\n".join("abc"[i % 3] for i in range(15))
    assert "columns:1" in slides.answer_of("kuifje hyper a.kf", lines) and "columns:3" in slides.answer_of("kuifje hyper a.kf", lines, 10)
    assert ".. and 4 more lines" in slides.answer_of("kuifje hyper a.kf", "\n".join("x" * 40))


def test_every_number_on_the_slides_is_given_or_made(course: str) -> None:
    """The witness's hyper is worked out by hand in the second lesson."""
    page = Page(course)
    assert page.sections > 60 and not re.search(r"\d", page.prose)
    assert "inner 1 outer 7/12\n  0 6/7\n  1 1/7" in page.made and "multiplicative leakage" in page.prose.lower()


def test_the_slides_need_no_other_file(course: str) -> None:
    page = Page(course)
    assert page.loads and all(source.startswith("data:image/svg+xml;base64,") for source in page.loads)
    assert "url(" not in course and "<script" not in course and "@import" not in course


def browser(page: Path, *words: str) -> str:
    """What the browser prints of a page."""
    found = shutil.which("chromium")
    if found is None:
        pytest.skip("there is no chromium")
    options = ["--headless", "--no-sandbox", "--disable-gpu", "--virtual-time-budget=5000", f"--user-data-dir={page.parent / 'profile'}"]
    return subprocess.run([found, *options, *words, page.as_uri()], capture_output=True, text=True, timeout=300, check=True).stdout


def test_nothing_on_a_slide_is_cut_off(course: str, tmp_path: Path) -> None:
    """The script names the slides whose content is higher or wider than they are."""
    script = "<script>document.title = 'cut off: ' + [...document.querySelectorAll('section')].filter(s => s.scrollHeight > s.clientHeight + 1 || "
    script += "[...s.querySelectorAll('*')].some(e => e.getBoundingClientRect().right > s.getBoundingClientRect().right)).map(s => "
    script += "s.querySelector('footer').textContent + ' ' + s.querySelector('h2').textContent).join()</script>"
    (tmp_path / "slides.html").write_text(course + script)
    title = re.search(r"<title>(.*)</title>", browser(tmp_path / "slides.html", "--dump-dom"))
    assert title and title[1] == "cut off: "


def test_each_slide_is_a_page_in_print(tmp_path: Path) -> None:
    page = slides.page_of([slides.Slide("One", "<p>a</p>"), slides.Slide("Two", "<p>b</p>"), slides.Slide("Three", "")], "Three slides")
    (tmp_path / "slides.html").write_text(page)
    browser(tmp_path / "slides.html", f"--print-to-pdf={tmp_path / 'slides.pdf'}")
    assert len(re.findall(rb"/Type\s*/Page\b(?!s)", (tmp_path / "slides.pdf").read_bytes())) == 3


@needs_program
@pytest.mark.parametrize("words, said", [(["--lessons", "99"], "no lesson 99"), (["--lessons", "a"], "'a' isn't like 1,2,3")])
def test_what_cannot_be_built_ends_with_two(tmp_path: Path, capsys: pytest.CaptureFixture[str], words: list[str], said: str) -> None:
    with pytest.raises(SystemExit) as ended:
        slides.main([*words, "--program", str(PROGRAM), str(tmp_path / "out.html")])
    assert ended.value.code == 2 and said in capsys.readouterr().err and not (tmp_path / "out.html").exists()


def test_without_a_program_nothing_is_built(tmp_path: Path, capsys: pytest.CaptureFixture[str]) -> None:
    with pytest.raises(SystemExit) as ended:
        slides.main(["--program", str(tmp_path / "none"), str(tmp_path / "out.html")])
    assert ended.value.code == 2 and "build the program first" in capsys.readouterr().err


@needs_program
def test_a_question_shows_its_program_and_the_answer_what_is_printed(tmp_path: Path) -> None:
    quiz = [slides.Question("How many has [it](../witness.kf)?", "2", "so.", ("kuifje hyper course/witness.kf | sed -n 3p",), "inners 2")] * 10
    lesson = slides.Lesson(1, "One", "Aim.", (), (), ())
    _, question, answer, *_ = slides.slides_of(lesson, quiz, slides.Asker(PROGRAM, tmp_path))
    assert "How many has it?" in question.body and (TOP / "course" / "witness.kf").read_text().splitlines()[1] in question.body
    assert '<strong class="made">2</strong>' in answer.body and "inners 2" in answer.body and "inners 2" not in question.body


@needs_program
def test_an_answer_that_is_not_printed_stops_the_build(monkeypatch: pytest.MonkeyPatch, tmp_path: Path) -> None:
    wrong = [slides.Question("How many?", "7", "so.", ("kuifje hyper course/witness.kf | sed -n 3p",), "inners 7")] * 10
    lesson = slides.Lesson(1, "One", "Aim.", (), (), ())
    with pytest.raises(slides.SlideError, match="lesson 1, question 1: 7 isn't"):
        list(slides.slides_of(lesson, wrong, slides.Asker(PROGRAM, tmp_path)))
