"""Reports: what stands in them, and that they need no other file; they are opened in a browser where one is there."""

import importlib.util
import re
import shutil
import subprocess
from html.parser import HTMLParser
from pathlib import Path

import pytest

pytest.importorskip("jinja2")
pytest.importorskip("matplotlib")

from kuifje import Engine, Program  # noqa: E402
from kuifje.reports import report  # noqa: E402

EXAMPLES = Path(__file__).resolve().parents[2] / "examples"
pytestmark = pytest.mark.usefixtures("built")
WORDS = ("prior vulnerability", "posterior vulnerability", "multiplicative leakage", "additive leakage")


DOOR = """from kuifje.model import Secret, model, observe, uniform
@model
def early(pin: Secret = [uniform(range(3))] * 2):
    for i in range(2):
        if pin[i] != 0:
            observe(False)
            break
    else:
        observe(True)
"""


def model_of(path, name):
    spec = importlib.util.spec_from_file_location(path.stem, path)
    module = importlib.util.module_from_spec(spec)
    spec.loader.exec_module(module)
    return getattr(module, name)


class Page(HTMLParser):
    """The rows of tables, the images, and all that a page would load."""

    def __init__(self, text):
        super().__init__()
        self.rows, self.images, self.loads, self.text, self.in_cell = [], [], [], "", False
        self.feed(text)

    def handle_starttag(self, tag, attrs):
        attributes = dict(attrs)
        if tag == "tr":
            self.rows.append([])
        if tag in ("td", "th"):
            self.rows[-1].append("")
            self.in_cell = True
        if tag == "img":
            self.images.append(attributes["alt"])
        self.loads += [value for name, value in attrs if name in ("src", "href")]

    def handle_endtag(self, tag):
        self.in_cell = self.in_cell and tag not in ("td", "th")

    def handle_data(self, data):
        self.text += data
        if self.in_cell:
            self.rows[-1][-1] += data


@pytest.fixture(scope="module")
def pins():
    return report([Program.from_file(EXAMPLES / name) for name in ("pin.kf", "pin_whole.kf")], title="Two <PINs>")


def test_a_report_by_hand(pins):
    """The PIN until its first difference shows 1 guess in 3, as a whole 2 in 9; without the `if` 2/9 are lost, without the observation in it 1/9."""
    page = Page(pins)
    for rows in (["1/9 (0.1111)", "1/3 (0.3333)", "3", "2/9 (0.2222)"], ["1/9 (0.1111)", "2/9 (0.2222)", "2", "1/9 (0.1111)"]):
        at = [i for i, row in enumerate(page.rows) if row[:2] == ["prior vulnerability", rows[0]] and page.rows[i + 1][1] == rows[1]]
        assert [row[:2] for row in page.rows[at[0] : at[0] + 4]] == [[name, value] for name, value in zip(WORDS, rows)]
    assert ["multiplicative leakage", "3", "1.585"] in page.rows and ["multiplicative leakage", "2", "1.000"] in page.rows
    assert ["posterior guessing entropy", "25/9 (2.778)"] in page.rows
    assert ["5", "−2/9 (0.2222), −1/9 (0.1111) ▮▮▮▮", "if first = 1 { observe second = 1; } else { skip; }"] in page.rows
    assert (
        "up to 1/18 (0.05556) less" in page.text
        and "up to 2/9 (0.2222) less, the most" in page.text
        and "0: worth nothing to this adversary" in page.text
    )
    assert ["1", "1/9 (0.1111)", "(1, 1)", "1"] in page.rows
    assert "its Bayes capacity is 3" in page.text and "its Bayes capacity is 2" in page.text
    assert ["pin", "yes", "yes"] in page.rows and ["pin_whole", "no", "yes"] in page.rows and "pin_whole leaks less than pin" in page.text
    assert "What an observer learns about first and second, as they were before the first statement" in page.text
    assert ["least ratio e^ε of local differential privacy", "infinite"] in page.rows and "Warning" not in page.text
    assert page.text.count("computed here, not proved") == 5 and "Two <PINs>" in page.text
    assert "├─ false: guess (0, 0) (value 1/6, probability 2/3)" in page.text and "true: guess (1, 1) (value 1, probability 1/9)" in page.text


def test_the_summary_by_hand(pins):
    """Without the `if` only nothing is shown: 1/9. One guess is surest where the door opens, with probability 1/9: then it is certain."""
    text = " ".join(Page(pins).text.split())
    assert "About old first, old second." in text
    assert "before (prior vulnerability), and 1/3 (0.3333) after (posterior vulnerability): multiplicative leakage 3, which is 1.585 bits" in text
    assert "Worst line line 5 (if first = 1 { observe second = 1; } else { skip; }): if it showed nothing, one guess would be right with" in text
    assert (
        "with probability 1/9 (0.1111). Best guess at its surest, which comes with probability 1/9 (0.1111), is (1, 1), right with probability 1."
        in text
    )
    assert text.index("Worst line") < text.index("Vulnerabilities and leakages")


def test_the_printed_bytes_are_there(pins):
    """Also as the program prints them: `examples/pin.kf` in the README of the gallery's study."""
    assert "<pre>gain bayes\nprior 1/9\nposterior 1/3\nquotient 3\ndifference 2/9</pre>" in pins
    assert "<pre>target old first, old second\nscale 9\ninners 3\n" in pins and "As the program prints it" in pins


def test_long_tables_are_folded_and_short_ones_not(pins):
    """A number from 0 to 19 that is shown has 20 rows; the PIN's hyper has 9."""
    long = Program("var x : 0..19 := uniform 0..19;\nabout old x;\nobserve x;\n", name="long.kf")
    assert "<details><summary>20 rows</summary><table>" in report([long]) and " rows</summary>" not in pins


def test_nothing_leaks_to_one_guess():
    silent = Program("var x : 0..1 := choose { 0 : 3, 1 : 1 };\nabout old x;\nobserve choose { x : 3, 1 - x : 1 };\n", name="rare.kf")
    text = " ".join(Page(report([silent])).text.split())
    assert "is right with probability 3/4 (0.75) before and after: to one guess nothing leaks." in text and "Worst line none: to one guess" in text


def test_a_model_is_shown_in_python(tmp_path):
    """Each line of Python has what is lost without it: the guard in line 5 begins two statements of the text, whose silence loses 2/9 and 1/9."""
    (tmp_path / "door.py").write_text(DOOR)
    page = Page(report([model_of(tmp_path / "door.py", "early").program()]))
    assert ["5", "−2/9 (0.2222), −1/9 (0.1111) ▮▮▮▮", "        if pin[i] != 0:"] in page.rows
    assert ["2", "", "@model"] in page.rows and ["9", "0 ▯▯▯▯", "        observe(True)"] in page.rows
    assert "line 5 of door.py (if pin[i] != 0:): if it showed nothing" in " ".join(page.text.split())
    assert "The model as a text in the language" in page.text and any(row[-1:] == ["if pin_0 != 0 {  # 5"] for row in page.rows)


def test_a_report_needs_no_other_file(pins):
    page = Page(pins)
    assert len(page.images) == 7 and all(source.startswith("data:image/svg+xml;base64,") for source in page.loads)
    assert "url(" not in pins and "<script" not in pins and "@import" not in pins


def test_what_gets_no_answer_is_reported():
    bad = Program("var x : 0..3 := uniform 0..3;\nobserve x @ 2; # <b>\n", name="bad.kf")
    left = Program("var x : 0..2 := uniform 0..2;\nx := x mod 2;\n", name="left.kf")
    two = Program("var x : 0..1 := uniform 0..1;\nabout old x;\nobserve choose { x : 3, 1 - x : 1 };\n", name="two.kf")
    page = Page(report([bad, left, two]))
    assert "The program is refused:" in page.text and "# <b>" in page.text
    assert "Warning: no item of the target is old" in page.text and re.search("There is no answer: .*target is not initial", page.text)
    assert ["least ratio e^ε of local differential privacy", "3"] in page.rows and [
        "least ε of local differential privacy",
        "1.09861228867",
    ] in page.rows
    assert "Bayes vulnerability over the prior" in page.images and "The posteriors in a triangle" in page.images and "Compared" not in page.text


def test_an_order_that_gets_no_answer_is_reported():
    programs = [Program(f"var {x} : 0..1 := uniform 0..1;\nabout old {x};\nobserve {x};\n", name=f"{x}.kf") for x in "xy"]
    assert "isn't known" in Page(report(programs)).text
    page = Page(report([Program("skip;", name="p.kf", engine=Engine(timeout=0.0))]))
    assert "The program is refused:" in page.text and "longer than it may" in page.text


def test_a_report_is_drawn_by_a_browser(pins, tmp_path):
    """All images have a size, so the browser took them as pictures."""
    browser = shutil.which("chromium")
    if browser is None:
        pytest.skip("there is no chromium")
    script = "<script>document.title = [...document.images].map(i => i.naturalWidth > 100).join()</script>"
    (tmp_path / "report.html").write_text(pins + script)
    words = [
        browser,
        "--headless",
        "--no-sandbox",
        "--disable-gpu",
        "--virtual-time-budget=5000",
        f"--user-data-dir={tmp_path / 'profile'}",
        "--dump-dom",
    ]
    done = subprocess.run([*words, (tmp_path / "report.html").as_uri()], capture_output=True, text=True, timeout=300, check=True)
    assert re.search(r"<title>(.*)</title>", done.stdout)[1] == ",".join(["true"] * 7)
