"""Trials of what the page keeps: the text that is typed, gains as they are typed, links that restore what they were made of, and a page that
stays alive under long texts."""

from __future__ import annotations

import re
import time

from selenium.webdriver.common.keys import Keys

from browser import Page
from trials import EVERY, LONG, OLD, ask_typed, example, expect, has, link_of, put, state_link, type_at_end

# Whether trials take less.
quick = False
VIEWS = re.findall(r'name: "(\w+)", tab: "(\w+)"', example("web/src/questions.mjs"))


def takes_exact_gains(page: Page) -> None:
    """Of 0 to 3, each as likely, one sees whether it is 2. A right guess is worth 1, and a right guess of 0 what is typed. Whatever 0 is worth up
    to 1, another guess is as good: 1/4, and 1/4 + 1/4. Above 1 it is guessed: 5/2 times 1/4, and 1/4 more where 2 is seen."""
    page.open()
    page.view("leak")
    cell, label = "return document.querySelector(\"input[aria-label='gain of guess_0 at 0']\")", "gain of guess_0 at 0"
    small, large = "the table below\t1/4 = 0.25\t1/2 = 0.5\t2\t1/4", "the table below\t5/8 = 0.625\t7/8 = 0.875\t7/5 = 1.4\t1/4"
    for typed, row in (("1/2", small), ("5/2", large), ("0.5", small), ("2.5", large), ("-3", small)):
        put(page, label, typed)
        page.wait(lambda: row in page.answer(), f"the worth of {typed} in {page.answer()[:600]}", 10)
        expect(page.script(cell + ".value") == typed, f"{typed} became {page.script(cell + '.value')}")
        expect(page.script("return document.activeElement.getAttribute('aria-label')") == "gain of guess_0 at 1", "the focus is lost")
    put(page, "gain of guess_1 at 1", "1/3")
    put(page, label, "5/2")
    page.wait(lambda: "the table below\t5/8" in page.answer() and "divided by 6" in page.answer(), "halves and thirds", 10)
    for typed in ("abc", "") if quick else ("abc", "", "1/0", "1e3"):
        put(page, label, typed)
        page.wait(lambda: "the table below\tNo answer" in page.answer(), f"{typed!r}, which isn't taken", 10)
        expect(page.script(cell + ".getAttribute('aria-invalid')") == "true" and page.script(cell + ".value") == typed, f"{typed!r} isn't marked")
        has(page.answer(), "not taken")
        expect("5/8" not in page.answer(), f"beside {typed!r} stands the worth of another table")
    put(page, label, "9007199254740993")
    page.wait(lambda: "gain.json: Wide" in page.answer(), "a number that is too wide for the program", 10)
    # The table's file has each gain over 3, since another one is 1/3.
    has(str(page.script("return document.querySelector('.gain-editor textarea').value")), str(3 * 9007199254740993))
    forgets_what_is_not_taken(page, cell, label)


def forgets_what_is_not_taken(page: Page, cell: str, label: str) -> None:
    """What isn't taken isn't kept: another view and back, and the table is that of the answer. Another program has no table of the one before."""
    put(page, label, "5/2")
    page.wait(lambda: "the table below\t5/8" in page.answer(), "a table")
    put(page, label, "x")
    page.wait(lambda: "the table below\tNo answer" in page.answer(), "an x")
    page.view("hyper")
    page.view("leak")
    expect(page.script(cell + ".value") == "5/2", "the table that stands there is another one than that of the answer")
    has(page.answer(), "the table below\t5/8")
    page.press("Add an action")
    page.wait(lambda: page.driver.find_elements("css selector", "input[aria-label='gain of action_4 at 3']"), "another action")
    page.press("Start over")
    page.wait(lambda: "the table below\t1/4 = 0.25\t1/2" in page.answer() and page.script(cell + ".value") == "1", "the first table")
    page.choose("#open", "course/witness.kf")
    page.wait(lambda: page.text() == example("course/witness.kf"), "another program")
    page.settle()
    expect("the table below" not in page.answer(), "another program has the gain table of the one before")


def keeps_the_text(page: Page) -> None:
    """Neither the first key of the keyboard, nor an address that is none of the page, nor Back, loses what was typed."""
    page.open()
    type_at_end(page, "# mine\n")
    page.find(".skip").send_keys(Keys.ENTER)
    time.sleep(0.3)
    expect(page.script("return location.hash") == "", "the skip link changes the address")
    expect(page.script("return document.activeElement.id") == "answer", "the skip link leads elsewhere")
    for way in ("back", "link"):
        page.script("location.hash = '#nowhere'")
        page.wait(lambda: page.find("#message").is_displayed(), "a refusal of the address")
        expect(not page.find("main").is_displayed(), "a link that can't be read shows more than that")
        if way == "back":
            page.driver.back()
        else:
            page.find("#message a").click()
        page.wait(lambda: page.find("main").is_displayed() and page.find("header nav").is_displayed(), f"the page again, by {way}", 10)
        expect(not page.find("#message").is_displayed(), f"the refusal stays, by {way}")
        page.settle()
        expect(page.text().endswith("# mine\n"), f"the text is lost by {way}")
        has(page.answer(), "one of 2 posteriors")
    page.open("#answer")
    has(page.answer(), "one of 2 posteriors")


def goes_back(page: Page) -> None:
    """Back from a lesson leads to the page without one, and texts stay as they were typed; a link that is pasted is left by Back, too."""
    page.open()
    link_of(page)
    type_at_end(page, "# later\n")
    page.find("#course-button").click()
    next(it for it in page.wait(lambda: page.driver.find_elements("css selector", "#contents a"), "lessons") if it.text.startswith("2. ")).click()
    page.wait(lambda: page.find("#reader").is_displayed(), "a lesson")
    type_at_end(page, "# in the lesson\n")
    mine = page.text()
    page.driver.back()
    page.wait(lambda: not page.find("#reader").is_displayed(), "the page without a lesson", 10)
    page.settle()
    expect(page.text() == mine, "Back loses what was typed")
    page.driver.forward()
    page.wait(lambda: page.find("#reader").is_displayed(), "the lesson again", 10)
    page.find("#reader-close").click()
    page.wait(lambda: page.script("return location.hash") == "", "an address without the lesson", 10)
    page.script("location.hash = arguments[0]", state_link(page, OLD))
    page.wait(lambda: page.text() == OLD["a"], "the texts of a link that was pasted")
    page.driver.back()
    page.wait(lambda: page.text() == mine, "the texts before it", 10)
    page.settle()


def restores_each_view(page: Page) -> None:
    """A link that is made in a view opens that view, with its answer. (A unit test makes one for each view, too.)"""
    expect(len(VIEWS) == 9, f"the list of views has {VIEWS}")
    page.open()
    page.write(example("course/witness.kf"))
    page.click("#compare")
    made = []
    for view, tab in [it for it in VIEWS if not quick or it[0] in ("covers", "lines")]:
        page.view(tab)
        if view == "covers":
            page.press("About all variables, first and last (covers)")
            page.wait(lambda: "Here every variable is a secret" in page.answer(), "the question about all variables")
            page.settle()
        made.append((view, tab, page.answer(), link_of(page)))
    for view, tab, said, link in made:
        page.open()
        page.script("delete document.body.dataset.settled; location.hash = arguments[0]", link)
        page.settle()
        expect(not page.find("#message").is_displayed(), f"a link in the view {view} is refused")
        expect(page.find(f"#tab-{tab}").get_attribute("aria-selected") == "true", f"a link in the view {view} shows another tab")
        expect(page.answer() == said, f"a link in the view {view} has another answer: {page.answer()[:300]}")


def restores_turns(page: Page) -> None:
    """How many turns a loop may have is in a link, and in the words that are shown."""
    page.open()
    page.write("var i : 0..2000 := 0;\nwhile i < 2000 { i := i + 1; }\n")
    has(page.answer(), "refused: LoopBound")
    page.find("#settings-button").click()
    page.choose("#turns", "70000")
    page.wait(lambda: "1 to 65535 turns: it stays at 1024" in page.find("#status").text, "a number that isn't taken", 10)
    expect(page.find("#turns").get_attribute("value") == "1024", "a number of turns that the program doesn't take stands there")
    page.choose("#turns", "4096")
    page.wait(lambda: "There is one posterior" in page.answer(), "an answer after 2,000 turns")
    page.view("command")
    has(page.answer(), "$ kuifje hyper a.kf --turns 4096\n", "target i")
    page.open(link_of(page))
    has(page.answer(), "$ kuifje hyper a.kf --turns 4096\n", "target i")
    expect(page.find("#turns").get_attribute("value") == "4096", "the settings say otherwise")


def restores_commands(page: Page) -> None:
    """A gain table after `=`, a certificate that was kept, and the files of a page are read, and are in a link."""
    page.open()
    page.view("leak")
    put(page, "gain of guess_0 at 0", "5/2")
    page.wait(lambda: "the table below\t5/8" in page.answer(), "a table", 10)
    page.view("command")
    ask_typed(page, "leak a.kf --gain=table:gain.json")
    page.wait(lambda: "posterior 7/8" in page.answer(), "a table that is named after =", 10)
    ask_typed(page, "kuifje hyper a.kf")
    page.wait(lambda: "$ kuifje hyper a.kf\n" in page.answer(), "a command that is typed in full", 10)
    page.write(example("examples/pin.kf"))
    page.click("#compare")
    page.write(example("examples/pin_whole.kf"), "b")
    page.press("Keep the certificate")
    page.wait(lambda: "Kept certificate-A-B.json" in page.find("#status").text, "a certificate")
    page.view("command")
    ask_typed(page, "check certificate-A-B.json a.kf b.kf")
    page.wait(lambda: "accepted" in page.answer(), "a certificate that is accepted")
    page.open(link_of(page))
    has(page.answer(), "accepted", "came with a link: certificate-A-B.json")
    page.open("#page/REFINEMENT")
    page.view("command")
    ask_typed(page, "refine skewed.kf skewed_whole.kf")
    page.wait(lambda: "refines yes" in page.answer(), "files of a page")
    page.open(link_of(page))
    has(page.answer(), "refines yes")
    expect(page.find("#reader").is_displayed(), "a link doesn't carry the page that is open")


def says_for_which_priors(page: Page) -> None:
    """A pad hides a bit from everybody, for every prior on the bit; with the key as a secret, too, it doesn't."""
    pad = "var bit : 0..{} := uniform 0..1;\nvar key : 0..1 := uniform 0..1;\nabout old bit;\n{}"
    page.open()
    page.write(pad.format(1, "skip;\n"))
    page.click("#compare")
    page.write(pad.format(1, "observe (bit + key) mod 2;\n"), "b")
    has(page.answer(), "B leaks no more than A? Yes", EVERY)
    page.press("About all variables, first and last (covers)")
    page.wait(lambda: "B leaks no more than A? No" in page.answer(), "the verdict with the key as a secret")
    has(page.answer(), "keys, coins and counters too")
    page.press("About the secret")
    page.wait(lambda: EVERY in page.answer(), "the verdict for the secret")
    expect(page.script("return document.activeElement.textContent") == "About the secret", "the focus is lost")
    page.write(pad.format(3, "skip;\n"))
    page.write(pad.format(3, "observe (bit + key) mod 2;\n"), "b")
    has(page.answer(), "B leaks no more than A? Yes", "2 of the 4 values of the secret are possible", "for every prior under which no others are")
    expect(EVERY not in page.answer(), "a prior that makes two of four values possible is said to be every one")


# A paste, and how long the page's own thread is then busy without a break.
PASTE = """
const [text, done] = arguments;
window.longest = 0;
new PerformanceObserver((list) => list.getEntries().forEach((it) => { window.longest = Math.max(window.longest, it.duration); })).observe({ entryTypes: ["longtask"] });
const editor = document.querySelector("#editor-a .CodeMirror").CodeMirror;
editor.focus();
editor.execCommand("selectAll");
const data = new DataTransfer();
data.setData("text/plain", text);
delete document.body.dataset.settled;
document.activeElement.dispatchEvent(new ClipboardEvent("paste", { clipboardData: data, bubbles: true, cancelable: true }));
requestAnimationFrame(() => setTimeout(() => done(editor.getValue() === text)));
"""
# How many milliseconds it may be, on a machine that does other things, too.
BUSY = 1000


def bears_long_texts(page: Page) -> None:
    """A paste of 1 MB, a line of 300,000 letters and thousands of statements leave the page alive, and refusals come."""
    note = "return getComputedStyle(document.querySelector('#editor-a > .note')).display !== 'none'"
    bit = "var x : 0..1 := uniform 0..1;\n"
    cases = [
        ("80 columns", ("abcdefghi " * 8 + "\n") * 12500, "Program A is refused: Syntax", True),
        ("one line", "x" * 300000, "Program A is refused: Syntax", True),
        ("a comment", bit + ("# " + "comment " * 9 + "\n") * 13000, "There is one posterior", True),
        ("2,500 observations", bit + "observe x;\n" * 2500, "one of 2 posteriors", False),
    ]
    for name, text, answer, is_long in cases:
        page.open()
        expect(page.driver.execute_async_script(PASTE, text), f"{name}: the text isn't that of the paste")
        page.settle()
        page.wait(lambda: answer in page.answer(), f"{name}: {answer} in {page.answer()[:200]}")
        page.wait(lambda: not page.find("#stop").is_displayed(), f"{name}: the margin")
        longest = page.script("return Math.round(window.longest)")
        print(f"    {name}: the page's thread is busy for {longest} ms at most")
        expect(longest < BUSY, f"{name}: the page's thread is busy for {longest} ms")
        expect(page.script(note) == is_long, f"{name}: the page says the wrong thing of its length")
        expect(page.script("return document.querySelectorAll('#editor-a .CodeMirror-line').length") < 500, f"{name}: all lines are in the page")
    page.write(bit)
    expect(not page.script(note), "a short text is said to be long")


def stops_long_texts(page: Page) -> None:
    """The run of a long text can be stopped."""
    page.open()
    page.driver.execute_async_script(PASTE, "# long\n" * 100000 + LONG)
    page.wait(lambda: page.find("#stop").is_displayed(), "a run of a long text", 10)
    page.find("#stop").click()
    page.wait(lambda: "The run was stopped before it had an answer" in page.answer(), "a run that is stopped", 10)


def shows_its_age(page: Page) -> None:
    """While a run goes on, the sentence about the target is as dim as the old answer."""
    page.open()
    shade = "return Number(getComputedStyle(document.getElementById('target')).opacity)"
    expect(page.script(shade) == 1, "what is answered is dim")
    page.script("document.querySelector('#editor-a .CodeMirror').CodeMirror.setValue(arguments[0])", LONG)
    page.wait(lambda: page.find("#status").text.startswith("Running hyper: "), "a run")
    expect(page.script(shade) < 0.7, "an old sentence stands in full colour beside another text")
    page.find("#stop").click()
    page.wait(lambda: "The run was stopped" in page.answer(), "a run that is stopped")


def survives_a_reload(page: Page) -> None:
    """A reload finds texts and question as they were, also under the address of a link; somebody who opens the page anew finds its own text."""
    page.open()
    first = page.text()
    for start in ("", state_link(page, OLD), "#lesson/2"):
        page.open(start)
        type_at_end(page, "# mine\n")
        page.view("leak")
        mine = page.text()
        page.driver.refresh()
        page.settle()
        expect(page.text() == mine and mine.endswith("# mine\n"), f"a reload of {start[:20]!r} loses the text")
        expect(page.find("#tab-leak").get_attribute("aria-selected") == "true", f"a reload of {start[:20]!r} loses the question")
        expect(page.find("#reader").is_displayed() == start.startswith("#lesson"), f"a reload of {start[:20]!r} loses the lesson")
    page.open()
    expect(page.text() == first, "a page that is opened anew has an older text")


TRIALS = [
    takes_exact_gains, survives_a_reload, keeps_the_text, goes_back, restores_each_view, restores_turns, restores_commands, says_for_which_priors, bears_long_texts,
    stops_long_texts, shows_its_age,
]
