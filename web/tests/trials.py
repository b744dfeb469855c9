"""What trials of the page share: what they expect, programs of the repository, and links with any state."""

from __future__ import annotations

from pathlib import Path

from selenium.webdriver.common.keys import Keys

from browser import Page

TOP = Path(__file__).resolve().parent.parent.parent
LONG = """var i : 0..1000 := 0;
var j : 0..1000 := 0;
var k : 0..1000 := 0;
while i < 1000 { j := 0; while j < 1000 { k := 0; while k < 1000 { k := k + 1; } j := j + 1; } i := i + 1; }
"""
# What the page says of verdicts about an old target of which every value is possible.
EVERY = "A yes holds for every prior on the secret; a no for every prior under which every value is possible."
# A link as it was made before it had a gain for lines, turns and files.
OLD: dict[str, object] = {"a": "var x : 0..1 := 0;", "b": None, "view": "hyper", "of": "a", "gain": None, "words": None, "page": None}


def example(name: str) -> str:
    return (TOP / name).read_text()


def expect(condition: object, what: str) -> None:
    if not condition:
        raise AssertionError(what)


def has(text: str, *words: str) -> None:
    for word in words:
        expect(word in text, f"{word!r} isn't in {text[:600]!r}")


def changed(state: dict[str, object], **parts: object) -> dict[str, object]:
    return {**state, **parts}


def state_link(page: Page, state: object) -> str:
    """A link with any state, made as the page makes it."""
    return str(page.driver.execute_async_script(
        """const [state, done] = arguments;
        new Response(new Blob([JSON.stringify(state)]).stream().pipeThrough(new CompressionStream("deflate-raw"))).arrayBuffer().then((it) =>
            done("#kf1." + btoa(String.fromCharCode(...new Uint8Array(it))).replace(/\\+/g, "-").replace(/\\//g, "_").replace(/=+$/, "")));""", state))


def link_of(page: Page) -> str:
    """Presses the button for a link, and gives what that has after the page's address."""
    page.script("document.getElementById('link-field').value = ''")
    page.find("#link-button").click()
    return str(page.wait(lambda: page.find("#link-field").get_attribute("value"), "a link"))[len(page.address):]


def put(page: Page, label: str, text: str) -> None:
    """Types a text in the place of what a field has, and goes on to the next one."""
    field = page.find(f"input[aria-label='{label}']")
    field.click()
    field.send_keys(Keys.CONTROL, "a")
    field.send_keys(Keys.BACKSPACE, text, Keys.TAB)


def ask_typed(page: Page, words: str) -> None:
    box = page.find("#words")
    box.clear()
    box.send_keys(words, Keys.ENTER)


def type_at_end(page: Page, text: str) -> None:
    page.script("""const it = document.querySelector('#editor-a .CodeMirror').CodeMirror; delete document.body.dataset.settled;
        it.replaceRange(arguments[0], { line: it.lastLine() + 1, ch: 0 });""", text)
    page.settle()
