#!/usr/bin/env python3
"""Tries the page in a real browser. With --quick it takes less of some trials and leaves out every program under every command, and after
100 seconds it begins no further trial, and names what it left out.

    web/tests/page.py [--quick] [--program PROGRAM] [--page FOLDER]

Ends with 1 where something fails. Numbers that are expected are those of the pages, worked out there by hand, or what the built program prints."""

from __future__ import annotations

import argparse
import base64
import gzip
import hashlib
import json
import os
import re
import subprocess
import sys
import tempfile
import time
import traceback
from collections.abc import Callable
from pathlib import Path

from selenium.webdriver.common.action_chains import ActionChains
from selenium.webdriver.common.keys import Keys

import commands
import keeping
import lecture
import seeing
from browser import Page, Server, chromium
from commands import Command
from trials import EVERY, LONG, OLD, TOP, changed, example, expect, has, put, state_link

LARGEST = 1_500_000
# How long the quick trials may take before no further one is begun.
SECONDS = 100
WIDE = """var x : 0..1 := uniform 0..1;
var n : 0..40 := 22;
about old x;
while n > 0 { observe choose { x : 3, 1 - x : 1 }; n := n - 1; }
"""
MARKUP = "<img src=x onerror=\"window.hacked=1\"><script>window.hacked=1</script>"
TRAP = """(module (memory (export "memory") 1)
  (func (export "host_bound") (param i64))
  (func (export "host_take") (param i64) (result i64) (i64.const 1024))
  (func (export "kuifje_run") (param i64 i64 i64 i64 i64 i64 i64 i64 i64 i64 i64) (result i32) (unreachable)))
"""


# What is on the page.


def answers_at_once(page: Page) -> None:
    """The first example's hyper is there within a second, in the best of three loads."""
    times = []
    for _ in range(3):
        page.open()
        times.append(int(page.script("return document.body.dataset.first")))
        has(page.answer(), "one of 2 posteriors", "3/4", "1/3")
    print(f"    first answer after {', '.join(map(str, times))} ms")
    if os.getloadavg()[0] > (os.cpu_count() or 1):
        print("    the machine is busy with other things, so this isn't judged")
    else:
        expect(min(times) < 1000, f"the first answer came after {min(times)} ms")


def is_small(page: Page) -> None:
    folder = Path(page.script("return ''") or FOLDER)
    length = sum(len(gzip.compress(it.read_bytes(), 9)) for it in folder.rglob("*") if it.is_file())
    print(f"    {length} bytes compressed, licences and both modules counted")
    expect(length < LARGEST, f"the page has {length} bytes compressed")


def shows_views(page: Page) -> None:
    """The numbers of README.md and docs/COURSE.md stand in the views."""
    page.open()
    page.view("channel")
    has(page.answer(), "Bayes capacity 2", "[false]", "[true]")
    page.view("leak")
    has(page.answer(), "one guess (bayes)\t1/4 = 0.25\t1/2 = 0.5\t2\t1/4 = 0.25")
    page.view("lines")
    has(page.answer(), "right with probability 1/2", "if h = 2 { y := 1; } else { y := 0; }", "1/4")
    expect(page.find(".blamed").text == "−1/4", "the margin doesn't say what the line leaks")
    page.write(example("examples/randomised_response/ten.kf"))
    page.wait(lambda: [it.text for it in page.driver.find_elements("css selector", ".blamed")] == ["11→10"] * 10, "a margin with inners")
    page.write(example("course/witness.kf"))
    page.view("traces")
    has(page.answer(), "7/12", "1/2", "1/12", "5/12", "1/6", "1/4")
    page.view("hyper")
    has(page.answer(), "2/5", "3/5", "6/7", "1/7")
    expect(len(page.driver.find_elements("css selector", "#answer svg .box")) == 6, "the picture of two inners and the prior has other boxes than six")


def colours_lines(page: Page) -> None:
    """The numbers of examples/password stand beside their lines, and the darkest line is the one without which most is lost."""
    page.open()
    page.write(example("examples/password/loop.kf"))
    page.view("lines")
    has(page.answer(), "right with probability 4/27", "0: worth nothing beside the others", "It may show something all the same: alone, together with others", "up to 1/54", "up to 2/27", "8:1", "9:3", "11:1")
    rows = """return [...document.querySelectorAll('.listing tbody tr')].map((row) => [row.className,
        [...row.querySelectorAll('.lost .number')].map((it) => it.firstChild.textContent).join()])"""
    plain = [["", ""]]
    wanted = [*plain * 7, ["leak-4", "2/27"], ["leak-0", "0"], *plain, ["leak-0", "0"]]
    expect(page.script(rows) == wanted, f"the lines have {page.script(rows)}")
    marks = "return [...document.querySelectorAll('.blamed, .unblamed')].map((it) => it.textContent)"
    page.wait(lambda: page.script(marks) == ["−2/27", "0", "0"], "the margin of the loop")
    expect(len(page.driver.find_elements("css selector", ".leak-line-4")) == 1, "the editor colours another line")
    page.write(example("examples/pin.kf"))
    page.wait(lambda: page.script(rows)[4] == ["leak-4", "2/9,1/9"], "two statements in one line")
    statements = page.script("""const table = [...document.querySelectorAll("#answer table")].find((it) => it.caption.textContent === "Which statement leaks");
        return [...table.querySelectorAll("code")].map((it) => it.textContent)""")
    expect(statements == ["if first = 1 { observe second = 1; } else { skip; }", "observe second = 1;"], f"statements are cut as {statements}")
    page.write(example("examples/password/loop.kf"))
    # Classes of 18, 6, 2 and 1 passwords take 196/27 guesses, classes of 26 and 1 take 352/27.
    page.choose("#measure", "guessing")
    page.wait(lambda: "more guesses" in page.answer() and page.script(rows)[7] == ["leak-4", "52/9"], "guesses")
    page.wait(lambda: page.script(marks)[0] == "+52/9", "guesses in the margin")
    page.find("#link-button").click()
    link = page.wait(lambda: page.find("#link-field").get_attribute("value"), "a link")
    page.open(link[len(page.address):])
    expect(page.find("#measure").get_attribute("value") == "guessing", "a link has another gain")
    page.write(example("course/witness.kf"))
    page.view("leak")
    page.choose(".gain-editor textarea", example("course/bet.json"))
    page.settle()
    page.view("lines")
    page.choose("#measure", "table")
    page.wait(lambda: "under the gain table is 1/3" in page.answer() and page.script(rows)[3] == ["leak-4", "1/3"], "the bet of lesson 3")


def says_what_is_asked(page: Page) -> None:
    page.open()
    target = page.find("#target")
    has(target.text, "what h was before the statements")
    expect("No item is old" not in target.text, "a question about old h is warned of")
    page.write(example("examples/erased.kf"))
    has(target.text, "what pin is after the last line", "No item is old", "about old pin;")
    page.write(example("examples/pin.kf"))
    has(target.text, "what first and second were before the statements")


def shows_a_refusal_at_its_place(page: Page) -> None:
    page.open()
    page.write("# é\nvar x : 0..3 := uniform 0..3;\nobserve x == 1;\n")
    has(page.answer(), "Program A is refused: Syntax", "kuifje: a.kf:3:12: Syntax", "the first token with which no program can go on")
    has(page.find(".refusal-note").text, "Syntax", "The slip is often before it")
    expect(page.find(".refused").text == "=", "another place is marked")
    expect(page.find(".refusal-note").text.count("Syntax") == 1, "a note repeats its word")
    page.press("What causes it, and how it is mended")
    page.wait(lambda: "reported at" in page.find("#reader-text").text, "the page on refusals")
    page.write("var x : 0..3 := uniform 0..3;\nobserve x = 1;\n")
    expect(not page.driver.find_elements("css selector", ".refused, .refusal-note"), "a refusal stays after it was mended")
    page.write("var x : 0..3 := uniform 0..3;\nobserve z;\n")
    expect(page.find(".refusal-note").text.count("Unknown") == 1, f"a note repeats its word: {page.find('.refusal-note').text}")
    page.write("var x : 0..3 := uniform 0..3;\nx := x + 1;\n")
    has(page.answer(), "OutOfRange", "a value isn't of the variable's type")


def compares_two_texts(page: Page) -> None:
    page.open()
    page.write(example("examples/pin.kf"))
    page.click("#compare")
    page.write(example("examples/pin_whole.kf"), "b")
    has(page.answer(), "B refines A: B leaks no more than A to any adversary", "A 0\t1\t0", "A 1\t1\t0", "A 2\t0\t1", "A leaks no more than B? No", "after B it expects", "after A")
    expect(page.driver.find_elements("css selector", "#answer svg .band"), "there is no picture of the matrix")
    has(page.answer(), EVERY)
    page.press("About all variables, first and last (covers)")
    page.wait(lambda: "whatever the prior" in page.answer(), "the verdict for all variables")
    has(page.answer(), "Here every variable is a secret")
    expect(EVERY not in page.answer(), "what is said of secrets is said of all variables")
    page.press("About the secret")
    page.wait(lambda: "to any adversary, whatever it gains. To some" in page.answer(), "the verdict for the secret")
    page.press("Keep the certificate")
    page.wait(lambda: "Kept certificate-A-B.json" in page.find("#status").text, "a certificate")
    page.view("command")
    box = page.find("#words")
    box.clear()
    box.send_keys("check certificate-A-B.json a.kf b.kf", Keys.ENTER)
    page.wait(lambda: "accepted" in page.answer(), "a certificate that is accepted")
    page.write("var x : 0..2 := uniform 0..2;\nobserve x = 0;\n")
    page.write("var x : 0..2 := uniform 0..2;\nobserve x = 1;\n", "b")
    page.view("refine")
    has(page.answer(), "Neither is safer for everybody", "b0\t3\t0\t3", "b1\t3\t3\t0", "after A it expects 2, after B 3", "for the priors that the texts declare, and for no others")
    expect("The priors of" not in page.answer(), "the page says of equal priors that they differ")
    page.write("var x : 0..2 := choose { 0 : 1, 1 : 2 };\nobserve x = 1;\n", "b")
    has(page.answer(), "The priors of x differ, so there is no yes: 1 has the probability 1/3", "in A, and 2/3", "in B.")
    page.write("var x : 0..2 := uniform 0..1;\nobserve x = 1;\n", "b")
    has(page.answer(), "so there is no yes: 0 has the probability 1/3", "in A, and 1/2", "in B.")


def edits_gains(page: Page) -> None:
    """The bet of lesson 3 is worth nothing before and 1/3 after; its table is edited in place."""
    page.open()
    page.write(example("course/witness.kf"))
    page.view("leak")
    page.choose(".gain-editor textarea", example("course/bet.json"))
    page.settle()
    page.wait(lambda: "the table below\t0\t1/3" in page.answer(), "what the bet is worth")
    put(page, "gain of pass at 0", "1")
    page.wait(lambda: "the table below\t2/3" in page.answer(), "what the changed bet is worth")


def cuts_what_is_large(page: Page) -> None:
    """More than 200 inners or columns make no picture: a table shows the first ones."""
    page.open()
    page.write("var x : 0..299 := uniform 0..299;\nabout old x;\nobserve x;\n")
    has(page.answer(), "There are 300 inners, too many for a picture")
    rows = "return document.querySelectorAll('#answer tbody tr').length"
    expect(page.script(rows) == 200, f"the table of inners has {page.script(rows)} rows")
    page.view("channel")
    has(page.answer(), "There are 300 columns, too many for a picture", "Bayes capacity 300")
    expect(not page.driver.find_elements("css selector", "#answer svg"), "a channel of 300 columns has a picture")
    page.view("traces")
    has(page.answer(), "An observer sees one of 300 traces", "There are 300 traces, too many for a picture")


def close_when_kept(page: Page, server: Server) -> None:
    """Closes a server once the browser has the page's files, for which it asks after the first answer."""
    page.driver.execute_async_script("const done = arguments[0]; navigator.serviceWorker.ready.then(() => done(true))")
    server.close()


# Runs that don't come to an answer.


def is_stopped(page: Page) -> None:
    page.open()
    page.script("document.querySelector('#editor-a .CodeMirror').CodeMirror.setValue(arguments[0])", LONG)
    page.wait(lambda: page.find("#status").text.startswith("Running hyper: "), "a run")
    first = page.find("#status").text
    page.wait(lambda: page.find("#status").text not in ("", first), "a clock that goes on")
    page.find("#stop").click()
    page.wait(lambda: "The run was stopped before it had an answer" in page.answer(), "a run that is stopped")
    expect(not page.find("#stop").is_displayed(), "a run that is over can be stopped")
    page.write(example("examples/guard.kf"))
    has(page.answer(), "one of 2 posteriors")


def wants_memory(page: Page) -> None:
    page.open()
    page.choose("#megabytes", "32")
    page.write(WIDE)
    page.click("#tab-traces")
    page.wait(lambda: "Want of memory" in page.answer(), "want of memory", 60)
    has(page.answer(), "32 MB", "That is no answer")
    page.write(example("examples/guard.kf"))
    has(page.answer(), "[false]")
    page.choose("#megabytes", "1024")


def tells_a_trap(page: Page) -> None:
    """A module that traps, in the place of both: the page says so, and gives no answer."""
    with tempfile.TemporaryDirectory() as scratch:
        text, made = Path(scratch) / "trap.wat", Path(scratch) / "trap.wasm"
        text.write_text(TRAP)
        subprocess.run(["wasm-as", text, "-o", made], check=True)
        server = Server(FOLDER, {"kuifje64.wasm": made.read_bytes(), "kuifje32.wasm": made.read_bytes()})
        other = Page(page.driver, server.address)
        other.open()
        has(other.answer(), "A trap", "The engine of the browser ended the run", "unreachable", "That is no answer")
        expect("inner" not in other.answer(), "a trap has an answer")
        close_when_kept(page, server)


def takes_both_modules(page: Page) -> None:
    page.open()
    given = page.answer()
    for kind in (32, 64):
        page.choose("#kind", str(kind))
        page.wait(lambda: page.script("return kuifje.kind()") == kind, f"the module with {kind} bits")
        page.settle()
        expect(page.answer() == given, f"the module with {kind} bits has another answer")
    server = Server(FOLDER, plain=True)
    other = Page(page.driver, server.address)
    other.open()
    expect(other.answer() == given, "a server that doesn't know what a module is has another answer")
    close_when_kept(page, server)


# Links, and texts that mean no good.


def keeps_a_link(page: Page) -> None:
    page.open()
    page.write(example("examples/pin.kf"))
    page.click("#compare")
    page.write(example("examples/pin_whole.kf"), "b")
    page.find("#link-button").click()
    link = page.wait(lambda: page.find("#link-field").get_attribute("value"), "a link")
    expect(link.startswith(page.address + "#kf1."), link)
    said = page.answer()
    page.open(link[len(page.address):])
    expect(page.text() == example("examples/pin.kf") and page.text("b") == example("examples/pin_whole.kf"), "a link has other texts")
    expect(page.answer() == said, "a link has another answer")
    page.open(state_link(page, OLD))
    has(page.answer(), "There is one posterior")
    page.open("#lesson/2")
    has(page.find("#reader-text").text, "2. Hyper-distributions", "witness")


def refuses_links(page: Page) -> None:
    """A link that can't be read says so, and shows nothing else."""
    page.open()
    parts: list[tuple[str, object]] = [("view", MARKUP), ("view", "__proto__"), ("a", 5), ("of", "b"), ("more", 1), ("page", "../x"), ("a", "x" * (5 << 20)),
                                       ("measure", MARKUP), ("measure", "table")]
    odd: list[object] = [{}, [], None, "x", *(changed(OLD, **{name: part}) for name, part in parts)]
    links = ["#kf1.", "#kf1.AAAA", "#kf1.%3Cscript%3E", "#kf2.abc", "#x", "#<img src=x onerror=window.hacked=1>", "#lesson/99", "#study/nothing", "#page/__proto__", "#study/constructor",
             *(state_link(page, it) for it in odd)]
    for link in links[::3] if QUICK else links:
        page.open(link)
        expect(page.find("#message").is_displayed(), f"{link[:60]} is read")
        has(page.find("#message").text, "This link can't be read", "Nothing of it is shown")
        expect(not page.find("main").is_displayed() and not page.find("header nav").is_displayed(), f"{link[:60]} shows more than that")
        expect(page.script("return window.hacked === undefined"), f"{link[:60]} ran")
    page.find("#message a").click()
    page.wait(lambda: page.script("return document.readyState === 'complete' && document.body.dataset.settled"), "a page that begins anew")
    has(page.answer(), "one of 2 posteriors")


def takes_no_markup(page: Page) -> None:
    """Markup in a program, a table, a command and a link is a text like any other."""
    page.open()
    table = json.dumps({"actions": [{"gains": [[MARKUP, 1]], "name": MARKUP}], "format": "kuifje-gain-1", "over": 1, "rest": 0})
    state: dict[str, object] = {"a": f"# {MARKUP}\nvar x : 0..1 := uniform 0..1;\nobserve x {MARKUP};\n", "b": MARKUP, "view": "leak", "of": "a", "gain": table, "words": f"hyper {MARKUP}", "page": None}
    for view in ("leak", "command") if QUICK else ("hyper", "leak", "refine", "command", "lines"):
        page.open(state_link(page, changed(state, view=view)))
        time.sleep(0.2)
        check_clean(page)
    page.open(state_link(page, changed(state, a=example("course/witness.kf"), b=example("course/witness.kf"), view="leak")))
    check_clean(page)
    page.view("command")
    has(page.answer(), MARKUP)
    check_clean(page)
    # The policy itself: neither text nor an element made by a script of the page's own may run one.
    expect(page.script("""try { document.body.insertAdjacentHTML("beforeend", "<b>x</b>"); return false; } catch (error) { return true; }"""), "markup may be inserted")
    page.script("""const it = document.createElement("script"); try { it.text = "window.hacked = 1"; document.body.append(it); } catch (error) { it.remove(); }""")
    expect(page.script("return window.hacked === undefined"), "a script that was inserted ran")
    page.log()


def check_clean(page: Page) -> None:
    expect(page.script("return window.hacked === undefined && document.querySelectorAll('body script, body img, iframe, object, [onerror]').length === 0"), "markup became elements")


def fetches_nothing_else(page: Page) -> None:
    """All that is fetched is the page's own; what is kept are its files and, in this tab, what is asked. About says so, and which module runs."""
    page.open()
    page.open("#lesson/3")
    page.find("#about-button").click()
    page.wait(lambda: "Libraries" in page.find("#about").text, "what the page says of itself")
    has(page.find("#about").text, "codemirror 5", "d3-scale", "fetches nothing from elsewhere", "This tab keeps the texts", "nothing that you type is among them")
    module = f"kuifje{page.script('return kuifje.kind()')}.wasm"
    has(page.find("#about").text, module, hashlib.sha256((FOLDER / module).read_bytes()).hexdigest())
    names = page.script("return performance.getEntriesByType('resource').map((it) => it.name)")
    expect(names and all(name.startswith(page.address) for name in names), f"the page fetched {names}")
    expect(page.script("return localStorage.length + document.cookie.length") == 0, "the page keeps more than it says")
    expect(page.script("return Object.keys(sessionStorage)") == ["kuifje"], "the tab keeps more than it says")
    expect(page.script("return Object.keys(JSON.parse(sessionStorage.kuifje)).sort()") == ["hash", "state"], "the tab keeps other things")
    state = page.script("return Object.keys(JSON.parse(sessionStorage.kuifje).state).sort()")
    expect(state == ["a", "b", "gain", "kept", "measure", "of", "page", "prior", "turns", "view", "words"], f"the tab keeps {state}")
    stored = page.driver.execute_async_script("""const done = arguments[0]; (async () => { await navigator.serviceWorker.ready;
        const stores = await caches.keys(); done([stores, (await (await caches.open(stores[0])).keys()).map((it) => it.url)]); })();""")
    expect(len(stored[0]) == 1 and stored[0][0].startswith("kuifje-"), f"the browser has stores {stored[0]}")
    files = {str(it.relative_to(FOLDER)) for it in FOLDER.rglob("*") if it.is_file()} | {""}
    expect(all(url.startswith(page.address) and url[len(page.address):] in files for url in stored[1]), f"the browser keeps {stored[1]}")
    manifest = page.driver.execute_cdp_cmd("Page.getAppManifest", {})
    expect(not manifest["errors"] and "kuifje" in manifest["data"].lower(), f"the page's manifest has {manifest['errors']}")
    expect(page.driver.execute_async_script("const done = arguments[0]; indexedDB.databases().then((it) => done(it.length))") == 0, "the page keeps a database")


def opens_without_a_network(page: Page) -> None:
    """Once it was there, the page opens and answers where its server is gone."""
    server = Server(FOLDER)
    other = Page(page.driver, server.address)
    other.open()
    close_when_kept(page, server)
    other.open("#lesson/2")
    has(other.answer(), "one of 2 posteriors")
    has(other.find("#reader-text").text, "2. Hyper-distributions")
    page.log()


# Gallery, course, hands and eyes.


def opens_the_gallery(page: Page) -> None:
    page.open()
    page.find("#gallery-button").click()
    page.wait(lambda: "The gallery" in page.find("#contents").text, "the gallery")
    links = page.driver.find_elements("css selector", "#contents a")
    studies = list((TOP / "examples").glob("*/README.md"))
    expect(len(studies) > 30 and len(links) == len(studies), f"the gallery has {len(links)} of {len(studies)} studies")
    next(it for it in links if "compared digit by digit" in it.text).click()
    page.wait(lambda: "A PIN that is compared digit by digit" in page.find("#reader-text").text, "a study")
    page.press("Open examples/pin_whole.kf", "#reader-text")
    page.wait(lambda: page.text() == example("examples/pin_whole.kf"), "its program")
    page.press("Ask kuifje refine examples/pin.kf examples/pin_whole.kf", "#reader-text")
    page.wait(lambda: "B refines A" in page.answer(), "its verdict")
    page.press("Ask kuifje leak examples/pin.kf --gain table:examples/pin.json", "#reader-text")
    page.wait(lambda: "the table below\t1/3 ≈ 0.3333\t2/3" in page.answer(), "its table")


def asks_every_command(page: Page) -> None:
    """Each button of a lesson's or a study's command leads to an answer, or to a refusal where the page shows one."""
    page.open()
    lessons = len(list((TOP / "course" / "quiz").glob("*.md")))
    names = [f"lesson/{number}" for number in range(1, lessons + 1)] + [f"study/{it.parent.name}" for it in sorted((TOP / "examples").glob("*/README.md"))]
    count = 0
    for name in names:
        page.open(f"#{name}")
        page.wait(lambda: page.driver.find_elements("css selector", "#reader-text h2"), name)
        for number in range(int(page.script("return document.querySelectorAll('.command button').length"))):
            wanted = page.script("""const button = document.querySelectorAll('.command button')[arguments[0]];
                delete document.body.dataset.settled; button.click(); const shown = button.parentElement.nextElementSibling;
                return [button.getAttribute('aria-label'), shown === null ? '' : shown.textContent]""", number)
            page.wait(lambda: page.script("return document.body.dataset.settled && document.getElementById('answer').getAttribute('aria-busy') === 'false'"), wanted[0])
            told = page.answer()
            expect("The page failed" not in told and "A trap" not in told, f"{name}, {wanted[0]}: {told[:200]}")
            expect(("refused" in told) == wanted[1].startswith("kuifje: ") or "$ kuifje" in told, f"{name}, {wanted[0]}: {told[:200]}")
            count += 1
    print(f"    {count} commands of {len(names)} pages")


def asks_questions(page: Page) -> None:
    """Ten for each lesson; the first of the first one is answered with 1/3 once that is asked for."""
    page.open("#lesson/1")
    page.wait(lambda: len(page.driver.find_elements("css selector", ".question")) == 10, "ten questions")
    first = page.find(".question")
    expect("1/3" not in first.text, "the answer stands there")
    first.find_element("css selector", "summary").click()
    page.wait(lambda: "1/3" in first.text, "its answer")


def teaches(page: Page) -> None:
    """Exercise 1 of lesson 5: before 7/2, after 13/6. A solution is hidden until it is asked for."""
    page.open("#lesson/5")
    exercise = page.find(".exercise")
    expect("13/6" not in exercise.text, "the solution stands there")
    exercise.find_element("css selector", ".asked button").click()
    page.wait(lambda: len(exercise.find_elements("css selector", "input")) == 4, "fields for the numbers")
    inputs = exercise.find_elements("css selector", "input")
    for field, number in zip(inputs, ("7/2", "2", "13/21", "-8/6")):
        field.send_keys(number)
    exercise.find_element("css selector", "form button").click()
    page.wait(lambda: "Not yet: posterior." in exercise.text, "a number that is wrong")
    inputs[1].clear()
    inputs[1].send_keys("13/6", Keys.ENTER)
    page.wait(lambda: "Right: the program has the same" in exercise.text, "numbers that are right")
    exercise.find_element("css selector", "summary").click()
    page.wait(lambda: "The quotient is 13/6 · 2/7 = 13/21" in exercise.text, "the solution")
    page.open("#lesson/1")
    page.write("var coin : bool := flip 3/4;\n")
    page.press("Check my program", ".exercise")
    page.wait(lambda: "Your program's answer is the solution's" in page.find(".exercise").text, "a program that is right")
    page.write("var coin : bool := flip 1/4;\n")
    page.press("Check my program", ".exercise")
    page.wait(lambda: "Your program's answer differs from the solution's" in page.find(".exercise").text, "a program that is wrong")
    page.write("var coin : bool := flip 1 / 4 /;\n")
    page.press("Check my program", ".exercise")
    page.wait(lambda: "Your program is refused: kuifje: your program:1:" in page.find(".exercise").text, "a program that is refused, under no name of the solution's")
    # Exercise 6 of lesson 7 is about lines: 3/4, without the loop 1/2, without the answer 1/2. A program may have its statements at other places.
    page.open("#lesson/7")
    loop = page.driver.find_elements("css selector", ".exercise")[5]
    first, second = loop.find_elements("css selector", ".asked")
    first.find_element("css selector", "button").click()
    page.wait(lambda: first.find_elements("css selector", "input"), "a field for the lines")
    first.find_element("css selector", "input").send_keys("3/4 1/2 1/2", Keys.ENTER)
    page.wait(lambda: "Right: the program has the same" in first.text, "the lines' numbers")
    page.write(example("course/solutions/both_bits.kf").replace("while", "\n  while"))
    second.find_elements("css selector", "button")[1].click()
    page.wait(lambda: "Your program's answer is the solution's" in second.text, "the same lines at other places")


def goes_by_keyboard(page: Page) -> None:
    page.open()
    focus = "return document.activeElement.id || document.activeElement.className"
    keys = ActionChains(page.driver)
    keys.send_keys(Keys.TAB).perform()
    expect(page.script("return document.activeElement.className") == "skip", "the first key doesn't lead to the answer")
    page.find("#editor-a .CodeMirror-code").click()
    ActionChains(page.driver).send_keys(Keys.TAB).perform()
    expect(page.script(focus) == "compare", f"the editor keeps the keyboard: {page.script(focus)}")
    page.script("document.getElementById('tab-hyper').focus()")
    ActionChains(page.driver).send_keys(Keys.ARROW_RIGHT).perform()
    page.settle()
    expect(page.script(focus) == "tab-channel" and page.find("#tab-channel").get_attribute("aria-selected") == "true", "an arrow doesn't lead to the next question")
    for key, tab in ((Keys.END, "tab-command"), (Keys.HOME, "tab-hyper")):
        ActionChains(page.driver).send_keys(key).perform()
        page.settle()
        expect(page.script(focus) == tab, f"{tab} isn't at its end")
    page.find("#settings-button").send_keys(Keys.ENTER)
    expect(page.find("#settings").is_displayed(), "a key doesn't open the settings")
    ActionChains(page.driver).send_keys(Keys.ESCAPE).perform()
    expect(not page.find("#settings").is_displayed(), "Escape doesn't close them")
    bare = page.script("""return [...document.querySelectorAll("button, input, select, textarea")].filter((it) => it.offsetParent !== null)
        .filter((it) => !(it.textContent.trim() || it.getAttribute("aria-label") || (it.labels && it.labels.length))).map((it) => it.outerHTML)""")
    expect(not bare, f"a screen reader has no name for {bare}")
    expect(page.script("return [...document.querySelectorAll('svg')].every((it) => it.getAttribute('role') === 'img' && it.getAttribute('aria-label'))"), "a picture has no text")


def fits_a_telephone(page: Page) -> None:
    for width in (360,) if QUICK else (360, 768, 1500):
        page.driver.execute_cdp_cmd("Emulation.setDeviceMetricsOverride", {"width": width, "height": 780, "deviceScaleFactor": 1, "mobile": width < 700})
        page.open()
        page.write(example("course/witness.kf"))
        for view in ("hyper", "channel", "leak", "priors", "traces", "lines", "command"):
            page.view(view)
            over = page.script("return document.documentElement.scrollWidth - window.innerWidth")
            expect(over <= 0, f"{view} is {over} wider than {width}")
        page.open("#lesson/2")
        expect(page.script("return document.documentElement.scrollWidth <= window.innerWidth"), f"a lesson is wider than {width}")
    page.driver.execute_cdp_cmd("Emulation.clearDeviceMetricsOverride", {})


def can_be_read(page: Page) -> None:
    """Letters have a contrast of 4.5 and more to what is behind them, light and dark."""
    for theme in ("light", "dark"):
        page.open()
        page.choose("#theme", theme)
        poor = page.script(CONTRAST)
        expect(not poor, f"{theme}: {poor[:5]}")
        page.write(SHADES)
        page.view("lines")
        page.wait(lambda: page.driver.find_elements("css selector", ".leak-line-4"), "coloured lines")
        poor = page.script(CONTRAST)
        expect(not poor, f"{theme}, lines: {poor[:5]}")


# Of 16 values lines single out one, two, three and four: lines of all colours, each with a comment.
SHADES = "var x : 0..15 := uniform 0..15;\nabout old x;\n" + "".join(
    f"observe {shown}; # {shown}\n" for shown in ("x = 0", "(x = 1, x = 2)", "(x = 3, x = 4, x = 5)", "(x = 6, x = 7, x = 8, x = 9)"))
CONTRAST = """
const numbers = (text) => (text.match(/[\\d.]+/g) || []).map(Number);
const light = (rgb) => { const [r, g, b] = rgb.slice(0, 3).map((it) => { const c = it / 255; return c <= 0.03928 ? c / 12.92 : ((c + 0.055) / 1.055) ** 2.4; });
    return 0.2126 * r + 0.7152 * g + 0.0722 * b; };
const behind = (it) => { for (let at = it; at; at = at.parentElement) { const c = numbers(getComputedStyle(at).backgroundColor); if (c.length === 3 || c[3] === 1) return c; } return [255, 255, 255]; };
const poor = [];
for (const it of document.querySelectorAll("body *")) {
    const own = [...it.childNodes].some((child) => child.nodeType === 3 && child.textContent.trim() !== "");
    if (!own || it.offsetParent === null || it.closest("svg")) continue;
    const [a, b] = [light(numbers(getComputedStyle(it).color)), light(behind(it))];
    const ratio = (Math.max(a, b) + 0.05) / (Math.min(a, b) + 0.05);
    if (ratio < 4.5) poor.push([it.className || it.tagName, it.textContent.slice(0, 30), ratio.toFixed(2)]);
}
return poor;
"""


def holds_the_lecture(page: Page) -> None:
    print(f"    {len(lecture.hold(page))} steps")


def knows_the_words(page: Page) -> None:
    """The editor colours the words that the other editors of share/ colour."""
    grammar = json.loads(example("share/textmate/kuifje.tmLanguage.json"))
    listed = {word for it in grammar["patterns"] for group in re.findall(r"\(([a-z|]+)\)", it["match"]) for word in group.split("|")}
    own = set(re.findall(r'"([a-z]+)"', example("web/src/words.mjs").split("export const WORDS")[1].split("};")[0]))
    expect(listed == own, f"the editors differ in {listed ^ own}")


# The program's bytes.


def compare(page: Page, wanted: list[Command], kind: int, batch: int = 40) -> None:
    page.open()
    page.choose("#kind", str(kind))
    page.wait(lambda: page.script("return kuifje.kind()") == kind, f"the module with {kind} bits")
    page.settle()
    others = []
    began = time.monotonic()
    for at in range(0, len(wanted), batch):
        part = wanted[at:at + batch]
        for command, told in zip(part, page.ask_many([it.question() for it in part])):
            right = ("answer", command.status, command.out.decode(errors="replace"), command.err.decode(errors="replace"))
            if (told["kind"], told.get("status"), told.get("out"), told.get("err")) != right:
                others.append(f"{' '.join(command.words)}: {str(told)[:300]}, and the program has status {command.status}")
    print(f"    {len(wanted)} commands with {kind} bits in {time.monotonic() - began:.0f} s: {len(others)} differ")
    expect(not others, "\n".join(others[:5]))


def page_commands(page: Page) -> None:
    quick = ["README.md", "docs/COURSE.md", "docs/FORMATS.md", "examples/pin/README.md", "examples/password/README.md", "examples/judges/README.md"]
    wanted = commands.of_pages(PROGRAM, quick if QUICK else [])
    for kind in (64, 32):
        compare(page, wanted, kind)


def gallery_hypers(page: Page) -> None:
    paths = [path.relative_to(TOP) for folder in ("examples", "course") for path in sorted((TOP / folder).rglob("*.kf"))]
    ran = [commands.run(PROGRAM, ["hyper", str(path)], {str(path): (TOP / path).read_bytes()}) for path in paths]
    compare(page, [it for it in ran if it is not None], 64)


def every_program(page: Page) -> None:
    wanted = commands.of_programs(PROGRAM)
    for kind in (64, 32):
        compare(page, wanted, kind)


TESTS: list[Callable[[Page], None]] = [
    is_small, answers_at_once, page_commands, shows_views, colours_lines, says_what_is_asked, shows_a_refusal_at_its_place, compares_two_texts, edits_gains,
    cuts_what_is_large, is_stopped, wants_memory, tells_a_trap, takes_both_modules, keeps_a_link, *keeping.TRIALS, *seeing.TRIALS, refuses_links, takes_no_markup,
    fetches_nothing_else, opens_without_a_network, opens_the_gallery, asks_questions, teaches, holds_the_lecture, goes_by_keyboard, fits_a_telephone, can_be_read, knows_the_words,
    gallery_hypers,
]
LONG_TESTS: list[Callable[[Page], None]] = [asks_every_command, every_program]

parser = argparse.ArgumentParser()
parser.add_argument("--quick", action="store_true")
parser.add_argument("--program", type=Path, default=TOP / "bin" / "kuifje")
parser.add_argument("--page", type=Path, default=TOP / "dist" / "page")
parser.add_argument("--only", default="")
given = parser.parse_args()
QUICK, PROGRAM, FOLDER = given.quick, given.program, given.page
keeping.quick = QUICK


def main() -> None:
    server, driver = Server(FOLDER), chromium()
    page = Page(driver, server.address)
    failed = []
    tests = [it for it in [*TESTS, *([] if QUICK else LONG_TESTS)] if given.only in it.__name__]
    began = time.monotonic()
    left_out = []
    for test in tests:
        start = time.monotonic()
        if QUICK and start - began > SECONDS:
            left_out.append(test.__name__)
            continue
        try:
            test(page)
            complaints = [it for it in page.log() if "favicon" not in it]
            expect(not complaints, f"the browser complains: {complaints[:3]}")
            print(f"  {test.__name__}: passed ({time.monotonic() - start:.1f} s)", flush=True)
        except Exception:
            failed.append(test.__name__)
            print(f"  {test.__name__}: FAILED\n{traceback.format_exc()}", flush=True)
            page.log()
    driver.quit()
    server.close()
    if left_out:
        print(f"page: {SECONDS} seconds are over, so these are left out: {', '.join(left_out)}")
    ran = len(tests) - len(left_out)
    print(f"page: {ran - len(failed)} of {ran} trials passed in {time.monotonic() - began:.0f} s")
    sys.exit(1 if failed else 0)


main()
