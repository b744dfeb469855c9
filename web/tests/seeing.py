"""Trials of what the page makes of an answer: a fix, pictures that are kept, the lines of a trace, and bits."""

from __future__ import annotations

from browser import Page
from trials import example, expect, has


def proposes_a_fix(page: Page) -> None:
    """A lock whose branch shows whether a value of four is 2 may show nothing: one guess is right with 1/4 in place of 1/2. Of three letters of three, a
    password may say whether it was right, which is two classes of four: 2/27 in place of 4/27."""
    page.open()
    page.view("lines")
    page.press("Look for a fix")
    page.wait(lambda: "B is A with line 5 made even" in page.answer(), "a fix of the lock")
    has(page.answer(), "The program confirms that B refines A", "probability 1/2", "after A and 1/4", "B is at the floor", "Not proved: that the search finds the best text", "B refines A: B leaks no more than A")
    expect("if" not in page.text("b").split("about old h;")[1] and "cond(" in page.text("b"), f"the fix is {page.text('b')}")
    page.write(page.text("b") + "observe h;\n", "b")
    expect("A fix" not in page.answer(), "another text is said to be a fix")
    page.open()
    page.write(example("examples/password/early.kf"))
    page.view("lines")
    page.press("Look for a fix")
    page.wait(lambda: "after A and 2/27" in page.answer(), "a fix of the password")
    has(page.answer(), "4/27", "lines 8 and 9", "an observer of B knows what the observation in line 10 shows")
    says_where_there_is_none(page)


def says_where_there_is_none(page: Page) -> None:
    page.open()
    page.write(example("examples/cond.kf"))
    page.view("lines")
    page.press("Look for a fix")
    page.wait(lambda: "Nothing to repair." in page.answer(), "a text that is at its floor")
    page.write("var x : 0..3 := uniform 0..3;\nabout old x;\nobserve x mod 2;\nobserve x < 2;\n")
    page.press("Look for a fix")
    page.wait(lambda: "Choose first what the text is for" in page.answer(), "a question what the text is for")
    page.choose("#purpose", "0")
    page.press("Look for a fix")
    # Whether x is even leaves two values of four: 1/2. Both observations leave one.
    page.wait(lambda: "The text is above its floor, to one guess by 1/2" in page.answer() and "it would be 1/2" in page.answer(), "the floor of one of two observations")
    has(page.answer(), "No fix by structure was found")
    page.write("var x : 0..3 := uniform 0..3;\nobserve x mod 2;\n")
    page.press("Look for a fix")
    page.wait(lambda: "write about old" in page.answer(), "a target that is none of a secret")


def keeps_pictures(page: Page) -> None:
    """A picture has its numbers, is a file of its own, grows with the letters and fills the screen."""
    page.open()
    page.script("window.handed = []; const make = URL.createObjectURL; URL.createObjectURL = (it) => { handed.push(it); return make.call(URL, it); };")
    page.press("Keep as SVG")
    text = str(page.driver.execute_async_script("const done = arguments[0]; handed[0].text().then(done)"))
    has(text, 'xmlns="http://www.w3.org/2000/svg"', "<rect", ">3/4<", ">1/4<", ">0: 1/3<", "font-family=", "<title>")
    expect("class=" not in text and "style=" not in text, "a picture wants the page's style")
    page.press("Keep as PNG")
    page.wait(lambda: page.script("return handed.some((it) => it.type === 'image/png')"), "a picture in points")
    size = page.driver.execute_async_script("""const done = arguments[0]; createImageBitmap(handed.find((it) => it.type === 'image/png')).then((made) => {
        const canvas = Object.assign(document.createElement("canvas"), { width: made.width, height: made.height });
        const context = canvas.getContext("2d"); context.drawImage(made, 0, 0);
        const { data } = context.getImageData(0, 0, made.width, made.height);
        done([made.width, made.height, new Set(new Uint32Array(data.buffer)).size]); });""")
    box = page.script("const it = document.querySelector('svg.picture').viewBox.baseVal; return [it.width, it.height]")
    expect(size[0] == round(2 * box[0]) and size[1] == round(2 * box[1]) and size[2] > 5, f"the picture has {size}, and its drawing {box}")
    height = "return document.querySelector('svg.picture .label').getBoundingClientRect().height"
    usual = page.script(height)
    page.choose("#letters", "huge")
    page.settle()
    expect(page.script(height) > 1.3 * usual, f"letters of {usual} in a picture have {page.script(height)} on a projector")
    page.choose("#letters", "")
    page.settle()
    page.press("Fill the screen")
    page.wait(lambda: page.script("return document.fullscreenElement !== null && document.fullscreenElement.tagName === 'FIGURE'"), "a picture alone", 10)
    page.press("Fill the screen")
    page.wait(lambda: page.script("return document.fullscreenElement === null"), "the page again", 10)


def names_lines_of_traces(page: Page) -> None:
    page.open()
    page.view("traces")
    has(page.answer(), "[false]", "false line 5, if", "true line 5, if")
    page.write("var x : 0..1 := uniform 0..1;\nvis v : 0..1 := 0;\nabout old x;\nwhile x > 0 {\n  x := x - 1; v := 1;\n}\nobserve v;\n")
    has(page.answer(), "false line 4, while", "1 line 5, v", "1 line 7, observe")


def says_bits(page: Page) -> None:
    """One of four values is told from the others: of 2 bits of entropy 3/4 times the logarithm of 3 is left, and one guess is twice as often right."""
    page.open()
    page.view("leak")
    has(page.answer(), "prior vulnerability\tposterior vulnerability\tmultiplicative leakage\tadditive leakage", "= 1 bit",
        "min-entropy (of one guess)\t= 2 bits\t= 1 bit\t= 1 bit", "Shannon entropy\t= 2 bits\t≈ 1.189 bits\t≈ 0.8113 bits")
    # Guesses: (1 + 2 + 3 + 4) / 4, and then 3/4 (1 + 2 + 3) / 3 + 1/4.
    has(page.answer(), "keeps guessing (guessing)\t5/2 = 2.5\t7/4 = 1.75\t10/7 ≈ 1.429\t3/4 = 0.75")
    printed = page.find("details.printed")
    printed.find_element("css selector", "summary").click()
    page.wait(lambda: "$ kuifje leak a.kf --gain bayes\n" in printed.text and "quotient 2" in printed.text, "the program's own bytes")
    page.view("channel")
    has(page.answer(), "Bayes capacity 2 (= 1 bit)")


def moves_a_prior(page: Page) -> None:
    """A reading that is right three times of four: at 1/2 one guess rises to 3/4, and at 3/4 it stays there. Of three values, each reading that is wrong
    shows the next one."""
    page.open()
    page.write("var x : 0..1 := uniform 0..1;\nabout old x;\nobserve choose { x : 3, 1 - x : 1 };\n")
    page.view("priors")
    has(page.answer(), "computed in this page", "1/2 = 0.5\t3/4 = 0.75\t3/2 = 1.5\t1/4 = 0.25\t≈ 0.585 bits", "prior\t\t1/2 = 0.5\t1/2 = 0.5")
    expect(len(page.driver.find_elements("css selector", "svg .envelope")) == 2, "the envelope of two guesses has other than two lines")
    slide(page, (45, 15))
    has(page.answer(), "3/4 = 0.75\t3/4 = 0.75\t1\t0\t= 0 bits", "5/8 = 0.625\t9/10 = 0.9\t1/10 = 0.1", "3/8 = 0.375\t1/2 = 0.5\t1/2 = 0.5")
    said = page.answer()
    page.find("#link-button").click()
    link = page.wait(lambda: page.find("#link-field").get_attribute("value"), "a link")
    page.press("The declared prior")
    has(page.answer(), "1/2 = 0.5\t3/4 = 0.75\t3/2 = 1.5")
    page.open(link[len(page.address):])
    expect(page.answer() == said, "a link has another prior")
    page.write("var x : 0..2 := choose { 0 : 2, 1 : 1, 2 : 1 };\nabout old x;\nobserve choose { x : 1, (x + 1) mod 3 : 1 };\n")
    # One guess: 1/2 before. After it 0 is seen with 1/4 and 1/8, 1 with 1/4 and 1/8, and 2 with 1/8 twice: 1/4 + 1/4 + 1/8.
    has(page.answer(), "1/2 = 0.5\t5/8 = 0.625\t5/4 = 1.25\t1/8 = 0.125")
    drawn = [len(page.driver.find_elements("css selector", f"svg {it}")) for it in (".region", ".disc", ".triangle", ".ring")]
    expect(drawn == [3, 3, 1, 1], f"the triangle has {drawn}")
    # A guess is worth from 1/3 to 1: lines at 0.4, 0.5 and so on, one in each region.
    levels = page.script("return [...document.querySelectorAll('svg .soft')].map((it) => it.textContent)")
    expect(levels == [it for it in ("0.4", "0.5", "0.6", "0.7", "0.8", "0.9") for _ in range(3)], f"the triangle has lines at {levels}")
    slide(page, (0, 60, 0))
    has(page.answer(), "1\t1\t1\t0\t= 0 bits")
    page.write("var x : 0..3 := uniform 0..3;\nabout old x;\nobserve x = 2;\n")
    has(page.answer(), "This target has 4")


def slide(page: Page, weights: tuple[int, ...]) -> None:
    page.script("""[...document.querySelectorAll(".sliders input")].forEach((it, index) => { it.value = arguments[0][index]; });
        document.querySelector(".sliders input").dispatchEvent(new Event("input"));""", weights)


TRIALS = [moves_a_prior, proposes_a_fix, keeps_pictures, names_lines_of_traces, says_bits]
