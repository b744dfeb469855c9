"""The lecture of docs/PAGE.md, step by step as it stands there: what is done, and what has to be seen."""

from __future__ import annotations

from browser import Page

FAVOURITE = "choose { 0 : 4, 1 : 2, 2 : 1, 3 : 1 }"


def replace(page: Page, old: str, new: str, editor: str = "a") -> None:
    """What is typed in the place of a part of a text."""
    text = page.text(editor)
    assert text.count(old) == 1, f"{old} stands {text.count(old)} times in {text}"
    page.write(text.replace(old, new), editor)


def sees(page: Page, *words: str) -> None:
    page.wait(lambda: all(word in page.answer() for word in words), f"{words} in {page.answer()[:800]}")


def hold(page: Page) -> list[str]:
    """Goes through the lecture, and gives the names of its steps."""
    page.open()
    sees(page, "one of 2 posteriors", "3/4", "1/3", "1/4")
    assert page.find("#target").text.startswith("The question is about what h was before the statements")
    page.wait(lambda: [it.text for it in page.driver.find_elements("css selector", ".blamed")] == ["−1/4"], "the margin")

    page.view("leak")
    sees(page, "one guess (bayes)\t1/4 = 0.25\t1/2 = 0.5\t2\t1/4 = 0.25")
    replace(page, "uniform 0..3", FAVOURITE)
    sees(page, "one guess (bayes)\t1/2 = 0.5\t5/8 = 0.625\t5/4 = 1.25\t1/8 = 0.125")
    replace(page, FAVOURITE, "uniform 0..3")

    replace(page, "h = 2", "h == 2")
    sees(page, "Program A is refused: Syntax")
    replace(page, "h == 2", "h = 2")

    page.click("#compare")
    replace(page, "if h = 2 { y := 1; } else { y := 0; }", "y := cond(h = 2, 1, 0);", "b")
    sees(page, "B refines A: B leaks no more than A to any adversary", "A 0\t1", "A 1\t1", "A leaks no more than B? No")
    sees(page, "A yes holds for every prior on the secret; a no for every prior under which every value is possible.")

    replace(page, "y := cond(h = 2, 1, 0);", "observe h mod 2;", "b")
    sees(page, "Neither is safer for everybody", "An adversary with the gains of this table does better against B")

    page.find("#course-button").click()
    page.wait(lambda: page.find("#contents").is_displayed(), "the course")
    next(it for it in page.driver.find_elements("css selector", "#contents a") if it.text.startswith("2. ")).click()
    page.wait(lambda: "Find the hyper of die.kf" in page.find(".exercise").text, "lesson 2")
    page.press("Check my numbers", ".exercise")
    field = page.wait(lambda: page.driver.find_elements("css selector", ".exercise input"), "a field")[0]
    field.send_keys("2/3 1/3")
    page.press("Check", ".exercise")
    page.wait(lambda: "Right: the program has the same" in page.find(".exercise").text, "the right numbers")

    page.find("#link-button").click()
    link = page.wait(lambda: page.find("#link-field").get_attribute("value"), "a link")
    texts = (page.text(), page.text("b"))
    page.open(link[len(page.address):])
    assert (page.text(), page.text("b")) == texts, "the link has other texts"
    sees(page, "Neither is safer for everybody")
    page.wait(lambda: "2. Hyper-distributions" in page.find("#reader-text").text, "the lesson that the link carries")
    return ["the hyper", "the numbers", "a slip", "a fix", "no fix", "an exercise", "a link"]
