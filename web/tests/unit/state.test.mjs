// What the page asks, and what becomes of it when a button is pressed.
import assert from "node:assert/strict";
import test from "node:test";
import { commanded, createVisits, exchanged, firstState, marginMeasure, openedFile, ownFiles, textOf, withKept, withSecond, withoutSecond } from "../../src/state.mjs";

const STATE = { ...firstState(), a: "A", b: "B" };
const after = (state, parts) => ({ ...state, ...parts });

test("a question about one text is about the one that is chosen, as far as it is there", () => {
    assert.equal(textOf(STATE), "A");
    assert.equal(textOf({ ...STATE, of: "b" }), "B");
    assert.equal(textOf({ ...STATE, of: "b", b: null }), "A");
});

test("commands may name what stands in the editors and in the gain table", () => {
    assert.deepEqual(ownFiles({ ...STATE, gain: "{}" }), { "a.kf": "A", "b.kf": "B", "gain.json": "{}" });
    assert.deepEqual(ownFiles({ ...STATE, b: null }), { "a.kf": "A" });
    assert.deepEqual(ownFiles({ ...STATE, b: "" }), { "a.kf": "A", "b.kf": "" });
});

test("a second text begins as the first, and goes with the view of two", () => {
    const alone = { ...STATE, b: null };
    const two = after(alone, withSecond(alone));
    assert.deepEqual([two.a, two.b, two.view], ["A", "A", "refine"]);
    assert.deepEqual(after(two, withoutSecond(two)), { ...alone, view: "hyper" });
    assert.deepEqual(withoutSecond({ ...STATE, view: "covers", of: "b" }), { b: null, of: "a", view: "hyper" });
    assert.equal(withoutSecond({ ...STATE, view: "leak" }).view, "leak");
    assert.deepEqual(exchanged(STATE), { a: "B", b: "A" });
});

test("another program has no gain table of the one before, the same one keeps it", () => {
    const set = { ...STATE, gain: "{}", measure: "table", of: "b", view: "command" };
    assert.deepEqual(openedFile(set, "x.kf", "C"), { a: "C", of: "a", gain: null, prior: null, measure: "bayes", view: "hyper" });
    assert.deepEqual(openedFile(set, "x.kf", "A"), { a: "A", of: "a", view: "hyper" });
    assert.deepEqual(openedFile(set, "bet.json", "[]"), { gain: "[]", view: "leak" });
});

test("a command of a page is asked in its view, with its files", () => {
    const files = { "one.kf": "1", "two.kf": "2", "bet.json": "{}" };
    const asked = (line) => after(STATE, commanded(STATE, line.split(" "), files));
    const two = asked("refine one.kf two.kf");
    assert.deepEqual([two.view, two.a, two.b], ["refine", "1", "2"]);
    const bet = asked("lines two.kf --gain table:bet.json");
    assert.deepEqual([bet.view, bet.a, bet.gain, bet.measure], ["lines", "2", "{}", "table"]);
    const typed = asked("reach one.kf 1/2");
    assert.deepEqual([typed.view, typed.a, typed.words], ["command", "1", "reach one.kf 1/2"]);
    // It makes a program of its own, and names none.
    assert.equal(asked("make 20").a, "A");
});

test("a file that is kept takes no other's place", () => {
    assert.deepEqual(withKept({ ...STATE, kept: { x: "1" } }, "y", "2"), { kept: { x: "1", y: "2" } });
});

test("margins compare under the gain of the view of lines there, and under one guess elsewhere", () => {
    assert.equal(marginMeasure({ ...STATE, measure: "guessing", view: "lines" }), "guessing");
    assert.equal(marginMeasure({ ...STATE, measure: "guessing", view: "hyper" }), "bayes");
});

test("Back gives each text as it was left, and the same text loses nothing", () => {
    const visits = createVisits(1);
    const first = visits.entry(null);
    const lesson = visits.entry("lesson/2");
    assert.deepEqual(visits.comeBack(lesson, STATE), {});
    visits.begin(after(STATE, { a: "typed" }));
    const second = visits.entry(null);
    const back = visits.comeBack(first, after(STATE, { a: "of the link" }));
    assert.equal(back.a, "typed");
    assert.equal(visits.comeBack(second, STATE).a, "of the link");
    assert.equal(visits.comeBack(lesson, STATE).page, "lesson/2");
    // A link that is opened after Back is a third one.
    visits.begin(STATE);
    assert.equal(visits.entry(null).origin, 2);
});

test("entries of an earlier load say nothing", () => {
    assert.ok(createVisits(1).isOwn(createVisits(1).entry(null)));
    assert.ok(!createVisits(1).isOwn(createVisits(2).entry(null)));
    assert.ok(!createVisits(1).isOwn(null));
});
