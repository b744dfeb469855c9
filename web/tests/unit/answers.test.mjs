// The texts that the program prints, read. Those here are of docs/FORMATS.md, and numbers are worked out by hand.
import assert from "node:assert/strict";
import { readFileSync } from "node:fs";
import test from "node:test";
import { MOST, blameOf, channelOf, hyperOf, itemsOf, linesOf, partsOfValue, priorOf, refusalOf, reportOf, tracesOf, trailOf, verdictOf } from "../../src/answers.mjs";

const FORMATS = readFileSync(new URL("../../../docs/FORMATS.md", import.meta.url), "utf8");
/** What docs/FORMATS.md says that a command prints. */
const printed = (command) => FORMATS.split(`$ kuifje ${command}\n`)[1].split(/^(?:\$ |```)/m)[0];

test("a hyper, with its prior", () => {
    const hyper = hyperOf("target old x, y\nscale 12\ninners 2\ninner 0 outer 1/3\n  (1, true) 1\ninner 1 outer 2/3\n  (0, false) 1/4\n  (1, true) 3/4\n");
    assert.deepEqual([hyper.target, hyper.scale, hyper.count, hyper.isWhole], ["old x, y", "12", 2, true]);
    assert.deepEqual(hyper.groups[1], { name: "1", weight: "2/3", shares: [{ value: "(0, false)", share: "1/4" }, { value: "(1, true)", share: "3/4" }] });
    // 2/3 of 1/4; 1/3, and 2/3 of 3/4.
    assert.deepEqual(priorOf(hyper), [{ value: "(0, false)", share: "1/6" }, { value: "(1, true)", share: "5/6" }]);
});

test("values of a prior stand in their order, numbers by their size", () => {
    const hyper = hyperOf("target x\nscale 3\ninners 1\ninner 0 outer 1\n  10 1/3\n  -2 1/3\n  9 1/3\n");
    assert.deepEqual(priorOf(hyper).map(({ value }) => value), ["-2", "9", "10"]);
});

test("of a large answer the first groups are read, and how many there are", () => {
    const text = `target old x\nscale 500\ninners 500\n${Array.from({ length: 500 }, (_, index) => `inner ${index} outer 1/500\n  ${index} 1\n`).join("")}`;
    const read = hyperOf(text);
    assert.deepEqual([read.count, read.groups.length, read.isWhole], [500, MOST, false]);
});

test("traces, whose names have spaces", () => {
    const read = tracesOf("target old x\nscale 2\ntraces 1\ntrace [(0, 1), [], {2}] weight 1\n  (0, 1) 1\n");
    assert.equal(read.groups[0].name, "[(0, 1), [], {2}]");
    assert.deepEqual(read.groups[0].shares, [{ value: "(0, 1)", share: "1" }]);
});

test("a channel is printed by its cells, and read by its rows", () => {
    const read = channelOf("target old x\ncolumns 2\ncolumn 0 [false]\ncolumn 1 [true, 1]\nrows 2\nrow 0\n  1\n  0\nrow (1, 2)\n  1/3\n  2/3\n");
    assert.deepEqual(read.columns, ["[false]", "[true, 1]"]);
    assert.deepEqual(read.rows, [{ value: "0", cells: ["1", "0"] }, { value: "(1, 2)", cells: ["1/3", "2/3"] }]);
    assert.deepEqual([read.count, read.rowCount], [2, 2]);
});

test("leak, blame, lines and trail as docs/FORMATS.md has them", () => {
    assert.deepEqual(trailOf(printed("trail examples/twice.kf")), ["1", "2", "3"]);
    assert.deepEqual(blameOf(printed("blame halves.kf")), { all: { inners: "4", bayes: "1" }, without: [{ inners: "2", bayes: "1/2" }, { inners: "2", bayes: "1/2" }] });
    const { all, without } = linesOf(printed("lines sides.kf"));
    assert.deepEqual(all, { inners: "4", posterior: "1" });
    assert.deepEqual(without[2], { line: 3, column: 32, inners: "3", posterior: "3/4" });
    assert.deepEqual(reportOf("gain bayes\nprior 1/4\nposterior 1/2\nquotient 2\ndifference 1/4\n"),
        { gain: "bayes", prior: "1/4", posterior: "1/2", quotient: "2", difference: "1/4" });
});

test("verdicts both ways", () => {
    assert.deepEqual(verdictOf(printed("refine examples/pin.kf examples/pin_whole.kf")), { isYes: true, matrix: [["1", "0"], ["1", "0"], ["0", "1"]] });
    const no = verdictOf("refines no\nover 2\nrest -1\nactions 2\naction b0\n  (0, 1) 3\naction b1\n");
    assert.deepEqual(no, { isYes: false, over: "2", rest: "-1", actions: [{ name: "b0", gains: [{ value: "(0, 1)", gain: "3" }] }, { name: "b1", gains: [] }] });
});

test("a text that is no answer is refused", () => {
    assert.throws(() => hyperOf(""), /no line target/);
    assert.throws(() => linesOf("all inners 1\n"), /isn't one about lines/);
    assert.throws(() => blameOf("inner 0 outer 1\n"), /isn't one to blame/);
    assert.throws(() => verdictOf("accepted\n"), /no line refines/);
});

test("a refusal: whose text, where, and by which word", () => {
    const names = ["a.kf", "b.kf", "gain.json"];
    assert.deepEqual(refusalOf("kuifje: a.kf:3:12: Syntax\n", names), { file: "a.kf", line: 3, column: 12, word: "Syntax" });
    assert.deepEqual(refusalOf("kuifje: b.kf:1:1: NoVariable\n", names), { file: "b.kf", line: 1, column: 1, word: "NoVariable" });
    assert.deepEqual(refusalOf("kuifje: gain.json: Wide\n", names), { file: "gain.json", line: 0, column: 0, word: "Wide" });
    assert.deepEqual(refusalOf("kuifje: usage: kuifje COMMAND\n", names), { file: null, line: 0, column: 0, word: "usage: kuifje COMMAND" });
    assert.equal(refusalOf("kuifje: other.kf:1:1: Syntax\n", names).line, 0);
});

test("the parts of a tuple, and of a trace", () => {
    assert.deepEqual(partsOfValue("(1, (2, 3), {4, 5}, true)"), ["1", "(2, 3)", "{4, 5}", "true"]);
    assert.deepEqual(partsOfValue("(-1, {})"), ["-1", "{}"]);
    assert.deepEqual(partsOfValue("[(0, 1), [], {2}]"), ["(0, 1)", "[]", "{2}"]);
    assert.deepEqual([partsOfValue("[]"), partsOfValue("[true]")], [[], ["true"]]);
});

test("the items of a target", () => {
    assert.deepEqual(itemsOf("old x, y"), [{ isOld: true, name: "x" }, { isOld: false, name: "y" }]);
});
