// The geometry of priors, by numbers that were worked out by hand.
import assert from "node:assert/strict";
import test from "node:test";
import { fractionOf, printed } from "../../src/fractions.mjs";
import { distributionOf, envelope, hyperAt, levelLines, posteriorVulnerability, regions, vulnerability } from "../../src/geometry.mjs";

const row = (text) => text.split(" ").map(fractionOf);
const rows = (...texts) => texts.map(row);
const shown = (numbers) => numbers.map(printed).join(" ");
const GUESS = rows("1 0", "0 1");
const NOISY = rows("3/4 1/4", "1/4 3/4");

test("weights make a distribution", () => {
    assert.equal(shown(distributionOf([2, 1, 1])), "1/2 1/4 1/4");
    assert.equal(shown(distributionOf([0, 5])), "0 1");
});

test("a channel makes posteriors of a prior", () => {
    const at = (prior, channel = NOISY) => hyperAt(row(prior), channel).map(({ outer, shares }) => `${printed(outer)}: ${shown(shares)}`);
    assert.deepEqual(at("1/2 1/2"), ["1/2: 3/4 1/4", "1/2: 1/4 3/4"]);
    // 9/16 and 1/16 in the first column, 3/16 and 3/16 in the second one.
    assert.deepEqual(at("3/4 1/4"), ["5/8: 9/10 1/10", "3/8: 1/2 1/2"]);
    assert.deepEqual(at("1 0"), ["1: 1 0"]);
    // Columns in proportion are one inner, and one that never comes is none.
    assert.deepEqual(at("1/3 2/3", rows("1/2 1/4 1/4 0", "1/2 1/4 1/4 0")), ["1: 1/3 2/3"]);
    assert.deepEqual(at("1/3 1/3 1/3", rows("1 0", "0 1", "1 0")), ["2/3: 1/2 0 1/2", "1/3: 0 1 0"]);
});

test("vulnerability before and after", () => {
    const hyper = hyperAt(row("3/4 1/4"), NOISY);
    assert.equal(printed(vulnerability(GUESS, row("3/4 1/4"))), "3/4");
    // 5/8 of 9/10, and 3/8 of 1/2.
    assert.equal(printed(posteriorVulnerability(GUESS, hyper)), "3/4");
    assert.equal(printed(posteriorVulnerability(GUESS, hyperAt(row("1/2 1/2"), NOISY))), "3/4");
    // A bet of 1 on the second value that costs 1 where it is wrong, or none.
    assert.equal(printed(vulnerability(rows("-1 1", "0 0"), row("3/4 1/4"))), "0");
});

test("the envelope of two guesses has its corner in the middle", () => {
    const corners = (...actions) => envelope(rows(...actions)).map(({ p, value }) => `${printed(p)}: ${printed(value)}`);
    assert.deepEqual(corners("1 0", "0 1"), ["0: 1", "1/2: 1/2", "1: 1"]);
    // A sure 2/3 is best in the middle.
    assert.deepEqual(corners("1 0", "0 1", "2/3 2/3"), ["0: 1", "1/3: 2/3", "2/3: 2/3", "1: 1"]);
    // What is never best has no corner, and neither have lines that meet below the envelope.
    assert.deepEqual(corners("1 0", "0 1", "1/4 1/4", "1/2 1/3"), ["0: 1", "1/2: 1/2", "1: 1"]);
    // A line through the corner of two others changes nothing.
    assert.deepEqual(corners("1 0", "0 1", "1/2 1/2"), ["0: 1", "1/2: 1/2", "1: 1"]);
    assert.deepEqual(corners("-1 1", "0 0"), ["0: 0", "1/2: 0", "1: 1"]);
    assert.deepEqual(corners("2 3"), ["0: 2", "1: 3"]);
});

test("three guesses divide the triangle in three kites", () => {
    const found = regions(rows("1 0 0", "0 1 0", "0 0 1")).map((polygon) => polygon.map(shown).sort());
    assert.deepEqual(found[0], ["1 0 0", "1/2 0 1/2", "1/2 1/2 0", "1/3 1/3 1/3"]);
    assert.deepEqual(found[2], ["0 0 1", "0 1/2 1/2", "1/2 0 1/2", "1/3 1/3 1/3"].sort());
});

test("an action that is never better has no region, and one that always is has all", () => {
    const [none, all] = regions(rows("0 0 0", "1 1 1"));
    assert.deepEqual([none, all.map(shown)], [[], ["1 0 0", "0 1 0", "0 0 1"]]);
    // As good at one corner alone.
    assert.deepEqual(regions(rows("1 0 0", "1 1 1"))[0], []);
});

test("priors that are worth the same lie on lines", () => {
    const lines = (value, ...actions) => levelLines(rows(...actions), fractionOf(value)).map((line) => line.map(shown).sort().join(" to "));
    const guess = ["1 0 0", "0 1 0", "0 0 1"];
    assert.deepEqual(lines("3/4", ...guess), ["3/4 0 1/4 to 3/4 1/4 0", "0 3/4 1/4 to 1/4 3/4 0", "0 1/4 3/4 to 1/4 0 3/4"]);
    // At 1/2 the lines meet in the middles of the edges.
    assert.deepEqual(lines("1/2", ...guess), ["1/2 0 1/2 to 1/2 1/2 0", "0 1/2 1/2 to 1/2 1/2 0", "0 1/2 1/2 to 1/2 0 1/2"]);
    // Nothing is worth less than 1/3, which is one point, and nothing more than 1.
    assert.deepEqual([lines("1/4", ...guess), lines("1/3", ...guess), lines("1", ...guess)], [[], [], []]);
    assert.deepEqual(lines("1", "0 1 2"), ["0 1 0 to 1/2 0 1/2"]);
});
