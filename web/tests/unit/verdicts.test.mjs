// For which priors the page says that a verdict holds.
import assert from "node:assert/strict";
import test from "node:test";
import { hyperOf } from "../../src/answers.mjs";
import { priorsOf } from "../../src/verdicts.mjs";

const EVERY = /^A yes holds for every prior on the secret; a no for every prior under which every value is possible\./;
// A bit, uniform, of which nothing is seen, or all, or which is likelier 0.
const nothing = "target old x\nscale 2\ninners 1\ninner 0 outer 1\n  0 1/2\n  1 1/2\n";
const all = "target old x\nscale 2\ninners 2\ninner 0 outer 1/2\n  0 1\ninner 1 outer 1/2\n  1 1\n";
const skewed = "target old x\nscale 4\ninners 1\ninner 0 outer 1\n  0 3/4\n  1 1/4\n";
const last = nothing.replace("old x", "x");
const both = nothing.replace("old x", "old x, y");

test("a verdict about an old target with every value possible holds for every prior", () => {
    assert.match(priorsOf([hyperOf(nothing), hyperOf(all)], 2), EVERY);
});

test("where values are impossible it says how many, and for which priors", () => {
    const said = priorsOf([hyperOf(nothing), hyperOf(all)], 4);
    assert.doesNotMatch(said, EVERY);
    assert.match(said, /2 of the 4 values of the secret are possible\. A yes holds for every prior under which no others are; a no for every prior under which just these are/);
});

test("elsewhere it is for the declared priors", () => {
    assert.match(priorsOf([hyperOf(nothing), hyperOf(skewed)], 2), /for the priors that the texts declare/);
    assert.match(priorsOf([hyperOf(last), hyperOf(last)], 2), /and for no others/);
    assert.match(priorsOf([hyperOf(both), hyperOf(both)], 2), /and for no others/);
});

test("a hyper that isn't read whole leaves open what is possible", () => {
    const many = `target old x\nscale 300\ninners 300\n${Array.from({ length: 300 }, (_, index) => `inner ${index} outer 1/300\n  ${index} 1\n`).join("")}`;
    assert.match(priorsOf([hyperOf(many), hyperOf(many)], 300), /^The verdicts are for the prior that the texts declare\.$/);
});
