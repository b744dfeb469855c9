// Gain tables: exact numbers on the way from what is typed to the file.
import assert from "node:assert/strict";
import test from "node:test";
import { commonDenominator, fractionOf, printed, typedFraction } from "../../src/fractions.mjs";
import { gainsOf, guessOf, jsonOf } from "../../src/gains.mjs";
import { gainTable } from "../../src/verdicts.mjs";

const fraction = (text) => fractionOf(text);

test("what is typed is taken exactly, or not at all", () => {
    const taken = [["1/2", "1/2"], [" 2/4 ", "1/2"], ["-3/6", "-1/2"], ["0.5", "1/2"], ["-0.125", "-1/8"], ["7", "7"], ["9007199254740993", "9007199254740993"],
        ["0.1", "1/10"], ["9007199254740993/2", "9007199254740993/2"], ["-0", "0"]];
    for (const [text, right] of taken) {
        assert.equal(printed(typedFraction(text)), right, text);
    }
    for (const text of ["", " ", "1/0", "1/-2", "1e3", "1,5", "a", ".5", "5.", "1/2/3", "0x10", "½", "1 2", "9".repeat(401)]) {
        assert.equal(typedFraction(text), null, text);
    }
});

test("a table's file has whole numbers over the least common denominator", () => {
    const gains = { rest: fraction("-1/6"), actions: [{ name: "low", gains: new Map([["0", fraction("1/2")], ["1", fraction("3")]]) }] };
    assert.equal(jsonOf(gains), "{\"actions\":[{\"gains\":[[\"0\",3],[\"1\",18]],\"name\":\"low\"}],\"format\":\"kuifje-gain-1\",\"over\":6,\"rest\":-1}");
    assert.equal(commonDenominator([fraction("1/4"), fraction("5/6"), fraction("2")]), BigInt(12));
    assert.equal(commonDenominator([]), BigInt(1));
});

test("no number goes through a float", () => {
    const json = "{\"actions\":[{\"gains\":[[\"a \\\"5\\\" 7\",9007199254740993]],\"name\":\"x\"}],\"format\":\"kuifje-gain-1\",\"over\":1,\"rest\":-9007199254740993}";
    const gains = gainsOf(json);
    assert.equal(printed(gains.rest), "-9007199254740993");
    assert.equal(printed(gains.actions[0].gains.get("a \"5\" 7")), "9007199254740993");
    assert.equal(jsonOf(gains), json);
});

test("a table that the page can't show as fields is none", () => {
    const table = (parts) => JSON.stringify({ actions: [{ gains: [["0", 1]], name: "x" }], format: "kuifje-gain-1", over: 1, rest: 0, ...parts });
    assert.notEqual(gainsOf(table({})), null);
    const odd = [{ over: 0 }, { over: -1 }, { over: 1.5 }, { rest: "0" }, { format: "x" }, { actions: {} }, { actions: [{ gains: [["0"]], name: "x" }] },
        { actions: [{ gains: [[0, 1]], name: "x" }] },
        { actions: [{ gains: [["0", 1.5]], name: "x" }] }, { actions: [5] }];
    for (const parts of odd) {
        assert.equal(gainsOf(table(parts)), null, JSON.stringify(parts));
    }
    for (const text of ["", "x", "[]", "null", "{\"over\":01}"]) {
        assert.equal(gainsOf(text), null, text);
    }
});

test("the first table gains 1 for a right guess", () => {
    assert.equal(jsonOf(guessOf(["0", "1"])),
        "{\"actions\":[{\"gains\":[[\"0\",1]],\"name\":\"guess_0\"},{\"gains\":[[\"1\",1]],\"name\":\"guess_1\"}],\"format\":\"kuifje-gain-1\",\"over\":1,\"rest\":0}");
});

test("the table of a verdict keeps its numbers as they are printed", () => {
    const verdict = {
        isYes: false, over: "9007199254740993", rest: "-1",
        actions: [{ name: "b0", gains: [{ value: "(1, 0)", gain: "9007199254740995" }] }],
    };
    assert.equal(gainTable(verdict), "{\"actions\":[{\"gains\":[[\"(1, 0)\",9007199254740995]],\"name\":\"b0\"}],"
        + "\"format\":\"kuifje-gain-1\",\"over\":9007199254740993,\"rest\":-1}");
});
