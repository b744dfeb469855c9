// Branches and loops that are made even: the texts, worked out by hand.
import assert from "node:assert/strict";
import test from "node:test";
import { Uncovered, compounds, evenText, within } from "../../src/even.mjs";
import { typeOf, typeText } from "../../src/kinds.mjs";
import { every, read } from "../../src/source.mjs";

const PLAIN = { isHeld: false, hasMet: false };

/** The text with all conditionals and loops made even. */
function made(text, { turns = 0, isCarried = false, purpose = null, how = PLAIN } = {}) {
    const source = read(text);
    const all = compounds(source.statements);
    const observations = every(source.statements).filter(({ kind }) => kind === "observe");
    const kept = purpose === null ? null : { statement: observations[purpose], type: { kind: "bool" }, value: "kept", met: "met" };
    return evenText(source, { even: new Set(all.map(({ at }) => at)), isCarried }, kept, new Map(all.map(({ at }) => [at, turns])), how);
}

test("a conditional becomes assignments by cond", () => {
    assert.equal(made("var h : 0..3 := uniform 0..3; # secret\nvar y : 0..1 := 0;\nabout old h;\n  if h = 2 { y := 1; } else { y := 0; }\nobserve y;\n"),
        "var h : 0..3 := uniform 0..3; # secret\nvar y : 0..1 := 0;\nvar yes : bool := false;\nvar no : bool := false;\nabout old h;\n"
        + "  yes := h = 2;\n  no := not yes;\n  y := cond(yes, 1, y);\n  y := cond(no, 0, y);\nobserve y;\n");
});

test("names that are taken aren't taken again, and line ends stay", () => {
    assert.equal(made("var yes : bool := true; # é\r\nif yes { yes := false; } else { skip; }\r\n"),
        "var yes : bool := true; # é\r\nvar yes_2 : bool := false;\r\nyes_2 := yes;\r\nyes := cond(yes_2, false, yes);\r\n");
});

test("a loop takes all of its turns", () => {
    assert.equal(made("var n : 0..3 := uniform 0..3;\nwhile n > 0 { n := n - 1; }\n", { turns: 3 }),
        "var n : 0..3 := uniform 0..3;\nvar on : bool := false;\nvar turn : 0..3 := 0;\non := true;\nturn := 0;\nwhile turn < 3 {\n"
        + "  on := on and (n > 0);\n  n := cond(on, n - 1, n);\n  turn := turn + 1;\n}\n");
    assert.equal(made("var n : 0..3 := 0;\nwhile n > 0 { n := n - 1; }\nskip;\n"), "var n : 0..3 := 0;\n\nskip;\n");
    assert.throws(() => made("var n : 0..99 := 99;\nwhile n > 0 { n := n - 1; }\n", { turns: 99 }), Uncovered);
});

test("an inner conditional stands under the guards around it", () => {
    assert.equal(made("var a : bool := flip 1/2;\nif a { if a { a := false; } else { a := true; } } else { skip; }\n"),
        "var a : bool := flip 1/2;\nvar yes : bool := false;\nvar yes_2 : bool := false;\nvar no : bool := false;\n"
        + "yes := a;\nyes_2 := yes and (a);\nno := yes and not yes_2;\na := cond(yes_2, false, a);\na := cond(no, true, a);\n");
});

test("distributions stay what they are where the guard holds", () => {
    const draws = "a := flip 1/3; x := uniform 1..x; x := uniform {0, x}; x := choose { (x) : 2, 0 : x };";
    const found = made(`var a : bool := true;\nvar x : 0..2 := 0;\nif a { ${draws} } else { skip; }\n`);
    assert.deepEqual(found.split("\n").slice(4, 8), [
        "a := choose { cond(yes, true, a) : 1, cond(yes, false, a) : 2 };", "x := uniform cond(yes, 1, x)..cond(yes, x, x);", "x := uniform cond(yes, {0, x}, {x});",
        "x := choose { cond(yes, (x), x) : cond(yes, 2, 1), cond(yes, 0, x) : cond(yes, x, 1) };",
    ]);
    assert.match(made("var a : bool := true;\nif flip 1/2 { a := true; } else { skip; }\n"), /^yes := flip 1\/2;$/m);
    const nested = "var a : bool := true;\nif a { if flip 1/2 { a := true; } else { skip; } } else { skip; }\n";
    assert.match(made(nested), /^yes_2 := choose \{ cond\(yes, true, false\) : 1, cond\(yes, false, false\) : 1 \};$/m);
});

test("an observation is shown on either side", () => {
    const text = "var x : 1..3 := uniform 1..3;\nif x = 1 { observe x; } else { skip; }\n";
    assert.equal(made(text), "var x : 1..3 := uniform 1..3;\nvar yes : bool := false;\nvar shown : 1..3 := 1;\nyes := x = 1;\nshown := cond(yes, x, (1));\nobserve shown;\n");
    assert.match(made(text, { isCarried: true }), /shown := cond\(yes, x, shown\);/);
});

test("what a program is for is shown at the end of what is made even", () => {
    const text = "var a : bool := flip 1/2;\nif a { observe a; } else { skip; }\n";
    assert.equal(made(text, { purpose: 0 }), "var a : bool := flip 1/2;\nvar kept : bool := false;\nvar met : bool := false;\nvar yes : bool := false;\n"
        + "yes := a;\nkept := cond(yes, a, kept);\nmet := met or yes;\nobserve kept;\n");
    assert.match(made(text, { purpose: 0, how: { isHeld: false, hasMet: true } }), /observe \(met, kept\);\n$/);
    const outside = "var a : bool := flip 1/2;\nif a { skip; } else { skip; }\nobserve a;\n";
    assert.match(made(outside, { purpose: 0, how: { isHeld: true, hasMet: false } }), /kept := a; met := true; observe kept;\n$/);
    assert.doesNotMatch(made(outside, { purpose: 0 }), /kept/);
});

test("a visible variable in a branch isn't made even", () => {
    assert.throws(() => made("vis v : bool := true;\nif v { v := false; } else { skip; }\n"), /visible variable v/);
});

test("what stands in a conditional is made even with it", () => {
    const source = read("var a : bool := true;\nif a { while a { if a { skip; } else { skip; } } } else { skip; }\n");
    assert.deepEqual(compounds(source.statements).map((it) => within(it).size), [3, 2, 1]);
});

test("types of what is shown", () => {
    const declared = "var x : 0..3 := 0;\nvar b : bool := true;\nvar s : set of 0..3 := {0};\nvar t : (0..1, bool) := (0, b);\n";
    const types = new Map(read(declared).declarations.map(({ name, type }) => [name, type]));
    const typed = (value) => typeText(typeOf(read(`var q : bool := true;\nobserve ${value};\n`).statements[0].value, types));
    for (const [value, type] of [
        ["x + 1", "1..4"], ["x - 5", "-5..-2"], ["-x", "-3..0"], ["x * -2", "-6..0"], ["x mod 2", "0..1"], ["(x - 3) mod 3", "0..2"],
        ["x div 2", "0..1"], ["(x - 7) div 2", "-4..-2"], ["(x - 7) div -2", "2..4"], ["abs(x - 2)", "0..2"], ["min(x, 1)", "0..1"],
        ["max(x, 2)", "2..3"], ["x = 1", "bool"], ["not b", "bool"], ["(x, b)", "(0..3, bool)"], ["t.0", "0..1"], ["s union {7}", "set of 0..7"],
        ["size(s)", "0..4"], ["cond(b, x, 9)", "0..9"], ["flip 1/2", "bool"], ["uniform s", "0..3"], ["uniform 2..x", "2..3"], ["choose { x : 1, -1 : 2 }", "-1..3"],
        ["x * 1000000", "-32768..32767"],
    ]) {
        assert.equal(typed(value), type, value);
    }
    for (const value of ["x div 0", "(x, x, x, x, x, x, x, x, x)"]) {
        assert.throws(() => typed(value), Error, value);
    }
});
