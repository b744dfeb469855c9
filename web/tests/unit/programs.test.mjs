// What the page finds in a text by itself: the target, how many values it has, statements, and what is too long.
import assert from "node:assert/strict";
import test from "node:test";
import { isLong, statementLines, statementsOf, targetOf, targetSize } from "../../src/programs.mjs";

test("a nested statement is cut at its own end", () => {
    const text = "var a : bool := flip 1/2;\nif a { observe a; } else { skip; } # why\n"
        + "while a { a := false; } observe not a;\nif a {\n  while a { a := false; } } else { skip; }\n";
    const statement = statementsOf(text);
    assert.equal(statement(2, 1), "if a { observe a; } else { skip; }");
    assert.equal(statement(2, 8), "observe a;");
    assert.equal(statement(3, 1), "while a { a := false; }");
    assert.equal(statement(3, 25), "observe not a;");
    assert.equal(statement(4, 1), "if a {");
    assert.equal(statement(5, 3), "while a { a := false; }");
});

test("a guard may end with braces, and a statement may begin in the line in which one ends", () => {
    const text = "var s : 0..2 := 0;\nif s in {0, 1} { skip; } else { while s in {2} { s := 0; } } s := 1;\n";
    const statement = statementsOf(text);
    assert.equal(statement(2, 1), "if s in {0, 1} { skip; } else { while s in {2} { s := 0; } }");
    assert.equal(statement(2, 33), "while s in {2} { s := 0; }");
    assert.equal(statement(2, 62), "s := 1;");
});

test("columns count bytes", () => {
    assert.equal(statementsOf("var a : 0..1 := 0; observe a; # é\n# é\n")(1, 20), "observe a;");
});

test("the target is found among the declarations", () => {
    const text = "var x : 0..1 := 0; # about old y;\nvis y : bool := true;\nabout old x, y;\nobserve x;\n";
    assert.deepEqual(targetOf(text), [{ name: "x", isOld: true }, { name: "y", isOld: false }]);
    assert.deepEqual(targetOf("var x : 0..1 := 0;\nvis y : bool := true;\nx := 1;\n"), [{ name: "x", isOld: false }, { name: "y", isOld: false }]);
    assert.deepEqual(statementLines("var x : 0..1 := 0;\nx := 1;\nwhile x in {0, 1} { x := 2; }\nskip;\n"), [2, 3, 4]);
});

test("a long text's target is found without its statements", () => {
    const text = `var x : 0..1 := 0;\nabout old x;\n${"x := 1 - x;\n".repeat(80000)}`;
    const from = performance.now();
    assert.deepEqual(targetOf(text), [{ name: "x", isOld: true }]);
    assert.ok(performance.now() - from < 1000);
});

test("how many values a target has, possible or not", () => {
    const size = (type, about = "about old x;") => targetSize(`var x : ${type} := uniform 0;\nvar y : bool := flip 1/2;\n${about}\n`);
    assert.equal(size("bool"), 2);
    assert.equal(size("0..3"), 4);
    assert.equal(size("-2..3"), 6);
    assert.equal(size("-3..-2"), 2);
    assert.equal(size("(0..2, bool)"), 6);
    assert.equal(size("(bool, (0..2, bool), 0..1)"), 24);
    assert.equal(size("set of 0..3"), 16);
    assert.equal(size("set of set of bool"), 16);
    assert.equal(size("(set of bool, 0..1)"), 8);
    assert.equal(size("0..3", "about old x, old y;"), 8);
});

test("long texts, and texts with a long line", () => {
    assert.ok(!isLong("x := 1;\n".repeat(1000)));
    assert.ok(isLong("x := 1;\n".repeat(10000)));
    assert.ok(isLong("x".repeat(6000)));
    assert.ok(!isLong(`${"x".repeat(4000)}\n`.repeat(3)));
});
