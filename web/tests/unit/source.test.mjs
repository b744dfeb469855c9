// The reader of programs: its tree, and places in characters and in bytes.
import assert from "node:assert/strict";
import { readFileSync } from "node:fs";
import test from "node:test";
import { edited, every, placesIn, read, readHead, sizeOf } from "../../src/source.mjs";

/** An expression as one writes it where each operator has brackets. */
function written(it) {
    if (it.kind === "call") {
        return it.parts.length === 2 && !["min", "max", "tuple", "set"].includes(it.operator)
            ? `(${written(it.parts[0])} ${it.operator} ${written(it.parts[1])})` : `${it.operator}(${it.parts.map(written).join(", ")})`;
    }
    return it.kind === "part" ? `${written(it.whole)}.${it.number}` : it.kind === "name" ? it.name : String(it.value);
}
const shown = (text) => {
    const [first] = read(`var x : bool := true;\nobserve ${text};\n`).statements;
    return written(first.value.value);
};

test("operators bind as docs/LANGUAGE.md has it", () => {
    for (const [text, right] of [
        ["a implies b implies c", "((a implies b) implies c)"], ["a or b xor c", "((a or b) xor c)"], ["a or b and c", "(a or (b and c))"],
        ["not a = b and c", "(not((a = b)) and c)"], ["a + b * c - d", "((a + (b * c)) - d)"], ["-a + b", "(-(a) + b)"], ["-a.1", "-(a.1)"],
        ["(5, 6).1", "tuple(5, 6).1"], ["(a)", "a"], ["(a + b) * c", "((a + b) * c)"], ["x in {1, 2} or y", "((x in set(1, 2)) or y)"],
        ["cond(a, b, c)", "cond(a, b, c)"], ["min(a, b) mod 2 <= 1", "((min(a, b) mod 2) <= 1)"], ["s union t less u", "((s union t) less u)"],
    ]) {
        assert.equal(shown(text), right, text);
    }
});

test("each two operators bind by the levels of the table in docs/LANGUAGE.md", () => {
    const language = readFileSync(new URL("../../../docs/LANGUAGE.md", import.meta.url), "utf8");
    const rows = [...language.matchAll(/^\| ((?:`[^`]+` ?)+) \| (\d) \|/gm)].map(([, words, level]) => ({ words: words.match(/[^` ]+/g), level: Number(level) }));
    const binary = rows.filter(({ level }) => [1, 2, 4, 5, 6].includes(level)).flatMap(({ words, level }) => words.map((word) => ({ word, level })));
    assert.equal(binary.length, 20);
    for (const first of binary) {
        // A comparison doesn't go on.
        for (const second of binary.filter(({ level }) => level !== 4 || first.level !== 4)) {
            const text = `a ${first.word} b ${second.word} c`;
            const right = first.level >= second.level ? `((a ${first.word} b) ${second.word} c)` : `(a ${first.word} (b ${second.word} c))`;
            assert.equal(shown(text), right);
        }
    }
});

test("distributions, with each case as it is written", () => {
    const text = "var x : 0..3 := uniform 0..3;\nx := choose { (x + 1) : 2 * 3, 0 : 1 };\nx := flip 1/3;\nx := uniform {0, 2};\nx := uniform 1..(x);\n";
    const values = read(text).statements.map(({ value }) => value);
    assert.deepEqual(values[0].cases.map(({ valueText, weightText }) => [valueText, weightText]), [["(x + 1)", "2 * 3"], ["0", "1"]]);
    assert.deepEqual([values[1].over, values[1].under], [1, 3]);
    assert.deepEqual([values[2].high, values[3].high.name], [null, "x"]);
});

test("statements nest, and each has its end", () => {
    const text = "vis v : bool := true; # if\nabout old v;\nif v { while v { v := false; } } else { skip; } observe v;\n";
    const source = read(text);
    assert.deepEqual(every(source.statements).map(({ kind, at, end }) => [kind, text.slice(at, end)]), [
        ["if", "if v { while v { v := false; } } else { skip; }"], ["while", "while v { v := false; }"], ["assign", "v := false;"], ["skip", "skip;"], ["observe", "observe v;"],
    ]);
    assert.equal(text.slice(0, source.declared), "vis v : bool := true;");
    assert.equal(text.slice(source.declared, source.begin), " # if\nabout old v;");
    assert.deepEqual(source.about, [{ name: "v", isOld: true }]);
});

test("a text that is no program is refused", () => {
    for (const text of ["var x : bool := true;\nif x { skip; }", "var x : bool := true", "observe @;", "observe x", "if x { skip; } else {", "x = 1;"]) {
        assert.throws(() => read(text), Error, text);
    }
    // What stands before the statements is read alone.
    assert.equal(readHead("var x : bool := true;\nif if if").declarations.length, 1);
});

test("sizes of types", () => {
    const size = (type) => sizeOf(readHead(`var x : ${type} := 0;`).declarations[0].type);
    assert.deepEqual(["bool", "-2..3", "(0..2, bool)", "set of 0..3", "set of set of bool", "0..1000000000"].map(size), [2, 6, 6, 16, 16, 1 << 20]);
});

test("places count characters here and bytes there", () => {
    const text = "var a : bool := true; # é\n# 😀 é\nobserve a; # é\n  observe a;";
    const places = placesIn(text);
    for (const { at } of read(text).statements) {
        const { line, column } = places.of(at);
        assert.equal(places.at(line, column), at);
    }
    assert.deepEqual(places.of(text.indexOf("observe")), { line: 3, column: 1 });
    assert.deepEqual(places.of(text.lastIndexOf("observe")), { line: 4, column: 3 });
    // Four bytes and two characters, a blank, two bytes and one character.
    assert.deepEqual(placesIn("# 😀 é x").of(7), { line: 1, column: 11 });
    assert.equal(placesIn("# 😀 é x").at(1, 11), 7);
});

test("edits keep the order in which they are given where they stand at one place", () => {
    assert.equal(edited("abcdef", [{ at: 1, end: 2, by: "X" }, { at: 4, end: 4, by: "1" }, { at: 4, end: 4, by: "2" }, { at: 0, end: 0, by: "<" }]), "<aXcd12ef");
});
