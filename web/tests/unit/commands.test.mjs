// Which words of a command are files, which view shows its answer, and which words are sent.
import assert from "node:assert/strict";
import { readFileSync } from "node:fs";
import test from "node:test";
import { filesOf, hasFiles, measureOf, namesIn, partsOf, sentWords, typedWords, viewOf, wordsOf } from "../../src/commands.mjs";

const words = (line) => line.split(" ");

test("a gain table is a file in both forms of its option, and whatever its name ends with", () => {
    for (const line of ["leak a.kf --gain table:gain.json", "leak a.kf --gain=table:gain.json", "--gain=table:gain.json leak a.kf", "leak --gain table:gain.json a.kf"]) {
        assert.deepEqual(namesIn(words(line)), { programs: ["a.kf"], tables: ["gain.json"] }, line);
        assert.equal(measureOf(words(line)), "table", line);
    }
    assert.deepEqual(namesIn(words("leak a.kf --gain=table:bets")).tables, ["bets"]);
    assert.deepEqual(namesIn(words("leak a.kf --gain bayes")).tables, []);
});

test("files are the first values of a command, and numbers are none", () => {
    assert.deepEqual(namesIn(words("reach a.kf 9/10")), { programs: ["a.kf"], tables: [] });
    assert.deepEqual(namesIn(words("choice a.kf b.kf 1/3")).programs, ["a.kf", "b.kf"]);
    assert.deepEqual(namesIn(words("make 20")).programs, []);
    assert.deepEqual(namesIn(words("check proof a.kf b.kf")), { programs: ["a.kf", "b.kf"], tables: ["proof"] });
    assert.deepEqual(namesIn(words("hyper --turns 5 text")).programs, ["text"]);
    assert.deepEqual(namesIn(words("hyper -- --json")).programs, ["--json"]);
    assert.deepEqual(namesIn([]), { programs: [], tables: [] });
});

test("the commands on other than one file are those of docs/COMMANDS.md", () => {
    const rows = [...readFileSync(new URL("../../../docs/COMMANDS.md", import.meta.url), "utf8").matchAll(/^\| `([a-z-]+)` \| ([^|]*) \| (?:no|G|may) \| (?:no|may) \|/gm)];
    assert.ok(rows.length >= 18);
    for (const [, command, files] of rows) {
        const count = (files.match(/\b(FILE|CERT|A(?!\.)|(?<!\.)B)\b/g) || []).length;
        const { programs, tables } = namesIn([command, "one", "two", "three"]);
        assert.equal(programs.length + tables.length, count, `${command} ${files}`);
    }
});

test("files that are there, by any of their names", () => {
    const files = { "a.kf": "1", "gain.json": "2", other: "3" };
    assert.deepEqual(filesOf(words("leak a.kf --gain=table:gain.json"), files), { "a.kf": "1", "gain.json": "2" });
    assert.deepEqual(filesOf(words("hyper other"), files), { other: "3" });
    assert.deepEqual(filesOf(words("hyper constructor"), files), {});
    assert.ok(hasFiles(words("reach a.kf 9/10"), files));
    assert.ok(!hasFiles(words("lines a.kf --gain=table:no.json"), files));
    assert.ok(!hasFiles(words("hyper toString"), files));
});

test("the words that are sent say how many turns a loop may have", () => {
    assert.deepEqual(sentWords(words("hyper a.kf"), 1024), words("hyper a.kf"));
    assert.deepEqual(sentWords(words("hyper a.kf"), 4096), words("hyper a.kf --turns 4096"));
    assert.deepEqual(sentWords(words("hyper a.kf --turns 7"), 4096), words("hyper a.kf --turns 7"));
    assert.deepEqual(sentWords(words("hyper a.kf --turns=7"), 4096), words("hyper a.kf --turns=7"));
    assert.deepEqual(sentWords(words("hyper -- a.kf"), 4096), words("hyper --turns 4096 -- a.kf"));
});

test("the program's own name may be typed, too", () => {
    assert.deepEqual(typedWords("  kuifje  hyper a.kf "), ["hyper", "a.kf"]);
    assert.deepEqual(typedWords("kuifje"), []);
    assert.deepEqual(typedWords("kuifje kuifje"), ["kuifje"]);
    assert.deepEqual(wordsOf("kuifje odd-word a.kf"), ["odd-word", "a.kf"]);
    assert.equal(wordsOf("kuifje hyper a.kf > out"), null);
});

test("a view is taken for just the questions that it shows", () => {
    const seen = (line) => viewOf(words(line)).view;
    assert.equal(seen("hyper a.kf"), "hyper");
    assert.equal(seen("covers a.kf b.kf"), "covers");
    assert.equal(seen("refine a.kf b.kf"), "refine");
    assert.equal(seen("refine a.kf b.kf --json"), "command");
    assert.equal(seen("trail a.kf"), "lines");
    assert.equal(seen("leak a.kf --gain=table:gain.json"), "leak");
    assert.equal(seen("leak a.kf --gain tries:3"), "leak");
    // The page lists no five tries.
    assert.equal(seen("leak a.kf --gain tries:5"), "command");
    assert.equal(seen("lines a.kf --gain=tries:5"), "command");
    assert.equal(seen("hyper a.kf --turns=5"), "command");
    assert.equal(seen("reach a.kf 1/2"), "command");
});

test("parts of a command", () => {
    assert.deepEqual(partsOf(words("leak --gain bayes a.kf --turns=9 --json")), { command: "leak", values: ["a.kf"], gain: "bayes", turns: "9", json: true });
});
