// The words that .ci/tables writes, as the page uses them.
import assert from "node:assert/strict";
import test from "node:test";
import { namesIn } from "../../src/commands.mjs";
import { targetOf } from "../../src/programs.mjs";
import { VIEWS } from "../../src/questions.mjs";
import { FILES, SIGNS, WORDS } from "../../src/words.mjs";

test("each view shows answers of commands that there are", () => {
    const shown = VIEWS.flatMap(({ commands }) => [...commands]);
    assert.ok(shown.length > 0);
    assert.deepEqual(shown.filter((command) => !FILES.has(command)), []);
});

test("a certificate stands before the programs", () => {
    assert.deepEqual(FILES.get("check"), { certificates: 1, programs: 2 });
    assert.deepEqual(namesIn(["check", "proof", "a.kf", "b.kf", "c.kf"]), { programs: ["a.kf", "b.kf"], tables: ["proof"] });
    assert.deepEqual(namesIn(["check", "proof"]), { programs: [], tables: ["proof"] });
    assert.deepEqual(namesIn(["unknown", "a.kf", "b.kf"]), { programs: ["a.kf"], tables: [] });
});

test("a longer sign is read before a shorter one, and no word stands twice", () => {
    assert.ok(SIGNS.every((sign, at) => SIGNS.slice(0, at).every((before) => !sign.startsWith(before))));
    const words = Object.values(WORDS).flat();
    assert.equal(new Set(words).size, words.length);
    assert.deepEqual(targetOf("var x : 0..1 := 0;\nabout old x;"), [{ name: "x", isOld: true }]);
});
