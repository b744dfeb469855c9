// The search for repairs: what a text is for, its floor, and that nothing is proposed which the program doesn't confirm. Numbers are worked out by hand.
import assert from "node:assert/strict";
import test from "node:test";
import { printed } from "../../src/fractions.mjs";
import { NoPurpose, floorOf, observationsOf, repairOf, usualPurpose } from "../../src/repair.mjs";
import { read } from "../../src/source.mjs";

test("the floor shows what a text is for, and nothing else", () => {
    // Of 0 to 3, each as likely, one shows whether it is 2: the columns 0, 1, 3 and 2.
    const joint = ["0", "1", "2", "3"].map((x) => ({ value: `(${x}, ${x}, ${x === "2"}, true)`, share: "1/4" }));
    const share = (value) => ({ value, share: "1/3" });
    assert.deepEqual(floorOf(joint, 1, 2), [{ weight: "3/4", shares: ["0", "1", "3"].map(share) }, { weight: "1/4", shares: [{ value: "2", share: "1" }] }]);
    assert.deepEqual(floorOf(joint, 1, 0).map(({ weight, shares }) => [weight, shares.length]), [["1", 4]]);
    // Two values that say the same of the secret are one inner, as wide as both.
    const coin = [["0", "false", "1/8"], ["0", "true", "3/8"], ["1", "false", "1/8"], ["1", "true", "3/8"]].map(([x, c, p]) => ({ value: `(${x}, ${c}, true)`, share: p }));
    assert.deepEqual(floorOf(coin, 1, 2).map(({ weight, shares }) => [weight, shares.map((it) => it.share)]), [["1", ["1/2", "1/2"]]]);
    // A secret of two variables.
    assert.deepEqual(floorOf([{ value: "(0, 1, 5)", share: "1" }], 2, 1), [{ weight: "1", shares: [{ value: "(0, 1)", share: "1" }] }]);
});

test("what a text is for, unless somebody says otherwise", () => {
    const usual = (statements) => usualPurpose(read(`var x : bool := flip 1/2;\n${statements}`));
    assert.equal(usual("x := x;"), "none");
    assert.equal(usual("if x { observe x; } else { skip; } observe x;"), 1);
    assert.equal(usual("if x { observe x; } else { skip; }"), 0);
    assert.equal(usual("if x { observe x; } else { observe x; }"), null);
    assert.equal(usual("observe x; observe x;"), null);
    const [, second] = observationsOf(read("var x : bool := flip 1/2; # é\nif x { observe x; } else { skip; } # é\nobserve not x;"));
    assert.deepEqual(second, { index: 1, line: 3, column: 1, text: "observe not x;" });
});

const LOCK = "var h : 0..3 := uniform 0..3;\nvar y : 0..1 := 0;\nabout old h;\nif h = 2 { y := 1; } else { y := 0; }\nobserve y;\n";
const APART = "inners 2\ninner 0 outer 3/4\n  0 1/3\n  1 1/3\n  3 1/3\ninner 1 outer 1/4\n  2 1\n";

/**
 * A program that answers questions about LOCK and its repair as it would, except for some.
 * @param {Record<string, string | null>} lies
 */
function program(lies) {
    const asked = [];
    const ask = async ([command], files) => {
        const text = files["text.kf"];
        const target = /about (.*);/.exec(text)[1];
        const isRepaired = text.includes("cond(");
        const key = `${command} ${target} ${isRepaired ? "repaired" : "old"}`;
        asked.push(key);
        if (key in lies) {
            return lies[key];
        }
        if (command === "refine") {
            return "refines yes\nmatrix 2 2\n1 0\n0 1\n";
        }
        if (command === "quiet") {
            const rows = [0, 1, 2, 3].map((h) => `  (${h}, ${h}, ${Number(h === 2)}, ${Number(h === 2)}, true) 1/4\n`).join("");
            return `target ${target}\nscale 4\ninners 1\ninner 0 outer 1\n${rows}`;
        }
        if (target === "kept, met") {
            return `target ${target}\nscale 4\ninners 2\ninner 0 outer 3/4\n  (0, true) 1\ninner 1 outer 1/4\n  (1, true) 1\n`;
        }
        // As if the guard showed more than it does: each value.
        const all = `inners 4\n${[0, 1, 2, 3].map((h) => `inner ${h} outer 1/4\n  ${h} 1\n`).join("")}`;
        return `target old h\nscale 4\n${isRepaired ? APART : all}`;
    };
    return { ask, asked };
}

test("a repair that the program confirms is proposed", async () => {
    const { ask, asked } = program({});
    const { repair, posterior, floor, isReached } = await repairOf(LOCK, 0, ask);
    assert.deepEqual([posterior, floor].map(printed), ["1", "1/2"]);
    assert.ok(!isReached && repair.isAtFloor);
    assert.equal(printed(repair.posterior), "1/2");
    assert.deepEqual(repair.lines, [4]);
    assert.equal(repair.text, "var h : 0..3 := uniform 0..3;\nvar y : 0..1 := 0;\nvar yes : bool := false;\nvar no : bool := false;\nabout old h;\n"
        + "yes := h = 2;\nno := not yes;\ny := cond(yes, 1, y);\ny := cond(no, 0, y);\nobserve y;\n");
    assert.ok(asked.includes("refine old h repaired"));
});

test("without any of the three conditions nothing is proposed", async () => {
    const moved = "target old h, h, y, kept, met\nscale 4\ninners 1\ninner 0 outer 1\n  (0, 0, 1, 0, true) 1/2\n  (1, 1, 0, 0, true) 1/2\n";
    const untold = "target kept, met\nscale 4\ninners 1\ninner 0 outer 1\n  (0, true) 3/4\n  (1, true) 1/4\n";
    const no = "refines no\nover 1\nrest 0\nactions 1\naction b0\n  2 1\n";
    for (const lies of [
        { "quiet old h, h, y, kept, met repaired": moved }, { "hyper kept, met repaired": untold }, { "refine old h repaired": no },
        { "refine old h repaired": null }, { "quiet old h, h, y, kept, met repaired": null }, { "hyper old h repaired": null },
    ]) {
        const { repair } = await repairOf(LOCK, 0, program(lies).ask);
        assert.equal(repair, null, JSON.stringify(lies));
    }
});

test("a text that leaks what it is for, and no more, has nothing to repair", async () => {
    const { ask, asked } = program({ "hyper old h old": `target old h\nscale 4\n${APART}` });
    const { isReached, repair } = await repairOf(LOCK, 0, ask);
    assert.deepEqual([isReached, repair], [true, null]);
    assert.ok(asked.every((key) => key.endsWith(" old")));
});

test("what can't be asked about has no search", async () => {
    const { ask } = program({ "hyper kept, met old": "target kept, met\nscale 4\ninners 1\ninner 0 outer 1\n  (0, true) 3/4\n  (1, true) 1/4\n" });
    await assert.rejects(repairOf(LOCK, 0, ask), /can't tell what this observation showed/);
    await assert.rejects(repairOf(LOCK.replace("old h", "h"), 0, ask), /write about old/);
    await assert.rejects(repairOf(LOCK.replace("about old h;\n", ""), 0, ask), NoPurpose);
    await assert.rejects(repairOf(LOCK, 1, ask), /no such observation/);
});
