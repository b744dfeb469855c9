// A link restores each view and each setting, and one that means no good is refused.
import assert from "node:assert/strict";
import { readFileSync } from "node:fs";
import test from "node:test";
import { deflateRawSync } from "node:zlib";
import { LONGEST, linkFrom, linkOf } from "../../src/links.mjs";
import { MOST_TURNS, SETTINGS, VIEWS, opened, tabOf, turnsIn } from "../../src/questions.mjs";

const STATE = {
    a: "var x : 0..1 := 0;", b: "var y : bool := true;", view: "hyper", of: "a", gain: null, measure: "bayes", prior: null, words: null, page: null, turns: 1024, kept: {},
};
const packed = (state) => `#kf1.${deflateRawSync(JSON.stringify(state)).toString("base64url")}`;

async function restored(state) {
    const { link, without } = await linkOf(state);
    assert.deepEqual(without, []);
    return linkFrom(link);
}

test("a link restores each view of the list", async () => {
    for (const { name } of VIEWS) {
        const state = { ...STATE, view: name };
        assert.deepEqual(await restored(state), { kind: "state", state }, name);
    }
});

test("each view stands in a tab, and each tab has one title", () => {
    for (const { name } of VIEWS) {
        assert.equal(VIEWS.filter((it) => it.name === tabOf(name) && it.title !== "").length, 1, name);
    }
});

test("a link restores each setting that changes an answer", async () => {
    const others = { turns: 4096 };
    const parts = Object.values(SETTINGS).filter((part) => part !== null);
    assert.ok(parts.length > 0);
    for (const part of parts) {
        const state = { ...STATE, [part]: others[part] };
        assert.notDeepEqual(state, STATE);
        assert.deepEqual(await restored(state), { kind: "state", state }, part);
    }
});

test("the list of settings is that of the page", () => {
    const page = readFileSync(new URL("../../index.html", import.meta.url), "utf8").split("<section id=\"settings\"")[1].split("</section>")[0];
    const fields = [...page.matchAll(/<(?:input|select)[^>]* id="([a-z]+)"/g)].map((found) => found[1]);
    assert.deepEqual(fields.sort(), Object.keys(SETTINGS).sort());
});

test("a link restores gains, words and files that were kept", async () => {
    const state = {
        ...STATE, view: "command", of: "b", gain: "{\"over\":9007199254740993}", measure: "table", prior: "0 1 60", words: "check certificate-A-B.json a.kf b.kf", page: "lesson/2",
        kept: { "certificate-A-B.json": "{\"verdict\":\"yes\"}" },
    };
    assert.deepEqual(await restored(state), { kind: "state", state });
});

test("what is too long for an address is left out, and said", async () => {
    let seed = 1;
    // Letters that don't compress.
    const noise = (length) => Array.from({ length }, () => String.fromCharCode(33 + (seed = (seed * 48271) % 2147483647) % 90)).join("");
    const long = noise(LONGEST);
    const { link, without } = await linkOf({ ...STATE, words: "check long.json a.kf b.kf", kept: { "long.json": long } });
    assert.deepEqual(without, ["long.json"]);
    assert.deepEqual((await linkFrom(link)).state.kept, {});
    assert.deepEqual(await linkOf({ ...STATE, a: long }), { link: null, without: [] });
});

test("links of older versions still open", async () => {
    const { measure, turns, kept, prior, ...first } = STATE;
    assert.deepEqual(await linkFrom(packed(first)), { kind: "state", state: STATE });
    assert.deepEqual(await linkFrom(packed({ ...first, measure: "guessing" })), { kind: "state", state: { ...STATE, measure: "guessing" } });
    assert.deepEqual([measure, turns, kept, prior], ["bayes", 1024, {}, null]);
});

test("a link that means no good is refused", async () => {
    const odd = [
        {}, [], null, "x", { ...STATE, more: 1 }, { ...STATE, view: "__proto__" }, { ...STATE, view: "constructor" }, { ...STATE, a: 5 }, { ...STATE, of: "b", b: null },
        { ...STATE, page: "../x" }, { ...STATE, measure: "table" }, { ...STATE, measure: "tries:5" }, { ...STATE, turns: 0 }, { ...STATE, turns: MOST_TURNS + 1 },
        { ...STATE, prior: "1" },
        { ...STATE, prior: "0 0" }, { ...STATE, prior: "1 61" }, { ...STATE, prior: "1 2 3 4" }, { ...STATE, prior: 5 },
        { ...STATE, turns: "7" }, { ...STATE, turns: 1.5 }, { ...STATE, kept: [] }, { ...STATE, kept: null }, { ...STATE, kept: { "a.kf": "" } },
        { ...STATE, kept: { "x.json": 5 } }, { ...STATE, kept: { "x y": "" } }, { ...STATE, kept: { "../x": "" } },
    ];
    for (const state of odd) {
        assert.equal((await linkFrom(packed(state))).kind, "unreadable", JSON.stringify(state));
    }
    const raw = (json) => `#kf1.${deflateRawSync(json).toString("base64url")}`;
    assert.equal((await linkFrom(raw(JSON.stringify(STATE).replace("\"kept\":{}", "\"kept\":{\"__proto__\":\"x\"}")))).kind, "unreadable");
    assert.equal((await linkFrom(raw(JSON.stringify(STATE).replace("{", "{\"__proto__\":{},")))).kind, "unreadable");
    for (const hash of ["#kf1.", "#kf1.AAAA", "#kf2.abc", "#x", "#answers"]) {
        assert.equal((await linkFrom(hash)).kind, "unreadable", hash);
    }
});

test("the page's own anchor is no link", async () => {
    for (const hash of ["", "#", "#answer"]) {
        assert.deepEqual(await linkFrom(hash), { kind: "nothing" });
    }
    assert.deepEqual(await linkFrom("#lesson/2"), { kind: "page", page: "lesson/2" });
});

test("turns are whole numbers that the program takes", () => {
    assert.equal(turnsIn("2000"), 2000);
    assert.equal(turnsIn("65535"), 65535);
    for (const text of ["", "0", "65536", "1.5", "-3", "1e3", "x"]) {
        assert.equal(turnsIn(text), null, text);
    }
});

test("another program has no gain table of the one before", () => {
    const state = { ...STATE, gain: "{}", measure: "table", prior: "1 2" };
    assert.deepEqual({ ...state, ...opened(state, "var z : bool := true;") }, { ...STATE, a: "var z : bool := true;" });
    assert.deepEqual({ ...state, ...opened(state, state.a) }, state);
});
