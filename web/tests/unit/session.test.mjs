// What survives a reload, and what doesn't.
import assert from "node:assert/strict";
import test from "node:test";
import { createSession } from "../../src/session.mjs";
import { firstState } from "../../src/state.mjs";

function storage(most = Infinity) {
    const held = new Map();
    return {
        held,
        getItem: (name) => (held.has(name) ? held.get(name) : null),
        removeItem: (name) => held.delete(name),
        setItem(name, text) {
            if (text.length > most) {
                throw new Error("QuotaExceededError");
            }
            held.set(name, text);
        },
    };
}
const STATE = { ...firstState(), a: "typed", b: "second", gain: "{}", view: "lines", measure: "table", turns: 9, page: "lesson/2" };

test("a reload under the same address finds what was there", () => {
    const session = createSession(storage());
    session.save(STATE, "#lesson/2");
    assert.deepEqual(session.restored("reload", "#lesson/2"), STATE);
    assert.deepEqual(session.restored("back_forward", "#lesson/2"), STATE);
});

test("somebody who comes anew, or by a link, begins with what the address says", () => {
    const session = createSession(storage());
    session.save(STATE, "");
    assert.equal(session.restored("navigate", ""), null);
    assert.equal(session.restored("reload", "#kf1.abc"), null);
    assert.equal(createSession(storage()).restored("reload", ""), null);
    assert.equal(createSession(null).restored("reload", ""), null);
    createSession(null).save(STATE, "");
});

test("what doesn't fit isn't kept, and no older text in its place", () => {
    const small = storage(1000);
    const session = createSession(small);
    session.save(STATE, "");
    session.save({ ...STATE, a: "x".repeat(2000) }, "");
    assert.equal(small.held.size, 0);
    assert.equal(session.restored("reload", ""), null);
});

test("what is no state of the page is none", () => {
    for (const text of ["", "{", "null", "{\"hash\":\"\",\"state\":{}}", JSON.stringify({ hash: "", state: { ...STATE, view: "__proto__" } })]) {
        const own = storage();
        own.held.set("kuifje", text);
        assert.equal(createSession(own).restored("reload", ""), null, text);
    }
});
