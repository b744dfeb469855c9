// Rounds of questions, over a program that answers when it is told to.
import assert from "node:assert/strict";
import test from "node:test";
import { NoAnswer, createRounds } from "../../src/rounds.mjs";
import { firstState } from "../../src/state.mjs";

function program() {
    const asked = [];
    const waiting = [];
    return {
        asked,
        answer: (outcome) => waiting.shift()(outcome),
        ask: (words, files) => new Promise((done) => {
            asked.push({ words, files });
            waiting.push(done);
        }),
        stop: () => waiting.splice(0).forEach((done) => done({ kind: "stopped", took: 0 })),
    };
}
const answered = (out) => ({ kind: "answer", status: 0, out, err: "", memory: 0, took: 0 });
const soon = () => new Promise((done) => setTimeout(done));
const STATE = { ...firstState(), a: "A", b: "B", kept: { "mine.json": "{}", "other.kf": "kept" } };
const others = async () => ({ "other.kf": "of the repository", "far.kf": "far" });

test("no more files are sent than the words name", async () => {
    const asker = program();
    const rounds = createRounds(asker, { ...STATE, turns: 7 }, others);
    rounds.ask(["hyper", "a.kf"], null);
    rounds.ask(["refine", "b.kf", "other.kf"], null);
    rounds.ask(["check", "mine.json", "a.kf", "a.kf"], null);
    rounds.ask(["hyper", "x.kf"], { "x.kf": "X", "a.kf": "A" });
    await soon();
    const files = Object.fromEntries(asker.asked.map(({ words, files: own }) => [words.join(" "), own]));
    assert.deepEqual(files, {
        "hyper a.kf --turns 7": { "a.kf": "A" }, "hyper x.kf --turns 7": { "x.kf": "X" },
        // What was kept takes the place of no other file.
        "refine b.kf other.kf --turns 7": { "b.kf": "B", "other.kf": "of the repository" },
        "check mine.json a.kf a.kf --turns 7": { "a.kf": "A", "mine.json": "{}" },
    });
});

test("a round that a newer one replaces asks nothing more", async () => {
    const asker = program();
    const rounds = createRounds(asker, STATE, others);
    const first = rounds.begin();
    const waiting = rounds.tryTo(first, ["hyper", "a.kf"]);
    await soon();
    const second = rounds.begin();
    await assert.rejects(waiting, (error) => error instanceof NoAnswer && error.outcome.kind === "stopped");
    await assert.rejects(rounds.tryTo(first, ["hyper", "b.kf"]), NoAnswer);
    assert.equal(asker.asked.length, 1);
    const answer = rounds.tryTo(second, ["hyper", "a.kf"]);
    await soon();
    asker.answer(answered("inner"));
    assert.equal((await answer).out, "inner");
    assert.deepEqual([rounds.isNewest(first), rounds.isNewest(second)], [false, true]);
});

test("an answer that comes after its round is none", async () => {
    const asker = { ...program(), stop: () => {} };
    const rounds = createRounds(asker, STATE, others);
    const late = rounds.tryTo(rounds.begin(), ["hyper", "a.kf"]);
    await soon();
    rounds.begin();
    asker.answer(answered("late"));
    await assert.rejects(late, NoAnswer);
});

test("lines are asked once for the margin and the view, and anew where text, gain or turns differ", async () => {
    const asker = program();
    const state = { ...STATE };
    const rounds = createRounds(asker, state, others);
    const words = ["lines", "a.kf", "--gain", "bayes"];
    const asked = async (change) => {
        Object.assign(state, change);
        const before = asker.asked.length;
        const answer = rounds.ask(words, null);
        await soon();
        if (asker.asked.length > before) {
            asker.answer(answered(`answer ${asker.asked.length}`));
        }
        return (await answer).out;
    };
    assert.equal(await asked({}), "answer 1");
    assert.equal(await asked({}), "answer 1");
    assert.equal(await asked({ a: "other" }), "answer 2");
    assert.equal(await asked({ turns: 9 }), "answer 3");
    rounds.ask(["lines", "a.kf", "--gain", "guessing"], null);
    await soon();
    assert.equal(asker.asked.length, 4);
});

test("a run without an answer is no answer to keep", async () => {
    const asker = program();
    const rounds = createRounds(asker, STATE, others);
    const first = rounds.ask(["lines", "a.kf"], null);
    await soon();
    asker.answer({ kind: "trap", why: "x", took: 0 });
    assert.equal((await first).kind, "trap");
    rounds.ask(["lines", "a.kf"], null);
    await soon();
    assert.equal(asker.asked.length, 2);
});
