// What a question comes to where it has no answer, and which question an answer is about, as elements.
import { button, element } from "./elements.mjs";
import { targetOf } from "./programs.mjs";
import { textOf } from "./state.mjs";

/** @typedef {import("./asker.mjs").Outcome} Outcome */
/** @typedef {import("./elements.mjs").Child} Child */

/** What each file of the page is called. */
const CALLED = new Map([["a.kf", "Program A"], ["b.kf", "Program B"], ["gain.json", "The gain table"]]);

/**
 * Why a run came to no answer.
 * @param {Exclude<Outcome, { kind: "answer" }>} outcome
 * @returns {HTMLElement}
 */
export function failure(outcome) {
    const box = (/** @type {string} */ head, /** @type {string} */ text) => element("div", { class: "failure" }, element("h3", {}, head), element("p", {}, text));
    if (outcome.kind === "memory") {
        return box("Want of memory", `The question needs more memory than the ${outcome.bound} MB that Settings allow, or than the browser gives. `
            + "That is no answer: with more memory there may be one.");
    }
    if (outcome.kind === "trap") {
        return box("A trap", `The engine of the browser ended the run: ${outcome.why}. That is no answer, and nothing of the run is used again.`);
    }
    return box("Stopped", "The run was stopped before it had an answer.");
}

/**
 * A refusal as it is printed, with what it means.
 * @param {import("./answers.mjs").Refusal} refusal
 * @param {string} err
 * @param {string} text what REFUSALS.md says of it
 * @param {{ goTo: () => void, explain: (() => void) | null }} actions
 */
export function refusalBox({ file, line, word }, err, text, { goTo, explain }) {
    return element("div", { class: "refusal" },
        element("h3", {}, `${(file !== null && CALLED.get(file)) || "The question"} is refused: ${word}`), element("pre", { class: "terminal" }, err), element("p", {}, text),
        line > 0 && button(`Go to line ${line}`, goTo), " ",
        explain !== null && button("What causes it, and how it is mended", explain));
}

/** @param {string[]} names */
export const listed = (names) => (names.length < 2 ? names.join() : `${names.slice(0, -1).join(", ")} and ${names[names.length - 1]}`);

/**
 * Which secret an answer is about, in a sentence, with a warning where none of its items is `old`.
 * @param {import("./questions.mjs").State} state
 * @returns {Child[]}
 */
export function targetSentence(state) {
    if (state.view === "command") {
        return [];
    }
    if (state.view === "covers") {
        return ["The question is about what all variables were and what they become, together."];
    }
    const items = targetOf(textOf(state));
    const names = (/** @type {boolean} */ isOld) => items.filter((it) => it.isOld === isOld).map((it) => it.name);
    const [was, is] = [names(true), names(false)];
    const parts = [
        ...(was.length > 0 ? [`what ${listed(was)} ${was.length > 1 ? "were" : "was"} before the statements (old)`] : []),
        ...(is.length > 0 ? [`what ${listed(is)} ${is.length > 1 ? "are" : "is"} after the last line`] : []),
    ];
    const warning = was.length === 0 && element("span", { class: "warning" },
        "⚠ No item is old: this asks what is left at the end, and not what a secret was. For a secret write ",
        element("code", {}, `about old ${is.length > 0 ? is[0] : "x"};`));
    return [`The question is about ${listed(parts)}. `, warning];
}

/** The most characters of an answer that are shown as they are. */
const MOST_SHOWN = 20000;

/**
 * What the program printed for an answer, a click away.
 * @param {import("./context.mjs").Printed[]} printed
 */
export function printedBytes(printed) {
    const inside = element("div", {});
    const details = element("details", { class: "printed", toggle: () => {
        if (details.open && inside.childNodes.length === 0) {
            inside.append(...printed.map(({ words, out, err }) => {
                const cut = out.length > MOST_SHOWN ? `${out.slice(0, MOST_SHOWN)}\n… (${out.length} characters in all; the tab Command keeps them as a file)\n` : out;
                return element("pre", { class: "terminal", tabindex: "0" }, `$ kuifje ${words.join(" ")}\n${cut}${err}`);
            }));
        }
    } }, element("summary", {}, "What the program printed"), inside);
    return details;
}
