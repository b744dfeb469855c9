// What the page asks, and what becomes of it when a reader presses a button. Nothing here knows of a browser: each change is a function of the
// state before it, and gives the parts that differ.
import { measureOf, viewOf } from "./commands.mjs";
import { OWN, USUAL_TURNS, opened, tabOf } from "./questions.mjs";

/** @typedef {import("./questions.mjs").State} State */
/**
 * An entry of the browser's history: which load of the page made it, which texts it is of, and what was read.
 * @typedef {{ load: number, origin: number, page: string | null }} Entry
 */

export const FIRST = `# No line shows anything, but an observer sees which branch is taken.
var h : 0..3 := uniform 0..3;
var y : 0..1 := 0;
about old h;
if h = 2 { y := 1; } else { y := 0; }
`;

/** @returns {State} the state with which the page begins */
export const firstState = () => ({
    a: FIRST, b: null, view: "hyper", of: "a", gain: null, measure: "bayes", prior: null, words: null, page: null, turns: USUAL_TURNS, kept: {},
});

/**
 * The text that a question about one text is about.
 * @param {State} state
 */
export const textOf = ({ a, b, of }) => (of === "b" && b !== null ? b : a);

/**
 * What stands in the editors and in the gain table, by the names that commands have for it.
 * @param {State} state
 * @returns {Record<string, string>}
 */
export function ownFiles({ a, b, gain }) {
    const texts = [a, b, gain];
    /** @type {Record<string, string>} */
    const found = {};
    OWN.forEach((name, index) => {
        const text = texts[index];
        if (text !== null) {
            found[name] = text;
        }
    });
    return found;
}

/**
 * The gain under which the margins of the editors compare lines: that of the view of lines there, and one guess elsewhere.
 * @param {State} state
 */
export const marginMeasure = ({ view, measure }) => (view === "lines" ? measure : "bayes");

// Changes.

/**
 * @param {State} state
 * @returns {Partial<State>} a second text, which begins as the first one
 */
export const withSecond = ({ a }) => ({ b: a, view: "refine" });

/**
 * @param {State} state
 * @returns {Partial<State>}
 */
export const withoutSecond = ({ view }) => ({ b: null, of: "a", view: tabOf(view) === "refine" ? "hyper" : view });

/**
 * @param {State} state
 * @returns {Partial<State>}
 */
export const exchanged = ({ a, b }) => ({ a: b === null ? "" : b, b: a });

/**
 * A file that is kept, or is made for a command to name.
 * @param {State} state
 * @param {string} name
 * @param {string} text
 * @returns {Partial<State>}
 */
export const withKept = ({ kept }, name, text) => ({ kept: { ...kept, [name]: text } });

/**
 * A program is opened in the first editor, or a gain table.
 * @param {State} state
 * @param {string} name
 * @param {string} text
 * @returns {Partial<State>}
 */
export function openedFile(state, name, text) {
    return name.endsWith(".json") ? { gain: text, view: "leak" } : { ...opened(state, text), view: state.view === "command" ? "hyper" : state.view };
}

/**
 * A command of a page is asked: in the view that shows its answer, or as if it were typed.
 * @param {State} state
 * @param {string[]} words
 * @param {Record<string, string>} files that the words may name
 * @returns {Partial<State>}
 */
export function commanded(state, words, files) {
    const { view, programs, tables } = viewOf(words);
    const first = programs.length > 0 ? opened(state, files[programs[0]]) : {};
    if (view === "command") {
        return { ...first, view, words: words.join(" ") };
    }
    const second = programs.length > 1 ? { b: files[programs[1]] } : {};
    const gain = tables.length > 0 ? { gain: files[tables[0]] } : {};
    return { ...first, ...second, ...gain, view, ...(view === "lines" ? { measure: measureOf(words) } : {}) };
}

// The browser's history.

/**
 * The states of texts that were left, so that Back loses nothing that was typed.
 * @param {number} load what tells this load of the page from others, whose texts are gone
 */
export function createVisits(load) {
    let origin = 0;
    /** @type {Map<number, State>} */
    const left = new Map();
    return {
        /**
         * @param {string | null} page
         * @returns {Entry}
         */
        entry: (page) => ({ load, origin, page }),
        /**
         * @param {Entry | null} entry
         * @returns {boolean} whether this load of the page made it
         */
        isOwn: (entry) => entry !== null && entry.load === load,
        /**
         * A link begins texts of its own.
         * @param {State} state
         */
        begin(state) {
            left.set(origin, { ...state });
            origin = left.size;
        },
        /**
         * Back, or forward, to an entry.
         * @param {Entry} entry
         * @param {State} state
         * @returns {Partial<State>} what differs: nothing where the texts are the same
         */
        comeBack(entry, state) {
            if (entry.origin === origin) {
                return {};
            }
            left.set(origin, { ...state });
            origin = entry.origin;
            return { ...left.get(origin), page: entry.page };
        },
    };
}
