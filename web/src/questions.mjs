// What the page asks: the one list of its views, its settings, and the state that a link carries.

/**
 * The views, in the order of their tabs: the tab that each stands in, with what is on it (one that shares a tab has no title), and the commands
 * whose answer it shows. Tabs, links and the page's own table of views are made of this list.
 */
export const VIEWS = /** @type {const} */ ([
    { name: "hyper", tab: "hyper", title: "Hyper", commands: ["hyper"] },
    { name: "channel", tab: "channel", title: "Channel", commands: ["channel"] },
    { name: "leak", tab: "leak", title: "Vulnerability", commands: ["leak"] },
    { name: "priors", tab: "priors", title: "Priors", commands: [] },
    { name: "traces", tab: "traces", title: "Traces", commands: ["traces"] },
    { name: "lines", tab: "lines", title: "Lines", commands: ["lines", "blame", "trail"] },
    { name: "refine", tab: "refine", title: "Two texts", commands: ["refine"] },
    { name: "covers", tab: "refine", title: "", commands: ["covers"] },
    { name: "command", tab: "command", title: "Command", commands: [] },
]);
/** @typedef {typeof VIEWS[number]["name"]} ViewName */

/** Where no number of turns is asked for, a loop may have this many, and never more than the most. */
export const USUAL_TURNS = 1024;
export const MOST_TURNS = 65535;

/**
 * What the page asks: two texts (the second one may be missing), which view, about which of the two, a gain table, the gain under which lines are
 * compared, weights of a prior that is looked at beside the declared one, words typed by hand, a lesson, study or page that is open, how many turns a
 * loop may have, and files that the words name and that are none of the repository's, such as a certificate that was kept.
 * @typedef {object} State
 * @property {string} a
 * @property {string | null} b
 * @property {ViewName} view
 * @property {string} of
 * @property {string | null} gain
 * @property {string} measure
 * @property {string | null} prior
 * @property {string | null} words
 * @property {string | null} page
 * @property {number} turns
 * @property {Record<string, string>} kept
 */

/**
 * The settings, by the names of their fields, each with the part of a state that it sets. Those that change an answer have one, so that a link
 * carries them. How much memory there may be, and which module runs, decide whether this browser has the answer, and not which one it is.
 * @type {Record<string, keyof State | null>}
 */
export const SETTINGS = { theme: null, letters: null, decimals: null, margin: null, turns: "turns", megabytes: null, kind: null };

/** The names by which commands name what stands in the editors and in the gain table. */
export const OWN = ["a.kf", "b.kf", "gain.json"];

/**
 * How many turns a text asks for, or null where it asks for none that may be.
 * @param {string} text
 */
export function turnsIn(text) {
    const turns = /^[0-9]{1,5}$/.test(text.trim()) ? Number(text) : 0;
    return turns >= 1 && turns <= MOST_TURNS ? turns : null;
}

/** The most of a weight of a prior that is looked at. */
export const MOST_WEIGHT = 60;

/**
 * The weights that a text has, of two or three values, or null where it has none.
 * @param {string} text
 */
export function weightsIn(text) {
    const weights = /^\d{1,2}(?: \d{1,2}){1,2}$/.test(text) ? text.split(" ").map(Number) : [];
    return weights.some((weight) => weight > 0) && weights.every((weight) => weight <= MOST_WEIGHT) ? weights : null;
}

/**
 * The parts of a state that change where another program is opened: the gain table was about the values of the one before.
 * @param {State} state
 * @param {string} text
 * @returns {Partial<State>}
 */
export const opened = (state, text) => ({
    a: text, of: "a", ...(text === state.a ? {} : { gain: null, prior: null, measure: state.measure === "table" ? "bayes" : state.measure }),
});

/**
 * The tab that a view stands in.
 * @param {string} view
 */
export const tabOf = (view) => VIEWS.filter(({ name }) => name === view).map(({ tab }) => tab).join();
