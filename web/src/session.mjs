// What survives a reload: the state, in the browser's storage of this tab, until the tab is closed. Nothing else is kept there.
import { checkedState } from "./links.mjs";

/** @typedef {import("./questions.mjs").State} State */

const NAME = "kuifje";
/** The ways to come to the page by which a reader expects what was there. */
const RETURNS = ["reload", "back_forward"];

/**
 * @param {Storage | null} storage null where the browser gives none
 */
export function createSession(storage) {
    return {
        /**
         * Keeps a state, with the address under which it was seen. What is too large for the storage isn't kept, and no older state in its place.
         * @param {State} state
         * @param {string} hash
         */
        save(state, hash) {
            if (storage === null) {
                return;
            }
            try {
                storage.setItem(NAME, JSON.stringify({ hash, state }));
            } catch (error) {
                storage.removeItem(NAME);
            }
        },
        /**
         * The state that was there before the page was loaded anew, or null.
         * @param {string} way by which the page was come to, as the browser says
         * @param {string} hash
         * @returns {State | null}
         */
        restored(way, hash) {
            const text = RETURNS.includes(way) && storage !== null ? storage.getItem(NAME) : null;
            if (text === null) {
                return null;
            }
            try {
                const kept = JSON.parse(text);
                return kept.hash === hash ? checkedState(kept.state) : null;
            } catch (error) {
                return null;
            }
        },
    };
}

/** The storage of this tab, or null where the browser gives none. */
export function tabStorage() {
    try {
        return window.sessionStorage;
    } catch (error) {
        return null;
    }
}

/** How the page was come to. */
export function wayHere() {
    const [entry] = performance.getEntriesByType("navigation");
    return entry === undefined ? "navigate" : /** @type {PerformanceNavigationTiming} */ (entry).type;
}
