// What the part of an address after # says: a state of the page, or a lesson, study or page of its own. Nothing of it is sent to a server. A link
// that can't be read is refused as a whole.
import { TABLE, USUAL } from "./gains.mjs";
import { MOST_TURNS, OWN, USUAL_TURNS, VIEWS, weightsIn } from "./questions.mjs";

/** @typedef {import("./questions.mjs").State} State */
/** @typedef {{ kind: "nothing" } | { kind: "unreadable", why: string } | { kind: "state", state: State } | { kind: "page", page: string }} Link */

const SHAPE = /^#kf1\.([A-Za-z0-9_-]*)$/;
const PAGE = /^#((?:lesson|study|page)\/[A-Za-z0-9_-]+)$/;
/** The page's own anchors, which are no links to anything else. */
const ANCHORS = ["", "#", "#answer"];
/** The name of a file that a link carries. */
const NAME = /^[A-Za-z0-9][A-Za-z0-9_./-]*$/;
/** What each link has, and what older ones may lack, with what they mean by that. */
const PARTS = ["a", "b", "gain", "of", "page", "view", "words"];
const LATER = { measure: "bayes", turns: USUAL_TURNS, kept: {}, prior: null };
/** The most bytes of a state: two programs and a table, each as long as a file may be. */
const MOST = 4 << 20;
/** The most characters of a link: browsers and fields take as much without delay. */
export const LONGEST = 1 << 18;

/**
 * @param {ReadableStream<Uint8Array>} stream
 * @returns {Promise<Uint8Array>}
 */
async function bytesOf(stream) {
    const reader = stream.getReader();
    /** @type {Uint8Array[]} */
    const pieces = [];
    let length = 0;
    for (let piece = await reader.read(); !piece.done; piece = await reader.read()) {
        pieces.push(piece.value);
        length += piece.value.length;
        if (length > MOST) {
            await reader.cancel();
            throw new Error("it is too long");
        }
    }
    const whole = new Uint8Array(length);
    let at = 0;
    pieces.forEach((piece) => {
        whole.set(piece, at);
        at += piece.length;
    });
    return whole;
}

/**
 * @param {Uint8Array} bytes
 * @param {any} through
 */
const sent = (bytes, through) => bytesOf(/** @type {any} */ (new Blob([bytes]).stream()).pipeThrough(through));

/** @param {Uint8Array} bytes */
function base64(bytes) {
    let text = "";
    for (let at = 0; at < bytes.length; at += 4096) {
        text += String.fromCharCode(...bytes.slice(at, at + 4096));
    }
    return btoa(text).replace(/\+/g, "-").replace(/\//g, "_").replace(/=+$/, "");
}

/** @param {State} state */
async function packed(state) {
    const whole = new TextEncoder().encode(JSON.stringify(state));
    const Stream = /** @type {any} */ (globalThis).CompressionStream;
    return `#kf1.${base64(await sent(whole, new Stream("deflate-raw")))}`;
}

/**
 * A link to a state, with its #, or null where it is too long for an address. Files that were kept and make it too long are left out, and named.
 * @param {State} state
 * @returns {Promise<{ link: string | null, without: string[] }>}
 */
export async function linkOf(state) {
    const whole = await packed(state);
    const without = whole.length > LONGEST ? Object.keys(state.kept) : [];
    const link = without.length > 0 ? await packed({ ...state, kept: {} }) : whole;
    return link.length > LONGEST ? { link: null, without: [] } : { link, without };
}

/**
 * @param {any} it
 * @param {string} name
 * @param {boolean} mayMiss
 */
function wantText(it, name, mayMiss) {
    if (!(typeof it[name] === "string" || (mayMiss && it[name] === null))) {
        throw new Error(`it has no ${name}`);
    }
}

/** @param {any} kept */
function areFiles(kept) {
    return typeof kept === "object" && kept !== null && !Array.isArray(kept)
        && Object.entries(kept).every(([name, text]) => NAME.test(name) && !OWN.includes(name) && typeof text === "string");
}

/** @param {State} state */
const isKnownGain = ({ measure, gain }) => (measure === TABLE ? gain !== null : USUAL.some(([word]) => word === measure));

/**
 * A state as it comes from outside. It throws where it is none.
 * @param {any} it
 * @returns {State}
 */
export function checkedState(it) {
    const names = typeof it !== "object" || it === null ? [] : Object.keys(it);
    if (!PARTS.every((name) => names.includes(name)) || !names.every((name) => [...PARTS, ...Object.keys(LATER)].includes(name))) {
        throw new Error("it has other parts than a link has");
    }
    const state = { ...LATER, ...it };
    ["a", "view", "of"].forEach((name) => wantText(state, name, false));
    ["b", "gain", "words", "page", "prior"].forEach((name) => wantText(state, name, true));
    /** @type {[boolean, string][]} */
    const wanted = [
        [VIEWS.some(({ name }) => name === state.view) && ["a", "b"].includes(state.of) && (state.of === "a" || state.b !== null), "it asks what the page doesn't know"],
        [isKnownGain(state), "it names no gain that the page knows"],
        [Number.isInteger(state.turns) && state.turns >= 1 && state.turns <= MOST_TURNS, "it has no number of turns"],
        [state.prior === null || weightsIn(state.prior) !== null, "it has no prior"],
        [areFiles(state.kept), "it has other files than a link has"],
        [state.page === null || PAGE.test(`#${state.page}`), "it names no page"],
    ];
    const missing = wanted.find(([isThere]) => !isThere);
    if (missing !== undefined) {
        throw new Error(missing[1]);
    }
    return state;
}

/**
 * @param {string} hash
 * @returns {Promise<Link>}
 */
export async function linkFrom(hash) {
    if (ANCHORS.includes(hash)) {
        return { kind: "nothing" };
    }
    const page = PAGE.exec(hash);
    if (page !== null) {
        return { kind: "page", page: page[1] };
    }
    try {
        const found = SHAPE.exec(hash);
        if (found === null) {
            throw new Error("it isn't one of this page");
        }
        const bytes = Uint8Array.from(atob(found[1].replace(/-/g, "+").replace(/_/g, "/")), (it) => it.charCodeAt(0));
        const Stream = /** @type {any} */ (globalThis).DecompressionStream;
        const whole = await sent(bytes, new Stream("deflate-raw"));
        return { kind: "state", state: checkedState(JSON.parse(new TextDecoder("utf-8", { fatal: true }).decode(whole))) };
    } catch (error) {
        return { kind: "unreadable", why: error instanceof Error ? error.message : String(error) };
    }
}
