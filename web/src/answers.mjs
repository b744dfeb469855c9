// Reads the texts that the program prints (docs/FORMATS.md). Of a large answer only the first groups are read: how many there are it says itself.

import { NOTHING, fractionOf, printed, product, sum } from "./fractions.mjs";

/** @typedef {{ value: string, share: string }} Share a value with its probability, as printed */
/** @typedef {{ name: string, weight: string, shares: Share[] }} Group an inner with its outer, or a trace with its probability */
/** @typedef {{ target: string, scale: string, count: number, groups: Group[], isWhole: boolean }} Groups */
/** @typedef {{ target: string, count: number, columns: string[], rows: { value: string, cells: string[] }[], rowCount: number }} Channel */
/** @typedef {{ gain: string, prior: string, posterior: string, quotient: string, difference: string }} Report */
/** @typedef {{ all: { inners: string, bayes: string }, without: { inners: string, bayes: string }[] }} Blame */
/** @typedef {{ line: number, column: number, inners: string, posterior: string }} Silent what is left where the statement at this place, from 1, shows nothing */
/** @typedef {{ all: { inners: string, posterior: string }, without: Silent[] }} Lines */
/** @typedef {{ name: string, gains: { value: string, gain: string }[] }} Action */
/** @typedef {{ isYes: true, matrix: string[][] } | { isYes: false, over: string, rest: string, actions: Action[] }} Verdict */

/** The most groups, columns or rows that are read. */
export const MOST = 200;
const USUAL_MOST = { groups: MOST, shares: 4000 };

/**
 * The lines of a text, one at a time.
 * @param {string} text
 */
function lines(text) {
    let at = 0;
    return {
        /** The next line, or null at the end. */
        next() {
            if (at >= text.length) {
                return null;
            }
            const end = text.indexOf("\n", at);
            const line = text.slice(at, end < 0 ? text.length : end);
            at = end < 0 ? text.length : end + 1;
            return line;
        },
        /**
         * What the next line has after this word.
         * @param {string} word
         */
        behind(word) {
            const line = this.next();
            if (line === null || !line.startsWith(`${word} `)) {
                throw new Error(`the answer has no line ${word}`);
            }
            return line.slice(word.length + 1);
        },
    };
}

/**
 * A text and the fraction that stands last in its line.
 * @param {string} line
 */
function apart(line) {
    const cut = line.lastIndexOf(" ");
    return { value: line.slice(2, cut), share: line.slice(cut + 1) };
}

/**
 * A hyper or traces: what stands between the two words of a group's line is its name, what follows the second its weight.
 * @param {string} text
 * @param {string} word
 * @param {string} weight
 * @param {{ groups: number, shares: number }} most that are read
 * @returns {Groups}
 */
function groups(text, word, weight, most) {
    const from = lines(text);
    const target = from.behind("target");
    const scale = from.behind("scale");
    const count = Number(from.behind(`${word}s`));
    /** @type {Group[]} */
    const found = [];
    let shares = 0;
    for (let line = from.next(); line !== null; line = from.next()) {
        if (line.startsWith("  ")) {
            found[found.length - 1].shares.push(apart(line));
            shares += 1;
        } else if (found.length === most.groups) {
            return { target, scale, count, groups: found, isWhole: false };
        } else {
            const cut = line.lastIndexOf(` ${weight} `);
            found.push({ name: line.slice(word.length + 1, cut), weight: line.slice(cut + weight.length + 2), shares: [] });
        }
        if (shares === most.shares) {
            return { target, scale, count, groups: found, isWhole: false };
        }
    }
    return { target, scale, count, groups: found, isWhole: true };
}

/**
 * @param {string} text
 * @param {{ groups: number, shares: number }} [most] that are read
 */
export const hyperOf = (text, most = USUAL_MOST) => groups(text, "inner", "outer", most);
/** @param {string} text */
export const tracesOf = (text) => groups(text, "trace", "weight", USUAL_MOST);

/**
 * The prior that a hyper averages to, its values in their order.
 * @param {Groups} hyper
 */
export function priorOf(hyper) {
    /** @type {Map<string, import("./fractions.mjs").Fraction>} */
    const found = new Map();
    for (const group of hyper.groups) {
        const outer = fractionOf(group.weight) || NOTHING;
        for (const { value, share } of group.shares) {
            const joint = product(outer, fractionOf(share) || NOTHING);
            found.set(value, sum(found.get(value) || NOTHING, joint));
        }
    }
    const values = [...found.keys()];
    const isNumbers = values.every((value) => /^-?\d+$/.test(value));
    values.sort((a, b) => (isNumbers ? Number(a) - Number(b) : a.localeCompare(b, "en", { numeric: true })));
    return values.map((value) => ({ value, share: printed(found.get(value) || NOTHING) }));
}

/**
 * @param {string} text
 * @returns {Channel}
 */
export function channelOf(text) {
    const from = lines(text);
    const target = from.behind("target");
    const count = Number(from.behind("columns"));
    const columns = [];
    for (let index = 0; index < count; index += 1) {
        const name = from.behind(`column ${index}`);
        if (index < MOST) {
            columns.push(name);
        }
    }
    const rowCount = Number(from.behind("rows"));
    const rows = [];
    for (let index = 0; index < Math.min(rowCount, MOST); index += 1) {
        const value = from.behind("row");
        const cells = [];
        for (let cell = 0; cell < count; cell += 1) {
            const line = from.next() || "";
            if (cell < MOST) {
                cells.push(line.slice(2));
            }
        }
        rows.push({ value, cells });
    }
    return { target, count, columns, rows, rowCount };
}

/**
 * @param {string} text
 * @returns {Report}
 */
export function reportOf(text) {
    const from = lines(text);
    const [gain, prior, posterior, quotient, difference] = ["gain", "prior", "posterior", "quotient", "difference"].map((word) => from.behind(word));
    return { gain, prior, posterior, quotient, difference };
}

/**
 * @param {string} text
 * @returns {Blame}
 */
export function blameOf(text) {
    const rows = text.trimEnd().split("\n").map((line) => {
        const found = /^(?:all|without \d+) inners (\S+) bayes (\S+)$/.exec(line);
        if (found === null) {
            throw new Error("the answer isn't one to blame");
        }
        return { inners: found[1], bayes: found[2] };
    });
    return { all: rows[0], without: rows.slice(1) };
}

/**
 * @param {string} text
 * @returns {Lines}
 */
export function linesOf(text) {
    const rows = text.trimEnd().split("\n").map((line) => {
        const found = /^(?:all|(\d+):(\d+)) inners (\S+) posterior (\S+)$/.exec(line);
        if (found === null) {
            throw new Error("the answer isn't one about lines");
        }
        return { line: Number(found[1]), column: Number(found[2]), inners: found[3], posterior: found[4] };
    });
    return { all: { inners: rows[0].inners, posterior: rows[0].posterior }, without: rows.slice(1) };
}

/**
 * How many posteriors there are, after each number of statements.
 * @param {string} text
 */
export function trailOf(text) {
    return text.trimEnd().split("\n").map((line) => line.split(" ")[3]);
}

/**
 * @param {string} text
 * @returns {Verdict}
 */
export function verdictOf(text) {
    const from = lines(text);
    if (from.behind("refines") === "yes") {
        const rows = Number(from.behind("matrix").split(" ")[0]);
        return { isYes: true, matrix: Array.from({ length: rows }, () => (from.next() || "").split(" ")) };
    }
    const over = from.behind("over");
    const rest = from.behind("rest");
    from.behind("actions");
    /** @type {Action[]} */
    const actions = [];
    for (let line = from.next(); line !== null; line = from.next()) {
        if (line.startsWith("  ")) {
            const { value, share } = apart(line);
            actions[actions.length - 1].gains.push({ value, gain: share });
        } else {
            actions.push({ name: line.slice("action ".length), gains: [] });
        }
    }
    return { isYes: false, over, rest, actions };
}

/**
 * The parts of a tuple or of a trace, as it is printed.
 * @param {string} value
 */
export function partsOfValue(value) {
    const found = [];
    let depth = 0;
    let from = 1;
    for (let at = 0; at < value.length - 1; at += 1) {
        depth += "({[".includes(value[at]) ? 1 : ")}]".includes(value[at]) ? -1 : 0;
        if (value[at] === "," && depth === 1) {
            found.push(value.slice(from, at).trim());
            from = at + 1;
        }
    }
    const last = value.slice(from, -1).trim();
    return found.length === 0 && last === "" ? [] : [...found, last];
}

/** @typedef {{ file: string | null, line: number, column: number, word: string }} Refusal its place, from 1, or 0 where it has none */

/**
 * What a line on standard error says: whose text is refused, where, and by which word.
 * @param {string} err
 * @param {string[]} names of the files that are asked about
 * @returns {Refusal}
 */
export function refusalOf(err, names) {
    const line = err.trimEnd().replace(/^kuifje: /, "");
    const file = names.find((name) => line.startsWith(`${name}:`)) || null;
    const rest = file === null ? line : line.slice(file.length + 1).trim();
    const placed = /^(\d+):(\d+): (.*)$/.exec(rest);
    return placed === null ? { file, line: 0, column: 0, word: rest } : { file, line: Number(placed[1]), column: Number(placed[2]), word: placed[3] };
}

/**
 * The items of a target, each with whether it is read before the statements.
 * @param {string} target
 */
export function itemsOf(target) {
    return target.split(", ").map((item) => ({ isOld: item.startsWith("old "), name: item.replace(/^old /, "") }));
}
