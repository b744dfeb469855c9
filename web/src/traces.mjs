// Which statement showed each part of a trace. The guards that are in the trace say which way the run took, so no run has to be followed.
import { placesIn } from "./source.mjs";

/** @typedef {import("./source.mjs").Source} Source */
/** @typedef {import("./source.mjs").Statement} Statement */
/** @typedef {{ line: number, part: string, what: string }} Shown what a statement shows: `observe`, `if`, `while`, or the visible variable that is assigned */

/** A trace that the text doesn't have. */
class NoSuchTrace extends Error {}

/**
 * The statements that showed the parts of a trace, one after the other. It is null where the text has no such trace.
 * @param {Source} source
 * @param {string[]} parts as they are printed
 * @returns {Shown[] | null}
 */
export function shownBy(source, parts) {
    const visible = new Set(source.declarations.filter(({ isVisible }) => isVisible).map(({ name }) => name));
    const places = placesIn(source.text);
    /** @type {Shown[]} */
    const found = [];

    /**
     * @param {Statement} it
     * @param {string} what
     */
    function show(it, what) {
        if (found.length === parts.length) {
            throw new NoSuchTrace();
        }
        const part = parts[found.length];
        found.push({ line: places.of(it.at).line, part, what });
        return part;
    }

    /** @param {Statement[]} statements */
    function walk(statements) {
        for (const it of statements) {
            if (it.kind === "observe") {
                show(it, "observe");
            } else if (it.kind === "assign" && visible.has(it.name)) {
                show(it, it.name);
            } else if (it.kind === "if") {
                walk(show(it, "if") === "true" ? it.then : it.otherwise);
            } else if (it.kind === "while") {
                while (show(it, "while") === "true") {
                    walk(it.body);
                }
            }
        }
    }

    try {
        walk(source.statements);
        return found.length === parts.length ? found : null;
    } catch (error) {
        if (error instanceof NoSuchTrace) {
            return null;
        }
        throw error;
    }
}
