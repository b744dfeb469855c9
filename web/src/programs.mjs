// What the page has to know of a program's text itself: the words that the editor colours, the target, and what a statement has in its line.
import { characterAt, every, placesIn, read, readHead, sizeOf, targetIn } from "./source.mjs";
import { WORDS } from "./words.mjs";

export { WORDS };

/** Texts of more characters, or with a longer line, are shown without colours and marks, and so at once. */
const MOST_MARKED = 1 << 16;
const LONGEST_MARKED = 5000;

/**
 * Whether a text is too long for colours and marks.
 * @param {string} text
 */
export const isLong = (text) => text.length > MOST_MARKED || (text.length > LONGEST_MARKED && text.split("\n").some((line) => line.length > LONGEST_MARKED));

/**
 * The lines, from 1, on which the top-level statements of a program begin, in order. The text has to be a program.
 * @param {string} text
 */
export function statementLines(text) {
    const places = placesIn(text);
    return read(text).statements.map(({ at }) => places.of(at).line);
}

/**
 * What the statement at a place that the program prints has on its line: all of it, or its front where it goes on below. The text has to be a program.
 * @param {string} text
 * @returns {(line: number, column: number) => string} its line and its column, as the program prints them
 */
export function statementsOf(text) {
    const lines = text.split("\n");
    const places = placesIn(text);
    const ends = new Map(every(read(text).statements).map(({ at, end }) => [at, places.of(end)]));
    return (line, column) => {
        const own = lines[line - 1];
        const end = ends.get(places.at(line, column));
        const to = end === undefined || end.line > line ? own.length : characterAt(own, end.column);
        return own.slice(characterAt(own, column), to).trim();
    };
}

/**
 * The items that a program is about: those of its line `about`, or all its variables as they are after the last line.
 * @param {string} text
 */
export const targetOf = (text) => targetIn(readHead(text));

/**
 * How many values the target has by its types, possible or not. The text has to be a program.
 * @param {string} text
 */
export function targetSize(text) {
    const source = readHead(text);
    const sizes = new Map(source.declarations.map(({ name, type }) => [name, sizeOf(type)]));
    return targetIn(source).reduce((size, { name }) => Math.min(size * (sizes.get(name) || 1), 1 << 20), 1);
}
