// A program's text as a tree, by the grammar of docs/LANGUAGE.md, for what asks about its statements. The text has to be one that the program
// accepts: of another one the reader throws, or reads it in some way. Each part has its place: `at` is where it begins and `end` the place after it.
import { LEVELS, SIGNS, WORDS } from "./words.mjs";

/**
 * @typedef {{ kind: "bool" } | { kind: "range", low: number, high: number } | { kind: "tuple", parts: Type[] } | { kind: "set", base: Type }} Type
 * @typedef {{ at: number, end: number }} Placed
 * @typedef {Placed & { kind: "truth", value: boolean }} Truth
 * @typedef {Placed & { kind: "number", value: number }} Numeral
 * @typedef {Placed & { kind: "name", name: string }} Name
 * @typedef {Placed & { kind: "part", whole: Expression, number: number }} Part of a tuple, by its number from 0
 * @typedef {Placed & { kind: "call", operator: string, parts: Expression[] }} Call `tuple` and `set` are the operators of what is written in brackets
 * @typedef {Truth | Numeral | Name | Part | Call} Expression
 * @typedef {{ value: Expression, weight: Expression, valueText: string, weightText: string }} Case of a choose
 * @typedef {Placed & { kind: "sure", value: Expression }} Sure
 * @typedef {Placed & { kind: "uniform", low: Expression, high: Expression | null }} Uniform each element of a set, where there is no `high`
 * @typedef {Placed & { kind: "flip", over: number, under: number }} Flip
 * @typedef {Placed & { kind: "choose", cases: Case[] }} Choose
 * @typedef {Sure | Uniform | Flip | Choose} Distribution
 * @typedef {Placed & { kind: "skip" }} Skip
 * @typedef {Placed & { kind: "assign", name: string, value: Distribution }} Assign
 * @typedef {Placed & { kind: "observe", value: Distribution }} Observe
 * @typedef {Placed & { kind: "if", guard: Distribution, then: Statement[], otherwise: Statement[] }} If
 * @typedef {Placed & { kind: "while", guard: Distribution, body: Statement[] }} While
 * @typedef {Skip | Assign | Observe | If | While} Statement
 * @typedef {Placed & { isVisible: boolean, name: string, type: Type, value: Distribution }} Declaration
 * @typedef {{ name: string, isOld: boolean }} Item of a target
 */
/**
 * What stands before the statements: `declared` is the place after the declarations, `begin` the one after the line `about`, where there is one.
 * @typedef {{ text: string, declarations: Declaration[], about: Item[] | null, declared: number, begin: number }} Head
 */
/** @typedef {Head & { statements: Statement[] }} Source */

/** The level of `not`, which stands before its argument and takes what binds tighter. */
const NOT = LEVELS.findIndex((operators) => operators.includes("not"));
const LEVEL_OF = new Map(LEVELS.flatMap((operators, level) => level === NOT ? [] : operators.map((operator) => /** @type {[string, number]} */ ([operator, level]))));
const TOKEN = new RegExp(`(?:[ \\t\\r\\n]|#[^\\n]*)*(${SIGNS.map((sign) => sign.replace(/\W/g, "\\$&")).join("|")}|[0-9]+|(?:\\w|[\\u0080-\\uffff])+|$)`, "y");

/**
 * Reads one token after the other; the last one is the empty one at the end of the text.
 * @param {string} text
 */
function reader(text) {
    // Where the next token begins, what it is, and where the last one that was taken ends.
    let at = 0;
    let token = "";
    let end = 0;

    /** @param {number} from */
    function find(from) {
        TOKEN.lastIndex = from;
        const found = TOKEN.exec(text);
        if (found === null) {
            throw new Error("a token can't be read");
        }
        token = found[1];
        at = from + found[0].length - token.length;
    }
    find(0);

    /** @param {string} [wanted] */
    function take(wanted) {
        const taken = token;
        if (taken === "" || (wanted !== undefined && taken !== wanted)) {
            throw new Error(`${wanted || "more"} is missing`);
        }
        end = at + taken.length;
        find(end);
        return taken;
    }

    return {
        take,
        peek: () => token,
        at: () => at,
        end: () => end,
        /**
         * Takes the next token where it is this one.
         * @param {string} word
         */
        took: (word) => token === word && take() === word,
        /**
         * Parts between commas, up to a closing token.
         * @template T
         * @param {() => T} one
         * @param {string} close
         */
        listed(one, close) {
            const found = [one()];
            while (token === ",") {
                take();
                found.push(one());
            }
            take(close);
            return found;
        },
    };
}

/** @typedef {ReturnType<typeof reader>} Reader */

/** @param {Reader} from */
function number(from) {
    const sign = from.took("-") ? -1 : 1;
    return sign * Number(from.take());
}

/**
 * @param {Reader} from
 * @returns {Type}
 */
function type(from) {
    if (from.took("bool")) {
        return { kind: "bool" };
    }
    if (from.took("set")) {
        from.take("of");
        return { kind: "set", base: type(from) };
    }
    if (from.took("(")) {
        return { kind: "tuple", parts: from.listed(() => type(from), ")") };
    }
    const low = number(from);
    from.take("..");
    return { kind: "range", low, high: number(from) };
}

// Expressions.

/**
 * @param {Reader} from
 * @returns {Expression}
 */
function operand(from) {
    const at = from.at();
    const token = from.take();
    if (token === "(" || token === "{" || WORDS.function.includes(token)) {
        if (WORDS.function.includes(token)) {
            from.take("(");
        }
        const parts = from.listed(() => expression(from, 0), token === "{" ? "}" : ")");
        if (token === "(" && parts.length === 1) {
            return parts[0];
        }
        return { kind: "call", operator: token === "(" ? "tuple" : token === "{" ? "set" : token, parts, at, end: from.end() };
    }
    if (token === "true" || token === "false") {
        return { kind: "truth", value: token === "true", at, end: from.end() };
    }
    return /^[0-9]/.test(token) ? { kind: "number", value: Number(token), at, end: from.end() } : { kind: "name", name: token, at, end: from.end() };
}

/**
 * @param {Reader} from
 * @returns {Expression}
 */
function parted(from) {
    const at = from.at();
    let found = operand(from);
    while (from.took(".")) {
        found = { kind: "part", whole: found, number: Number(from.take()), at, end: from.end() };
    }
    return found;
}

/**
 * @param {Reader} from
 * @returns {Expression}
 */
function prefixed(from) {
    const at = from.at();
    if (from.took("not")) {
        const part = expression(from, NOT + 1);
        return { kind: "call", operator: "not", parts: [part], at, end: from.end() };
    }
    if (from.took("-")) {
        const part = parted(from);
        return { kind: "call", operator: "-", parts: [part], at, end: from.end() };
    }
    return parted(from);
}

/**
 * An expression whose operators have at least this level, as far as they are outside of brackets; of one level the left ones bind first.
 * @param {Reader} from
 * @param {number} lowest
 * @returns {Expression}
 */
function expression(from, lowest) {
    const at = from.at();
    let found = prefixed(from);
    for (let level = LEVEL_OF.get(from.peek()); level !== undefined && level >= lowest; level = LEVEL_OF.get(from.peek())) {
        const operator = from.take();
        const right = expression(from, level + 1);
        found = { kind: "call", operator, parts: [found, right], at, end: from.end() };
    }
    return found;
}

/**
 * @param {Reader} from
 * @param {string} text
 * @returns {Distribution}
 */
function distribution(from, text) {
    const at = from.at();
    if (from.took("flip")) {
        const over = number(from);
        from.take("/");
        const under = number(from);
        return { kind: "flip", over, under, at, end: from.end() };
    }
    if (from.took("choose")) {
        from.take("{");
        const cases = from.listed(() => caseOf(from, text), "}");
        return { kind: "choose", cases, at, end: from.end() };
    }
    if (from.took("uniform")) {
        const low = expression(from, 0);
        const high = from.took("..") ? expression(from, 0) : null;
        return { kind: "uniform", low, high, at, end: from.end() };
    }
    const value = expression(from, 0);
    return { kind: "sure", value, at, end: from.end() };
}

/**
 * @param {Reader} from
 * @param {string} text
 * @returns {Case}
 */
function caseOf(from, text) {
    const first = from.at();
    const value = expression(from, 0);
    const valueText = text.slice(first, from.end());
    from.take(":");
    const second = from.at();
    const weight = expression(from, 0);
    return { value, weight, valueText, weightText: text.slice(second, from.end()) };
}

// Statements.

/**
 * @param {Reader} from
 * @param {string} text
 */
function block(from, text) {
    from.take("{");
    const found = [];
    while (!from.took("}")) {
        found.push(statement(from, text));
    }
    return found;
}

/**
 * @param {Reader} from
 * @param {string} text
 * @returns {Statement}
 */
function statement(from, text) {
    const at = from.at();
    const word = from.take();
    if (word === "if") {
        const guard = distribution(from, text);
        const then = block(from, text);
        from.take("else");
        const otherwise = block(from, text);
        return { kind: "if", guard, then, otherwise, at, end: from.end() };
    }
    if (word === "while") {
        const guard = distribution(from, text);
        const body = block(from, text);
        return { kind: "while", guard, body, at, end: from.end() };
    }
    if (word === "skip") {
        from.take(";");
        return { kind: "skip", at, end: from.end() };
    }
    if (word !== "observe") {
        from.take(":=");
    }
    const value = distribution(from, text);
    from.take(";");
    return word === "observe" ? { kind: "observe", value, at, end: from.end() } : { kind: "assign", name: word, value, at, end: from.end() };
}

/**
 * @param {Reader} from
 * @param {string} text
 * @returns {Declaration}
 */
function declaration(from, text) {
    const at = from.at();
    const isVisible = from.take() === "vis";
    const name = from.take();
    from.take(":");
    const own = type(from);
    from.take(":=");
    const value = distribution(from, text);
    from.take(";");
    return { isVisible, name, type: own, value, at, end: from.end() };
}

/**
 * @param {Reader} from
 * @param {string} text
 * @returns {Head}
 */
function head(from, text) {
    const declarations = [];
    while (from.peek() === "var" || from.peek() === "vis") {
        declarations.push(declaration(from, text));
    }
    const declared = from.end();
    const item = () => {
        const isOld = from.took("old");
        return { name: from.take(), isOld };
    };
    const about = from.took("about") ? from.listed(item, ";") : null;
    return { text, declarations, about, declared, begin: from.end() };
}

/**
 * What stands before a text's statements, which aren't read.
 * @param {string} text
 */
export const readHead = (text) => head(reader(text), text);

/**
 * The tree of a text.
 * @param {string} text
 * @returns {Source}
 */
export function read(text) {
    const from = reader(text);
    const found = head(from, text);
    const statements = [];
    while (from.peek() !== "") {
        statements.push(statement(from, text));
    }
    return { ...found, statements };
}

/**
 * The statements directly in a statement.
 * @param {Statement} it
 * @returns {Statement[]}
 */
export const partsOf = (it) => (it.kind === "if" ? [...it.then, ...it.otherwise] : it.kind === "while" ? it.body : []);

/**
 * Each statement, and each of those in it after it.
 * @param {Statement[]} statements
 * @returns {Statement[]}
 */
export const every = (statements) => statements.flatMap((it) => [it, ...every(partsOf(it))]);

/**
 * The items that a program is about: those of its line `about`, or all its variables as they are after the last line.
 * @param {Head} source
 * @returns {Item[]}
 */
export const targetIn = ({ about, declarations }) => about || declarations.map(({ name }) => ({ name, isOld: false }));

const MOST_VALUES = 1 << 20;

/**
 * How many values a type has. Past a bound the number is that bound.
 * @param {Type} of
 * @returns {number}
 */
export function sizeOf(of) {
    switch (of.kind) {
        case "bool":
            return 2;
        case "range":
            return Math.min(of.high - of.low + 1, MOST_VALUES);
        case "tuple":
            return of.parts.reduce((size, part) => Math.min(size * sizeOf(part), MOST_VALUES), 1);
        default:
            return Math.min(2 ** sizeOf(of.base), MOST_VALUES);
    }
}

// Places.

const encoder = new TextEncoder();
const decoder = new TextDecoder();

/**
 * The place in a line, counted in characters, of a column that counts bytes from 1.
 * @param {string} line
 * @param {number} column
 */
export const characterAt = (line, column) => decoder.decode(encoder.encode(line).slice(0, column - 1)).length;

/**
 * Where the lines of a text begin.
 * @param {string} text
 */
function beginsOf(text) {
    const found = [0];
    for (let at = text.indexOf("\n"); at >= 0; at = text.indexOf("\n", at + 1)) {
        found.push(at + 1);
    }
    return found;
}

/**
 * The places of a text: as characters from 0, as here, and as lines and columns in bytes, both from 1, as the program prints them.
 * @param {string} text
 */
export function placesIn(text) {
    const begins = beginsOf(text);
    const lines = text.split("\n");
    return {
        /**
         * @param {number} line
         * @param {number} column
         */
        at: (line, column) => begins[line - 1] + characterAt(lines[line - 1], column),
        /** @param {number} at */
        of(at) {
            let low = 0;
            let high = begins.length;
            while (high - low > 1) {
                const middle = (low + high) >> 1;
                [low, high] = begins[middle] <= at ? [middle, high] : [low, middle];
            }
            return { line: low + 1, column: encoder.encode(text.slice(begins[low], at)).length + 1 };
        },
    };
}

/**
 * The text in which others stand in the place of some parts, which don't overlap.
 * @param {string} text
 * @param {{ at: number, end: number, by: string }[]} edits
 */
export function edited(text, edits) {
    const ordered = edits.map((edit, index) => ({ ...edit, index })).sort((a, b) => b.at - a.at || b.index - a.index);
    return ordered.reduce((now, { at, end, by }) => now.slice(0, at) + by + now.slice(end), text);
}
