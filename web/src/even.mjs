// Programs whose branches and loops no longer show anything: assignments under a guard become assignments by `cond`. A conditional that is made even
// has no guard left. A loop takes as many turns as it ever does, under a flag that says whether it still goes on. What was observed in it is kept in
// a variable, and shown whether or not it would have been.
import { NoType, firstValue, typeOf, typeText } from "./kinds.mjs";
import { edited, every, partsOf, placesIn } from "./source.mjs";

/** @typedef {import("./source.mjs").Source} Source */
/** @typedef {import("./source.mjs").Statement} Statement */
/** @typedef {import("./source.mjs").Distribution} Distribution */
/** @typedef {Extract<Statement, { kind: "if" } | { kind: "while" }>} Compound */
/** @typedef {{ at: number, end: number, by: string }} Edit */
/**
 * The observation that a program is for, and the variables that hold the value it showed last, and whether it showed one.
 * @typedef {{ statement: Extract<Statement, { kind: "observe" }>, type: import("./kinds.mjs").Type, value: string, met: string }} Purpose
 */
/**
 * What is made even, by the places where it begins. `isCarried` says what a branch shows that showed nothing before: the value that was shown there
 * last, and else the first value of its type.
 * @typedef {{ even: Set<number>, isCarried: boolean }} Change
 */

/** The most turns that a loop is given. */
const MOST_TURNS = 64;

/** Why a statement isn't made even. */
export class Uncovered extends Error {}

/**
 * Each conditional and loop, those in it after it.
 * @param {Statement[]} statements
 */
export const compounds = (statements) => /** @type {Compound[]} */ (every(statements).filter(({ kind }) => kind === "if" || kind === "while"));

/**
 * The places of a conditional or loop and of those in it.
 * @param {Compound} it
 */
export const within = (it) => new Set([it.at, ...compounds(partsOf(it)).map(({ at }) => at)]);

/**
 * A name that no variable has.
 * @param {Source} source
 * @param {string} wanted
 * @param {string[]} taken
 */
export function fresh(source, wanted, taken) {
    const used = [...source.declarations.map(({ name }) => name), ...taken];
    let name = wanted;
    for (let count = 2; used.includes(name); count += 1) {
        name = `${wanted}_${count}`;
    }
    return name;
}

/**
 * The text with these edits, and with more variables declared after its own.
 * @param {Source} source
 * @param {Edit[]} edits
 * @param {string[]} declared
 */
export function withDeclared({ text, declared: place }, edits, declared) {
    const line = text.includes("\r\n") ? "\r\n" : "\n";
    // After the comment that ends the line of the last declaration, if nothing else stands in it.
    const rest = /^[ \t]*(?:#[^\r\n]*)?(?=\r?\n)/.exec(text.slice(place));
    const at = place + (rest === null ? 0 : rest[0].length);
    const more = declared.map((it) => `${line}${it}`).join("");
    const ended = edits.map((edit) => ({ ...edit, by: edit.by.replace(/\n/g, line) }));
    return edited(text, [...ended, ...(more === "" ? [] : [{ at, end: at, by: more }])]);
}

/**
 * The declarations of the variables that hold what a program is for.
 * @param {Purpose} purpose
 */
export const declaredFor = ({ value, met, type }) => [`var ${value} : ${typeText(type)} := ${firstValue(type)};`, `var ${met} : bool := false;`];

/**
 * The text in which a purpose's value is held in variables before it is shown.
 * @param {Source} source
 * @param {Purpose} purpose
 * @returns {Edit}
 */
export function held({ text }, { statement, value, met }) {
    return { at: statement.at, end: statement.end, by: `${value} := ${text.slice(statement.value.at, statement.value.end)}; ${met} := true; observe ${value};` };
}

/**
 * How a text with a change made is written: `isHeld` says that what it is for is held in variables, though it needn't be, and `hasMet` that an
 * observation that is moved also shows whether it was met.
 * @typedef {{ isHeld: boolean, hasMet: boolean }} Manner
 */

/** A text with a change made, and the variables that it wants. */
class Even {
    /**
     * @param {Source} source
     * @param {Change} change
     * @param {Purpose | null} purpose
     * @param {Map<number, number>} turns
     * @param {Manner} manner
     */
    constructor(source, change, purpose, turns, manner) {
        this.source = source;
        this.change = change;
        this.purpose = purpose;
        this.turns = turns;
        this.manner = manner;
        this.types = new Map(source.declarations.map(({ name, type }) => [name, type]));
        this.visible = source.declarations.filter(({ isVisible }) => isVisible).map(({ name }) => name);
        /** @type {string[]} */
        this.declared = [];
        /** @type {string[]} */
        this.names = purpose === null ? [] : [purpose.value, purpose.met];
        this.isMoved = false;
    }

    text() {
        const edits = this.edits(this.source.statements);
        const kept = this.purpose !== null && (this.manner.isHeld || this.isMoved) ? declaredFor(this.purpose) : [];
        return withDeclared(this.source, edits, [...kept, ...this.declared]);
    }

    /** @param {{ at: number, end: number }} part */
    slice({ at, end }) {
        return this.source.text.slice(at, end);
    }

    /**
     * A new variable.
     * @param {string} wanted
     * @param {string} type
     * @param {string} first
     */
    variable(wanted, type, first) {
        const name = fresh(this.source, wanted, this.names);
        this.names.push(name);
        this.declared.push(`var ${name} : ${type} := ${first};`);
        return name;
    }

    // What stands in the place of statements.

    /**
     * @param {Statement[]} statements
     * @returns {Edit[]}
     */
    edits(statements) {
        return statements.flatMap((statement) => {
            if (this.change.even.has(statement.at)) {
                return [this.replacement(statement)];
            }
            if (this.manner.isHeld && this.purpose !== null && statement === this.purpose.statement) {
                return [held(this.source, this.purpose)];
            }
            return this.edits(partsOf(statement));
        });
    }

    /**
     * @param {Statement} statement that is made even, and stands in none that is
     * @returns {Edit}
     */
    replacement(statement) {
        const wasMoved = this.isMoved;
        const lines = this.even(statement, null);
        if (this.purpose !== null && this.isMoved && !wasMoved) {
            const { value, met } = this.purpose;
            lines.push(this.manner.hasMet ? `observe (${met}, ${value});` : `observe ${value};`);
        }
        const indent = " ".repeat(statement.at - (this.source.text.lastIndexOf("\n", statement.at - 1) + 1));
        return { at: statement.at, end: statement.end, by: lines.join(`\n${indent}`) };
    }

    /**
     * A statement where a guard holds, and nothing that is noticed where it doesn't.
     * @param {Statement} statement
     * @param {string | null} guard
     * @returns {string[]}
     */
    even(statement, guard) {
        switch (statement.kind) {
            case "skip":
                return [];
            case "assign":
                if (guard !== null && this.visible.includes(statement.name)) {
                    throw new Uncovered(`the visible variable ${statement.name} is assigned in it, which would be seen where nothing is seen today`);
                }
                return [this.assigned(statement.name, statement.value, guard)];
            case "observe":
                return this.observed(statement, guard);
            case "if":
                return this.branches(statement, guard);
            default:
                return this.loop(statement, guard);
        }
    }

    /**
     * An assignment where a guard holds. Elsewhere the variable takes another value, or keeps its own.
     * @param {string} name
     * @param {Distribution} value
     * @param {string | null} guard
     * @param {string} [instead]
     */
    assigned(name, value, guard, instead = name) {
        if (guard === null) {
            return `${name} := ${this.slice(value)};`;
        }
        const under = (/** @type {string} */ yes, no = instead) => `cond(${guard}, ${yes}, ${no})`;
        switch (value.kind) {
            case "sure":
                return `${name} := ${under(this.slice(value))};`;
            case "flip":
                return `${name} := choose { ${under("true")} : ${value.over}, ${under("false")} : ${value.under - value.over} };`;
            case "choose":
                return `${name} := choose { ${value.cases.map(({ valueText, weightText }) => `${under(valueText)} : ${under(weightText, "1")}`).join(", ")} };`;
            default:
                return value.high === null ? `${name} := uniform ${under(this.slice(value.low), `{${instead}}`)};`
                    : `${name} := uniform ${under(this.slice(value.low))}..${under(this.slice(value.high))};`;
        }
    }

    /**
     * Keeps in a variable what a guard says: false where the one around it is false.
     * @param {Distribution} asked
     * @param {string | null} guard
     * @param {string} name
     */
    guarded(asked, guard, name) {
        if (asked.kind !== "sure") {
            return this.assigned(name, asked, guard, "false");
        }
        return guard === null ? `${name} := ${this.slice(asked)};` : `${name} := ${guard} and (${this.slice(asked)});`;
    }

    /**
     * @param {Extract<Statement, { kind: "if" }>} statement
     * @param {string | null} guard
     * @returns {string[]}
     */
    branches({ guard: asked, then, otherwise }, guard) {
        const yes = this.variable("yes", "bool", "false");
        const lines = [this.guarded(asked, guard, yes)];
        const other = otherwise.filter(({ kind }) => kind !== "skip");
        const no = other.length > 0 ? this.variable("no", "bool", "false") : null;
        if (no !== null) {
            lines.push(guard === null ? `${no} := not ${yes};` : `${no} := ${guard} and not ${yes};`);
        }
        return [...lines, ...then.flatMap((it) => this.even(it, yes)), ...other.flatMap((it) => this.even(it, no))];
    }

    /**
     * @param {Extract<Statement, { kind: "while" }>} statement
     * @param {string | null} guard
     * @returns {string[]}
     */
    loop({ at, guard: asked, body }, guard) {
        const most = this.turns.get(at) || 0;
        if (most > MOST_TURNS) {
            throw new Uncovered(Number.isFinite(most) ? `it takes up to ${most} turns, and this search gives a loop ${MOST_TURNS} at most`
                : "the program doesn't say how many turns it takes");
        }
        if (most === 0) {
            return [];
        }
        const on = this.variable("on", "bool", "false");
        const turn = this.variable("turn", `0..${most}`, "0");
        const inner = [this.guarded(asked, on, on), ...body.flatMap((it) => this.even(it, on)), `${turn} := ${turn} + 1;`];
        return [`${on} := ${guard || "true"};`, `${turn} := 0;`, `while ${turn} < ${most} {`, ...inner.map((line) => `  ${line}`), "}"];
    }

    /**
     * @param {Extract<Statement, { kind: "observe" }>} statement
     * @param {string | null} guard
     */
    observed(statement, guard) {
        if (this.purpose !== null && statement === this.purpose.statement) {
            const { value, met } = this.purpose;
            this.isMoved = true;
            return [this.assigned(value, statement.value, guard), `${met} := ${guard === null ? "true" : `${met} or ${guard}`};`];
        }
        const type = this.typeOf(statement);
        const name = this.variable("shown", typeText(type), firstValue(type));
        return [this.assigned(name, statement.value, guard, this.change.isCarried ? name : `(${firstValue(type)})`), `observe ${name};`];
    }

    /** @param {Extract<Statement, { kind: "observe" }>} statement */
    typeOf({ value, at }) {
        try {
            return typeOf(value, this.types);
        } catch (error) {
            const { line } = placesIn(this.source.text).of(at);
            throw error instanceof NoType ? new Uncovered(`the observation in line ${line} can't be kept in a variable: ${error.message}`) : error;
        }
    }
}

/**
 * A text with a change made. It throws Uncovered where that can't be.
 * @param {Source} source
 * @param {Change} change
 * @param {Purpose | null} purpose
 * @param {Map<number, number>} turns the greatest number of turns of each loop, by its place
 * @param {Manner} manner
 */
export const evenText = (source, change, purpose, turns, manner) => new Even(source, change, purpose, turns, manner).text();
