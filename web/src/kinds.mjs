// Types that hold every value of an expression, from the types of the variables in it.

/** @typedef {import("./source.mjs").Type} Type */
/** @typedef {import("./source.mjs").Expression} Expression */
/** @typedef {import("./source.mjs").Distribution} Distribution */

/** What gives a truth value, whatever it takes. */
const TRUTHS = ["=", "!=", "<", "<=", ">", ">=", "in", "subset", "or", "xor", "implies", "and", "not"];
/** The most values of a type, and of a type in a set. */
const MOST = 65536;

/** No type of the language holds all values of an expression, or none is found. */
export class NoType extends Error {}

/**
 * A type as it is written.
 * @param {Type} type
 * @returns {string}
 */
export function typeText(type) {
    switch (type.kind) {
        case "bool":
            return "bool";
        case "range":
            return `${type.low}..${type.high}`;
        case "tuple":
            return `(${type.parts.map(typeText).join(", ")})`;
        default:
            return `set of ${typeText(type.base)}`;
    }
}

/**
 * A value of a type, as it is written.
 * @param {Type} type
 * @returns {string}
 */
export function firstValue(type) {
    switch (type.kind) {
        case "bool":
            return "false";
        case "range":
            return String(type.low);
        case "tuple":
            return `(${type.parts.map(firstValue).join(", ")})`;
        default:
            return `{${firstValue(type.base)}} less {${firstValue(type.base)}}`;
    }
}

/**
 * The exact number of values of a type, or more than the most.
 * @param {Type} type
 * @returns {number}
 */
function count(type) {
    switch (type.kind) {
        case "bool":
            return 2;
        case "range":
            return type.high - type.low + 1;
        case "tuple":
            return type.parts.reduce((all, part) => all * count(part), 1);
        default:
            return 2 ** Math.min(count(type.base), 64);
    }
}

/**
 * The least type with all values of both.
 * @param {Type} a
 * @param {Type} b
 * @returns {Type}
 */
function joined(a, b) {
    if (a.kind === "bool" && b.kind === "bool") {
        return a;
    }
    if (a.kind === "range" && b.kind === "range") {
        return { kind: "range", low: Math.min(a.low, b.low), high: Math.max(a.high, b.high) };
    }
    if (a.kind === "tuple" && b.kind === "tuple" && a.parts.length === b.parts.length) {
        return { kind: "tuple", parts: a.parts.map((part, index) => joined(part, b.parts[index])) };
    }
    if (a.kind === "set" && b.kind === "set") {
        return { kind: "set", base: joined(a.base, b.base) };
    }
    throw new NoType("its values are of several kinds");
}

/** @param {Type} type */
function bounds(type) {
    if (type.kind !== "range") {
        throw new NoType("a number is expected");
    }
    return [type.low, type.high];
}

/** @param {number[]} numbers */
const across = (numbers) => ({ kind: /** @type {"range"} */ ("range"), low: Math.min(...numbers), high: Math.max(...numbers) });

/**
 * @param {number} low
 * @param {number} high
 * @returns {Type}
 */
const range = (low, high) => ({ kind: "range", low, high });

/**
 * @param {number[]} dividend its bounds
 * @param {number[]} divisor
 */
function divided([a, b], [c, d]) {
    const divisors = [c, d, ...[-1, 1].filter((it) => c <= it && it <= d)].filter((it) => it !== 0);
    if (divisors.length === 0) {
        throw new NoType("it divides by 0");
    }
    // The program's quotient leaves a remainder of at least 0.
    return across([a, b].flatMap((x) => divisors.map((y) => (y > 0 ? Math.floor(x / y) : Math.ceil(x / y)))));
}

/**
 * @param {number[]} dividend its bounds
 * @param {number[]} divisor
 */
function remainder([a, b], [c, d]) {
    const greatest = Math.max(Math.abs(c), Math.abs(d)) - 1;
    return range(0, a >= 0 ? Math.min(b, greatest) : greatest);
}

/**
 * @param {string} operator
 * @param {Type[]} types
 * @returns {Type}
 */
function arithmetic(operator, types) {
    const [first, second] = types.map(bounds);
    const [a, b] = first;
    if (second === undefined) {
        return operator === "abs" ? range(a <= 0 && b >= 0 ? 0 : Math.min(Math.abs(a), Math.abs(b)), Math.max(Math.abs(a), Math.abs(b))) : range(-b, -a);
    }
    const [c, d] = second;
    switch (operator) {
        case "+":
            return range(a + c, b + d);
        case "-":
            return range(a - d, b - c);
        case "*":
            return across([a * c, a * d, b * c, b * d]);
        case "min":
            return range(Math.min(a, c), Math.min(b, d));
        case "max":
            return range(Math.max(a, c), Math.max(b, d));
        case "div":
            return divided(first, second);
        case "mod":
            return remainder(first, second);
        default:
            throw new NoType(`${operator} isn't known`);
    }
}

/**
 * @param {Extract<Expression, { kind: "call" }>} call
 * @param {Map<string, Type>} types
 * @returns {Type}
 */
function typeOfCall({ operator, parts }, types) {
    const own = () => parts.map((part) => typeOfExpression(part, types));
    if (TRUTHS.includes(operator)) {
        return { kind: "bool" };
    }
    switch (operator) {
        case "tuple":
            return { kind: "tuple", parts: own() };
        case "set":
            return { kind: "set", base: own().reduce(joined) };
        case "cond":
            return own().slice(1).reduce(joined);
        case "union":
            return own().reduce(joined);
        case "inter":
        case "less":
            return own()[0];
        case "size": {
            const [set] = own();
            if (set.kind !== "set") {
                throw new NoType("a set is expected");
            }
            return range(0, count(set.base));
        }
        default:
            return arithmetic(operator, own());
    }
}

/**
 * @param {Expression} it
 * @param {Map<string, Type>} types of the variables
 * @returns {Type}
 */
function typeOfExpression(it, types) {
    switch (it.kind) {
        case "truth":
            return { kind: "bool" };
        case "number":
            return range(it.value, it.value);
        case "name":
            return types.get(it.name) || { kind: "bool" };
        case "part": {
            const whole = typeOfExpression(it.whole, types);
            if (whole.kind !== "tuple" || it.number >= whole.parts.length) {
                throw new NoType("a tuple is expected");
            }
            return whole.parts[it.number];
        }
        default:
            return typeOfCall(it, types);
    }
}

/**
 * @param {Distribution} value
 * @param {Map<string, Type>} types
 * @returns {Type}
 */
function chosenBy(value, types) {
    switch (value.kind) {
        case "flip":
            return { kind: "bool" };
        case "choose":
            return value.cases.map((one) => typeOfExpression(one.value, types)).reduce(joined);
        case "uniform": {
            const low = typeOfExpression(value.low, types);
            if (value.high !== null) {
                return range(bounds(low)[0], bounds(typeOfExpression(value.high, types))[1]);
            }
            if (low.kind !== "set") {
                throw new NoType("a set is expected");
            }
            return low.base;
        }
        default:
            return typeOfExpression(value.value, types);
    }
}

/**
 * A type with every value that a distribution may choose. It throws NoType where none is found.
 * @param {Distribution} value
 * @param {Map<string, Type>} types
 */
export function typeOf(value, types) {
    const found = chosenBy(value, types);
    // A run may take few of these numbers. Where it takes another, the program refuses the text that is made.
    const type = found.kind === "range" && count(found) > MOST ? range(-MOST / 2, MOST / 2 - 1) : found;
    if (count(type) > MOST) {
        throw new NoType(`a type with its values would have more than ${MOST}`);
    }
    return type;
}
