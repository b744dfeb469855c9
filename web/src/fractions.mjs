// Exact fractions as the program prints them, and decimals beside them. Numbers of the engine are for pictures alone.
import { element } from "./elements.mjs";

/** @typedef {{ n: bigint, d: bigint }} Fraction its denominator is above 0 */

const SHAPE = /^(-?[0-9]+)(?:\/([0-9]+))?$/;
const ZERO = BigInt(0);
const ONE = BigInt(1);
const TEN = BigInt(10);
const DIGITS = 4;

/**
 * @param {bigint} a
 * @param {bigint} b
 * @returns {bigint}
 */
function divisor(a, b) {
    return b === ZERO ? (a < ZERO ? -a : a) : divisor(b, a % b);
}

/**
 * @param {bigint} n
 * @param {bigint} d above 0
 * @returns {Fraction}
 */
export function lowest(n, d) {
    const common = divisor(n, d);
    return common === ZERO ? { n, d } : { n: n / common, d: d / common };
}

/**
 * @param {string} text
 * @returns {Fraction | null} null where it is none
 */
export function fractionOf(text) {
    const found = SHAPE.exec(text.trim());
    if (found === null) {
        return null;
    }
    const d = found[2] === undefined ? ONE : BigInt(found[2]);
    return d === ZERO ? null : lowest(BigInt(found[1]), d);
}

const DECIMAL = /^(-?)([0-9]+)\.([0-9]+)$/;
/** The most characters of a number that is typed. */
const LONGEST = 400;

/**
 * A number as it is typed: a whole number of any size, a fraction, or a decimal, which is taken exactly.
 * @param {string} text
 * @returns {Fraction | null} null where it is none
 */
export function typedFraction(text) {
    const bare = text.trim();
    const decimals = DECIMAL.exec(bare);
    if (bare.length > LONGEST || decimals === null) {
        return bare.length > LONGEST ? null : fractionOf(bare);
    }
    const [, sign, whole, part] = decimals;
    return lowest(BigInt(`${sign}${whole}${part}`), TEN ** BigInt(part.length));
}

/**
 * The least number that makes whole numbers of all these fractions.
 * @param {Fraction[]} fractions
 */
export const commonDenominator = (fractions) => fractions.reduce((common, { d }) => (common / divisor(common, d)) * d, ONE);

/**
 * @param {Fraction} a
 * @param {Fraction} b
 */
export const sum = (a, b) => lowest(a.n * b.d + b.n * a.d, a.d * b.d);
/**
 * @param {Fraction} a
 * @param {Fraction} b
 */
export const difference = (a, b) => lowest(a.n * b.d - b.n * a.d, a.d * b.d);
/**
 * @param {Fraction} a
 * @param {Fraction} b
 */
export const product = (a, b) => lowest(a.n * b.n, a.d * b.d);
/**
 * @param {Fraction} a
 * @param {Fraction} b
 */
export const isSame = (a, b) => a.n * b.d === b.n * a.d;
/**
 * Whether a is above b.
 * @param {Fraction} a
 * @param {Fraction} b
 */
export const isAbove = (a, b) => a.n * b.d > b.n * a.d;
/** @param {Fraction} f */
export const isNone = (f) => f.n === ZERO;
/** @param {Fraction} f */
export const printed = (f) => (f.d === ONE ? String(f.n) : `${f.n}/${f.d}`);
export const NOTHING = { n: ZERO, d: ONE };

/**
 * A number near it, for pictures.
 * @param {Fraction} f
 */
export function near(f) {
    const scale = BigInt(1e15);
    const whole = f.n / f.d;
    return Number(whole) + Number(((f.n - whole * f.d) * scale) / f.d) / 1e15;
}

/**
 * Its decimals, with four digits that count, and whether that is all of it.
 * @param {Fraction} f
 */
export function decimal(f) {
    const size = f.n < ZERO ? -f.n : f.n;
    const whole = size / f.d;
    let rest = size % f.d;
    let places = 0;
    let count = whole === ZERO ? 0 : String(whole).length;
    let digits = ZERO;
    while (rest !== ZERO && count < DIGITS && places < 40) {
        rest *= TEN;
        digits = digits * TEN + rest / f.d;
        rest %= f.d;
        places += 1;
        count += count > 0 || digits !== ZERO ? 1 : 0;
    }
    const isAll = rest === ZERO;
    const up = rest * BigInt(2) >= f.d ? ONE : ZERO;
    const all = whole * TEN ** BigInt(places) + digits + up;
    const text = String(all).padStart(places + 1, "0");
    const pointed = places === 0 ? text : `${text.slice(0, -places)}.${text.slice(-places)}`;
    return { text: (f.n < ZERO ? "-" : "") + pointed, isAll };
}

/**
 * A fraction with its decimals, as an element.
 * @param {string} text as the program prints it
 */
export function shown(text) {
    const f = fractionOf(text);
    if (f === null || f.d === ONE) {
        return element("span", { class: "number" }, text);
    }
    const { text: decimals, isAll } = decimal(f);
    return element("span", { class: "number" }, text, " ", element("span", { class: "decimal" }, `${isAll ? "=" : "≈"} ${decimals}`));
}
