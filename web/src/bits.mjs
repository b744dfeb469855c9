// Logarithms to base 2, in bits. They are rounded, but where they are fractions, as those of powers of 2 are.
import { NOTHING, decimal, lowest, near, product, sum } from "./fractions.mjs";

/** @typedef {import("./fractions.mjs").Fraction} Fraction */
/** @typedef {import("./answers.mjs").Groups} Groups */
/** @typedef {{ about: number, exact: Fraction | null }} Bits a number near it, and the number itself where it is known to be a fraction */

const ZERO = BigInt(0);
const ONE = BigInt(1);
/** How many bits of a quotient are taken before it is rounded. */
const TAKEN = 64;
const DIGITS = 4;

/** @type {Bits} */
const NO_BITS = { about: 0, exact: NOTHING };

/** @param {bigint} n above 0 */
const lengthOf = (n) => n.toString(2).length;

/**
 * The number whose power of 2 this is, or null where it is none.
 * @param {bigint} n above 0
 */
const powerOf = (n) => ((n & (n - ONE)) === ZERO ? lengthOf(n) - 1 : null);

/**
 * @param {Fraction} f above 0
 * @returns {Bits}
 */
export function log2({ n, d }) {
    const [up, down] = [powerOf(n), powerOf(d)];
    if (up !== null && down !== null) {
        return { about: up - down, exact: { n: BigInt(up - down), d: ONE } };
    }
    // A quotient near 1 loses nothing if what it has above 1 is taken by itself.
    const ratio = (/** @type {bigint} */ a, /** @type {bigint} */ b) => {
        const shift = TAKEN + lengthOf(b);
        return { whole: Number((a << BigInt(shift)) / b), shift };
    };
    const more = n - d;
    if (BigInt(2) * (more < ZERO ? -more : more) < d) {
        const { whole, shift } = ratio(more, d);
        return { about: Math.log1p(whole / 2 ** Math.min(shift, 1000) / 2 ** Math.max(shift - 1000, 0)) / Math.LN2, exact: null };
    }
    const size = lengthOf(n) - lengthOf(d);
    const [a, b] = size > 0 ? [n, d << BigInt(size)] : [n << BigInt(-size), d];
    return { about: Math.log2(Number((a << BigInt(TAKEN)) / b)) - TAKEN + size, exact: null };
}

/**
 * @param {Bits} a
 * @param {Bits} b
 * @returns {Bits}
 */
const plus = (a, b) => ({ about: a.about + b.about, exact: a.exact !== null && b.exact !== null ? sum(a.exact, b.exact) : null });

/**
 * @param {Fraction} f
 * @param {Bits} bits
 * @returns {Bits}
 */
const times = (f, bits) => ({ about: near(f) * bits.about, exact: bits.exact === null ? null : product(f, bits.exact) });

/** @param {Fraction} f */
const inverse = ({ n, d }) => ({ n: d, d: n });

/**
 * Shannon's entropy of a distribution.
 * @param {Fraction[]} shares
 */
export const entropy = (shares) => shares.filter(({ n }) => n > ZERO).reduce((all, p) => plus(all, times(p, log2(inverse(p)))), NO_BITS);

/** @typedef {{ outer: Fraction, shares: { value: string, share: Fraction }[] }} Inner */

/**
 * Shannon's entropy of the prior, of the posterior, as is to be expected, and how much is lost of it: the mutual information.
 * @param {{ value: string, share: Fraction }[]} prior
 * @param {Inner[]} inners
 */
export function shannon(prior, inners) {
    const before = new Map(prior.map(({ value, share }) => [value, share]));
    const expected = inners.reduce((all, { outer, shares }) => plus(all, times(outer, entropy(shares.map(({ share }) => share)))), NO_BITS);
    const parts = inners.flatMap(({ outer, shares }) => shares.filter(({ share }) => share.n > ZERO).map(({ value, share }) => {
        const was = before.get(value) || share;
        return times(product(outer, share), log2(product(share, inverse(was))));
    }));
    return { prior: entropy(prior.map(({ share }) => share)), posterior: expected, leakage: parts.reduce(plus, NO_BITS) };
}

/**
 * A number of bits as it is shown: = where that is all of it, ≈ where it is rounded.
 * @param {Bits} bits
 */
export function bitsText({ about, exact }) {
    const { text, isAll } = exact === null ? { text: String(Number(about.toPrecision(DIGITS))), isAll: false } : decimal(exact);
    return `${isAll ? "=" : "≈"} ${text.startsWith("-") ? `−${text.slice(1)}` : text} ${text === "1" ? "bit" : "bits"}`;
}

/**
 * The multiplicative leakage in bits, as it is shown, or nothing where it has none.
 * @param {Fraction | null} quotient
 */
export const leakageText = (quotient) => (quotient === null || quotient.n <= ZERO ? "" : bitsText(log2(lowest(quotient.n, quotient.d))));
