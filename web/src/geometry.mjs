// The geometry of priors: what a channel makes of any prior on its values, and vulnerability as the upper envelope of its actions. All numbers are
// fractions, worked out here: the channel and the gains are the program's.
import { NOTHING, difference, isAbove, isNone, isSame, lowest, printed, product, sum } from "./fractions.mjs";

/** @typedef {import("./fractions.mjs").Fraction} Fraction */
/** @typedef {{ outer: Fraction, shares: Fraction[] }} Inner */
/** @typedef {{ p: Fraction, value: Fraction }} Corner of the envelope over two values: p is the probability of the second one */

const ONE = { n: BigInt(1), d: BigInt(1) };

/**
 * @param {Fraction} a
 * @param {Fraction} b not 0
 */
const quotient = (a, b) => (b.n < NOTHING.n ? lowest(-a.n * b.d, -a.d * b.n) : lowest(a.n * b.d, a.d * b.n));

/** @param {Fraction[]} numbers */
const total = (numbers) => numbers.reduce(sum, NOTHING);

/**
 * A distribution by weights, of which one is above 0.
 * @param {number[]} weights
 */
export function distributionOf(weights) {
    const all = BigInt(weights.reduce((a, b) => a + b, 0));
    return weights.map((weight) => lowest(BigInt(weight), all));
}

/**
 * The hyper of a prior and a channel: each posterior with its probability. Columns that leave the same posterior are one inner.
 * @param {Fraction[]} prior
 * @param {Fraction[][]} channel a row for each value
 * @returns {Inner[]}
 */
export function hyperAt(prior, channel) {
    /** @type {Map<string, Inner>} */
    const inners = new Map();
    channel[0].forEach((_, column) => {
        const joint = prior.map((p, row) => product(p, channel[row][column]));
        const outer = total(joint);
        if (!isNone(outer)) {
            const shares = joint.map((p) => quotient(p, outer));
            const key = shares.map(printed).join();
            const known = inners.get(key);
            inners.set(key, { outer: known === undefined ? outer : sum(known.outer, outer), shares });
        }
    });
    return [...inners.values()];
}

/**
 * What the best action is expected to gain.
 * @param {Fraction[][]} actions the gains of each, at each value
 * @param {Fraction[]} shares
 */
export function vulnerability(actions, shares) {
    const worth = actions.map((gains) => total(gains.map((gain, index) => product(gain, shares[index]))));
    return worth.reduce((most, value) => (isAbove(value, most) ? value : most));
}

/**
 * The same, to be expected after an observation.
 * @param {Fraction[][]} actions
 * @param {Inner[]} inners
 */
export const posteriorVulnerability = (actions, inners) => total(inners.map(({ outer, shares }) => product(outer, vulnerability(actions, shares))));

/**
 * The corners of the vulnerability over priors on two values, from the first value to the second one.
 * @param {Fraction[][]} actions
 * @returns {Corner[]}
 */
export function envelope(actions) {
    const meets = actions.flatMap(([a, b], index) => actions.slice(index + 1).flatMap(([c, d]) => {
        const slope = difference(difference(b, a), difference(d, c));
        const p = isNone(slope) ? NOTHING : quotient(difference(c, a), slope);
        return isAbove(p, NOTHING) && isAbove(ONE, p) ? [p] : [];
    }));
    const at = (/** @type {Fraction} */ p) => ({ p, value: vulnerability(actions, [difference(ONE, p), p]) });
    const places = [NOTHING, ...meets, ONE].sort((a, b) => (isAbove(a, b) ? 1 : isAbove(b, a) ? -1 : 0));
    const corners = places.filter((p, index) => index === 0 || !isSame(p, places[index - 1])).map(at);
    // A corner at which the envelope goes straight on is none.
    const rise = (/** @type {Corner} */ a, /** @type {Corner} */ b) => quotient(difference(b.value, a.value), difference(b.p, a.p));
    return corners.filter((corner, index) => index === 0 || index === corners.length - 1
        || !isSame(rise(corners[index - 1], corner), rise(corner, corners[index + 1])));
}

/** The triangle of priors on three values, by its corners. */
const TRIANGLE = [[ONE, NOTHING, NOTHING], [NOTHING, ONE, NOTHING], [NOTHING, NOTHING, ONE]];

/**
 * The prior between two others at which a number that is linear in the prior is 0, as a list: none where it isn't above 0 at one and below at the other.
 * @param {{ prior: Fraction[], number: Fraction }} from
 * @param {{ prior: Fraction[], number: Fraction }} to
 */
function crossing(from, to) {
    const isCrossed = (isAbove(from.number, NOTHING) && isAbove(NOTHING, to.number)) || (isAbove(NOTHING, from.number) && isAbove(to.number, NOTHING));
    if (!isCrossed) {
        return [];
    }
    const part = quotient(from.number, difference(from.number, to.number));
    return [from.prior.map((p, at) => sum(p, product(part, difference(to.prior[at], p))))];
}

/**
 * The corners of a polygon of priors, each with the one before it, and with a number that is linear in the prior.
 * @param {Fraction[][]} polygon
 * @param {Fraction[]} numbers at each value
 */
const edgesOf = (polygon, numbers) => polygon.map((prior, index) => {
    const end = (/** @type {Fraction[]} */ it) => ({ prior: it, number: total(it.map((p, at) => product(p, numbers[at]))) });
    return [end(polygon[(index + polygon.length - 1) % polygon.length]), end(prior)];
});

/**
 * The part of a polygon of priors at which one action gains no less than another.
 * @param {Fraction[][]} polygon
 * @param {Fraction[]} more how much more it gains at each value
 */
const cut = (polygon, more) => edgesOf(polygon, more).flatMap(([from, to]) => [...crossing(from, to), ...(isAbove(NOTHING, to.number) ? [] : [to.prior])]);

/**
 * For each action the priors on three values at which no other one gains more, by the corners of that polygon: none where there are only some at its edge.
 * @param {Fraction[][]} actions
 * @returns {Fraction[][][]}
 */
export const regions = (actions) => actions.map((own) => {
    const polygon = actions.reduce((left, other) => (other === own ? left : cut(left, own.map((gain, index) => difference(gain, other[index])))), TRIANGLE);
    return polygon.length > 2 ? polygon : [];
});

/**
 * The priors on three values that are worth just so much, as lines: each from one edge of a region to another one.
 * @param {Fraction[][]} actions
 * @param {Fraction} value
 * @returns {Fraction[][][]}
 */
export const levelLines = (actions, value) => regions(actions).flatMap((polygon, action) => {
    const above = actions[action].map((gain) => difference(gain, value));
    const points = edgesOf(polygon, above).flatMap(([from, to]) => (isNone(to.number) ? [to.prior] : crossing(from, to)));
    return points.length === 2 ? [points] : [];
});
