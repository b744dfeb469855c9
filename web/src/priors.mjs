// Other priors under the channel of a text: what an observer learns, and what it is worth, as the prior is moved. The channel is the program's; all that
// follows from it and the prior is worked out here, and compared with the program's own answer at the prior that the text declares.
import { button, element, fill, table } from "./elements.mjs";
import { channelOf, hyperOf, priorOf, reportOf } from "./answers.mjs";
import { bitsText, log2 } from "./bits.mjs";
import { figureOf } from "./figures.mjs";
import { NOTHING, difference, fractionOf, isAbove, near, lowest, printed, shown } from "./fractions.mjs";
import { TABLE, gainsOf } from "./gains.mjs";
import { distributionOf, hyperAt, posteriorVulnerability, vulnerability } from "./geometry.mjs";
import { gainWord } from "./lines.mjs";
import { priorPicture } from "./envelopes.mjs";
import { MOST_WEIGHT, weightsIn } from "./questions.mjs";

/** @typedef {import("./context.mjs").Context} Context */
/** @typedef {import("./fractions.mjs").Fraction} Fraction */
/** @typedef {{ names: string[], actions: Fraction[][] }} Actions the gains of each action, at each value */

/** How many values there may be. */
const FEWEST = 2;
const MOST = 3;

/**
 * The actions of an adversary: those of a gain table, or a guess of each value.
 * @param {string | null} json
 * @param {string[]} values
 * @returns {Actions | null} null where the table can't be read
 */
function actionsOf(json, values) {
    if (json === null) {
        const gain = (/** @type {boolean} */ isRight) => ({ n: BigInt(isRight ? 1 : 0), d: BigInt(1) });
        return { names: values.map((value) => `guess ${value}`), actions: values.map((value) => values.map((other) => gain(value === other))) };
    }
    const gains = gainsOf(json);
    return gains && { names: gains.actions.map(({ name }) => name), actions: gains.actions.map((action) => values.map((value) => action.gains.get(value) || gains.rest)) };
}

/**
 * @param {Context} context
 * @param {boolean} hasTable
 */
function chooser({ measure, take }, hasTable) {
    const option = (/** @type {string} */ value, /** @type {string} */ name) => element("option", { value, selected: value === measure }, name);
    const select = element("select", { change: () => take({ measure: select.value }) }, option("bayes", "one guess (bayes)"), option(TABLE, "the gain table"));
    return hasTable && element("p", {}, element("label", {}, "The adversary gains by ", select));
}

/**
 * The numbers at a prior, as tables.
 * @param {string[]} values
 * @param {Fraction[]} prior
 * @param {import("./geometry.mjs").Inner[]} inners
 * @param {Fraction[][]} actions
 */
function tablesOf(values, prior, inners, actions) {
    const before = vulnerability(actions, prior);
    const after = posteriorVulnerability(actions, inners);
    const quotient = isAbove(before, NOTHING) ? lowest(after.n * before.d, after.d * before.n) : null;
    const bits = quotient === null || !isAbove(quotient, NOTHING) ? "" : bitsText(log2(quotient));
    const rows = inners.map(({ outer, shares }, index) => [`inner ${index}`, shown(printed(outer)), ...shares.map((share) => shown(printed(share)))]);
    return [
        table("Vulnerability and leakage at this prior",
            ["prior vulnerability", "posterior vulnerability", "multiplicative leakage", "additive leakage", "multiplicative, in bits"],
            [[shown(printed(before)), shown(printed(after)), quotient === null ? "undefined" : shown(printed(quotient)), shown(printed(difference(after, before))), bits]]),
        table("Prior and inners", ["", "outer", ...values], [["prior", "", ...prior.map((share) => shown(printed(share)))], ...rows]),
    ];
}

/** @param {Context} context */
export async function priorsView(context) {
    const { ask, file, hand, setPrior } = context;
    const channel = channelOf(await ask(["channel", file]));
    const values = channel.rows.map(({ value }) => value);
    if (channel.rowCount < FEWEST || channel.rowCount > MOST || channel.count > channel.columns.length) {
        return [element("p", {}, `This view draws priors on two or three values. This target has ${channel.rowCount} possible ${channel.rowCount === 1 ? "value" : "values"}`,
            `${channel.count > channel.columns.length ? ", and more traces than the page reads" : ""}. A program with two is course/witness.kf.`)];
    }
    const shares = new Map(priorOf(hyperOf(await ask(["hyper", file]))).map(({ value, share }) => [value, share]));
    const declared = values.map((value) => fractionOf(shares.get(value) || "0") || NOTHING);
    const hasTable = context.gain !== null && gainsOf(context.gain) !== null;
    const measure = hasTable && context.measure === TABLE ? TABLE : "bayes";
    const cells = channel.rows.map((row) => row.cells.map((cell) => fractionOf(cell) || NOTHING));
    const { names, actions } = /** @type {Actions} */ (actionsOf(measure === TABLE ? context.gain : null, values));
    const { posterior } = reportOf(await ask(["leak", file, "--gain", gainWord(measure)]));
    if (printed(posteriorVulnerability(actions, hyperAt(declared, cells))) !== posterior) {
        throw new Error(`at the declared prior this page comes to another posterior vulnerability than the program, which says ${posterior}`);
    }

    const output = element("div", {});
    const show = (/** @type {Fraction[]} */ prior) => {
        // What a screen reader says of a slider that is moved.
        sliders.forEach((it, index) => it.setAttribute("aria-valuetext", `probability ${printed(prior[index])}`));
        const inners = hyperAt(prior, cells);
        fill(output, figureOf(priorPicture({ values, names, actions, prior, inners }), "priors", hand), ...tablesOf(values, prior, inners, actions));
    };
    const sliders = values.map((value) => element("input", { type: "range", min: "0", max: String(MOST_WEIGHT), step: "1", "aria-label": `weight of ${value}`, input: () => {
        const weights = sliders.map((it) => it.valueAsNumber);
        if (weights.some((weight) => weight > 0)) {
            setPrior(weights.join(" "));
            show(distributionOf(weights));
        }
    } }));
    const place = (/** @type {Fraction[]} */ prior) => sliders.forEach((it, index) => {
        it.value = String(Math.round(near(prior[index]) * MOST_WEIGHT));
    });
    const weights = context.prior === null ? null : weightsIn(context.prior);
    const isOther = weights !== null && weights.length === values.length;
    if (isOther) {
        sliders.forEach((it, index) => {
            it.value = String(weights[index]);
        });
    } else {
        place(declared);
    }
    show(isOther ? distributionOf(weights) : declared);
    return [
        element("p", {}, "Move the prior, and the rest follows. The channel is the program's, and it stays. The joint distribution, prior × channel, and all that follows, "
            + `are computed in this page. At the declared prior the program prints the same posterior vulnerability: ${posterior}.`),
        chooser(context, hasTable),
        element("div", { class: "sliders" }, ...values.map((value, index) => element("label", {}, `${value} `, sliders[index])), button("The declared prior", () => {
            setPrior(null);
            place(declared);
            show(declared);
        })),
        output,
    ];
}
