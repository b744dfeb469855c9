// Two texts: whether one leaks no more than the other, both ways, with the matrix or the gain table that proves it.
import { button, element, fill, table } from "./elements.mjs";
import { MOST, hyperOf, priorOf, reportOf, verdictOf } from "./answers.mjs";
import { shown } from "./fractions.mjs";
import { figureOf } from "./figures.mjs";
import { flowPicture, heatMap } from "./pictures.mjs";
import { repairNote } from "./repairs.mjs";
import { targetSize } from "./programs.mjs";
import { gainTable, meaningOf, priorsOf } from "./verdicts.mjs";
import { tooMany } from "./views.mjs";

/** @typedef {import("./context.mjs").Context} Context */
/** @typedef {import("./answers.mjs").Verdict} Verdict */
/** @typedef {import("./answers.mjs").Groups} Groups */
/**
 * One direction: whether the second text leaks no more than the first, or why there is no verdict. Without hypers it is about every prior.
 * @typedef {{ verdict: Verdict | null, refusal: string, names: string[], letters: string[], hypers: Groups[] | null }} Direction
 */

/**
 * The first value whose probability differs between the priors of two texts, in a sentence. It is null where there is none, where the texts are about
 * different targets, or where not all inners were read.
 * @param {Groups[] | null} hypers
 */
function priorsApart(hypers) {
    if (hypers === null || !hypers.every((it) => it.isWhole) || hypers[0].target !== hypers[1].target) {
        return null;
    }
    const [first, second] = hypers.map((it) => new Map(priorOf(it).map(({ value, share }) => [value, share])));
    const values = priorOf({ ...hypers[0], groups: hypers.flatMap((it) => it.groups) }).map(({ value }) => value);
    const apart = values.find((value) => first.get(value) !== second.get(value));
    return apart === undefined ? null : element("p", { class: "note" }, `⚠ The priors of ${hypers[0].target} differ, so there is no yes: ${apart} has the `,
        "probability ", shown(first.get(apart) || "0"), " in A, and ", shown(second.get(apart) || "0"), " in B.");
}

/**
 * @param {Context} context
 * @param {string[][]} matrix
 * @param {Direction} direction
 */
function matrixOf(context, matrix, { letters: [first, second], hypers }) {
    const rows = matrix.map((_, index) => `${first} ${index}`);
    const columns = matrix[0].map((_, index) => `${second} ${index}`);
    const isSmall = rows.length <= MOST && columns.length <= MOST;
    const isWhole = hypers !== null && hypers.every((it) => it.isWhole);
    const flow = !isWhole ? null : flowPicture(hypers.map((it) => it.groups.map(({ weight }) => weight)), [first, second], matrix);
    const picture = flow !== null || !isSmall ? flow : heatMap(matrix, rows, columns, `Heat map of the matrix, ${rows.length} by ${columns.length}`);
    const cells = matrix.slice(0, MOST).map((row, index) => [rows[index], ...row.slice(0, MOST).map(shown)]);
    return [
        element("p", {}, `The matrix turns the hyper of ${first} into that of ${second}. It has a row for each inner of ${first} and a column for each inner of ${second}.`),
        picture === null ? tooMany(Math.max(rows.length, columns.length), "rows or columns") : figureOf(picture, `matrix-${first}-${second}`, context.hand),
        table(`Matrix from ${first} to ${second}`, ["inner", ...columns.slice(0, MOST)], cells),
    ];
}

/**
 * @param {Context} context
 * @param {Extract<Verdict, { isYes: false }>} verdict
 * @param {Direction} direction
 */
async function separationOf(context, verdict, { names, letters: [first, second], hypers }) {
    const values = [...new Set(verdict.actions.flatMap(({ gains }) => gains.map(({ value }) => value)))].slice(0, MOST);
    const gainAt = (/** @type {import("./answers.mjs").Action} */ action, /** @type {string} */ value) => {
        const named = action.gains.find((it) => it.value === value);
        return named === undefined ? verdict.rest : named.gain;
    };
    const cells = verdict.actions.slice(0, MOST).map((action) => [action.name, ...values.map((value) => gainAt(action, value))]);
    const sentence = element("p", {}, `An adversary with the gains of this table does better against ${second}.`);
    if (hypers !== null) {
        context.setSeparation(gainTable(verdict));
        const outcomes = [];
        for (const name of names) {
            outcomes.push(await context.tryTo(["leak", name, "--gain", "table:separation.json"]));
        }
        const expected = outcomes.map((it) => (it.kind === "answer" && it.status === 0 ? reportOf(it.out).posterior : null));
        if (expected[0] !== null && expected[1] !== null) {
            fill(sentence, `An adversary with the gains of this table does better against ${second}: after ${first} it expects `, shown(expected[0]),
                `, after ${second} `, shown(expected[1]), ".");
        }
    }
    return [sentence, table(`A gain table that separates them; at any other value an action gains ${verdict.rest}`, ["action", ...values], cells)];
}

/**
 * @param {Context} context
 * @param {Direction} direction
 */
async function sectionOf(context, direction) {
    const { verdict, names, letters: [first, second], hypers } = direction;
    const question = `${second} leaks no more than ${first}? `;
    if (verdict === null) {
        return element("section", {}, element("h3", {}, question, element("strong", {}, "No verdict")), element("pre", { class: "terminal" }, direction.refusal));
    }
    const answer = element("strong", { class: verdict.isYes ? "yes" : "no" }, verdict.isYes ? "Yes" : "No");
    const proof = verdict.isYes ? matrixOf(context, verdict.matrix, direction) : await separationOf(context, verdict, direction);
    const keep = hypers !== null && button("Keep the certificate", async () => {
        const outcome = await context.tryTo(["refine", ...names, "--json"]);
        if (outcome.kind === "answer") {
            context.keep(`certificate-${first}-${second}.json`, outcome.out);
        }
    });
    return element("section", {}, element("h3", {}, question, answer), ...proof, keep);
}

/**
 * Asks about one direction. Where there is no verdict the other one may have one, so that is no failure of the view.
 * @param {Context} context
 * @param {"refine" | "covers"} command
 * @param {string[]} names
 * @param {string[]} letters
 * @param {Groups[] | null} hypers
 * @returns {Promise<Direction>}
 */
async function directionOf(context, command, names, letters, hypers) {
    const outcome = await context.tryTo([command, ...names]);
    if (outcome.kind !== "answer" || outcome.status > 1) {
        const refusal = outcome.kind === "answer" ? outcome.err : outcome.kind === "memory" ? "want of memory" : "a trap";
        return { verdict: null, refusal, names, letters, hypers };
    }
    return { verdict: verdictOf(outcome.out), refusal: "", names, letters, hypers };
}

const ABOUT_ALL = "Here every variable is a secret, keys, coins and counters too, with what it becomes, and a no may be about those. "
    + "The other question is about the secret alone: for a target that is old, its yes holds for every prior on the secret.";

/**
 * @param {Context} context
 * @param {"refine" | "covers"} command
 */
export async function refineView(context, command) {
    const isForEvery = command === "covers";
    const choice = element("p", { role: "group", "aria-label": "What the question is about" },
        button("About the secret", () => context.take({ view: "refine" }), { "aria-pressed": String(!isForEvery) }), " ",
        button("About all variables, first and last (covers)", () => context.take({ view: "covers" }), { "aria-pressed": String(isForEvery) }));
    if (context.b === null) {
        return [choice, element("p", {}, "This view compares two texts. ", button("Compare with a second text", context.addSecond))];
    }
    const hypers = isForEvery ? null : [hyperOf(await context.ask(["hyper", "a.kf"])), hyperOf(await context.ask(["hyper", "b.kf"]))];
    const there = await directionOf(context, command, ["a.kf", "b.kf"], ["A", "B"], hypers);
    const back = await directionOf(context, command, ["b.kf", "a.kf"], ["B", "A"], hypers && [hypers[1], hypers[0]]);
    if (there.verdict === null && back.verdict === null) {
        // Neither has one: the refusal is shown as any other.
        await context.ask([command, "a.kf", "b.kf"]);
    }
    return [
        choice, repairNote(context.a, context.b), element("p", { class: "meaning" }, meaningOf(there.verdict, back.verdict, isForEvery)),
        element("p", { class: "note priors" }, hypers === null ? ABOUT_ALL : priorsOf(hypers, targetSize(context.text || ""))), priorsApart(hypers),
        await sectionOf(context, there), await sectionOf(context, back),
    ];
}
