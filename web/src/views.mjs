// The views of an answer. Each asks the program what it needs, and gives the elements that show it.
import { button, element, table } from "./elements.mjs";
import { MOST, channelOf, hyperOf, partsOfValue, priorOf, reportOf, tracesOf } from "./answers.mjs";
import { bitsText, leakageText, log2, shannon } from "./bits.mjs";
import { NOTHING, fractionOf, isNone, lowest, printed, shown } from "./fractions.mjs";
import { figureOf } from "./figures.mjs";
import { heatMap, hyperPicture } from "./pictures.mjs";
import { GUESSING, USUAL, guessOf, jsonOf } from "./gains.mjs";
import { typedWords } from "./commands.mjs";
import { isLong } from "./programs.mjs";
import { read as readText } from "./source.mjs";
import { shownBy } from "./traces.mjs";

/** @typedef {import("./context.mjs").Context} Context */

/**
 * @param {number} count
 * @param {string} what
 */
export const tooMany = (count, what) => element("p", { class: "note" },
    `There are ${count} ${what}, too many for a picture. The table shows the first of them.`);

/** @param {import("./answers.mjs").Groups} hyper */
function hyperTable({ groups }) {
    const rows = groups.flatMap((group) => group.shares.map(({ value, share }, index) => [
        index === 0 ? group.name : "", index === 0 ? shown(group.weight) : "", value, shown(share)]));
    return table("The hyper-distribution", ["inner", "outer", "value", "posterior probability"], rows);
}

/** @param {Context} context */
export async function hyperView({ ask, file, hand }) {
    const read = hyperOf(await ask(["hyper", file]));
    const picture = hyperPicture(read);
    const said = read.count === 1
        ? "There is one posterior, and it is the prior: an observer learns nothing about this target."
        : `A run leaves an observer with one of ${read.count} posteriors, the inners. The picture shows the prior at the left, `
            + "and each inner as wide as its outer probability.";
    return [
        element("p", {}, said), picture === null ? tooMany(read.count, "inners") : figureOf(picture, "hyper", hand), hyperTable(read),
        element("p", { class: "note" }, `The scale is ${read.scale}: every joint probability is a whole number over it.`),
    ];
}

/** The most parts of a trace that are shown with their lines. */
const MOST_PARTS = 60;

/**
 * A trace with the line that showed each of its parts.
 * @param {import("./source.mjs").Source | null} source
 * @param {string} name the trace as it is printed
 */
function traceCell(source, name) {
    const parts = partsOfValue(name);
    const found = source === null ? null : shownBy(source, parts);
    if (found === null || found.length === 0) {
        return name;
    }
    const items = found.slice(0, MOST_PARTS).map(({ line, part, what }) => element("li", {}, element("span", { class: "number" }, part), " ",
        element("span", { class: "shown-by" }, `line ${line}, ${what}`)));
    return element("span", {}, name, element("ol", { class: "trace", "aria-label": "What showed each part" }, ...items),
        found.length > MOST_PARTS && element("span", { class: "note" }, `and ${found.length - MOST_PARTS} more`));
}

/** @param {Context} context */
export async function tracesView({ ask, file, text }) {
    const read = tracesOf(await ask(["traces", file]));
    const source = isLong(text) ? null : readText(text);
    const rows = read.groups.flatMap((group) => group.shares.map(({ value, share }, index) => [
        index === 0 ? traceCell(source, group.name) : "", index === 0 ? shown(group.weight) : "", value, shown(share)]));
    const sentence = read.count === 1 ? "Every run shows the same trace." : `An observer sees one of ${read.count} traces.`;
    return [
        element("p", {}, `${sentence} Below a trace stands the line that showed each part of it.`),
        !read.isWhole && tooMany(read.count, "traces"), table("What an observer may see", ["trace", "probability", "value", "joint probability"], rows),
    ];
}

const MOST_CELLS = 8000;

/** @param {Context} context */
export async function channelView({ ask, tryTo, file, hand }) {
    const read = channelOf(await ask(["channel", file]));
    const isWhole = read.count <= MOST && read.rowCount <= MOST;
    const label = `Heat map of the channel: ${read.rowCount} values, ${read.count} traces. The table has its numbers.`;
    const picture = !isWhole ? null : heatMap(read.rows.map((row) => row.cells), read.rows.map((row) => row.value), read.columns, label);
    const capacity = await tryTo(["capacity", file]);
    const bound = capacity.kind === "answer" && capacity.status === 0 ? capacity.out.trim().split(" ")[1] : null;
    const rows = read.rows.slice(0, Math.max(Math.floor(MOST_CELLS / read.columns.length), 1));
    return [
        element("p", {}, "A row is a value of the secret. It has the probability of each trace under that value; all else is drawn as the text declares it."),
        picture === null ? tooMany(Math.max(read.count, read.rowCount), read.count >= read.rowCount ? "columns" : "rows") : figureOf(picture, "channel", hand),
        bound !== null && element("p", {}, "Bayes capacity ", shown(bound), " ", element("span", { class: "bits" }, `(${leakageText(fractionOf(bound))})`),
            ". No multiplicative leakage is greater, for any prior on these values and any gain function without negative gains."),
        table("The channel matrix", ["value", ...read.columns], rows.map((row) => [row.value, ...row.cells.map(shown)])),
    ];
}

/**
 * What `leak` prints under a gain, or why it has no answer.
 * @param {Context} context
 * @param {string} gain
 */
async function reportFor({ tryTo, file }, gain) {
    const outcome = await tryTo(["leak", file, "--gain", gain]);
    if (outcome.kind === "answer" && outcome.status === 0) {
        return reportOf(outcome.out);
    }
    return outcome.kind === "answer" ? outcome.err.trim() : outcome.kind === "memory" ? "want of memory" : "a trap";
}

/** @typedef {import("./answers.mjs").Report} Report */

/** @param {string} why */
const withoutAnswer = (why) => element("span", { class: "warning" }, `No answer: ${why}`);

/**
 * A row of the table of vulnerabilities.
 * @param {string} name
 * @param {Report | string} report
 */
function vulnerabilityRow(name, report) {
    if (typeof report === "string") {
        return [name, withoutAnswer(report), "", "", "", ""];
    }
    const { prior, posterior, quotient, difference } = report;
    return [name, shown(prior), shown(posterior), shown(quotient), shown(difference), leakageText(fractionOf(quotient))];
}

/**
 * The numbers of guesses: a loss, of which less is better for an adversary.
 * @param {Report | string} report
 */
function guessesTable(report) {
    const heads = ["", "expected guesses before", "expected guesses after", "multiplicative loss leakage", "guesses saved"];
    const name = "keeps guessing (guessing)";
    if (typeof report === "string") {
        return table("Guessing entropy", heads, [[name, withoutAnswer(report), "", "", ""]]);
    }
    const quotient = fractionOf(report.quotient);
    const saved = fractionOf(report.difference) || NOTHING;
    const inverse = quotient === null || isNone(quotient) ? "undefined" : printed(lowest(quotient.d, quotient.n));
    return table("Guessing entropy", heads, [[name, shown(report.prior), shown(report.posterior), shown(inverse), shown(printed({ n: -saved.n, d: saved.d }))]]);
}

/**
 * Entropies in bits, worked out here from the hyper and from what is printed for one guess.
 * @param {import("./answers.mjs").Groups} hyper
 * @param {Report | string | undefined} bayes
 */
function bitsTable(hyper, bayes) {
    const read = (/** @type {string} */ text) => fractionOf(text) || NOTHING;
    const negated = (/** @type {string} */ text) => bitsText(log2(lowest(read(text).d, read(text).n)));
    const rows = [];
    if (bayes !== undefined && typeof bayes !== "string") {
        rows.push(["min-entropy (of one guess)", negated(bayes.prior), negated(bayes.posterior), bitsText(log2(read(bayes.quotient)))]);
    }
    if (hyper.isWhole) {
        const shares = (/** @type {import("./answers.mjs").Share[]} */ those) => those.map(({ value, share }) => ({ value, share: read(share) }));
        const found = shannon(shares(priorOf(hyper)), hyper.groups.map(({ weight, shares: own }) => ({ outer: read(weight), shares: shares(own) })));
        rows.push(["Shannon entropy", bitsText(found.prior), bitsText(found.posterior), bitsText(found.leakage)]);
    }
    return rows.length > 0 && table("In bits", ["", "prior", "posterior", "leakage"], rows);
}

/** @param {Context} context */
export async function leakView(context) {
    const hyper = hyperOf(await context.ask(["hyper", context.file]));
    const values = priorOf(hyper).map(({ value }) => value);
    const json = context.gain === null ? jsonOf(guessOf(values)) : context.gain;
    const editor = context.gainEditor(json, values);
    /** @type {Map<string, Report | string>} */
    const reports = new Map();
    for (const [gain] of USUAL) {
        reports.set(gain, await reportFor(context, gain));
    }
    const rows = USUAL.filter(([gain]) => gain !== GUESSING).map(([gain, usual]) => vulnerabilityRow(`${usual} (${gain})`, reports.get(gain) || ""));
    const own = !editor.isTaken() ? "what is typed in it isn't taken" : context.gain === null ? null : await reportFor(context, "table:gain.json");
    const heads = ["gain function", "prior vulnerability", "posterior vulnerability", "multiplicative leakage", "additive leakage", "multiplicative, in bits"];
    return [
        table("Vulnerability and leakage", heads, own === null ? rows : [...rows, vulnerabilityRow("the table below", own)]),
        guessesTable(reports.get(GUESSING) || ""), bitsTable(hyper, reports.get("bayes")),
        element("p", { class: "note" }, "The program prints exact fractions. This page works the bits out from them: = stands before all of a number, ≈ before a rounded one. "
            + "The multiplicative leakage of one guess, in bits, is the min-entropy leakage; the Shannon leakage is the mutual information of secret and trace."),
        element("h3", {}, "An adversary of your own"),
        element("p", {}, "This adversary takes the action with the greatest expected gain. Change a gain, and the page asks the program what the table is worth. ",
            "A gain is a whole number, a fraction such as 1/2, or a decimal; decimals are exact, so 0.5 is 1/2."),
        editor.node,
    ];
}

/** The most characters of an answer that are shown as they are. */
const MOST_SHOWN = 200000;

/** @param {Context} context */
export async function commandView(context) {
    const input = element("input", { type: "text", spellcheck: "false", autocomplete: "off", id: "words", value: context.words || "hyper a.kf" });
    const submit = (/** @type {Event} */ event) => {
        event.preventDefault();
        context.take({ words: input.value });
    };
    const form = element("form", { class: "words", submit }, element("label", { for: "words" }, "kuifje "), input, element("button", { type: "submit" }, "Ask"));
    const note = element("p", { class: "note" },
        "The texts in the editors are a.kf and b.kf, and the gain table is gain.json. Files of the gallery and the course have their own names.",
        context.kept.length > 0 && ` Files that you kept, or that came with a link: ${context.kept.join(", ")}.`);
    const words = typedWords(input.value);
    const outcome = await context.tryTo(words);
    if (outcome.kind !== "answer") {
        return [form, note, context.failure(outcome)];
    }
    const cut = outcome.out.length > MOST_SHOWN ? `${outcome.out.slice(0, MOST_SHOWN)}\n…` : outcome.out;
    const text = `$ ${["kuifje", ...context.sent(words)].join(" ")}\n${cut}${outcome.err}`;
    return [
        form, element("pre", { class: "terminal", tabindex: "0", "aria-label": "What the program prints" }, text),
        element("p", {}, `Status ${outcome.status}. `, button("Keep the answer", () => context.keep("answer.txt", outcome.out))), note,
    ];
}
