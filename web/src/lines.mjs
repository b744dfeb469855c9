// Which line leaks, wherever it stands: the text, each line coloured by how much is lost without it, with that number beside it. A screen
// reader finds a table, and where colours can't be distinguished or aren't printed there are numbers and bars.
import { element, table } from "./elements.mjs";
import { linesOf, trailOf } from "./answers.mjs";
import { NOTHING, decimal, difference, fractionOf, isNone, printed, product, shown } from "./fractions.mjs";
import { GUESSING, TABLE, USUAL } from "./gains.mjs";
import { repairSection } from "./repairs.mjs";
import { isLong, statementLines, statementsOf } from "./programs.mjs";

/** @typedef {import("./fractions.mjs").Fraction} Fraction */
/**
 * A statement that may show something, by its line from 0 and its column from 1, and what is lost where it alone shows nothing: how much, and
 * in how many quarters of the most that one statement loses, rounded up.
 * @typedef {object} Row
 * @property {number} line
 * @property {number} column
 * @property {string} inners
 * @property {string} posterior
 * @property {Fraction} loss
 * @property {number} level
 * @property {string} mark what the margin has
 * @property {string} title
 * @property {boolean} isBlamed whether anything is lost, be it inners alone
 */
/** @typedef {{ line: number, text: string, title: string, isBlamed: boolean, level: number }} Mark in the margin of a line, from 0 */

/** The greatest level; 0 is that of a line without which nothing is lost. */
const LEVELS = 4;
/** The most characters of a fraction in the margin. */
const LONGEST = 8;
/** The most characters of an answer that are shown as they are. */
const MOST_SHOWN = 4000;
/** The most lines of a text that are shown. */
const MOST_LINES = 1000;
/** The most statements that are coloured, and listed with what is lost without them. */
const MOST_ROWS = 2000;

/**
 * The word for a gain on the command line.
 * @param {string} measure
 */
export const gainWord = (measure) => (measure === TABLE ? "table:gain.json" : measure);

/**
 * How a gain is named, and what is lost without a line: its unit and its sign.
 * @param {string} measure
 */
function namesOf(measure) {
    const found = USUAL.find(([gain]) => gain === measure);
    const name = found === undefined ? "the gain table" : found[1];
    if (measure === GUESSING) {
        const whole = "an adversary who keeps guessing is expected to take this number of guesses: ";
        return { name, lost: "more guesses", sign: "+", whole, beside: "how many more it would take" };
    }
    const whole = measure === "bayes" ? "one guess at the target is right with probability " : `the posterior vulnerability under ${name} is `;
    return { name, lost: "less", sign: "−", whole, beside: "how much less that would be" };
}

/**
 * A number as it fits into a margin: its decimals where it is long.
 * @param {Fraction} f
 */
function short(f) {
    const whole = printed(f);
    return whole.length > LONGEST ? decimal(f).text : whole;
}

/** @param {string} count */
const innersText = (count) => `${count} ${count === "1" ? "inner" : "inners"}`;

/** @param {Fraction} f */
const positive = (f) => (f.n < NOTHING.n ? difference(NOTHING, f) : f);

/**
 * In how many parts of the greatest number, rounded up, a number lies: 0 for nothing.
 * @param {Fraction} number
 * @param {Fraction} greatest
 */
function levelOf(number, greatest) {
    if (isNone(number)) {
        return 0;
    }
    const { n, d } = product(number, { n: greatest.d * BigInt(LEVELS), d: greatest.n });
    return Number((n + d - BigInt(1)) / d);
}

/**
 * @param {string} out
 * @param {string} measure
 */
function rowsOf(out, measure) {
    const { all, without } = linesOf(out);
    const { name, lost, sign } = namesOf(measure);
    const whole = fractionOf(all.posterior) || NOTHING;
    const losses = without.map((silent) => positive(difference(whole, fractionOf(silent.posterior) || NOTHING)));
    const greatest = losses.reduce((most, loss) => (difference(most, loss).n < NOTHING.n ? loss : most), NOTHING);
    /** @type {Row[]} */
    const rows = without.map((silent, index) => {
        const loss = losses[index];
        // What the margin has: how much is lost, or else what becomes of the inners.
        const mark = isNone(loss) ? (silent.inners === all.inners ? "0" : `${all.inners}→${silent.inners}`) : `${sign}${short(loss)}`;
        const title = `Without the statement at ${silent.line}:${silent.column}: ${innersText(silent.inners)} instead of ${all.inners}, `
            + `${name}: ${silent.posterior}, ${printed(loss)} ${lost}`;
        return { ...silent, line: silent.line - 1, loss, level: levelOf(loss, greatest), mark, title, isBlamed: mark !== "0" };
    });
    return { all, rows, greatest };
}

/**
 * Whether an answer has more lines than are coloured.
 * @param {string} out
 */
function isMuch(out) {
    let at = -1;
    for (let count = 0; count <= MOST_ROWS + 1; count += 1) {
        at = out.indexOf("\n", at + 1);
        if (at < 0) {
            return false;
        }
    }
    return true;
}

/**
 * The rows of each line, by the line.
 * @param {Row[]} rows
 */
function byLine(rows) {
    /** @type {Map<number, Row[]>} */
    const found = new Map();
    rows.forEach((row) => {
        const own = found.get(row.line) || [];
        own.push(row);
        found.set(row.line, own);
    });
    return found;
}

/**
 * What stands in the margin: of each line the statement without which most is lost.
 * @param {string} out
 * @param {string} measure
 * @returns {Mark[]}
 */
export function marksOf(out, measure) {
    if (isMuch(out)) {
        return [];
    }
    return [...byLine(rowsOf(out, measure).rows)].map(([line, own]) => {
        const most = own.reduce((best, row) => (row.level > best.level || (!best.isBlamed && row.isBlamed) ? row : best));
        return { line, text: most.mark, title: own.map(({ title }) => title).join("; "), isBlamed: most.isBlamed, level: most.level };
    });
}

/** @param {number} level */
const bar = (level) => element("span", { class: "leak-bar", "aria-hidden": "true" }, "▮".repeat(level) + "▯".repeat(LEVELS - level));

/**
 * @param {Fraction} greatest
 * @param {{ lost: string }} names
 */
function legend(greatest, { lost }) {
    const steps = isNone(greatest) ? [] : Array.from({ length: LEVELS }, (_, index) => index + 1);
    const entry = (/** @type {number} */ level, /** @type {any[]} */ ...said) => element("li", { class: `leak-${level}` }, bar(level), " ", ...said);
    return element("ul", { class: "legend", "aria-label": "What the colours of lines mean" },
        entry(0, "0: worth nothing beside the others"),
        ...steps.map((level) => {
            const most = product(greatest, { n: BigInt(level), d: BigInt(LEVELS) });
            return entry(level, "up to ", shown(printed(most)), ` ${lost}${level === LEVELS ? ", the most" : ""}`);
        }));
}

/**
 * The text as a table: the number of each line, what is lost without its statements, and the line.
 * @param {string} text
 * @param {Row[]} rows
 * @param {{ lost: string, sign: string }} names
 */
function listing(text, rows, { lost, sign }) {
    const own = byLine(rows);
    const source = text.replace(/\n$/, "").split("\n");
    const lines = source.slice(0, MOST_LINES).map((line, number) => {
        const found = own.get(number) || [];
        const level = Math.max(...found.map((row) => row.level), 0);
        const numbers = found.map(({ loss }, index) => element("span", {}, index > 0 && ", ", !isNone(loss) && sign, shown(printed(loss))));
        return element("tr", { class: found.length > 0 ? `leak-${level}` : "" }, element("th", { scope: "row" }, String(number + 1)),
            element("td", { class: "lost" }, ...numbers, " ", found.length > 0 && bar(level)), element("td", {}, element("code", {}, line)));
    });
    const head = element("tr", {}, ...["line", `${lost} without it`, "text"].map((it) => element("th", { scope: "col" }, it)));
    const name = "The text, line by line";
    const made = element("table", { class: "listing" }, element("caption", {}, name), element("thead", {}, head), element("tbody", {}, ...lines));
    return element("div", { class: "scroll", tabindex: "0", role: "region", "aria-label": name }, made,
        source.length > MOST_LINES && element("p", { class: "note" }, `The text has ${source.length} lines, of which the first ${MOST_LINES} are shown.`));
}

/** @param {import("./context.mjs").Context} context */
function chooser({ measure, gain, take }) {
    const options = gain === null ? USUAL : [...USUAL, [TABLE, "the gain table"]];
    const select = element("select", { id: "measure", change: () => take({ measure: select.value }) },
        ...options.map(([value, name]) => element("option", { value, selected: value === measure }, value === TABLE ? name : `${name} (${value})`)));
    return element("p", {}, element("label", {}, "Lines are compared under ", select));
}

/**
 * Which line of a text each statement is, by what `trail` says of it.
 * @param {string} text
 * @param {string[]} counts
 */
function trailTable(text, counts) {
    const starts = isLong(text) ? [] : statementLines(text);
    const source = text.split("\n");
    const rows = counts.slice(0, MOST_ROWS).map((count, index) => {
        const line = index > 0 && starts.length === counts.length - 1 ? element("code", {}, source[starts[index - 1] - 1].trim()) : "";
        return [index === 0 ? "the declarations" : `statement ${index - 1}`, line, count];
    });
    const cut = counts.length > rows.length ? ` (the first ${rows.length} of ${counts.length})` : "";
    return table(`Posteriors of all variables on the way${cut}`, ["after", "line", "posteriors"], rows);
}

/** @param {import("./context.mjs").Context} context */
export async function linesView(context) {
    const { ask, tryTo, file, text, measure, failure } = context;
    const trail = trailOf(await ask(["trail", file]));
    const outcome = await tryTo(["lines", file, "--gain", gainWord(measure)]);
    if (outcome.kind !== "answer") {
        return [chooser(context), failure(outcome)];
    }
    if (outcome.status !== 0) {
        const refused = element("div", { class: "refusal" }, element("h3", {}, "The gain is refused"), element("pre", { class: "terminal" }, outcome.err));
        return [chooser(context), refused];
    }
    if (isMuch(outcome.out) || isLong(text)) {
        return [chooser(context), element("p", { class: "note" }, "This text is too long for colours. The first lines of the answer are:"),
            element("pre", { class: "terminal" }, outcome.out.slice(0, MOST_SHOWN))];
    }
    const { all, rows, greatest } = rowsOf(outcome.out, measure);
    const names = namesOf(measure);
    const statement = statementsOf(text);
    const heads = ["place", "statement", "inners without it", `${names.name} without it`, names.lost];
    const cells = rows.map(({ line, column, inners, posterior, loss }) => [
        `${line + 1}:${column}`, element("code", {}, statement(line + 1, column)), inners, shown(posterior),
        shown(printed(loss)),
    ]);
    return [
        chooser(context),
        element("p", {}, `The hyper has ${innersText(all.inners)}, and ${names.whole}`, shown(all.posterior),
            `. The number beside a line says ${names.beside} if the statement that begins there, and no other one, showed nothing.`),
        rows.length > 0 && legend(greatest, names),
        rows.some(({ loss }) => isNone(loss)) && element("p", { class: "note" }, "To this adversary a line with 0 is worth nothing while the others show what they do. "
            + "It may show something all the same: alone, together with others, or to another adversary."),
        listing(text, rows, names), repairSection(context),
        rows.length > 1 && isNone(greatest) && element("p", { class: "note" },
            "No single statement is to blame. Where two show the same, it changes nothing to silence one of them."),
        table("Which statement leaks", heads, cells), trailTable(text, trail),
    ];
}
