// An exercise: what is asked, fields for the numbers that were worked out by hand, and its solution, hidden until it is asked for. What is right
// the program says: it is asked what the solution asks it, and its answer is compared.
import { button, element, fill } from "./elements.mjs";
import { fractionOf, isSame } from "./fractions.mjs";
import { blameOf, hyperOf, linesOf, reportOf, tracesOf, trailOf } from "./answers.mjs";
import { hasFiles, namesIn, wordsOf } from "./commands.mjs";
import { GUESSING } from "./gains.mjs";
import { blocksOf } from "./reader.mjs";

/** @typedef {import("./reader.mjs").Place} Place */
/** @typedef {{ label: string, right: string[], isOrdered: boolean }} Field what is asked for, and the words that are right */

/**
 * @param {string} text
 * @param {string} word
 */
const lineOf = (text, word) => (new RegExp(`^${word} (.*)$`, "m").exec(text) || ["", ""])[1];

/**
 * @param {string} label
 * @param {string} right
 * @returns {Field}
 */
const one = (label, right) => ({ label, right: [right], isOrdered: true });

/**
 * @param {string} label
 * @param {string[]} right
 * @param {boolean} isOrdered
 * @returns {Field}
 */
const many = (label, right, isOrdered) => ({ label, right, isOrdered });

/** @param {string} out */
const outersOf = (out) => [many("outer probabilities, in any order", hyperOf(out).groups.map((it) => it.weight), false)];

/** @param {string} out */
const capacitiesOf = (out) => ["first", "second", "both"].map((word) => one(`capacity, ${word}`, lineOf(out, word)));

/** @param {string} out */
const verdictsOf = (out) => [one("yes or no", lineOf(out, "refines"))];

/** Of gains these two lines have a name of the book's, which a loss as the number of guesses hasn't. */
const LEAKAGES = { quotient: "quotient (multiplicative leakage)", difference: "difference (additive leakage)" };

/**
 * Which fields the answer of each command has.
 * @type {Record<string, (out: string) => Field[]>}
 */
const FIELDS = {
    leak: (out) => {
        const { gain, ...numbers } = reportOf(out);
        const { quotient, difference } = gain === GUESSING ? { quotient: "quotient", difference: "difference" } : LEAKAGES;
        const names = { prior: "prior", posterior: "posterior", quotient, difference };
        return Object.entries(numbers).map(([name, right]) => one(names[/** @type {keyof typeof names} */ (name)], right));
    },
    hyper: outersOf,
    quiet: outersOf,
    traces: (out) => [many("joint probabilities, in any order", tracesOf(out).groups.flatMap((it) => it.shares.map(({ share }) => share)), false)],
    channel: (out) => [many("cells, row by row", out.split("\n").filter((line) => line.startsWith("  ")).map((line) => line.trim()), true)],
    capacity: (out) => [one("capacity", lineOf(out, "capacity"))],
    cascade: capacitiesOf,
    parallel: capacitiesOf,
    choice: capacitiesOf,
    reach: (out) => [one("tries", lineOf(out, "tries")), one("posterior", lineOf(out, "posterior"))],
    attack: (out) => [many("values of the inners, in any order", (out.match(/ value \S+$/gm) || []).map((it) => it.slice(" value ".length)), false)],
    blame: (out) => {
        const { all, without } = blameOf(out);
        return [many("one guess: of all, then without each statement", [all, ...without].map(({ bayes }) => bayes), true)];
    },
    lines: (out) => {
        const { all, without } = linesOf(out);
        return [many("posteriors: of all, then without each line", [all, ...without].map(({ posterior }) => posterior), true)];
    },
    trail: (out) => [many("posteriors after each statement, from the declarations on", trailOf(out), true)],
    refine: verdictsOf,
    covers: verdictsOf,
    check: (out) => [one("accepted, or rejected and a rule", out.trim())],
};

/**
 * @param {string} a
 * @param {string} b
 */
function isEqual(a, b) {
    const [f, g] = [fractionOf(a), fractionOf(b)];
    return f !== null && g !== null ? isSame(f, g) : a.trim().toLowerCase() === b.trim().toLowerCase();
}

/**
 * Whether what was typed is right.
 * @param {Field} field
 * @param {string} typed
 */
function isRight(field, typed) {
    const words = field.right.length === 1 ? [typed] : typed.split(/[\s,;]+/).filter((word) => word !== "");
    if (words.length !== field.right.length) {
        return false;
    }
    const left = [...field.right];
    return words.every((word, index) => {
        const at = field.isOrdered ? (isEqual(left[index], word) ? index : -1) : left.findIndex((right) => isEqual(right, word));
        if (at >= 0 && !field.isOrdered) {
            left.splice(at, 1);
        }
        return at >= 0;
    });
}

/**
 * The commands of a solution that ask the program and nothing else.
 * @param {any[]} blocks
 */
function commandsOf(blocks) {
    const lines = blocks.filter((block) => block.t === "code" && block.kind === "console").flatMap((block) => block.text.split("\n"));
    const found = lines.filter((line) => line.startsWith("$ ")).map((line) => wordsOf(line.slice(2)));
    return /** @type {string[][]} */ (found.filter((words) => words !== null));
}

/**
 * A command with the solution's own programs by a name that says nothing of them.
 * @param {string[]} words
 */
const disguised = (words) => words.map((word) => word.replace(/course\/solutions\/\S+\.(kf|json)/, (_, kind) => (kind === "kf" ? "your program" : "your table"))).join(" ");

/** @param {import("./asker.mjs").Outcome} outcome */
function withoutAnswer(outcome) {
    if (outcome.kind === "answer") {
        return `The question is refused: ${outcome.err.trim()}`;
    }
    return { memory: "Want of memory.", trap: "A trap.", stopped: "It was stopped: press again." }[outcome.kind];
}

/**
 * @param {Place} place
 * @param {string[]} words
 * @param {Record<string, string>} files
 */
function checkOf(place, words, files) {
    const result = element("div", { role: "status", class: "check" });
    const fields = element("div", { class: "fields" });
    const own = namesIn(words).programs.filter((name) => name.startsWith("course/solutions/"));
    const begin = async () => {
        const outcome = await place.host.ask(words, files);
        if (outcome.kind !== "answer" || outcome.status > 1) {
            fill(result, withoutAnswer(outcome));
            return;
        }
        const wanted = FIELDS[words[0]](outcome.out);
        const inputs = wanted.map(() => element("input", { type: "text", autocomplete: "off", spellcheck: "false" }));
        const check = () => {
            const right = wanted.map((field, index) => isRight(field, inputs[index].value));
            inputs.forEach((input, index) => input.setAttribute("aria-invalid", String(!right[index])));
            const wrong = wanted.filter((_, index) => !right[index]).map(({ label }) => label);
            fill(result, wrong.length === 0 ? "✓ Right: the program has the same." : `✗ Not yet: ${wrong.join("; ")}.`);
        };
        const submit = (/** @type {Event} */ event) => {
            event.preventDefault();
            check();
        };
        const labels = wanted.map((field, index) => element("label", {}, `${field.label} `, inputs[index]));
        fill(fields, element("form", { submit }, ...labels, element("button", { type: "submit" }, "Check")));
        if (inputs.length > 0) {
            inputs[0].focus();
        }
    };
    const compare = async () => {
        const right = await place.host.ask(words, files);
        const tried = await place.host.ask(words, { ...files, [own[0]]: place.host.program() });
        if (right.kind !== "answer" || tried.kind !== "answer") {
            fill(result, withoutAnswer(right.kind !== "answer" ? right : tried));
        } else if (tried.status > 1) {
            fill(result, `✗ Your program is refused: ${tried.err.trim().split(own[0]).join("your program")}`);
        } else {
            // Names, and places in the text, may be others than those of the solution.
            const withoutNames = (/** @type {string} */ out) => out.replace(/^target .*\n/, "").replace(/^scale .*\n/m, "").replace(/^\d+:\d+ /gm, "");
            const isLike = withoutNames(right.out) === withoutNames(tried.out);
            fill(result, isLike ? "✓ Your program's answer is the solution's." : "✗ Your program's answer differs from the solution's.");
        }
    };
    return element("div", { class: "asked" }, element("code", {}, disguised(words)), " ", button("Check my numbers", begin),
        own.length === 1 && button("Check my program", compare, { title: "asks this of the text in the first editor" }), fields, result);
}

/**
 * @param {Place} place
 * @param {import("./library.mjs").Exercise} exercise
 * @param {number} number
 */
export function exerciseOf(place, exercise, number) {
    const files = { ...place.files };
    exercise.solved.forEach((block) => {
        if (block.name !== undefined) {
            files[block.name] = block.text;
        }
    });
    const inside = element("div", {});
    const solution = element("details", { class: "solution", toggle: () => {
        if (solution.open && inside.childNodes.length === 0) {
            fill(inside, ...blocksOf({ ...place, files, path: place.path.replace("exercises", "solutions") }, exercise.solved));
        }
    } }, element("summary", {}, "Solution"), inside);
    const seen = new Set();
    const commands = commandsOf(exercise.solved).filter((words) => {
        const isNew = words[0] in FIELDS && hasFiles(words, files) && !seen.has(words.join(" "));
        seen.add(words.join(" "));
        return isNew;
    });
    return element("section", { class: "exercise", "aria-label": `Exercise ${number}` }, element("h4", {}, `Exercise ${number}`),
        ...blocksOf(place, exercise.asked), ...commands.map((words) => checkOf(place, words, files)), solution);
}
