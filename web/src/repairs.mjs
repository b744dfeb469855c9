// A fix for a text: what it is for is chosen, the floor is said, and a repair that the program confirms is shown beside the text.
import { button, element, fill } from "./elements.mjs";
import { difference, isNone, printed, shown } from "./fractions.mjs";
import { NoPurpose, observationsOf, repairOf, usualPurpose } from "./repair.mjs";
import { NoAnswer } from "./rounds.mjs";
import { listed } from "./outcomes.mjs";
import { read } from "./source.mjs";

/** @typedef {import("./context.mjs").Context} Context */
/** @typedef {import("./repair.mjs").Found} Found */
/** @typedef {import("./repair.mjs").Repair} Repair */
/** @typedef {import("./elements.mjs").Child} Child */

/** How long a search may take. */
const SECONDS = 20;
const NONE = "none";

/** The texts that were found, each with that which it repairs: what the view of two texts says of such a pair. */
/** @type {Map<string, { found: Found, repair: Repair, purpose: string }>} */
const pairs = new Map();
/**
 * @param {string} a
 * @param {string} b
 */
const pairOf = (a, b) => JSON.stringify([a, b]);

const LAW = "The page also relies on a law that the program doesn't check here: a text that still shows what it is for leaks at least as much as its floor, to any adversary.";

/** @param {number[]} lines */
const linesText = (lines) => `${lines.length > 1 ? "lines" : "line"} ${listed(lines.map(String))}`;

/**
 * How far a text is above its floor, in a sentence.
 * @param {Found} found
 * @param {string} purpose
 */
function floorSentence({ posterior, floor, isReached, isInLoop }, purpose) {
    const forWhat = purpose === NONE ? "shows nothing" : `shows ${purpose} and nothing else`;
    const last = isInLoop && " The observation is in a loop: the last value that it shows is what counts.";
    if (isReached) {
        return element("p", {}, element("strong", {}, "Nothing to repair. "), `The text is at its floor: its hyper is that of a text that ${forWhat}. `,
            "One guess is right with probability ", shown(printed(posterior)), ".", last);
    }
    const more = difference(posterior, floor);
    const above = isNone(more) ? ["The text is above its floor, though not to one guess. "] : ["The text is above its floor, to one guess by ", shown(printed(more)), ". "];
    return element("p", {}, element("strong", {}, ...above), "One guess is right with probability ", shown(printed(posterior)),
        `. After a text that ${forWhat} it would be `, shown(printed(floor)), ".", last);
}

/** @param {Found} found */
function uncoveredList({ uncovered }) {
    return uncovered.length > 0 && element("ul", {}, ...uncovered.map(({ line, why }) => element("li", {}, `Line ${line} can't be made even: ${why}.`)));
}

/**
 * What is said above the verdict where B was found for A.
 * @param {string} a
 * @param {string | null} b
 */
export function repairNote(a, b) {
    const known = b === null ? undefined : pairs.get(pairOf(a, b));
    if (known === undefined) {
        return null;
    }
    const { found, repair, purpose } = known;
    const kept = purpose === NONE ? "" : ", and what B is for,";
    return element("section", { class: "fix" },
        element("h3", {}, "A fix"),
        element("p", {}, `B is A with ${linesText(repair.lines)} made even: no branch there and no number of turns shows anything any more.`),
        element("ul", {},
            element("li", {}, "The program confirms that the secret and the final values of A's variables", kept, " have the same joint distribution as in A."),
            purpose !== NONE && element("li", {}, `The program confirms that an observer of B knows what ${purpose} shows, and whether it was reached.`),
            element("li", {}, "The program confirms that B refines A: the verdict and its certificate stand below."),
            element("li", {}, "One guess is right with probability ", shown(printed(found.posterior)), " after A and ", shown(printed(repair.posterior)), " after B. ",
                repair.isAtFloor ? "B is at the floor: its hyper is that of a text that shows what B is for and nothing else."
                    : element("span", {}, "At the floor it would be ", shown(printed(found.floor)), "; this search found nothing nearer to it."))),
        element("p", {}, element("strong", {}, "Not proved: "), "that the search finds the best text. Time, memory and whatever else the text leaves out aren't judged. ", LAW));
}

/**
 * The search for a fix, with a choice of what the text is for.
 * @param {Context} context
 * @returns {HTMLElement}
 */
export function repairSection(context) {
    const { text, take, tryTo } = context;
    const source = read(text);
    const observations = observationsOf(source);
    const usual = usualPurpose(source);
    const result = element("div", { role: "status" });
    const option = (/** @type {string} */ value, /** @type {string} */ name) => element("option", { value, selected: value === String(usual) }, name);
    const select = element("select", { id: "purpose" }, usual === null && option("", "choose …"),
        ...observations.map(({ index, line, column, text: own }) => option(String(index), `${line}:${column}  ${own}`)), option(NONE, "nothing: no observation"));

    async function look() {
        const index = select.value === NONE ? NONE : Number(select.value);
        if (select.value === "") {
            fill(result, element("p", { class: "warning" }, "Choose first what the text is for: that has to be shown after the fix, too."));
            return;
        }
        const chosen = observations.find((it) => it.index === index);
        const purpose = chosen === undefined ? NONE : `the observation in line ${chosen.line}`;
        const until = performance.now() + SECONDS * 1000;
        let count = 0;
        try {
            const found = await repairOf(text, index, async (words, files) => {
                if (performance.now() > until) {
                    throw new NoPurpose(`the search took longer than ${SECONDS} seconds`);
                }
                count += 1;
                fill(result, `Searching: ${count} questions to the program so far.`);
                const outcome = await tryTo(words, files);
                return outcome.kind === "answer" && outcome.status <= 1 ? outcome.out : null;
            });
            showFound(found, purpose, count);
        } catch (error) {
            if (!(error instanceof NoPurpose || error instanceof NoAnswer)) {
                throw error;
            }
            fill(result, error instanceof NoPurpose ? `No search: ${error.message}.` : "The search was stopped.");
        }
    }

    /**
     * @param {Found} found
     * @param {string} purpose
     * @param {number} count
     */
    function showFound(found, purpose, count) {
        const { repair } = found;
        if (repair === null) {
            const none = !found.isReached && element("p", {}, `No fix by structure was found, in ${count} questions. That says nothing of other texts.`);
            fill(result, floorSentence(found, purpose), none, uncoveredList(found));
            return;
        }
        pairs.set(pairOf(text, repair.text), { found, repair, purpose });
        const compare = () => take({ a: text, b: repair.text, of: "a", view: "refine" });
        if (context.b === null) {
            compare();
        } else {
            const label = text === context.a ? "Show it as program B" : "Show the text as program A and the fix as B";
            const offer = element("p", {}, `A fix of ${linesText(repair.lines)} was found. `, button(label, compare));
            fill(result, floorSentence(found, purpose), offer, uncoveredList(found));
        }
    }

    return element("section", { class: "fix" }, element("h3", {}, "Look for a fix"),
        element("p", {}, "A fix keeps the secret and all final values as they are, still shows what the text is for, and leaks less. ",
            "Only the structure changes: branches and loops no longer show which way they went. The program confirms each fix, or the page doesn't propose it."),
        element("p", {}, element("label", {}, "The text is there to show ", select), " ", button("Look for a fix", look)), result);
}
