// Repairs: a text that does what another one does, still shows what that is for, and leaks less. The search isn't proved. Each text that it finds is
// judged by the program: the joint distribution of secret, final values and what the text is for is the same; an observer still knows what it is
// for; and the new text refines the old one. Only the structure is changed: branches and loops are made even.
import { hyperOf, partsOfValue, verdictOf } from "./answers.mjs";
import { Uncovered, compounds, declaredFor, evenText, fresh, held, within, withDeclared } from "./even.mjs";
import { NOTHING, fractionOf, isAbove, lowest, printed, product, sum } from "./fractions.mjs";
import { NoType, typeOf } from "./kinds.mjs";
import { edited, every, partsOf, placesIn, read } from "./source.mjs";

/** @typedef {import("./source.mjs").Source} Source */
/** @typedef {import("./answers.mjs").Groups} Groups */
/** @typedef {import("./fractions.mjs").Fraction} Fraction */
/** @typedef {import("./even.mjs").Purpose} Purpose */
/** @typedef {import("./even.mjs").Change} Change */
/**
 * Asks the program about texts, and gives what it prints, or null where it refuses.
 * @typedef {(words: string[], files: Record<string, string>) => Promise<string | null>} Ask
 */
/** @typedef {{ index: number, line: number, column: number, text: string }} Observation */
/** @typedef {{ text: string, posterior: Fraction, isAtFloor: boolean, shape: string, inners: number, lines: number[] }} Repair */
/**
 * What was found: the posterior Bayes vulnerability of the text and of its floor, which is the least that any text leaks that still shows what this one
 * is for; whether the text is at its floor; a repair, if there is one; and what wasn't changed, with the reason.
 * @typedef {{ posterior: Fraction, floor: Fraction, isReached: boolean, repair: Repair | null, uncovered: { line: number, why: string }[], isInLoop: boolean }} Found
 */

/** Why there is no search. */
export class NoPurpose extends Error {}

/** The most of an answer that is read: of a larger one nothing is judged. */
const MOST = { groups: 20000, shares: 100000 };
/** The greatest number of turns that a loop may take, and so of a variable that counts them. */
const MOST_COUNTED = 65535;

// What a text is for.

/**
 * The observations of a text, in their order.
 * @param {Source} source
 * @returns {Observation[]}
 */
export function observationsOf(source) {
    const places = placesIn(source.text);
    const found = every(source.statements).filter(({ kind }) => kind === "observe");
    return found.map(({ at, end }, index) => ({ index, ...places.of(at), text: source.text.slice(at, end) }));
}

/**
 * The one observation that a text is for, unless somebody says otherwise: that at the top level, or else the only one. It is "none" where nothing is
 * observed, and null where several may be meant.
 * @param {Source} source
 * @returns {number | "none" | null}
 */
export function usualPurpose(source) {
    const found = every(source.statements).filter(({ kind }) => kind === "observe");
    const top = source.statements.filter(({ kind }) => kind === "observe");
    const [only] = top.length === 1 ? top : top.length === 0 && found.length === 1 ? found : [];
    return found.length === 0 ? "none" : only === undefined ? null : found.indexOf(only);
}

/**
 * @param {Source} source
 * @param {number | "none"} index
 * @returns {Purpose | null}
 */
function purposeOf(source, index) {
    if (index === "none") {
        return null;
    }
    const statement = every(source.statements).filter(({ kind }) => kind === "observe")[index];
    if (statement === undefined || statement.kind !== "observe") {
        throw new NoPurpose("there is no such observation");
    }
    try {
        const type = typeOf(statement.value, new Map(source.declarations.map((it) => [it.name, it.type])));
        const value = fresh(source, "kept", []);
        return { statement, type, value, met: fresh(source, "met", [value]) };
    } catch (error) {
        throw error instanceof NoType ? new NoPurpose(`what it shows can't be kept in a variable: ${error.message}`) : error;
    }
}

// Hypers.

/**
 * A hyper as a text that two hypers share if they are the same distribution of posteriors, whatever their scales.
 * @param {{ weight: string, shares: { value: string, share: string }[] }[]} groups
 */
const shapeOf = (groups) => groups.map(({ weight, shares }) => `${weight}: ${shares.map(({ value, share }) => `${value} ${share}`).sort().join("; ")}`).sort().join("\n");

/** @param {string} text */
const number = (text) => fractionOf(text) || NOTHING;

/**
 * The posterior Bayes vulnerability of a hyper.
 * @param {{ weight: string, shares: { share: string }[] }[]} groups
 */
const posteriorOf = (groups) => groups.reduce((all, { weight, shares }) => {
    const best = shares.reduce((most, { share }) => (isAbove(number(share), most) ? number(share) : most), NOTHING);
    return sum(all, product(number(weight), best));
}, NOTHING);

/**
 * The hyper of a text that shows what this one is for, and nothing else.
 * @param {{ value: string, share: string }[]} joint the distribution of the secret, the final values and what it is for
 * @param {number} secrets how many items the secret has
 * @param {number} marks how many items say what it is for
 */
export function floorOf(joint, secrets, marks) {
    /** @type {Map<string, Map<string, Fraction>>} */
    const columns = new Map();
    for (const { value, share } of joint) {
        const parts = partsOfValue(value);
        const secret = secrets === 1 ? parts[0] : `(${parts.slice(0, secrets).join(", ")})`;
        const key = parts.slice(parts.length - marks).join();
        const column = columns.get(marks === 0 ? "" : key) || new Map();
        column.set(secret, sum(column.get(secret) || NOTHING, number(share)));
        columns.set(marks === 0 ? "" : key, column);
    }
    /** @type {Map<string, { weight: Fraction, shares: { value: string, share: string }[] }>} */
    const inners = new Map();
    columns.forEach((column) => {
        const weight = [...column.values()].reduce(sum);
        const shares = [...column].map(([value, share]) => ({ value, share: printed(lowest(share.n * weight.d, share.d * weight.n)) }));
        const key = shapeOf([{ weight: "", shares }]);
        const known = inners.get(key);
        inners.set(key, { weight: known === undefined ? weight : sum(known.weight, weight), shares });
    });
    return [...inners.values()].map(({ weight, shares }) => ({ weight: printed(weight), shares }));
}

// Questions.

/**
 * The text asked about these items.
 * @param {string} text
 * @param {string[]} items
 */
function about(text, items) {
    const { declared, begin } = read(text);
    return edited(text, [{ at: declared, end: begin, by: `\nabout ${items.join(", ")};` }]);
}

/**
 * What is asked of the program about texts.
 * @param {Ask} ask
 */
function questionsOf(ask) {
    /** @param {string | null} out */
    const whole = (out) => {
        const found = out === null ? null : hyperOf(out, MOST);
        return found !== null && found.isWhole ? found.groups : null;
    };
    const hyper = async (/** @type {string} */ text) => whole(await ask(["hyper", "text.kf"], { "text.kf": text }));
    return {
        hyper,
        /**
         * The distribution of these items after a run, whatever it shows.
         * @param {string} text
         * @param {string[]} items
         */
        async distribution(text, items) {
            const asked = about(text, items);
            const count = read(text).statements.length;
            const groups = count === 0 ? await hyper(asked) : whole(await ask(["quiet", "text.kf", `0..${count}`], { "text.kf": asked }));
            return groups === null ? null : groups[0].shares;
        },
        /**
         * Whether whoever observes a run knows these items.
         * @param {string} text
         * @param {string[]} items
         */
        async isTold(text, items) {
            const groups = items.length === 0 ? [] : await hyper(about(text, items));
            return groups !== null && groups.every(({ shares }) => shares.length === 1);
        },
        /**
         * @param {string} old
         * @param {string} text
         */
        async refines(old, text) {
            const out = await ask(["refine", "old.kf", "text.kf"], { "old.kf": old, "text.kf": text });
            return out !== null && verdictOf(out).isYes;
        },
    };
}

// The search.

/** @typedef {{ text: string, groups: { weight: string, shares: { value: string, share: string }[] }[] }} Judged */

/**
 * What is known of a text before the search.
 * @typedef {object} Subject
 * @property {Source} source
 * @property {Purpose | null} purpose
 * @property {string[]} items the secret, the final values, and what the text is for
 * @property {{ value: string, share: string }[]} joint how they are distributed
 * @property {Map<number, number>} turns the greatest number of turns of each loop, by its place
 */

/**
 * The greatest number of turns that each loop takes, as the program says of a text that counts them.
 * @param {Source} source
 * @param {ReturnType<typeof questionsOf>} questions
 */
async function turnsOf(source, questions) {
    const turn = fresh(source, "turn", []);
    const most = fresh(source, "most", [turn]);
    const found = new Map();
    for (const it of compounds(source.statements)) {
        if (it.kind === "while") {
            const body = it.body.length > 0 ? it.body[0].at : it.end - 1;
            const edits = [{ at: it.at, end: it.at, by: `${turn} := 0; ` }, { at: body, end: body, by: `${turn} := ${turn} + 1; ${most} := max(${most}, ${turn}); ` }];
            const text = withDeclared(source, edits, [turn, most].map((name) => `var ${name} : 0..${MOST_COUNTED} := 0;`));
            const counts = await questions.distribution(text, [most]);
            found.set(it.at, counts === null ? Infinity : Math.max(...counts.map(({ value }) => Number(value))));
        }
    }
    return found;
}

/**
 * Whether a changed text does the same, still shows what it is for, and leaks no more: null where the program doesn't say so.
 * @param {Subject} subject
 * @param {Change} change
 * @param {ReturnType<typeof questionsOf>} questions
 * @returns {Promise<Judged | null>}
 */
async function judged(subject, change, questions) {
    const { source, purpose, items, joint, turns } = subject;
    const marks = purpose === null ? [] : [purpose.value, purpose.met];
    for (const hasMet of purpose === null ? [false] : [false, true]) {
        const watched = evenText(source, change, purpose, turns, { isHeld: true, hasMet });
        const text = evenText(source, change, purpose, turns, { isHeld: false, hasMet });
        const isSame = (await questions.isTold(watched, marks)) && JSON.stringify(await questions.distribution(watched, items)) === JSON.stringify(joint);
        const groups = isSame ? await questions.hyper(text) : null;
        const other = groups === null ? null : await questions.hyper(watched);
        if (groups !== null && other !== null && shapeOf(groups) === shapeOf(other) && (await questions.refines(source.text, text))) {
            return { text, groups };
        }
    }
    return null;
}

/**
 * Why something can't be made even, or null where it can.
 * @param {() => void} make
 */
function reasonAgainst(make) {
    try {
        make();
        return null;
    } catch (error) {
        if (error instanceof Uncovered) {
            return error.message;
        }
        throw error;
    }
}

/**
 * What can be made even, each with all that stands in it, inner ones first; and why the others can't.
 * @param {Subject} subject
 */
function coverage({ source, purpose, turns }) {
    const places = placesIn(source.text);
    /** @type {Set<number>} */
    const able = new Set();
    /** @type {{ line: number, why: string }[]} */
    const uncovered = [];
    for (const it of compounds(source.statements).reverse()) {
        const own = within(it);
        const why = [...own].every((at) => at === it.at || able.has(at)) ? reasonAgainst(() => {
            evenText(source, { even: own, isCarried: false }, purpose, turns, { isHeld: true, hasMet: false });
            able.add(it.at);
        }) : null;
        uncovered.unshift(...(why === null ? [] : [{ line: places.of(it.at).line, why }]));
    }
    return { able, uncovered };
}

/**
 * Judges changes, each of them once, and compares them.
 * @param {Subject} subject
 * @param {ReturnType<typeof questionsOf>} questions
 * @param {string} floor
 */
function searchOf(subject, questions, floor) {
    /** @type {Map<string, Promise<Judged | null>>} */
    const known = new Map();
    const all = compounds(subject.source.statements);
    const isWhole = (/** @type {Change} */ { even }) => all.filter(({ at }) => even.has(at)).every((it) => [...within(it)].every((at) => even.has(at)));

    /**
     * @param {Change} change
     * @returns {Promise<Judged | null>}
     */
    function judge(change) {
        const key = `${[...change.even].sort().join()} ${change.isCarried}`;
        const found = known.get(key) || (change.even.size === 0 ? Promise.resolve(null) : judged(subject, change, questions));
        known.set(key, found);
        return found;
    }

    /** @param {Judged} judgement */
    const rank = ({ groups }) => ({ posterior: posteriorOf(groups), isAtFloor: shapeOf(groups) === floor, inners: groups.length });

    /**
     * @param {Judged} a
     * @param {Judged} b
     */
    function isBetter(a, b) {
        const [first, second] = [rank(a), rank(b)];
        if (isAbove(first.posterior, second.posterior) || isAbove(second.posterior, first.posterior)) {
            return isAbove(second.posterior, first.posterior);
        }
        return first.isAtFloor !== second.isAtFloor ? first.isAtFloor : first.inners < second.inners;
    }

    return {
        judge,
        /**
         * The change that leaks least to one guess. Of several it is one at the floor, or else the one with the fewest inners, or the first.
         * @param {Change[]} changes
         */
        async best(changes) {
            /** @type {{ change: Change, judgement: Judged } | null} */
            let best = null;
            for (const change of changes) {
                const judgement = await judge(change);
                if (judgement !== null && (best === null || isBetter(judgement, best.judgement))) {
                    best = { change, judgement };
                }
                if (best !== null && rank(best.judgement).isAtFloor) {
                    return best;
                }
            }
            return best;
        },
        /**
         * The change with each of these made even, too, as far as that leaks less.
         * @param {{ change: Change, judgement: Judged }} from
         * @param {Set<number>} able
         */
        async grown(from, able) {
            let now = from;
            for (const it of all.filter(({ at }) => able.has(at))) {
                const change = { ...now.change, even: new Set([...now.change.even, ...within(it)]) };
                const judgement = rank(now.judgement).isAtFloor || change.even.size === now.change.even.size ? null : await judge(change);
                if (judgement !== null && isBetter(judgement, now.judgement)) {
                    now = { change, judgement };
                }
            }
            return now;
        },
        /**
         * The change with all given back that costs nothing: what is left leaks the same.
         * @param {{ change: Change, judgement: Judged }} from
         */
        async least(from) {
            let now = from;
            for (const it of all) {
                const change = { ...now.change, even: new Set([...now.change.even].filter((at) => at !== it.at)) };
                const judgement = now.change.even.has(it.at) && change.even.size > 0 && isWhole(change) ? await judge(change) : null;
                if (judgement !== null && shapeOf(judgement.groups) === shapeOf(now.judgement.groups)) {
                    now = { change, judgement };
                }
            }
            return now;
        },
    };
}

/**
 * What is known of a text with what it is for. It throws NoPurpose where that can't be asked about.
 * @param {string} text
 * @param {number | "none"} index of the observation that it is for
 * @param {ReturnType<typeof questionsOf>} questions
 * @returns {Promise<Subject>}
 */
async function subjectOf(text, index, questions) {
    const source = read(text);
    if (source.about === null || !source.about.every(({ isOld }) => isOld)) {
        throw new NoPurpose("the target isn't what the secrets were: write about old");
    }
    const purpose = purposeOf(source, index);
    const marks = purpose === null ? [] : [purpose.value, purpose.met];
    const items = [...source.about.map(({ name }) => `old ${name}`), ...source.declarations.map(({ name }) => name), ...marks];
    const marked = purpose === null ? text : withDeclared(source, [held(source, purpose)], declaredFor(purpose));
    const joint = await questions.distribution(marked, items);
    if (joint === null) {
        throw new NoPurpose("the program gives no distribution of the secret, the final values and what it is for that this page can read");
    }
    if (!(await questions.isTold(marked, marks))) {
        throw new NoPurpose("an observer of the program can't tell what this observation showed, or whether it was reached");
    }
    return { source, purpose, items, joint, turns: await turnsOf(source, questions) };
}

/**
 * Looks for a repair of a text. It throws NoPurpose where it can't.
 * @param {string} text
 * @param {number | "none"} index of the observation that the text is for
 * @param {Ask} ask
 * @returns {Promise<Found>}
 */
export async function repairOf(text, index, ask) {
    const questions = questionsOf(ask);
    const subject = await subjectOf(text, index, questions);
    const groups = await questions.hyper(text);
    if (groups === null) {
        throw new NoPurpose("its hyper is too large for this page to read");
    }
    const { source, purpose, joint } = subject;
    const floorGroups = floorOf(joint, (source.about || []).length, purpose === null ? 0 : 2);
    const floor = shapeOf(floorGroups);
    const isReached = shapeOf(groups) === floor;
    const isInLoop = purpose !== null && every(source.statements).some((it) => it.kind === "while" && every(partsOf(it)).includes(purpose.statement));
    const known = { posterior: posteriorOf(groups), floor: posteriorOf(floorGroups), isReached, isInLoop };
    if (isReached) {
        return { ...known, repair: null, uncovered: [] };
    }
    const { able, uncovered } = coverage(subject);
    const search = searchOf(subject, questions, floor);
    const alone = compounds(source.statements).filter(({ at }) => able.has(at)).map(within);
    const changes = [able, ...alone].flatMap((even) => [{ even, isCarried: false }, { even, isCarried: true }]);
    const best = await search.best(changes);
    if (best === null) {
        return { ...known, repair: null, uncovered };
    }
    const { change, judgement } = await search.least(await search.grown(best, able));
    const shape = shapeOf(judgement.groups);
    const places = placesIn(text);
    const lines = [...new Set(compounds(source.statements).filter(({ at }) => change.even.has(at)).map(({ at }) => places.of(at).line))];
    const repair = {
        text: judgement.text, posterior: posteriorOf(judgement.groups), isAtFloor: shape === floor, shape, inners: judgement.groups.length, lines,
    };
    return { ...known, repair: shape === shapeOf(groups) ? null : repair, uncovered };
}
