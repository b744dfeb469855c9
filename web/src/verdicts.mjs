// What verdicts mean, in sentences, and a verdict's gain table as a file.
import { itemsOf, priorOf } from "./answers.mjs";

/** @typedef {import("./answers.mjs").Verdict} Verdict */
/** @typedef {import("./answers.mjs").Groups} Groups */

/**
 * @param {Verdict | null} there
 * @param {Verdict | null} back
 * @param {boolean} isForEvery
 */
export function meaningOf(there, back, isForEvery) {
    const prior = isForEvery ? ", whatever the prior" : "";
    if (there === null || back === null) {
        const known = there || back;
        const [first, second] = known === there ? ["A", "B"] : ["B", "A"];
        const yes = `${second} leaks no more than ${first} to any adversary, whatever it gains${prior}.`;
        const no = `To some adversary ${second} leaks more than ${first}.`;
        return `${known !== null && known.isYes ? yes : no} The other way round there is no verdict.`;
    }
    if (there.isYes && back.isYes) {
        return `A and B leak the same: no adversary, whatever it gains, does better against one of them${prior}.`;
    }
    if (there.isYes) {
        return `B refines A: B leaks no more than A to any adversary, whatever it gains${prior}. To some adversary A leaks more.`;
    }
    if (back.isYes) {
        return `A refines B: A leaks no more than B to any adversary, whatever it gains${prior}. To some adversary B leaks more.`;
    }
    return "Neither is safer for everybody: to some adversary B leaks more than A, and to another one A leaks more than B.";
}

/**
 * For which priors a verdict of `refine` holds, in a sentence: for an `old` target that both texts draw alike it isn't for the declared prior alone.
 * @param {Groups[]} hypers
 * @param {number} size how many values the target has, possible or not
 */
export function priorsOf(hypers, size) {
    const priors = hypers.map((it) => (it.isWhole ? priorOf(it) : null));
    const [first, second] = priors.map((it) => JSON.stringify(it));
    if (hypers[0].target !== hypers[1].target || !itemsOf(hypers[0].target).every(({ isOld }) => isOld)) {
        return "The verdicts are for the priors that the texts declare, and for no others.";
    }
    if (priors[0] === null || first !== second) {
        return `The verdicts are for the ${first === second ? "prior" : "priors"} that the texts declare.`;
    }
    return priors[0].length === size
        ? "A yes holds for every prior on the secret; a no for every prior under which every value is possible. Everything else is drawn as it is declared."
        : `As declared, ${priors[0].length} of the ${size} values of the secret are possible. A yes holds for every prior under which no others are; `
            + "a no for every prior under which just these are. Everything else is drawn as it is declared.";
}

/**
 * A verdict's table as a file. Its numbers are printed as they are read, so that none goes through a float.
 * @param {Extract<Verdict, { isYes: false }>} verdict
 */
export function gainTable({ actions, over, rest }) {
    const listed = actions.map(({ name, gains }) => {
        const pairs = gains.map(({ value, gain }) => `[${JSON.stringify(value)},${gain}]`);
        return `{"gains":[${pairs.join()}],"name":${JSON.stringify(name)}}`;
    });
    return `{"actions":[${listed.join()}],"format":"kuifje-gain-1","over":${over},"rest":${rest}}`;
}
