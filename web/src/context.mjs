// What a view may do: ask in its round, and change what the page asks.
import { sentWords } from "./commands.mjs";
import { failure } from "./outcomes.mjs";
import { NoAnswer } from "./rounds.mjs";
import { ownFiles, textOf, withKept } from "./state.mjs";

/** @typedef {import("./questions.mjs").State} State */
/** @typedef {import("./asker.mjs").Outcome} Outcome */
/** @typedef {ReturnType<typeof import("./gains.mjs").gainEditor>} GainFields */
/** @typedef {{ words: string[], out: string, err: string }} Printed a command, as it was sent, and the bytes that the program printed */
/**
 * @typedef {object} Context
 * @property {(words: string[]) => Promise<string>} ask gives the answer; throws where there is none
 * @property {(words: string[], more?: Record<string, string>) => Promise<Outcome>} tryTo gives whatever comes of it; throws where it is stopped.
 * `more` are files beside the page's own; such questions are none of an answer's own, and stand in no list
 * @property {string} file the program that is asked about
 * @property {string} text its text
 * @property {string} a
 * @property {string | null} b null where there is no second text
 * @property {() => void} addSecond
 * @property {string | null} gain the gain table that is set
 * @property {(json: string, values: string[]) => GainFields} gainEditor the fields of the gain table: those that stand there already, where they are of
 * this table
 * @property {string} measure the gain under which lines are compared: one of USUAL, or TABLE
 * @property {string | null} prior weights of a prior that is looked at beside the declared one
 * @property {(prior: string | null) => void} setPrior
 * @property {string | null} words
 * @property {(parts: Partial<State>) => void} take changes what is asked
 * @property {(json: string) => void} setSeparation makes a table that commands may name separation.json
 * @property {(words: string[]) => string[]} sent the words that the program gets
 * @property {string[]} kept the names of files that were kept, or came with a link
 * @property {(name: string, text: string) => void} keep hands a text to the reader of the page, and lets commands name it
 * @property {(name: string, file: Blob) => void} hand gives a file to the reader of the page
 * @property {typeof failure} failure why a question has no answer
 * @property {Printed[]} printed what was asked in this round so far, and answered
 */
/**
 * What the page does for its views.
 * @typedef {object} Host
 * @property {State} state
 * @property {ReturnType<typeof import("./rounds.mjs").createRounds>} rounds
 * @property {(parts: Partial<State>) => void} take
 * @property {() => void} addSecond
 * @property {(name: string, text: string) => void} keep
 * @property {(name: string, file: Blob) => void} hand
 * @property {(json: string, values: string[]) => GainFields} gainEditor
 */

/**
 * @param {Host} host
 * @param {number} round
 * @returns {Context}
 */
export function createContext({ state, rounds, take, addSecond, keep, hand, gainEditor }, round) {
    /** @type {Printed[]} */
    const printed = [];
    /** @type {Context["tryTo"]} */
    const tryTo = async (words, more) => {
        const outcome = await rounds.tryTo(round, words, more === undefined ? null : { ...ownFiles(state), ...more });
        if (outcome.kind === "answer" && more === undefined) {
            printed.push({ words: sentWords(words, state.turns), out: outcome.out, err: outcome.err });
        }
        return outcome;
    };
    return {
        tryTo,
        async ask(words) {
            const outcome = await tryTo(words);
            if (outcome.kind !== "answer" || outcome.status > 1) {
                throw new NoAnswer(outcome);
            }
            return outcome.out;
        },
        file: `${state.of}.kf`, text: textOf(state), a: state.a, b: state.b, addSecond, gain: state.gain, gainEditor, measure: state.measure,
        words: state.words, take,
        prior: state.prior,
        setPrior: (prior) => {
            state.prior = prior;
        },
        setSeparation: (json) => {
            Object.assign(state, withKept(state, "separation.json", json));
        },
        sent: (words) => sentWords(words, state.turns), kept: Object.keys(state.kept), keep, hand, failure, printed,
    };
}
