// The questions of one look at the page, which is a round. A round that is stopped, or that a newer one has replaced, asks nothing more.
import { filesOf, namesIn, sentWords } from "./commands.mjs";
import { OWN } from "./questions.mjs";
import { ownFiles } from "./state.mjs";

/** @typedef {import("./questions.mjs").State} State */
/** @typedef {import("./asker.mjs").Outcome} Outcome */
/** @typedef {{ ask: (words: string[], files: Record<string, string>) => Promise<Outcome>, stop: () => void }} Asker */

const STOPPED = { kind: /** @type {"stopped"} */ ("stopped"), took: 0 };

/** Thrown where a question has no answer. */
export class NoAnswer extends Error {
    /** @param {Outcome} outcome */
    constructor(outcome) {
        super("there is no answer");
        this.outcome = outcome;
    }
}

/**
 * @param {Asker} asker
 * @param {State} state as it is whenever something is asked
 * @param {() => Promise<Record<string, string>>} others the files that a command may name beside the page's own
 */
export function createRounds(asker, state, others) {
    let newest = 0;
    /**
     * The newest answer about lines, by its question: the margin has the same as the view.
     * @type {{ question: string, outcome: Outcome | null }}
     */
    const known = { question: "", outcome: null };

    /**
     * Asks with the files that the words name, so that no more is copied.
     * @param {string[]} words
     * @param {Record<string, string> | null} files null for those of the page
     * @returns {Promise<Outcome>}
     */
    async function ask(words, files) {
        const { programs, tables } = namesIn(words);
        const isOwn = [...programs, ...tables].every((name) => OWN.includes(name));
        const all = files !== null ? files : isOwn ? ownFiles(state) : { ...state.kept, ...(await others()), ...ownFiles(state) };
        const named = filesOf(words, all);
        const sent = sentWords(words, state.turns);
        if (words[0] !== "lines") {
            return asker.ask(sent, named);
        }
        const question = JSON.stringify([sent, named]);
        const outcome = known.question === question && known.outcome !== null ? known.outcome : await asker.ask(sent, named);
        Object.assign(known, outcome.kind === "answer" ? { question, outcome } : { question: "", outcome: null });
        return outcome;
    }

    return {
        ask,
        /** Begins the newest round, and ends the one before it. */
        begin() {
            newest += 1;
            asker.stop();
            return newest;
        },
        /** @param {number} round */
        isNewest: (round) => round === newest,
        /**
         * What comes of a question of a round, be it an answer or none. It throws where the round is over.
         * @param {number} round
         * @param {string[]} words
         * @param {Record<string, string> | null} [files]
         */
        async tryTo(round, words, files = null) {
            const outcome = round === newest ? await ask(words, files) : STOPPED;
            if (round !== newest || outcome.kind === "stopped") {
                throw new NoAnswer(STOPPED);
            }
            return outcome;
        },
    };
}
