// Commands as the pages show them and as they are typed: which of their words are files, and which view of the page shows their answer.
import { TABLE, USUAL } from "./gains.mjs";
import { USUAL_TURNS, VIEWS } from "./questions.mjs";
import { FILES } from "./words.mjs";

const TABLE_WORD = `${TABLE}:`;
const PLAIN = /^kuifje ([a-z][a-z-]*(?: [^\s|<>;&$`'"\\]+)*)(?: \| head -n 1)?$/;

/**
 * The words of a line that asks the program and does nothing else, or null.
 * @param {string} line without the prompt
 */
export function wordsOf(line) {
    const found = PLAIN.exec(line.trim());
    return found === null ? null : found[1].split(" ");
}

/**
 * What is typed between one space and the next, after the program's own name, if that is typed, too.
 * @param {string} line
 */
export function typedWords(line) {
    const words = line.split(/\s+/).filter((word) => word !== "");
    return words[0] === "kuifje" ? words.slice(1) : words;
}

/**
 * A command's words apart, as the program takes them: the command and its values in order, and its options, whose value may be the next word or
 * stand after `=`. After `--` no word is an option.
 * @param {string[]} words
 */
export function partsOf(words) {
    const end = words.includes("--") ? words.indexOf("--") : words.length;
    const values = [];
    /** @type {{ gain: string | null, turns: string | null, json: boolean }} */
    const options = { gain: null, turns: null, json: false };
    for (let at = 0; at < end; at += 1) {
        const found = /^--(gain|turns)(?:=(.*))?$/s.exec(words[at]);
        if (found !== null) {
            const option = /** @type {"gain" | "turns"} */ (found[1]);
            at += found[2] === undefined ? 1 : 0;
            options[option] = found[2] === undefined ? words[at] || "" : found[2];
        } else if (words[at] === "--json") {
            options.json = true;
        } else if (!words[at].startsWith("-") || words[at] === "-") {
            values.push(words[at]);
        }
    }
    const [command, ...others] = [...values, ...words.slice(end + 1)];
    return { command: command || "", values: others, ...options };
}

/**
 * The names among a command's words that are those of files: programs, and tables or a certificate.
 * @param {string[]} words
 */
export function namesIn(words) {
    const { command, values, gain } = partsOf(words);
    const { certificates, programs } = FILES.get(command) || { certificates: 0, programs: 1 };
    const tables = gain !== null && gain.startsWith(TABLE_WORD) ? [gain.slice(TABLE_WORD.length)] : [];
    return { programs: values.slice(certificates, certificates + programs), tables: [...values.slice(0, certificates), ...tables] };
}

/**
 * Whether each file that a command names is there.
 * @param {string[]} words
 * @param {Record<string, string>} files
 */
export function hasFiles(words, files) {
    const { programs, tables } = namesIn(words);
    return [...programs, ...tables].every((name) => Object.keys(files).includes(name));
}

/**
 * Those of the files that a command names.
 * @param {string[]} words
 * @param {Record<string, string>} files
 */
export function filesOf(words, files) {
    const { programs, tables } = namesIn(words);
    return Object.fromEntries(Object.entries(files).filter(([name]) => programs.includes(name) || tables.includes(name)));
}

/**
 * The gain that a command names: its word, TABLE for a table, and one guess where it names none.
 * @param {string[]} words
 */
export function measureOf(words) {
    const { gain } = partsOf(words);
    return gain === null ? "bayes" : gain.startsWith(TABLE_WORD) ? TABLE : gain;
}

/**
 * In which view a command's answer is shown: as the terminal shows it, unless the page has a view for just that question.
 * @param {string[]} words
 */
export function viewOf(words) {
    const { command, values, gain, turns, json } = partsOf(words);
    const { programs, tables } = namesIn(words);
    const found = VIEWS.find(({ commands }) => /** @type {readonly string[]} */ (commands).includes(command));
    const isKnown = [TABLE, ...USUAL.map(([word]) => word)].includes(measureOf(words));
    const mayHaveGain = command === "leak" || command === "lines";
    const isPlain = !json && turns === null && values.length === programs.length && isKnown && (gain === null || mayHaveGain);
    return { view: found !== undefined && isPlain ? found.name : /** @type {"command"} */ ("command"), programs, tables };
}

/**
 * The words that are sent to the program: where the settings allow a loop more or fewer turns than usual, they say so.
 * @param {string[]} words
 * @param {number} turns
 */
export function sentWords(words, turns) {
    if (turns === USUAL_TURNS || partsOf(words).turns !== null) {
        return words;
    }
    const end = words.includes("--") ? words.indexOf("--") : words.length;
    return [...words.slice(0, end), "--turns", String(turns), ...words.slice(end)];
}
