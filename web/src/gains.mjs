// A gain table that is edited in place: a row for each action, a column for each value of the target. Its numbers are never floats.
import { button, element } from "./elements.mjs";
import { commonDenominator, isSame, lowest, printed, typedFraction } from "./fractions.mjs";

/** @typedef {import("./fractions.mjs").Fraction} Fraction */
/** @typedef {{ rest: Fraction, actions: { name: string, gains: Map<string, Fraction> }[] }} Gains the gains themselves; a file has them as whole numbers over one */

/**
 * Gains that need no table: the word for each, and what it is.
 * @type {[string, string][]}
 */
export const USUAL = [["bayes", "one guess"], ["tries:2", "two tries"], ["tries:3", "three tries"], ["guessing", "expected number of guesses"]];
/** The one of these that is a loss: less is better for an adversary. */
export const GUESSING = "guessing";
/** What stands for the gain table that is set. */
export const TABLE = "table";

const MOST_VALUES = 24;
const MOST_ACTIONS = 60;
const FORMAT = "kuifje-gain-1";
const NAME = /^[A-Za-z0-9_-]{1,64}$/;
const JSON_TOKEN = /"(?:[^"\\]|\\.)*"|-?[0-9][0-9.eE+-]*/g;
const ONE = BigInt(1);

/** @param {number | bigint} n */
const whole = (n) => ({ n: BigInt(n), d: ONE });

/**
 * The table that gains 1 for a right guess.
 * @param {string[]} values
 * @returns {Gains}
 */
export function guessOf(values) {
    const actions = values.slice(0, MOST_VALUES).map((value, index) => ({ name: `guess_${index}`, gains: new Map([[value, whole(1)]]) }));
    return { rest: whole(0), actions };
}

/**
 * A table as its file has it: whole numbers over the least common denominator of all.
 * @param {Gains} gains
 */
export function jsonOf({ rest, actions }) {
    const over = commonDenominator([rest, ...actions.flatMap(({ gains }) => [...gains.values()])]);
    const number = (/** @type {Fraction} */ f) => String((f.n * over) / f.d);
    const listed = actions.map(({ name, gains }) => {
        const pairs = [...gains].map(([value, gain]) => `[${JSON.stringify(value)},${number(gain)}]`);
        return `{"gains":[${pairs.join()}],"name":${JSON.stringify(name)}}`;
    });
    return `{"actions":[${listed.join()}],"format":"${FORMAT}","over":${over},"rest":${number(rest)}}`;
}

/**
 * JSON in which each whole number is a BigInt. Other numbers are null, which no table has. It throws where the text is no JSON.
 * @param {string} json
 * @returns {any}
 */
function exactJson(json) {
    JSON.parse(json);
    /** @type {(bigint | null)[]} */
    const numbers = [];
    // Each number is replaced by its place in a list, so that none goes through a float.
    const places = json.replace(JSON_TOKEN, (token) => (token.startsWith("\"") ? token : String(numbers.push(/^-?[0-9]+$/.test(token) ? BigInt(token) : null) - 1)));
    return JSON.parse(places, (_, value) => (typeof value === "number" ? numbers[value] : value));
}

/**
 * A table as JSON, or null where the page can't show it as rows and columns.
 * @param {string} json
 * @returns {Gains | null}
 */
export function gainsOf(json) {
    try {
        const { actions, over, rest, format } = exactJson(json);
        const isPair = (/** @type {any} */ it) => Array.isArray(it) && it.length === 2 && typeof it[0] === "string" && typeof it[1] === "bigint";
        const isAction = (/** @type {any} */ it) => typeof it.name === "string" && it.gains.every(isPair);
        if (format !== FORMAT || typeof over !== "bigint" || over < ONE || typeof rest !== "bigint" || !actions.every(isAction)) {
            return null;
        }
        const read = (/** @type {any} */ { name, gains }) => ({ name, gains: new Map(gains.map((/** @type {[string, bigint]} */ [value, gain]) => [value, lowest(gain, over)])) });
        return { rest: lowest(rest, over), actions: actions.map(read) };
    } catch (error) {
        return null;
    }
}

/**
 * What is done with a table: its JSON after each change, and where something that is typed isn't taken.
 * @typedef {object} Changes
 * @property {(json: string) => void} changed
 * @property {() => void} notTaken
 */

/**
 * A field whose text is taken, or is marked with why it isn't.
 * @param {Record<string, any>} attributes
 * @param {(text: string) => string | null} take why the text isn't taken, or null
 * @param {Changes} changes
 * @param {() => void} after is called where it was taken
 */
function field(attributes, take, changes, after) {
    const input = element("input", { type: "text", autocomplete: "off", spellcheck: "false", ...attributes, change: () => {
        const why = take(input.value);
        input.toggleAttribute("aria-invalid", false);
        word.hidden = why === null;
        word.textContent = why || "";
        if (why !== null) {
            input.setAttribute("aria-invalid", "true");
            changes.notTaken();
        } else {
            after();
        }
    } });
    const word = element("span", { class: "not-taken", role: "alert", hidden: true });
    return { input, word };
}

/**
 * The table as fields. It keeps what is typed as it is typed, so that the page leaves it where it stands when the answer changes.
 * @param {string} json
 * @param {string[]} values
 * @param {Changes} changes
 * @returns {{ node: HTMLElement, json: () => string, values: string, isTaken: () => boolean }}
 */
export function gainEditor(json, values, changes) {
    let now = json;
    const node = element("div", { class: "gain-editor" });
    const isTaken = () => node.querySelector("[aria-invalid=\"true\"]") === null;
    // Another table, which wants other fields.
    const replace = (/** @type {string} */ text) => {
        now = "";
        changes.changed(text);
    };
    const area = element("textarea", { rows: "4", spellcheck: "false", "aria-label": "The gain table as JSON", change: () => replace(area.value) });
    area.value = json;
    const asText = element("details", {}, element("summary", {}, "The table as JSON"), area);
    const gains = gainsOf(json);
    if (gains === null || values.length > MOST_VALUES || gains.actions.length > MOST_ACTIONS) {
        asText.open = true;
        node.append(element("p", {}, "This table is edited as JSON."), asText);
    } else {
        const over = element("span", { class: "note" });
        const say = () => {
            const common = commonDenominator([gains.rest, ...gains.actions.flatMap((action) => [...action.gains.values()])]);
            over.textContent = `The table's file has whole numbers, all divided by ${common}.`;
        };
        const update = () => {
            say();
            if (isTaken()) {
                now = jsonOf(gains);
                area.value = now;
                changes.changed(now);
            } else {
                changes.notTaken();
            }
        };
        say();
        node.append(...tableOf(gains, values, { ...changes, update, replace, over }), asText);
    }
    return { node, json: () => now, values: values.join("\n"), isTaken };
}

/**
 * @param {{ name: string }} action
 * @param {string} value
 */
const gainLabel = ({ name }, value) => `gain of ${name} at ${value}`;

/**
 * @param {Gains["actions"][0]} action
 * @param {string} value
 * @param {Fraction} rest
 * @param {Changes & { update: () => void }} changes
 */
function cellOf(action, value, rest, changes) {
    const held = action.gains.get(value) || rest;
    const { input, word } = field({ value: printed(held), class: "gain", inputmode: "text", "aria-label": gainLabel(action, value) }, (text) => {
        const gain = typedFraction(text);
        if (gain === null) {
            return "not taken: write a whole number, a fraction such as 1/2, or a decimal";
        }
        if (isSame(gain, rest)) {
            action.gains.delete(value);
        } else {
            action.gains.set(value, gain);
        }
        return null;
    }, changes, changes.update);
    return element("td", {}, input, word);
}

/**
 * The rows of a table, and its buttons.
 * @param {Gains} gains
 * @param {string[]} values
 * @param {Changes & { update: () => void, replace: (json: string) => void, over: HTMLElement }} changes
 */
function tableOf(gains, values, changes) {
    const columns = [...new Set([...values, ...gains.actions.flatMap((action) => [...action.gains.keys()])])];
    const body = element("tbody", {});
    const removers = () => /** @type {NodeListOf<HTMLButtonElement>} */ (body.querySelectorAll(".remove")).forEach((it) => {
        it.disabled = gains.actions.length === 1;
    });
    const add = (/** @type {Gains["actions"][0]} */ action) => {
        const { input, word } = field({ value: action.name, "aria-label": `name of action ${action.name}` }, (text) => {
            const isOther = gains.actions.every((it) => it === action || it.name !== text.trim());
            if (!NAME.test(text.trim()) || !isOther) {
                return isOther ? "not taken: letters, digits, _ and - make a name" : "not taken: another action has this name";
            }
            action.name = text.trim();
            remove.setAttribute("aria-label", `Remove ${action.name}`);
            cells.forEach((cell, index) => cell.getElementsByTagName("input")[0].setAttribute("aria-label", gainLabel(action, columns[index])));
            return null;
        }, changes, changes.update);
        const cells = columns.map((value) => cellOf(action, value, gains.rest, changes));
        const remove = button("Remove", () => {
            gains.actions.splice(gains.actions.indexOf(action), 1);
            row.remove();
            removers();
            more.focus();
            changes.update();
        }, { "aria-label": `Remove ${action.name}`, class: "remove" });
        const row = element("tr", {}, element("th", { scope: "row" }, input, word), ...cells, element("td", {}, remove));
        body.append(row);
        removers();
    };
    gains.actions.forEach(add);
    const more = button("Add an action", () => {
        let count = gains.actions.length;
        while (gains.actions.some(({ name }) => name === `action_${count}`)) {
            count += 1;
        }
        const action = { name: `action_${count}`, gains: new Map() };
        gains.actions.push(action);
        add(action);
        changes.update();
    });
    const again = button("Start over", () => changes.replace(jsonOf(guessOf(values))));
    const heads = ["action", ...columns, ""].map((it) => element("th", { scope: "col" }, it));
    const shown = element("table", {}, element("caption", {}, "What each action gains at each value"), element("thead", {}, element("tr", {}, ...heads)), body);
    return [element("div", { class: "scroll", tabindex: "0", role: "region", "aria-label": "Gain table" }, shown), element("p", {}, more, " ", again, " ", changes.over)];
}
