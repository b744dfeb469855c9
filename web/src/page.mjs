// The page: it puts editors, questions, views and controls together.
import { about, contents } from "./panels.mjs";
import { addControls, addPanel, closePanels, shape } from "./controls.mjs";
import { createAddresses } from "./addresses.mjs";
import { createAsker } from "./asker.mjs";
import { createContext } from "./context.mjs";
import { createEditor } from "./editor.mjs";
import { byId, element, fill, fillAround } from "./elements.mjs";
import { explanationOf, library } from "./library.mjs";
import { failure, printedBytes, refusalBox, targetSentence } from "./outcomes.mjs";
import { gainEditor } from "./gains.mjs";
import { gainWord, linesView, marksOf } from "./lines.mjs";
import { isLong } from "./programs.mjs";
import { priorsView } from "./priors.mjs";
import { NoAnswer, createRounds } from "./rounds.mjs";
import { OWN } from "./questions.mjs";
import { refineView } from "./refinement.mjs";
import { refusalOf } from "./answers.mjs";
import { show } from "./reader.mjs";
import { scriptAddress } from "./scripts.mjs";
import { createSession, tabStorage, wayHere } from "./session.mjs";
import { channelView, commandView, hyperView, leakView, tracesView } from "./views.mjs";
import { commanded, firstState, marginMeasure, openedFile, withKept, withSecond } from "./state.mjs";

/** @typedef {import("./questions.mjs").State} State */
/** @typedef {import("./elements.mjs").Child} Child */
/** @typedef {import("./context.mjs").Context} Context */

/** @type {Record<import("./questions.mjs").ViewName, (context: Context) => Promise<Child[]>>} */
const SHOW = {
    hyper: hyperView, channel: channelView, leak: leakView, priors: priorsView, traces: tracesView, lines: linesView, command: commandView,
    refine: (context) => refineView(context, "refine"), covers: (context) => refineView(context, "covers"),
};
/** How many milliseconds after the last key a text is asked about. */
const WAIT = 150;
/** How many milliseconds a run takes before the page says so: a shorter one is over before that is read. */
const SOON = 500;

const state = firstState();
/**
 * The files of the page that is read.
 * @type {Record<string, string>}
 */
let readFiles = {};
/**
 * The fields of the gain table, where they are seen.
 * @type {ReturnType<typeof gainEditor> | null}
 */
let gainFields = null;
/** Whether the editors are being filled by the page itself. */
let isFilling = false;
let timer = 0;
let clock = 0;

const asker = createAsker(showRun);
const others = async () => ({ ...(await library()).files, ...readFiles });
const rounds = createRounds(asker, state, others);
const editors = {
    a: createEditor(byId("editor-a"), "Program A", changed),
    b: createEditor(byId("editor-b"), "Program B", changed),
};
const session = createSession(tabStorage());
const addresses = createAddresses({
    state, take, open: openPage, close: closePage, refuse: () => settle(`refused ${rounds.begin()}`), restored: () => session.restored(wayHere(), location.hash),
});

// What the page says.

/** @param {import("./asker.mjs").Run | null} now */
function showRun(now) {
    clearInterval(clock);
    byId("stop").hidden = now === null;
    byId("run").classList.toggle("running", now !== null);
    if (now !== null) {
        clock = window.setInterval(() => {
            const seconds = (performance.now() - now.since) / 1000;
            say(`Running ${now.words[0]}: ${seconds.toFixed(seconds < 10 ? 1 : 0)} s`);
        }, SOON);
    }
}

/** @param {string} text */
function say(text) {
    byId("status").textContent = text;
}

/**
 * Says in the page itself that there is an answer, or none: tests wait for it, and read when the first one was there.
 * @param {string} word
 */
function settle(word) {
    const { dataset } = document.body;
    dataset.settled = word;
    dataset.first = dataset.first || String(Math.round(performance.now()));
}

/**
 * Gives a file to the reader of the page.
 * @param {string} name
 * @param {Blob} file
 */
function hand(name, file) {
    const address = URL.createObjectURL(file);
    element("a", { href: address, download: name }).click();
    setTimeout(() => URL.revokeObjectURL(address), 10000);
    say(`Kept ${name}.${name.endsWith(".json") ? " A command may name it, too." : ""}`);
}

/**
 * Hands a text to the reader of the page, and lets commands name it.
 * @param {string} name
 * @param {string} text
 */
function keep(name, text) {
    Object.assign(state, withKept(state, name, text));
    hand(name, new Blob([text], { type: "text/plain" }));
}

// Answers.

/**
 * The fields of a gain table: those that are seen, where they are of this table, with what is typed in them.
 * @param {string} json
 * @param {string[]} values
 */
function fieldsOf(json, values) {
    if (gainFields === null || gainFields.json() !== json || gainFields.values !== values.join("\n")) {
        gainFields = gainEditor(json, values, { changed: (gain) => take({ gain }), notTaken: refresh });
    }
    return gainFields;
}

/**
 * Shows a refusal at its place, and gives what stands in the place of an answer.
 * @param {{ status: number, err: string }} outcome
 */
async function refusal({ status, err }) {
    const refused = refusalOf(err, OWN);
    const explanation = explanationOf(await library(), status, refused.word);
    const text = explanation === null ? "" : explanation.text;
    const editor = refused.file === "b.kf" ? editors.b : editors.a;
    if (refused.line > 0) {
        editor.refuse(refused.line, refused.column, refused.word, text);
    }
    return refusalBox(refused, err, text, {
        goTo: () => editor.goTo(refused.line, refused.column),
        explain: explanation === null ? null : () => addresses.read("page/REFUSALS", explanation.section),
    });
}

/** @param {unknown} error */
async function showFailure(error) {
    const answer = byId("answer");
    fill(byId("target"));
    if (!(error instanceof NoAnswer)) {
        fillAround(answer, element("div", { class: "failure" }, element("h3", {}, "The page failed"), element("p", {}, String(error))));
        say("");
    } else if (error.outcome.kind === "answer") {
        fillAround(answer, await refusal(error.outcome));
        say(`Refused, status ${error.outcome.status}.`);
    } else {
        fillAround(answer, failure(error.outcome));
        say({ memory: "Want of memory.", trap: "A trap.", stopped: "Stopped." }[error.outcome.kind]);
    }
}

/**
 * Colours the lines of a text by what they leak and writes it in the margin, where its question was answered.
 * @param {number} round
 * @param {"a" | "b"} name
 * @param {boolean} isAnswered
 */
async function colour(round, name, isAnswered) {
    const text = state[name];
    if (text === null || !isAnswered || !byId("margin", HTMLInputElement).checked || !rounds.isNewest(round) || isLong(text)) {
        editors[name].blame([]);
        return;
    }
    const measure = marginMeasure(state);
    const outcome = await rounds.ask(["lines", `${name}.kf`, "--gain", gainWord(measure)], null);
    if (rounds.isNewest(round)) {
        editors[name].blame(outcome.kind === "answer" && outcome.status === 0 ? marksOf(outcome.out, measure) : []);
    }
}

/** Asks what the state says, and shows what comes of it, unless a newer question is asked meanwhile. */
async function refresh() {
    const round = rounds.begin();
    session.save(state, location.hash);
    const from = performance.now();
    const answer = byId("answer");
    shape(state);
    answer.setAttribute("aria-busy", "true");
    byId("target").classList.add("old");
    gainFields = state.view === "leak" ? gainFields : null;
    delete document.body.dataset.settled;
    Object.values(editors).forEach((editor) => editor.clear());
    let isAnswered = false;
    try {
        const context = createContext({ state, rounds, take, addSecond, keep, hand, gainEditor: fieldsOf }, round);
        const nodes = await SHOW[state.view](context);
        if (rounds.isNewest(round)) {
            fill(byId("target"), ...targetSentence(state));
            fillAround(answer, ...nodes, state.view !== "command" && printedBytes(context.printed));
            say(`Answered in ${Math.round(performance.now() - from)} ms.`);
            isAnswered = true;
        }
    } catch (error) {
        if (rounds.isNewest(round)) {
            await showFailure(error);
        }
    }
    if (rounds.isNewest(round)) {
        answer.setAttribute("aria-busy", "false");
        byId("target").classList.remove("old");
        settle(String(round));
        await colour(round, "a", isAnswered);
        await colour(round, "b", isAnswered);
    }
}

// What is asked.

/** A key was pressed in an editor. */
function changed() {
    if (isFilling) {
        return;
    }
    state.a = editors.a.text();
    state.b = state.b === null ? null : editors.b.text();
    clearTimeout(timer);
    timer = window.setTimeout(refresh, WAIT);
}

/**
 * Takes a state over, editors and all.
 * @param {Partial<State>} parts
 */
function take(parts) {
    Object.assign(state, parts);
    isFilling = true;
    shape(state);
    editors.a.set(state.a);
    editors.b.set(state.b === null ? "" : state.b);
    isFilling = false;
    editors.a.refresh();
    editors.b.refresh();
    return refresh();
}

const addSecond = () => take(withSecond(state));

/**
 * @param {string} page
 * @param {string} heading
 */
async function openPage(page, heading) {
    const host = {
        show: addresses.read, ask: rounds.ask, program: () => state.a,
        open(/** @type {string} */ name, /** @type {string} */ text) {
            take(openedFile(state, name, text));
            editors.a.focus();
        },
        run: async (/** @type {string[]} */ words) => take(commanded(state, words, await others())),
    };
    const files = show(byId("reader-text"), await library(), host, page, heading);
    if (files === null) {
        return false;
    }
    readFiles = files;
    state.page = page;
    byId("reader").hidden = false;
    document.body.classList.add("reading");
    closePanels();
    byId("reader-text").focus({ preventScroll: true });
    editors.a.refresh();
    return true;
}

function closePage() {
    byId("reader").hidden = true;
    document.body.classList.remove("reading");
    state.page = null;
    editors.a.refresh();
}

/** Has the browser keep the page's own files, where it can: after the first answer, so that this doesn't wait for them. */
function keepOffline() {
    const kind = asker.kind();
    if ("serviceWorker" in navigator && kind !== null) {
        navigator.serviceWorker.register(scriptAddress(`offline.js?${kind}`)).catch(() => say("The browser doesn't keep the page for use without a network."));
    }
}

async function main() {
    const programs = async () => (await library()).files;
    addControls({ state, asker, editors, addresses, take, refresh, addSecond, say, programs, others });
    ["gallery", "course", "pages"].forEach((kind) => addPanel(kind, "contents", async () => contents(kind, await library(), addresses.read)));
    addPanel("settings", "settings", async () => []);
    addPanel("about", "about", async () => about((await library()).version, asker.kind()));
    asker.onFailure((why) => {
        fill(byId("answer"), element("div", { class: "failure" }, element("h3", {}, "The program can't be loaded"), element("p", {}, why)));
    });
    window.addEventListener("hashchange", () => addresses.follow());
    window.addEventListener("pagehide", () => session.save(state, location.hash));
    // For the console, and for tests: the same question as the page's own.
    Object.assign(window, { kuifje: { ask: asker.ask, kind: asker.kind } });
    await addresses.begin();
    const names = Object.keys(await programs()).filter((name) => name.endsWith(".kf"));
    byId("open").append(...names.map((name) => element("option", { value: name }, name)));
    keepOffline();
}

main();
