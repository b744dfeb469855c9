// Tabs, panels, buttons and settings: what a reader presses, and what of the page that changes.
import { byId, element, fill } from "./elements.mjs";
import { LONGEST, linkOf } from "./links.mjs";
import { filesOf, typedWords } from "./commands.mjs";
import { MOST_TURNS, VIEWS, tabOf, turnsIn } from "./questions.mjs";
import { exchanged, openedFile, withoutSecond } from "./state.mjs";
import { listed } from "./outcomes.mjs";

/** @typedef {import("./questions.mjs").State} State */
/**
 * What the page does for its controls.
 * @typedef {object} Host
 * @property {State} state
 * @property {ReturnType<typeof import("./asker.mjs").createAsker>} asker
 * @property {Record<"a" | "b", ReturnType<typeof import("./editor.mjs").createEditor>>} editors
 * @property {ReturnType<typeof import("./addresses.mjs").createAddresses>} addresses
 * @property {(parts: Partial<State>) => Promise<void>} take
 * @property {() => Promise<void>} refresh
 * @property {() => void} addSecond
 * @property {(text: string) => void} say
 * @property {() => Promise<Record<string, string>>} programs the repository's files
 * @property {() => Promise<Record<string, string>>} others the files that a command may name beside the page's own and those that were kept
 */

const TABS = VIEWS.filter(({ title }) => title !== "");
const PANELS = ["contents", "settings", "about"];
const OPENERS = ["gallery", "course", "pages", "settings", "about"];
const USUAL_MEGABYTES = 1024;

// What follows the state.

/**
 * Shows in tabs and buttons what is asked.
 * @param {State} state
 */
export function shape({ view, turns, b, of }) {
    const tab = tabOf(view);
    const isAlone = b === null;
    TABS.forEach(({ name }) => {
        const it = byId(`tab-${name}`);
        it.setAttribute("aria-selected", String(name === tab));
        it.tabIndex = name === tab ? 0 : -1;
    });
    byId("turns", HTMLInputElement).value = String(turns);
    byId("answer").setAttribute("aria-labelledby", `tab-${tab}`);
    document.body.classList.toggle("comparing", !isAlone);
    ["second", "swap"].forEach((id) => {
        byId(id).hidden = isAlone;
    });
    byId("compare").textContent = isAlone ? "Compare with a second text" : "Close the second text";
    byId("which").hidden = isAlone || ["refine", "command"].includes(tab);
    ["a", "b"].forEach((name) => byId(`of-${name}`).setAttribute("aria-pressed", String(of === name)));
}

// Tabs and panels.

/** @param {(parts: Partial<State>) => Promise<void>} take */
function addTabs(take) {
    fill(byId("tabs"), ...TABS.map(({ name, title }, index) => element("button", {
        type: "button", role: "tab", id: `tab-${name}`, "aria-controls": "answer", click: () => take({ view: name }),
        keydown: (/** @type {KeyboardEvent} */ event) => {
            const place = { ArrowRight: index + 1, ArrowLeft: index - 1 + TABS.length, Home: 0, End: TABS.length - 1 }[event.key];
            if (place !== undefined) {
                event.preventDefault();
                const to = TABS[place % TABS.length];
                take({ view: to.name });
                byId(`tab-${to.name}`).focus();
            }
        },
    }, title)));
}

export function closePanels() {
    PANELS.forEach((id) => {
        byId(id).hidden = true;
    });
    OPENERS.forEach((name) => byId(`${name}-button`).setAttribute("aria-expanded", "false"));
}

/**
 * A button that opens a panel, and closes it.
 * @param {string} name
 * @param {string} panel
 * @param {() => Promise<import("./elements.mjs").Child[]>} children what is put into it; nothing leaves what stands there
 */
export function addPanel(name, panel, children) {
    const opener = byId(`${name}-button`);
    opener.addEventListener("click", async () => {
        const wasOpen = opener.getAttribute("aria-expanded") === "true";
        closePanels();
        if (!wasOpen) {
            const parts = await children();
            if (parts.length > 0) {
                fill(byId(panel), ...parts);
            }
            byId(panel).hidden = false;
            opener.setAttribute("aria-expanded", "true");
        }
    });
}

// Links.

/** @param {Host} host */
async function showLink({ state, addresses, programs, others, say }) {
    if (!("CompressionStream" in window)) {
        say("This browser is too old to make a link.");
        return;
    }
    const files = await programs();
    const named = filesOf(typedWords(state.words || ""), { ...state.kept, ...(await others()) });
    const own = Object.fromEntries(Object.entries(named).filter(([name]) => !Object.keys(files).includes(name)));
    const made = await linkOf({ ...state, kept: own });
    if (made.link === null) {
        byId("link-box").hidden = true;
        say(`No link was made: with more than ${LONGEST} characters it would be too long for an address.`);
        return;
    }
    addresses.replace(made.link);
    const missing = made.without.length > 0 && `${listed(made.without)} ${made.without.length > 1 ? "are" : "is"} too long for an address, and not in this link. `
        + "The command in it names that file: hand the file out, too.";
    fill(byId("link-note"), missing);
    const field = byId("link-field", HTMLInputElement);
    field.value = location.href;
    byId("link-box").hidden = false;
    field.select();
}

/** @param {Host} host */
function addLinkBox(host) {
    const field = byId("link-field", HTMLInputElement);
    byId("link-button").addEventListener("click", () => showLink(host));
    byId("link-close").addEventListener("click", () => {
        byId("link-box").hidden = true;
    });
    byId("link-copy").addEventListener("click", async () => {
        field.select();
        await navigator.clipboard.writeText(field.value).then(() => host.say("Copied."), () => host.say("Copy it from the field."));
    });
}

// Settings.

/** @param {Host} host */
function addSettings({ state, asker, editors, take, refresh, say }) {
    const [turns, megabytes, decimals] = ["turns", "megabytes", "decimals"].map((id) => byId(id, HTMLInputElement));
    const [theme, letters, kind] = ["theme", "letters", "kind"].map((id) => byId(id, HTMLSelectElement));
    byId("margin").addEventListener("change", refresh);
    turns.addEventListener("change", () => {
        const wanted = turnsIn(turns.value);
        if (wanted !== null) {
            take({ turns: wanted });
        } else {
            turns.value = String(state.turns);
            say(`A loop may have 1 to ${MOST_TURNS} turns: it stays at ${state.turns}.`);
        }
    });
    theme.addEventListener("change", () => {
        document.documentElement.dataset.theme = theme.value;
    });
    letters.addEventListener("change", () => {
        document.documentElement.dataset.letters = letters.value;
        editors.a.refresh();
        editors.b.refresh();
        // Pictures grow with the letters.
        refresh();
    });
    decimals.addEventListener("change", () => document.body.classList.toggle("no-decimals", !decimals.checked));
    megabytes.addEventListener("change", () => {
        asker.setMegabytes(Math.max(megabytes.valueAsNumber || USUAL_MEGABYTES, 1));
        refresh();
    });
    kind.addEventListener("change", () => {
        asker.setKind(kind.value === "" ? null : Number(kind.value));
        refresh();
    });
}

/** @param {Host} host */
export function addControls(host) {
    const { state, asker, editors, addresses, take, addSecond, programs } = host;
    addTabs(take);
    addLinkBox(host);
    addSettings(host);
    byId("stop").addEventListener("click", () => asker.stop());
    byId("compare").addEventListener("click", () => (state.b === null ? addSecond() : take(withoutSecond(state))));
    byId("swap").addEventListener("click", () => take(exchanged(state)));
    byId("of-a").addEventListener("click", () => take({ of: "a" }));
    byId("of-b").addEventListener("click", () => take({ of: "b" }));
    byId("reader-close").addEventListener("click", () => {
        addresses.leave();
        editors.a.focus();
    });
    byId("skip").addEventListener("click", (event) => {
        event.preventDefault();
        byId("answer").focus();
    });
    const open = byId("open", HTMLSelectElement);
    open.addEventListener("change", async () => {
        const files = await programs();
        if (Object.keys(files).includes(open.value)) {
            take(openedFile(state, open.value, files[open.value]));
            editors.a.focus();
        }
        open.value = "";
    });
    document.addEventListener("keydown", (event) => {
        if (event.key === "Escape") {
            closePanels();
            byId("link-box").hidden = true;
        }
    });
}

