// Addresses. Each entry of the browser's history says which page was open, and which link began the texts. Texts are as they were left, so that to
// go back loses nothing that was typed.
import { byId, element, fill } from "./elements.mjs";
import { linkFrom } from "./links.mjs";
import { createVisits } from "./state.mjs";

/** @typedef {import("./questions.mjs").State} State */
/**
 * What the page does for its addresses.
 * @typedef {object} Host
 * @property {State} state
 * @property {(parts: Partial<State>) => Promise<void>} take
 * @property {(page: string, heading: string) => Promise<boolean>} open shows a page, and says whether there is one of this name
 * @property {() => void} close shows the page without one
 * @property {() => void} refuse ends what runs, since nothing is shown
 * @property {() => State | null} restored the state before a reload
 */

/** What a link that can't be read hides. */
const SHOWN = "main, header nav";

/** The address without what stands after #. */
const bareAddress = () => location.pathname + location.search;

/** @param {Host} host */
export function createAddresses({ state, take, open, close, refuse, restored }) {
    // Entries of an earlier load say nothing: its texts are gone.
    const visits = createVisits(performance.timeOrigin);

    /**
     * Says that a link can't be read, and shows nothing else. Texts that were there stay where they are, unseen.
     * @param {string} why
     */
    function refuseLink(why) {
        refuse();
        document.querySelectorAll(`${SHOWN}, #contents, #settings, #about, #link-box`).forEach((it) => it.toggleAttribute("hidden", true));
        const message = byId("message");
        message.hidden = false;
        fill(message, element("p", {}, `This link can't be read: ${why}. Nothing of it is shown.`), element("p", {}, element("a", { href: ".", click: goOn }, "Go on without it")));
    }

    /** Shows again what a refused link hid. */
    function showAgain() {
        byId("message").hidden = true;
        document.querySelectorAll(SHOWN).forEach((it) => it.toggleAttribute("hidden", false));
    }

    /** @param {Event} event */
    function goOn(event) {
        event.preventDefault();
        history.replaceState(visits.entry(state.page), "", bareAddress());
        showAgain();
        take({});
    }

    /**
     * What was read is there before a command asks for its files.
     * @param {string | null} page
     * @param {string} heading
     * @returns {Promise<boolean>} whether it is there
     */
    async function showPage(page, heading) {
        if (page === null) {
            close();
        } else if (!(await open(page, heading))) {
            refuseLink("it names no lesson, study or page of this version");
            return false;
        }
        return true;
    }

    return {
        /**
         * Shows a lesson, a study or a page, and gives it an address, to which the browser goes back.
         * @param {string} page
         * @param {string} heading
         */
        read(page, heading) {
            if (location.hash !== `#${page}`) {
                history.pushState(visits.entry(page), "", `#${page}`);
            }
            return showPage(page, heading);
        },
        /** Shows no page any more. The address of a link stays. */
        leave() {
            close();
            if (!location.hash.startsWith("#kf1.")) {
                history.pushState(visits.entry(null), "", bareAddress());
            }
        },
        /** @param {string} link the address now */
        replace: (link) => history.replaceState(visits.entry(state.page), "", link),
        /** Shows what was there before a reload, or else what the address says. */
        async begin() {
            const kept = restored();
            if (kept === null) {
                await this.follow();
                return;
            }
            history.replaceState(visits.entry(kept.page), "");
            if (await showPage(kept.page, "")) {
                await take(kept);
            }
        },
        /** Shows what the address says. */
        async follow() {
            const entry = /** @type {import("./state.mjs").Entry | null} */ (history.state);
            if (entry !== null && visits.isOwn(entry)) {
                showAgain();
                const parts = visits.comeBack(entry, state);
                if (await showPage(entry.page, "")) {
                    await take(parts);
                }
                return;
            }
            const found = await linkFrom(location.hash);
            if (found.kind === "unreadable") {
                refuseLink(found.why);
                return;
            }
            showAgain();
            if (found.kind === "state") {
                visits.begin(state);
            }
            const page = found.kind === "page" ? found.page : found.kind === "state" ? found.state.page : null;
            history.replaceState(visits.entry(page), "");
            if (await showPage(page, "")) {
                await take(found.kind === "state" ? found.state : {});
            }
        },
    };
}
