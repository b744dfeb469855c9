// Shows lessons, studies and pages beside the editors. Each program and each command on them is a click away from being asked.
import { button, element, fill, table } from "./elements.mjs";
import { leadsTo } from "./library.mjs";
import { hasFiles, wordsOf } from "./commands.mjs";
import { exerciseOf } from "./exercises.mjs";

/** @typedef {import("./library.mjs").Library} Library */
/**
 * What the page does for its reader.
 * @typedef {object} Host
 * @property {(page: string, heading: string) => void} show another page
 * @property {(name: string, text: string) => void} open a program or a table
 * @property {(words: string[]) => void} run a command of a page
 * @property {(words: string[], files: Record<string, string>) => Promise<import("./asker.mjs").Outcome>} ask
 * @property {() => string} program the text in the first editor
 */
/** @typedef {{ library: Library, host: Host, path: string, files: Record<string, string> }} Place a page, with the files that it shows */

/**
 * @param {Place} place
 * @param {any[]} inline
 * @returns {(Node | string)[]}
 */
export function inlineOf(place, inline) {
    return inline.map((it) => {
        if (typeof it === "string") {
            return it;
        }
        if (it.t === "code") {
            return element("code", {}, it.s);
        }
        const children = inlineOf(place, it.c);
        return it.t === "a" ? linkOf(place, it.href, children) : element(it.t === "em" ? "em" : "strong", {}, ...children);
    });
}

/**
 * @param {Place} place
 * @param {string} href
 * @param {(Node | string)[]} children
 */
function linkOf(place, href, children) {
    const target = leadsTo(place.library, place.path, href);
    if (target === null) {
        return element("span", { class: "elsewhere", title: `${href}, in the repository` }, ...children);
    }
    const isFile = "file" in target;
    const action = (/** @type {Event} */ event) => {
        event.preventDefault();
        if ("file" in target) {
            place.host.open(target.file, place.library.files[target.file]);
        } else {
            place.host.show(target.page, target.heading);
        }
    };
    return element("a", { href: isFile ? "#" : `#${/** @type {any} */ (target).page}`, click: action }, ...children);
}

/**
 * @param {Place} place
 * @param {any} block
 */
function codeOf(place, block) {
    if (block.kind === "console") {
        return consoleOf(place, block.text);
    }
    const shown = element("pre", { class: "code", tabindex: "0" }, block.text);
    if (block.name === undefined) {
        return shown;
    }
    return element("div", { class: "file" }, element("div", { class: "file-head" }, element("code", {}, block.name),
        button("Open", () => place.host.open(block.name, block.text), { "aria-label": `Open ${block.name}` })), shown);
}

/**
 * @param {Place} place
 * @param {string} text
 */
function consoleOf(place, text) {
    const pieces = text.split(/^(?=\$ )/m).map((piece) => {
        const [command, ...answer] = piece.replace(/^\$ /, "").replace(/\n$/, "").split("\n");
        const words = wordsOf(command);
        const known = words !== null && hasFiles(words, place.files);
        const head = element("div", { class: "command" }, element("code", {}, `$ ${command}`),
            words !== null && known && button("Ask", () => place.host.run(words), { "aria-label": `Ask ${command}` }));
        return element("div", {}, head, answer.length > 0 && element("pre", { class: "code", tabindex: "0" }, answer.join("\n")));
    });
    return element("div", { class: "console" }, ...pieces);
}

/**
 * @param {Place} place
 * @param {any} block
 * @returns {HTMLElement}
 */
export function blockOf(place, block) {
    switch (block.t) {
        case "h":
            return element(/** @type {"h2"} */ (`h${Math.min(block.level + 1, 6)}`), { id: `at-${block.id}` }, ...inlineOf(place, block.c));
        case "p":
            return element("p", {}, ...inlineOf(place, block.c));
        case "list":
            return element(block.ordered ? "ol" : "ul", {}, ...block.items.map((/** @type {any[]} */ item) => element("li", {}, ...blocksOf(place, item))));
        case "quote":
            return element("blockquote", {}, ...blocksOf(place, block.c));
        case "table":
            return table("Table", block.head.map((/** @type {any[]} */ it) => element("span", {}, ...inlineOf(place, it))),
                block.rows.map((/** @type {any[][]} */ row) => row.map((it) => element("span", {}, ...inlineOf(place, it)))));
        default:
            return codeOf(place, block);
    }
}

/**
 * @param {Place} place
 * @param {any[]} blocks
 */
export const blocksOf = (place, blocks) => blocks.map((block) => blockOf(place, block));

/**
 * The files that blocks show, with those of the library.
 * @param {Library} of
 * @param {any[]} blocks
 */
function filesOf(of, blocks) {
    const own = blocks.filter((block) => block.name !== undefined).map((block) => [block.name, block.text]);
    return { ...of.files, ...Object.fromEntries(own) };
}

/**
 * A question with its answer, which is hidden until it is asked for.
 * @param {Place} place
 * @param {import("./library.mjs").Exercise} question
 * @param {number} number
 */
function questionOf(place, question, number) {
    return element("div", { class: "question" }, element("h4", {}, `Question ${number}`), ...blocksOf(place, question.asked),
        element("details", { class: "solution" }, element("summary", {}, "Answer"), ...blocksOf(place, question.solved)));
}

/**
 * @param {Place} place
 * @param {number} number
 */
function lessonOf(place, number) {
    const lesson = place.library.lessons[number - 1];
    const step = (/** @type {number} */ to, /** @type {string} */ text) => to >= 1 && to <= place.library.lessons.length && button(text, () => place.host.show(`lesson/${to}`, ""));
    return [element("h2", {}, `Lesson ${lesson.title}`), ...blocksOf(place, lesson.blocks), element("h3", {}, "Exercises"),
        element("p", {}, "Work out the numbers by hand, and the program checks them. Or write a program: the page asks it what it asks the solution, and compares the answers."),
        ...lesson.exercises.map((exercise, index) => exerciseOf({ ...place, path: `course/exercises/${number}.md` }, exercise, index + 1)),
        element("h3", {}, "Questions"), element("p", {}, "Each has a short answer, which is hidden below it."),
        ...lesson.quiz.map((question, index) => questionOf({ ...place, path: `course/quiz/${number}.md` }, question, index + 1)),
        element("p", { class: "steps" }, step(number - 1, "← Lesson before"), " ", step(number + 1, "Next lesson →"))];
}

/**
 * Shows a page, and gives the files that its commands may name.
 * @param {HTMLElement} into
 * @param {Library} of
 * @param {Host} host
 * @param {string} page
 * @param {string} heading
 * @returns {Record<string, string> | null} null where there is no such page
 */
export function show(into, of, host, page, heading) {
    const [kind, name] = page.split("/");
    const number = Number(name);
    const lists = { lesson: of.lessons[number - 1] && of.lessons[number - 1].blocks, study: of.studies[name], page: of.pages[name] };
    const blocks = /** @type {Record<string, any>} */ (lists)[kind];
    if (blocks === undefined || !Array.isArray(blocks)) {
        return null;
    }
    const path = kind === "study" ? `examples/${name}/README.md` : kind === "page" ? `docs/${name}.md` : "docs/COURSE.md";
    const place = { library: of, host, path, files: filesOf(of, blocks) };
    fill(into, ...(kind === "lesson" ? lessonOf(place, number) : blocksOf(place, blocks)));
    const at = heading === "" ? null : into.querySelector(`#${CSS.escape(`at-${heading}`)}`);
    if (at !== null) {
        at.scrollIntoView();
    } else {
        into.scrollTop = 0;
    }
    return place.files;
}
