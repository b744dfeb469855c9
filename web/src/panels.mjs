// The lists of the gallery, the course and the pages, and what the page says of itself.
import { button, byId, element } from "./elements.mjs";

/**
 * @param {string} kind
 * @param {import("./library.mjs").Library} of
 * @param {(page: string, heading: string) => void} read
 */
export function contents(kind, of, read) {
    const item = (/** @type {string} */ page, /** @type {string} */ text, /** @type {string} */ note) => element("li", {},
        element("a", { href: `#${page}`, click: (/** @type {Event} */ event) => {
            event.preventDefault();
            read(page, "");
        } }, text), note === "" ? "" : ` ${note}`);
    if (kind === "course") {
        const lessons = of.lessons.map((lesson, index) => item(`lesson/${index + 1}`, lesson.title, ""));
        return [element("h2", {}, `A course in ${of.lessons.length} lessons`), element("ol", { class: "plain" }, ...lessons)];
    }
    if (kind === "pages") {
        const names = Object.keys(of.pages);
        const title = (/** @type {string} */ name) => of.pages[name][0].c.filter((/** @type {any} */ it) => typeof it === "string").join("");
        return [element("h2", {}, "Pages"), element("ul", {}, ...names.map((name) => item(`page/${name}`, title(name), "")))];
    }
    return [element("h2", {}, "The gallery"), ...of.gallery.flatMap((part) => [element("h3", {}, part.title),
        element("ul", {}, ...part.studies.map((study) => item(`study/${study.name}`, study.question, `(${study.name})`)))])];
}

/**
 * Which module runs here, with its sum, by which it can be told from others.
 * @param {number | null} kind
 * @param {Record<string, string>} sums
 */
function moduleLine(kind, sums) {
    const name = `kuifje${kind}.wasm`;
    return kind === null ? "" : element("p", {}, `This browser runs the module with ${kind}-bit memory, `, element("code", {}, name), ", whose SHA-256 is ",
        element("code", { class: "sum" }, sums[name] || "unknown"), ".");
}

/**
 * @param {string} version
 * @param {number | null} kind
 */
export async function about(version, kind) {
    const [libraries, sums] = await Promise.all(["libraries.json", "build.json"].map(async (name) => (await fetch(name)).json()));
    const listed = libraries.map((/** @type {Record<string, string>} */ it) => element("li", {},
        `${it.name} ${it.version} (Debian ${it.package} ${it.debian}), ${it.licence}: `, element("a", { href: it.file }, "its licence")));
    const close = () => {
        byId("about").hidden = true;
        byId("about-button").setAttribute("aria-expanded", "false");
    };
    return [
        element("h2", {}, "About this page"),
        element("p", {}, `Kuifje ${version}. The answers come from the proved program, compiled to WebAssembly; it runs in this browser. `,
            "The page sends nothing and fetches nothing from elsewhere."),
        moduleLine(kind, sums),
        element("p", {}, "The browser keeps two things. This tab keeps the texts, the question, the gains and the turns until you close it. "
            + "And the browser keeps the files of the page itself, so that it opens without a network; nothing that you type is among them."),
        element("p", {}, "The proof is about the program for x86-64. Here you also trust that it was retargeted to WebAssembly rightly, ",
            "with a heap of its own (some 150 lines of C that no proof covers), that the browser runs it rightly, ",
            "and that the page's script shows what it prints. The tab Command shows that byte for byte."),
        element("p", {}, "Bits, floors, pictures and the search for a fix are the script's own work, over numbers that the program prints."),
        element("h3", {}, "Libraries"), element("ul", {}, ...listed), button("Close", close),
    ];
}
