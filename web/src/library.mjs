// What the page has of the repository: programs, tables, studies, lessons and pages, as web/content.py writes them.

/** @typedef {any} Block web/content.py says what it is */
/** @typedef {{ asked: Block[], solved: Block[] }} Exercise */
/** @typedef {{ title: string, id: string, blocks: Block[], exercises: Exercise[], quiz: Exercise[] }} Lesson */
/** @typedef {{ status: number, pattern: string, section: string, text: string }} Explanation */
/**
 * @typedef {object} Library
 * @property {string} version
 * @property {Record<string, string>} files
 * @property {{ title: string, studies: { name: string, question: string, commands: string[] }[] }[]} gallery
 * @property {Record<string, Block[]>} studies
 * @property {Lesson[]} lessons
 * @property {Record<string, Block[]>} pages
 * @property {Explanation[]} refusals
 */

/** @type {Promise<Library> | null} */
let wanted = null;

/** @returns {Promise<Library>} */
export function library() {
    if (wanted === null) {
        wanted = fetch("content.json").then((response) => response.json());
    }
    return wanted;
}

/**
 * What REFUSALS.md says of a refusal: of its status and of the word that its line ends with.
 * @param {Library} of
 * @param {number} status
 * @param {string} word
 */
export function explanationOf(of, status, word) {
    const same = of.refusals.filter((it) => it.status === status);
    return same.find((it) => new RegExp(`^(?:${it.pattern})$`).test(word)) || (same.length === 1 ? same[0] : null);
}

/**
 * Where a link of a page leads within this page: to a lesson, a study, another page or a program; null where the page has no such thing.
 * @param {Library} of
 * @param {string} from the path of the page that it stands on
 * @param {string} href
 * @returns {{ page: string, heading: string } | { file: string } | null}
 */
export function leadsTo(of, from, href) {
    const [path, heading] = href.split("#");
    const parts = path === "" ? from.split("/") : from.split("/").slice(0, -1);
    path.split("/").forEach((part) => {
        if (part === "..") {
            parts.pop();
        } else if (part !== "." && part !== "") {
            parts.push(part);
        }
    });
    const name = parts.join("/");
    const page = /^docs\/([A-Z]+)\.md$/.exec(name);
    const study = /^examples\/([a-z_]+)\/README\.md$/.exec(name);
    const exercises = /^course\/(?:exercises|solutions)\/(\d+)\.md$/.exec(name);
    const lesson = name === "docs/COURSE.md" ? of.lessons.findIndex((it) => it.id === heading) + 1 : exercises === null ? 0 : Number(exercises[1]);
    if (lesson > 0) {
        return { page: `lesson/${lesson}`, heading: "" };
    }
    if (study !== null && study[1] in of.studies) {
        return { page: `study/${study[1]}`, heading: heading || "" };
    }
    if (page !== null && page[1] in of.pages) {
        return { page: `page/${page[1]}`, heading: heading || "" };
    }
    return name in of.files ? { file: name } : null;
}
