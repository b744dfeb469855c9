// Elements of the page. A text becomes a text node and nothing else: no text of a program, a link or an answer is ever read as markup.

/** @typedef {Node | string | null | false} Child */

/**
 * @template {keyof HTMLElementTagNameMap} K
 * @param {K} name
 * @param {Record<string, any>} attributes a function is called when the event of that name comes; true is an attribute without a value
 * @param {...Child} children
 * @returns {HTMLElementTagNameMap[K]}
 */
export function element(name, attributes, ...children) {
    const made = document.createElement(name);
    for (const [key, value] of Object.entries(attributes)) {
        if (typeof value === "function") {
            made.addEventListener(key, value);
        } else if (value !== false && value !== null) {
            made.setAttribute(key, value === true ? "" : String(value));
        }
    }
    made.append(.../** @type {(Node | string)[]} */ (children.filter((child) => child !== null && child !== false)));
    return made;
}

/**
 * The page's element of this name.
 * @template {HTMLElement} [T=HTMLElement]
 * @param {string} id
 * @param {new () => T} [kind] which kind of element it is
 * @returns {T}
 */
export function byId(id, kind) {
    const found = document.getElementById(id);
    if (found === null || (kind !== undefined && !(found instanceof kind))) {
        throw new Error(`the page has no ${id}`);
    }
    return /** @type {T} */ (found);
}

/**
 * Puts children in the place of those that an element has. One that is among them already is left where it stands, with what is typed in it and
 * the focus.
 * @param {Element} parent
 * @param {...Child} children
 */
export function fill(parent, ...children) {
    const wanted = /** @type {(Node | string)[]} */ (children.filter((child) => child !== null && child !== false))
        .map((child) => (typeof child === "string" ? document.createTextNode(child) : child));
    const kept = new Set(wanted);
    [...parent.childNodes].filter((child) => !kept.has(child)).forEach((child) => child.remove());
    wanted.forEach((child, index) => {
        const there = parent.childNodes[index] || null;
        if (there !== child) {
            parent.insertBefore(child, there);
        }
    });
}

/** @param {Element} it */
const keyOf = (it) => [it.tagName, it.id, it.getAttribute("aria-label"), it.id === "" ? it.textContent : ""].join("\n");

/**
 * The same, and the focus goes to the element that is in the place of the one that had it, by its name.
 * @param {HTMLElement} parent
 * @param {...Child} children
 */
export function fillAround(parent, ...children) {
    const held = document.activeElement;
    const isInside = held !== null && held !== parent && parent.contains(held);
    fill(parent, ...children);
    if (isInside && !held.isConnected) {
        const same = /** @type {HTMLElement[]} */ ([...parent.querySelectorAll(held.tagName)]).find((it) => keyOf(it) === keyOf(held));
        if (same instanceof HTMLInputElement && held instanceof HTMLInputElement && held.type === "text") {
            same.value = held.value;
            same.setSelectionRange(held.selectionStart, held.selectionEnd);
        }
        (same || parent).focus({ preventScroll: true });
    }
}

/**
 * A table with its heads above. A cell that is a text stands in a cell of its own.
 * @param {string} caption
 * @param {(Child)[]} heads
 * @param {(Child)[][]} rows the first cell of each row is its head
 */
export function table(caption, heads, rows) {
    const head = element("thead", {}, element("tr", {}, ...heads.map((it) => element("th", { scope: "col" }, it))));
    const body = rows.map((row) => element("tr", {}, ...row.map((cell, index) => (index === 0 ? element("th", { scope: "row" }, cell) : element("td", {}, cell)))));
    const made = element("table", {}, element("caption", {}, caption), head, element("tbody", {}, ...body));
    return element("div", { class: "scroll", tabindex: "0", role: "region", "aria-label": caption }, made);
}

/**
 * @param {string} text
 * @param {() => void} action
 * @param {Record<string, any>} [more]
 */
export function button(text, action, more) {
    return element("button", { type: "button", click: action, ...more }, text);
}
