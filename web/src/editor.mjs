// An editor for one program: the language's colours, a refusal at its place, and lines coloured by what they leak, with that in the margin.
import CodeMirror from "codemirror";
import { element } from "./elements.mjs";
import { WORDS, isLong } from "./programs.mjs";
import { characterAt } from "./source.mjs";

const KINDS = { declaration: "def", type: "type", statement: "keyword", distribution: "builtin", constant: "atom", operator: "operator", function: "builtin" };
/** @type {Record<string, string>} */
const KIND_OF = {};
for (const [kind, words] of Object.entries(WORDS)) {
    words.forEach((word) => {
        KIND_OF[word] = /** @type {Record<string, string>} */ (KINDS)[kind];
    });
}
const MARGIN = "blame-margin";
/** The most characters of a token that are underlined where it is refused. */
const LONGEST_TOKEN = 200;

CodeMirror.defineMode("kuifje", () => ({
    token(/** @type {any} */ stream) {
        if (stream.eatSpace()) {
            return null;
        }
        if (stream.match(/^#.*/)) {
            return "comment";
        }
        if (stream.match(/^[0-9]+/)) {
            return "number";
        }
        if (stream.match(/^(:=|\.\.|!=|<=|>=|[=<>+\-*/])/)) {
            return "operator";
        }
        const word = stream.match(/^[A-Za-z_][A-Za-z0-9_]*/);
        if (word) {
            return KIND_OF[word[0]] || "variable";
        }
        stream.next();
        return null;
    },
    lineComment: "#",
}));

/**
 * @param {HTMLElement} parent
 * @param {string} label what a screen reader calls it
 * @param {() => void} onChange is called after each change of the text, be it typed or set
 */
export function createEditor(parent, label, onChange) {
    const editor = CodeMirror(parent, {
        mode: "kuifje", lineNumbers: true, indentUnit: 2, lineWrapping: true, inputStyle: "contenteditable", viewportMargin: 30,
        screenReaderLabel: label, spellcheck: false, gutters: ["CodeMirror-linenumbers", MARGIN],
        // The key moves on to the next part of the page, as everywhere.
        extraKeys: { Tab: false, "Shift-Tab": false },
    });
    const note = element("p", { class: "note", role: "status", hidden: true },
        "This text is long, so it is shown without colours and without marks. Answers and refusals are the same.");
    parent.append(note);
    /** @type {any[]} */
    let marks = [];
    /** @type {any[]} */
    let coloured = [];

    /**
     * Takes away, or gives back, what makes a long text slow: this is done before such a text is there.
     * @param {boolean} isNow
     */
    function setLong(isNow) {
        if (note.hidden === isNow) {
            note.hidden = !isNow;
            editor.setOption("mode", isNow ? null : "kuifje");
            editor.setOption("lineWrapping", !isNow);
        }
    }
    const before = (/** @type {DataTransfer | null} */ data) => {
        if (data !== null && isLong(data.getData("text"))) {
            setLong(true);
        }
    };
    parent.addEventListener("paste", (event) => before(event.clipboardData), true);
    parent.addEventListener("drop", (event) => before(event.dataTransfer), true);
    editor.on("change", () => {
        setLong(isLong(editor.getValue()));
        onChange();
    });

    function clear() {
        marks.forEach((mark) => mark.clear());
        marks = [];
    }

    return {
        /** @returns {string} */
        text: () => editor.getValue(),
        /** @param {string} text */
        set(text) {
            if (text !== editor.getValue()) {
                setLong(isLong(text));
                editor.setValue(text);
            }
        },
        clear,
        /**
         * Marks the place of a refusal, and says below its line what it is.
         * @param {number} line from 1
         * @param {number} column in bytes, from 1
         * @param {string} word
         * @param {string} text
         */
        refuse(line, column, word, text) {
            clear();
            if (!note.hidden) {
                return;
            }
            const number = Math.min(line - 1, editor.lastLine());
            const whole = editor.getLine(number);
            const from = line - 1 > number ? whole.length : characterAt(whole, column);
            const after = /^([A-Za-z0-9_]+|.)?/u.exec(whole.slice(from, from + LONGEST_TOKEN));
            const length = Math.max(after === null ? 0 : after[0].length, 1);
            const isAtEnd = from >= whole.length;
            // Some of the texts begin with the word.
            const said = text.startsWith(`${word}:`) ? text.slice(word.length) : text === "" ? "" : `: ${text}`;
            editor.operation(() => {
                marks.push(editor.markText({ line: number, ch: isAtEnd ? Math.max(from - 1, 0) : from }, { line: number, ch: from + length }, { className: "refused" }));
                marks.push(editor.addLineWidget(number, element("div", { class: "refusal-note" }, element("strong", {}, `▲ ${word}`), said)));
                editor.addLineClass(number, "background", "refused-line");
            });
            marks.push({ clear: () => editor.removeLineClass(number, "background", "refused-line") });
        },
        /**
         * Writes a word in the margin of lines, and colours them: all at once, since each change by itself has the editor drawn anew.
         * @param {import("./lines.mjs").Mark[]} words
         */
        blame(words) {
            editor.operation(() => {
                editor.clearGutter(MARGIN);
                coloured.forEach((handle) => editor.removeLineClass(handle, "background"));
                coloured = (note.hidden ? words : []).map(({ line, text, title, isBlamed, level }) => {
                    editor.setGutterMarker(line, MARGIN, element("div", { class: `${isBlamed ? "blamed" : "unblamed"} leak-${level}`, title }, text));
                    return editor.addLineClass(line, "background", `leak-line leak-line-${level}`);
                });
            });
        },
        /**
         * @param {number} line
         * @param {number} column
         */
        goTo(line, column) {
            const number = Math.min(line - 1, editor.lastLine());
            editor.focus();
            editor.setCursor({ line: number, ch: characterAt(editor.getLine(number), column) });
        },
        focus: () => editor.focus(),
        refresh: () => editor.refresh(),
    };
}
