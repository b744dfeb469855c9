// Asks the worker, one question after the other, and ends it where a run is stopped. A new worker gets the module that the first one compiled.

import { scriptAddress } from "./scripts.mjs";

/** @typedef {{ kind: "answer", status: number, out: string, err: string, memory: number, took: number }} Answered */
/** @typedef {Answered | { kind: "memory", bound: number, took: number } | { kind: "trap", why: string, took: number } | { kind: "stopped", took: number }} Outcome */
/** @typedef {{ words: string[], since: number }} Run */
/** @typedef {{ number: number, words: string[], files: Record<string, Uint8Array>, bound: number, done: (outcome: Outcome) => void }} Waiting */

const MEGABYTE = 1 << 20;
const WANT_OF_MEMORY = 12;
const decoder = new TextDecoder("utf-8", { ignoreBOM: true });
const encoder = new TextEncoder();

/** @param {(run: Run | null) => void} onRun is called where a run begins, and with null where there is none any more */
export function createAsker(onRun) {
    const url = scriptAddress("worker.js");
    /** @type {Worker | null} */
    let worker = null;
    /** @type {WebAssembly.Module | null} */
    let module = null;
    /** @type {number | null} */
    let kind = null;
    let megabytes = 1024;
    let count = 0;
    let since = 0;
    /** @type {Waiting[]} */
    let queue = [];
    /** @type {Waiting | null} */
    let current = null;
    /** @type {(why: string) => void} */
    let failed = () => {};
    let isReady = false;

    /** @param {any} data */
    function outcomeOf(data) {
        if (data.trap !== undefined) {
            return { kind: /** @type {"trap"} */ ("trap"), why: data.trap, took: data.took };
        }
        if (data.status === WANT_OF_MEMORY) {
            return { kind: /** @type {"memory"} */ ("memory"), bound: megabytes, took: data.took };
        }
        const { status, out, err, memory, took } = data;
        return { kind: /** @type {"answer"} */ ("answer"), status, out: decoder.decode(out), err: decoder.decode(err), memory, took };
    }

    /** @param {Outcome} outcome */
    function settle(outcome) {
        const settled = current;
        current = null;
        if (queue.length === 0) {
            onRun(null);
        }
        if (settled) {
            settled.done(outcome);
        }
        next();
    }

    function next() {
        if (current || !isReady || queue.length === 0 || !worker) {
            return;
        }
        current = /** @type {Waiting} */ (queue.shift());
        since = performance.now();
        onRun({ words: current.words, since });
        const { number, words, files, bound } = current;
        worker.postMessage({ number, words, files, bound });
    }

    function begin() {
        isReady = false;
        worker = new Worker(url);
        worker.onmessage = ({ data }) => {
            if (data.ready === true) {
                module = data.module;
                kind = data.kind;
                isReady = true;
                next();
            } else if (data.ready === false) {
                failed(data.why);
            } else if (current && data.number === current.number) {
                settle(outcomeOf(data));
            }
        };
        worker.onerror = (event) => {
            // The engine ended the worker itself.
            const why = event.message || "the browser ended the run";
            if (current) {
                end();
                settle({ kind: "trap", why, took: performance.now() - since });
            } else {
                failed(why);
            }
        };
        worker.postMessage({ start: true, module, kind, base: document.baseURI });
    }

    function end() {
        if (worker) {
            worker.terminate();
        }
        begin();
    }

    /** Ends the run, and forgets what waits. */
    function stop() {
        const waiting = queue;
        queue = [];
        const wasRunning = current;
        if (wasRunning) {
            end();
            settle({ kind: "stopped", took: performance.now() - since });
        }
        waiting.forEach((it) => it.done({ kind: "stopped", took: 0 }));
    }

    begin();
    return {
        /**
         * @param {string[]} words
         * @param {Record<string, string | Uint8Array>} files
         * @returns {Promise<Outcome>}
         */
        ask(words, files) {
            return new Promise((done) => {
                const bytes = Object.fromEntries(Object.entries(files).map(([name, held]) => [name, typeof held === "string" ? encoder.encode(held) : held]));
                count += 1;
                queue.push({ number: count, words, files: bytes, bound: megabytes * MEGABYTE, done });
                next();
            });
        },
        stop,
        /** @param {number} bound the most megabytes that a run may take */
        setMegabytes(bound) {
            megabytes = bound;
        },
        /**
         * Takes one of the two modules, whatever this engine would take.
         * @param {number | null} wanted null for what it would take
         */
        setKind(wanted) {
            stop();
            module = null;
            kind = wanted;
            end();
        },
        /** 64 or 32, once it is known. */
        kind: () => kind,
        megabytes: () => megabytes,
        /** @param {(why: string) => void} handler is called where the module can't be had */
        onFailure(handler) {
            failed = handler;
        },
    };
}
