// Answers questions away from the page's own thread, so that the page stays alive and can end a run. The first message says which module is
// wanted, or hands one over that is compiled already; each other one is a question.
import { ask, kindOfEngine } from "./engine.mjs";

/** @typedef {{ start: true, module: WebAssembly.Module | null, kind: number | null, base: string }} Start */
/** @typedef {{ number: number, words: string[], files: Record<string, Uint8Array>, bound: number }} Question */

/** @type {WebAssembly.Module | null} */
let module = null;
const scope = /** @type {any} */ (self);

/**
 * @param {string} address
 * @returns {Promise<WebAssembly.Module>}
 */
async function compiled(address) {
    const response = await fetch(address);
    if (!response.ok) {
        throw new Error(`${address}: ${response.status}`);
    }
    // A server may not know what a module is. Then it is compiled once it is there.
    const known = (response.headers.get("Content-Type") || "").startsWith("application/wasm");
    return known ? WebAssembly.compileStreaming(response) : WebAssembly.compile(await response.arrayBuffer());
}

/** @param {Start} message */
async function start(message) {
    const kind = message.kind === null ? kindOfEngine() : message.kind;
    try {
        module = message.module === null ? await compiled(new URL(`kuifje${kind}.wasm`, message.base).href) : message.module;
        scope.postMessage({ ready: true, module, kind });
    } catch (error) {
        scope.postMessage({ ready: false, why: String(error) });
    }
}

/** @param {Question} question */
function reply({ number, words, files, bound }) {
    const from = performance.now();
    const took = () => performance.now() - from;
    try {
        const { status, out, err, memory } = ask(/** @type {WebAssembly.Module} */ (module), words, files, bound);
        scope.postMessage({ number, status, out, err, memory, took: took() }, [out.buffer, err.buffer]);
    } catch (error) {
        scope.postMessage({ number, trap: String(error), took: took() });
    }
}

scope.onmessage = (/** @type {{ data: Start | Question }} */ { data }) => ("start" in data ? start(data) : reply(data));
