#!/usr/bin/env -S node --experimental-wasm-memory64
// Stands in for bin/kuifje with the module of dist/page, or of the folder that KUIFJE_PAGE names: 64 or 32 by KUIFJE_KIND. It reads the files
// that stand among its words. `.ci/pages web/tests/kuifje.mjs` runs every command of the pages by it.
import { readFileSync, writeSync } from "node:fs";
import { dirname, join } from "node:path";
import { fileURLToPath } from "node:url";
import { ask } from "../src/engine.mjs";

const folder = process.env.KUIFJE_PAGE || join(dirname(fileURLToPath(import.meta.url)), "..", "..", "dist", "page");
const module = new WebAssembly.Module(readFileSync(join(folder, `kuifje${process.env.KUIFJE_KIND || 64}.wasm`)));
const words = process.argv.slice(2);
const files = {};
for (const word of words) {
    const name = word.startsWith("table:") ? word.slice("table:".length) : word;
    try {
        files[name] = readFileSync(name);
    } catch (error) {
        // No file: the module says so.
    }
}
/** @param {number} stream @param {Uint8Array} bytes */
function write(stream, bytes) {
    for (let at = 0; at < bytes.length;) {
        at += writeSync(stream, bytes, at);
    }
}

const { status, out, err } = ask(module, words, files, 2 ** 30);
process.exitCode = status;
try {
    write(1, out);
} catch (error) {
    // The program ends so, where its answer can't be written.
    write(2, Buffer.from("kuifje: write failed\n"));
    process.exitCode = 4;
}
write(2, err);
