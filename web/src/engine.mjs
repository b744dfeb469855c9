// One question to the program as a WebAssembly module. Each question has an instance of its own: what a trap leaves half written is never used
// again. Nothing is imported, so that the module sees nothing but the bytes that are handed over here.

/**
 * What the program would end with and write, and how many bytes of memory that took.
 * @typedef {{ status: number, out: Uint8Array, err: Uint8Array, memory: number }} Answer
 */

/**
 * What the module shows. Its pointers and lengths have 64 bits, be its memory of 64 bits or lowered to 32.
 * @typedef {object} Module
 * @property {WebAssembly.Memory} memory
 * @property {(bytes: bigint) => void} host_bound the most bytes that its memory may have
 * @property {(bytes: bigint) => bigint} host_take a block of memory, or 0
 * @property {(...places: bigint[]) => number} kuifje_run include/kuifje.h says what it takes
 */

/** Memory was refused: by the bound, or by the engine. */
export const WANT_OF_MEMORY = 12;

/** A module whose one memory has pointers of 64 bits, and nothing else: an engine that takes it takes kuifje64.wasm. */
const WIDE = new Uint8Array([0, 0x61, 0x73, 0x6d, 1, 0, 0, 0, 5, 3, 1, 4, 1]);

const ROOM = 1 << 18;
const ROOM_FOR_REFUSAL = 1 << 12;
const encoder = new TextEncoder();

/** Which of the two modules this engine takes. */
export function kindOfEngine() {
    return WebAssembly.validate(WIDE) ? 64 : 32;
}

/**
 * @param {number} memory
 * @returns {Answer}
 */
function withoutMemory(memory) {
    return { status: WANT_OF_MEMORY, out: new Uint8Array(0), err: new Uint8Array(0), memory };
}

/**
 * The answer to a command. It throws where the module traps, and what it throws is the engine's.
 * @param {WebAssembly.Module} module
 * @param {string[]} words the command and what follows it, as behind `kuifje`
 * @param {Record<string, Uint8Array>} files
 * @param {number} bound the most bytes of memory
 * @returns {Answer}
 */
export function ask(module, words, files, bound) {
    const first = answer(module, words, files, bound, ROOM, ROOM_FOR_REFUSAL);
    if (first.whole.out <= ROOM && first.whole.err <= ROOM_FOR_REFUSAL) {
        return first;
    }
    return answer(module, words, files, bound, first.whole.out, Math.max(first.whole.err, ROOM_FOR_REFUSAL));
}

/**
 * @param {WebAssembly.Module} module
 * @returns {Module | null} null where the engine has no memory for an instance
 */
function instance(module) {
    try {
        return /** @type {any} */ (new WebAssembly.Instance(module, {}).exports);
    } catch (error) {
        if (error instanceof RangeError) {
            return null;
        }
        throw error;
    }
}

/**
 * The bytes of words, names and contents one after the other, and where each stands.
 * @param {Uint8Array[]} pieces
 */
function pool(pieces) {
    let length = 0;
    /** @type {bigint[]} */
    const spans = [];
    for (const piece of pieces) {
        spans.push(BigInt(length), BigInt(length + piece.length));
        length += piece.length;
    }
    const bytes = new Uint8Array(length);
    pieces.forEach((piece, index) => bytes.set(piece, Number(spans[2 * index])));
    return { bytes, spans };
}

/**
 * @param {WebAssembly.Module} module
 * @param {string[]} words
 * @param {Record<string, Uint8Array>} files
 * @param {number} bound
 * @param {number} room how many bytes of the answer are wanted
 * @param {number} roomForRefusal how many of what would go to standard error
 * @returns {Answer & { whole: { out: number, err: number } }}
 */
function answer(module, words, files, bound, room, roomForRefusal) {
    const run = instance(module);
    const none = { out: 0, err: 0 };
    if (run === null) {
        return { ...withoutMemory(0), whole: none };
    }
    run.host_bound(BigInt(bound));
    const texts = ["kuifje", ...words].map((word) => encoder.encode(word));
    const { bytes, spans } = pool([...texts, ...Object.entries(files).flatMap(([name, held]) => [encoder.encode(name), held])]);
    const sizes = [bytes.length, 8 * spans.length, room, roomForRefusal, 16];
    const places = sizes.map((size) => run.host_take(BigInt(Math.max(size, 1))));
    const held = () => run.memory.buffer.byteLength;
    if (places.includes(BigInt(0))) {
        return { ...withoutMemory(held()), whole: none };
    }
    const [pooled, spanned, out, err, lengths] = places;
    new Uint8Array(run.memory.buffer).set(bytes, Number(pooled));
    new BigUint64Array(run.memory.buffer, Number(spanned), spans.length).set(spans);
    const wordSpans = BigInt(texts.length);
    const status = run.kuifje_run(pooled, BigInt(bytes.length), spanned, wordSpans, spanned + BigInt(16) * wordSpans,
        BigInt(Object.keys(files).length), out, BigInt(room), err, BigInt(roomForRefusal), lengths);
    const [ofOut, ofErr] = Array.from(new BigUint64Array(run.memory.buffer, Number(lengths), 2), Number);
    const bytesAt = (/** @type {bigint} */ from, /** @type {number} */ count) => new Uint8Array(run.memory.buffer).slice(Number(from), Number(from) + count);
    return {
        status, out: bytesAt(out, Math.min(ofOut, room)), err: bytesAt(err, Math.min(ofErr, roomForRefusal)), memory: held(),
        whole: { out: ofOut, err: ofErr },
    };
}
