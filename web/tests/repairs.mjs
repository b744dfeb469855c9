// Looks for repairs of programs of the gallery and the course, as the page does, with the built program in the module's place: posterior vulnerabilities
// of the text, of its floor and of what is found are compared with numbers that were worked out by hand. With `all` it looks at every program, and asks
// of each repair once more, in other words, whether it leaks no more.
//
//     node web/tests/repairs.mjs PROGRAM [all]
import { spawnSync } from "node:child_process";
import { mkdtempSync, readFileSync, readdirSync, rmSync, writeFileSync } from "node:fs";
import { tmpdir } from "node:os";
import { dirname, join, resolve } from "node:path";
import { fileURLToPath } from "node:url";
import { printed } from "../src/fractions.mjs";
import { NoPurpose, repairOf, usualPurpose } from "../src/repair.mjs";
import { read } from "../src/source.mjs";

const top = join(dirname(fileURLToPath(import.meta.url)), "..", "..");
const program = resolve(process.argv[2]);
const scratch = mkdtempSync(join(tmpdir(), "repairs-"));

/**
 * @param {string[]} words
 * @param {Record<string, string>} files
 */
async function ask(words, files) {
    Object.entries(files).forEach(([name, text]) => writeFileSync(join(scratch, name), text));
    const run = spawnSync(program, words, { cwd: scratch, encoding: "utf8", timeout: 20000, maxBuffer: 1 << 28 });
    return run.status === 0 || run.status === 1 ? run.stdout : null;
}

/**
 * @param {string} name
 * @param {number | "none" | null} [purpose]
 */
async function looked(name, purpose) {
    const text = readFileSync(join(top, name), "utf8");
    const index = purpose === undefined ? usualPurpose(read(text)) : purpose;
    return index === null ? null : { text, ...await repairOf(text, index, ask) };
}

/**
 * Each text with its own posterior Bayes vulnerability, that of its floor, and that of the repair. A lock shows by a branch whether h is 2, one of
 * four: it may show nothing, and then one guess is right with 1/4. A password of three letters of three is compared up to the first wrong letter: four
 * classes. It need say only whether it was right, which is two. A PIN of two digits of three is compared digit by digit, and that, in three classes, is
 * what the observation in its branch is for.
 * @type {[string, number | "none" | undefined, string, string, string | null][]}
 */
const WORKED = [
    ["examples/guard.kf", undefined, "1/2", "1/4", "1/4"],
    ["examples/cond.kf", undefined, "1/4", "1/4", null],
    ["examples/password/early.kf", undefined, "4/27", "2/27", "2/27"],
    ["examples/password/loop.kf", undefined, "4/27", "2/27", "2/27"],
    ["examples/pin.kf", 0, "1/3", "1/3", null],
];

async function main() {
    const faults = [];
    for (const [name, purpose, posterior, floor, repaired] of WORKED) {
        const found = await looked(name, purpose);
        const seen = found === null ? null : [found.posterior, found.floor, found.repair && found.repair.posterior].map((it) => it && printed(it));
        if (JSON.stringify(seen) !== JSON.stringify([posterior, floor, repaired])) {
            faults.push(`${name}: ${seen}, and not ${[posterior, floor, repaired]}`);
        }
    }
    console.log(`repairs: ${WORKED.length} texts, ${faults.length} differ`, ...faults);
    if (process.argv[3] === "all") {
        faults.push(...await every());
    }
    return faults.length === 0 ? 0 : 1;
}

/**
 * @param {string} folder
 * @returns {string[]}
 */
const programsIn = (folder) => readdirSync(join(top, folder), { withFileTypes: true }).flatMap((entry) => {
    const name = `${folder}/${entry.name}`;
    return entry.isDirectory() ? programsIn(name) : name.endsWith(".kf") ? [name] : [];
});

/**
 * Whether a repair is what it is said to be, asked of the program in other words: its posterior vulnerability, and that the text leaks no less.
 * @param {string} text
 * @param {import("../src/repair.mjs").Repair} repair
 */
async function isConfirmed(text, repair) {
    const leak = await ask(["leak", "new.kf", "--gain", "bayes"], { "new.kf": repair.text });
    const refined = await ask(["refine", "old.kf", "new.kf"], { "old.kf": text, "new.kf": repair.text });
    return leak !== null && leak.includes(`\nposterior ${printed(repair.posterior)}\n`) && refined !== null && refined.startsWith("refines yes\n");
}

/** @param {string} name */
async function triedWith(name) {
    try {
        const found = await looked(name);
        if (found === null || found.isReached || found.repair === null) {
            return found === null ? "asked" : found.isReached ? "reached" : "none";
        }
        return (await isConfirmed(found.text, found.repair)) ? `repaired${found.repair.isAtFloor ? " to the floor" : ""}` : `${name}: the program doesn't confirm its repair`;
    } catch (error) {
        return error instanceof NoPurpose ? "not asked about" : `${name}: ${error.stack}`;
    }
}

async function every() {
    /** @type {Record<string, number>} */
    const counts = {};
    for (const name of [...programsIn("examples"), ...programsIn("course")]) {
        const word = await triedWith(name);
        counts[word] = (counts[word] || 0) + 1;
    }
    console.log(`repairs: ${JSON.stringify(counts)}`);
    return Object.keys(counts).filter((word) => word.includes(":"));
}

main().then((status) => {
    process.exitCode = status;
}).finally(() => rmSync(scratch, { recursive: true }));
