// Compares what the page itself finds in a text, its target, its top-level statements and the places of all that show something, with what the program
// says of it, for every program of the gallery and the course.
//
//     node web/tests/statements.mjs PROGRAM
import { spawnSync } from "node:child_process";
import { readFileSync, readdirSync } from "node:fs";
import { dirname, join, resolve } from "node:path";
import { fileURLToPath } from "node:url";
import { every, placesIn, read, targetIn } from "../src/source.mjs";

const top = join(dirname(fileURLToPath(import.meta.url)), "..", "..");
const program = resolve(process.argv[2]);

/**
 * @param {string} folder
 * @returns {string[]}
 */
const programsIn = (folder) => readdirSync(join(top, folder), { withFileTypes: true }).flatMap((entry) => {
    const name = `${folder}/${entry.name}`;
    return entry.isDirectory() ? programsIn(name) : name.endsWith(".kf") ? [name] : [];
});

/**
 * @param {string} command
 * @param {string} name
 */
const told = (command, name) => spawnSync(program, [command, name], { cwd: top, timeout: 20000, encoding: "utf8" });

/**
 * The places of the statements that may show something, as the program prints them.
 * @param {import("../src/source.mjs").Source} source
 */
function placesOf(source) {
    const visible = source.declarations.filter(({ isVisible }) => isVisible).map(({ name }) => name);
    const places = placesIn(source.text);
    const found = every(source.statements).filter((it) => (it.kind === "assign" ? visible.includes(it.name) : it.kind !== "skip")).map(({ at }) => places.of(at));
    return found.map(({ line, column }) => `${line}:${column}`).join(" ");
}

let count = 0;
const faults = [];
for (const name of [...programsIn("examples"), ...programsIn("course")]) {
    const text = readFileSync(join(top, name), "utf8");
    const [blame, hyper, lines] = ["blame", "hyper", "lines"].map((command) => told(command, name));
    if ([blame, hyper, lines].some(({ status }) => status !== 0)) {
        console.log(`statements: ${name} is left out, since it has no answer within 20 seconds`);
    } else {
        const statements = blame.stdout.trim().split("\n").length - 1;
        const places = lines.stdout.trim().split("\n").slice(1).map((line) => line.split(" ")[0]).join(" ");
        const source = read(text);
        const target = targetIn(source).map(({ name: item, isOld }) => (isOld ? `old ${item}` : item)).join(", ");
        count += 1;
        if (statements !== source.statements.length || !hyper.stdout.startsWith(`target ${target}\n`) || places !== placesOf(source)) {
            faults.push(`${name}: ${source.statements.length} statements about ${target}, which show something at ${placesOf(source)}`);
        }
    }
}
console.log(`statements: ${count} programs, ${faults.length} differ`, ...faults);
process.exitCode = faults.length === 0 && count > 0 ? 0 : 1;
