// Goes through the page in a frame, and posts what came of it: for a browser that has no driver here.
const frame = document.getElementById("page");
const results = [];
const inside = () => frame.contentWindow;
const find = (selector) => inside().document.querySelector(selector);
const answer = () => find("#answer").innerText;
const later = (milliseconds) => new Promise((done) => setTimeout(done, milliseconds));

async function wait(until, what) {
    for (let turn = 0; turn < 1200; turn += 1) {
        try {
            if (until()) {
                return;
            }
        } catch (error) {
            // The page isn't there yet.
        }
        await later(50);
    }
    throw new Error(`the page never came to: ${what}`);
}

async function open(hash) {
    frame.src = "about:blank";
    await wait(() => inside().location.href === "about:blank", "an empty frame");
    frame.src = `/${hash}`;
    await wait(() => inside().location.pathname === "/" && inside().document.body.dataset.settled, "an answer");
}

function set(selector, value) {
    find(selector).value = value;
    find(selector).dispatchEvent(new Event("change"));
}

const write = (text) => find("#editor-a .CodeMirror").CodeMirror.setValue(text);

async function trial(name, steps) {
    try {
        const note = await steps();
        results.push({ name, fault: "", note: note || "" });
    } catch (error) {
        results.push({ name, fault: String(error), note: "" });
    }
}

/** @param {any[]} commands @param {number} kind */
async function compare(commands, kind) {
    if (kind === 64 && inside().kuifje.kind() !== 64) {
        return "this browser takes the other module";
    }
    set("#kind", String(kind));
    await wait(() => inside().kuifje.kind() === kind, `the module with ${kind} bits`);
    const others = [];
    for (const { words, files, status, out, err } of commands) {
        const bytes = Object.fromEntries(Object.entries(files).map(([file, text]) => [file, Uint8Array.from(atob(text), (it) => it.charCodeAt(0))]));
        const told = await inside().kuifje.ask(words, bytes);
        if (told.kind !== "answer" || told.status !== status || told.out !== out || told.err !== err) {
            others.push(words.join(" "));
        }
    }
    if (others.length > 0) {
        throw new Error(`${others.length} differ: ${others.slice(0, 3).join("; ")}`);
    }
    return `${commands.length} commands`;
}

async function links() {
    for (const hash of ["#kf1.AAAA", "#<img src=x onerror=window.hacked=1>", "#lesson/99"]) {
        await open(hash);
        await wait(() => find("#message").innerText.includes("This link can't be read"), `a link ${hash} that is refused`);
        if (inside().hacked !== undefined || !find("main").hidden) {
            throw new Error(`${hash} shows more`);
        }
    }
    await open("#lesson/2");
    await wait(() => find("#reader-text").innerText.includes("2. Hyper-distributions"), "a lesson");
    find("#link-button").click();
    await wait(() => find("#link-field").value !== "", "a link");
    const link = find("#link-field").value;
    await open(link.slice(link.indexOf("#")));
    await wait(() => answer().includes("one of 2 posteriors"), "the state of the link");
}

async function main() {
    const { commands, long, wide } = await (await fetch("/questions.json")).json();
    await trial("the first answer", async () => {
        await open("");
        await wait(() => answer().includes("one of 2 posteriors"), "the hyper");
        return `after ${find("body").dataset.first} ms`;
    });
    await trial("commands with 64 bits", () => compare(commands, 64));
    await trial("commands with 32 bits", () => compare(commands, 32));
    await trial("a stop", async () => {
        await open("");
        write(long);
        await wait(() => find("#status").textContent.startsWith("Running hyper"), "a run");
        find("#stop").click();
        await wait(() => answer().includes("The run was stopped"), "a run that is stopped");
    });
    await trial("want of memory", async () => {
        await open("");
        set("#megabytes", "32");
        write(wide);
        find("#tab-traces").click();
        await wait(() => answer().includes("Want of memory"), "want of memory");
    });
    await trial("links", links);
    await fetch("/results", { method: "POST", body: JSON.stringify({ browser: navigator.userAgent, results }) });
}

main();
