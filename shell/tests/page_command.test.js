/** The run of a page: files are read once, written whole or not at all, and an end of any kind leaves nothing behind. */
import assert from "node:assert/strict";
import { execFileSync, spawn, spawnSync } from "node:child_process";
import { chmodSync, existsSync, linkSync, mkdirSync, mkdtempSync, readFileSync, readdirSync, rmSync, statSync, symlinkSync,
    writeFileSync } from "node:fs";
import { tmpdir } from "node:os";
import { join } from "node:path";
import { afterEach, beforeEach, test } from "node:test";
import { gunzipSync } from "node:zlib";
import { fileURLToPath } from "node:url";
import { PAPERS } from "../both/page/columns.js";
import { recordOf } from "../both/page/record.js";
import { Run } from "../both/page/run.js";
import { PAGE_WORDS } from "../both/words.js";
import { pairOptions } from "../both/page/recording.js";
import { TOP, hashOf, stored } from "./pages/runs.js";

const RUN = fileURLToPath(new URL("pages/run_page.js", import.meta.url));
const SHEET = stored("examples/station.sheet");
// answers graph and else what the test says, after a while where it says so
const PROGRAM = `#!/bin/sh
echo "$@" >> "$BASE/seen"
[ "$1" = graph ] && exec cat "$GRAPH"
while [ $# -gt 0 ]; do [ "$1" = --log ] && echo "railplan-log 1" > "$2"; shift; done
[ -n "$SLEEP" ] && { : > "$BASE/started"; sleep "$SLEEP" & wait; }
cat "$OUTPUT"
exit "\${STATUS:-0}"
`;

let base = "";
/** @type {NodeJS.ProcessEnv} */
let environment = {};

beforeEach(() => {
    base = mkdtempSync(join(tmpdir(), "railplan-test-"));
    writeFileSync(join(base, "program"), PROGRAM, { mode: 0o755 });
    writeFileSync(join(base, "a.xml"), stored("examples/station.xml"));
    mkdirSync(join(base, "tmp"));
    environment = { ...process.env, BASE: base, TMPDIR: join(base, "tmp"), OUTPUT: `${TOP}examples/station.sheet`,
        GRAPH: `${TOP}examples/station.graph` };
});

afterEach(() => rmSync(base, { recursive: true, force: true }));

/** @type {(...words: string[]) => string[]} */
const command = (...words) => [RUN, join(base, "program"), ...words];

/** @param {string[]} words @param {{[name: string]: string}} [more] what the environment has for the program */
function start(words, more = {}) {
    const ran = spawnSync(process.execPath, command(...words), { cwd: base, env: { ...environment, ...more } });
    return { status: ran.status, output: String(ran.stdout), said: String(ran.stderr) };
}

/** @param {string} line a line of a shell, in which "$@" is the run @param {...string} words */
function inShell(line, ...words) {
    const ran = spawnSync("sh", ["-c", line, "sh", process.execPath, ...command(...words)], { cwd: base, env: environment });
    return { status: ran.status, output: String(ran.stdout), said: String(ran.stderr) };
}

/** @returns {string[]} the names in the folder that no test made */
function left() {
    const made = ["program", "a.xml", "seen", "tmp", "started"];
    return [...readdirSync(base).filter((it) => !made.includes(it)), ...readdirSync(join(base, "tmp")).map((it) => `tmp/${it}`)].sort();
}

const file = (name = "p.html") => readFileSync(join(base, name), "utf8");

/** @returns {Run} the run that a page carries */
function carried(name = "p.html") {
    const [, data] = /class="data">"([^"]*)"</.exec(file(name)) ?? [];
    return new Run(recordOf(gunzipSync(Buffer.from(data, "base64")).toString()));
}

/** @param {string} text @returns {string} a file that the program prints */
function printing(text) {
    writeFileSync(join(base, "out"), text);
    return join(base, "out");
}

test("a page and the output", () => {
    const ran = start(["--html", "p.html", "draw", "a.xml"]);
    assert.deepEqual([ran.status, ran.output, left()], [0, SHEET, ["p.html"]]);
    assert.ok(file().includes(hashOf(stored("examples/station.xml"))) && file().endsWith("</html>\n"));
    assert.ok(!file("seen").includes(" a.xml"));
    assert.equal(carried().stem, "a");
});

test("the build is the program's", () => {
    start(["--html", "p.html", "--unproved", "draw", "a.xml"]);
    assert.ok(file().includes("d".repeat(64)) && file().includes("All proofs of the program had passed"));
    assert.ok(file().includes("<span>--unproved</span> draw a.xml"));
});

test("a file that changes during the search changes nothing", async () => {
    const before = file("a.xml");
    const job = spawn(process.execPath, command("--html", "p.html", "draw", "a.xml"), { cwd: base, env: { ...environment, SLEEP: "0.7" } });
    await until("started");
    writeFileSync(join(base, "a.xml"), before.replaceAll("openEnd", "bufferStop").replace('name="loop"', 'name="other"'));
    await new Promise((resolve) => { job.on("close", resolve); });
    assert.ok(file().includes(hashOf(before)));
    assert.equal(carried().text(0), before);
});

/** @param {string} name waits for a file */
async function until(name) {
    for (let time = 0; time < 600 && !existsSync(join(base, name)); time += 1) {
        await new Promise((resolve) => { setTimeout(resolve, 20); });
    }
}

test("a pipe gives the whole page", () => {
    assert.equal(inShell('cat a.xml | "$@"', "--html", "p.html", "draw", "/dev/stdin").status, 0);
    assert.equal(carried().text(0), stored("examples/station.xml"));
    const piped = inShell('mkfifo pipe; cat a.xml > pipe & "$@"', "--html", "q.html", "draw", "pipe");
    assert.equal(piped.status, 0);
    assert.equal(carried("q.html").text(0), stored("examples/station.xml"));
});

test("wrong words wait for no file", () => {
    execFileSync("mkfifo", [join(base, "pipe")]);
    for (const words of [["draw", "pipe", "--width", "99"], ["draw", "pipe", "more"]]) {
        assert.equal(start(["--html", "p.html", ...words], { STATUS: "2" }).status, 2);
    }
});

test("a fault has a page, and so has a file that lacks", () => {
    writeFileSync(join(base, "p.html"), "<!DOCTYPE html>\nolder");
    const OUTPUT = printing("topology 3 Missing at 440 absPos\n");
    const ran = start(["--html", "p.html", "draw", "a.xml"], { OUTPUT, STATUS: "1" });
    assert.deepEqual([ran.status, ran.output], [1, "topology 3 Missing at 440 absPos\n"]);
    assert.ok(file().includes("has no absPos") && !file().includes("\nolder"));
    assert.match(ran.said, /^a\.xml:/);
    assert.equal(start(["--html", "q.html", "draw", "no.xml"], { OUTPUT: printing("read failed 1\n"), STATUS: "5" }).status, 5);
    assert.ok(file("q.html").includes("no.xml isn't there"));
});

test("a page carries the program by which it checks itself; with --plain it carries none, and allows none", () => {
    writeFileSync(join(base, "wasm"), "the program as WebAssembly");
    const held = (/** @type {string[]} */ ...words) => {
        assert.equal(start(["--html", "p.html", ...words, "draw", "a.xml"], { WASM: join(base, "wasm") }).status, 0);
        const [, program] = /class="program">"([^"]*)"</.exec(file()) ?? [];
        const carried = program && gunzipSync(Buffer.from(program, "base64")).toString();
        return [carried, file().includes('class="worker"'), file().includes("wasm-unsafe-eval")];
    };
    assert.deepEqual(held(), ["the program as WebAssembly", true, true]);
    assert.deepEqual(held("--plain"), [undefined, false, false]);
});

test("a small picture for an index", () => {
    start(["--html", "p.html", "draw", "a.xml"], { SMALL: "s.svg" });
    assert.deepEqual(left(), ["p.html", "s.svg"]);
    const count = (/** @type {string} */ it) => file("s.svg").split(it).length - 1;
    assert.deepEqual(['class="wedge"', 'class="open"', 'class="edge', "<svg", "<text", 'class="hit'].map(count), [4, 4, 8, 2, 0, 0]);
    start(["--html", "q.html", "draw", "a.xml"], { SMALL: "t.svg", OUTPUT: printing("topology 3 Missing at 440 absPos\n"), STATUS: "1" });
    assert.deepEqual(left(), ["out", "p.html", "q.html", "s.svg"]);
});

test("DXF and CSV without a page; no drawing, no DXF", () => {
    assert.equal(start(["--dxf", "s.dxf", "--csv", "s.csv", "draw", "a.xml"]).status, 0);
    assert.deepEqual(left(), ["s.csv", "s.dxf"]);
    assert.ok(file("s.dxf").includes("POLYLINE") && file("s.csv").includes("12.520,switch,,W3"));
    const OUTPUT = printing("railplan 2\ngrid 4 0 1\norder height\nend none\n");
    const ran = start(["--html", "p.html", "--dxf", "t.dxf", "draw", "a.xml"], { OUTPUT, STATUS: "3" });
    assert.deepEqual([ran.status, left()], [3, ["out", "p.html", "s.csv", "s.dxf"]]);
    assert.ok(ran.said.includes("there is no drawing, so t.dxf isn't written"));
});

test("a log is hashed", () => {
    start(["--html", "p.html", "draw", "a.xml", "--log", "l"]);
    assert.ok(file().includes(hashOf("railplan-log 1\n")) && file().includes("./railplan check a.xml a.sheet l"));
});

test("what isn't replaced", () => {
    writeFileSync(join(base, "victim"), "<!DOCTYPE html>\nkept");
    symlinkSync("victim", join(base, "link.html"));
    execFileSync("mkfifo", [join(base, "fifo.html")]);
    mkdirSync(join(base, "folder.html"));
    writeFileSync(join(base, "text.html"), "a letter");
    for (const [name, status] of [["link.html", 2], ["fifo.html", 2], ["folder.html", 6], ["text.html", 2], ["/dev/null", 2]]) {
        const ran = start(["--html", String(name), "draw", "a.xml"]);
        assert.deepEqual([ran.status, ran.output, ran.said.startsWith("railplan: ")], [status, "", true], String(name));
    }
    assert.equal(file("victim"), "<!DOCTYPE html>\nkept");
    assert.ok(statSync(join(base, "fifo.html")).isFIFO() && !existsSync(join(base, "seen")));
});

test("no other file is touched", () => {
    writeFileSync(join(base, "q.part"), "mine");
    writeFileSync(join(base, "p.html.part"), file("a.xml"));
    start(["--html", "p.html", "draw", "p.html.part"]);
    assert.deepEqual([left(), file("q.part")], [["p.html", "p.html.part", "q.part"], "mine"]);
});

test("rights are those of the old page", () => {
    writeFileSync(join(base, "p.html"), "<!DOCTYPE html>\n");
    chmodSync(join(base, "p.html"), 0o640);
    start(["--html", "p.html", "draw", "a.xml"]);
    inShell('umask 027; exec "$@"', "--html", "new.html", "draw", "a.xml");
    assert.deepEqual(["p.html", "new.html"].map((it) => statSync(join(base, it)).mode & 0o777), [0o640, 0o640]);
});

test("no page is another file of the run", () => {
    linkSync(join(base, "a.xml"), join(base, "other.xml"));
    for (const words of [["--html", "./a.xml", "draw", "a.xml"], ["--html", "other.xml", "draw", "a.xml"],
        ["--html", "l", "draw", "a.xml", "--log", "./l"], ["--html", "p.html", "--dxf", "./p.html", "draw", "a.xml"]]) {
        const ran = start(words);
        assert.deepEqual([ran.status, ran.output], [2, ""], words.join(" "));
    }
    assert.ok(!existsSync(join(base, "seen")));
});

test("standard output isn't the page", () => {
    const ran = inShell('exec "$@" > p.html', "--html", "p.html", "draw", "a.xml");
    assert.equal(ran.status, 2);
    assert.ok(ran.said.includes("standard output goes into p.html, which this run writes"));
});

test("a folder that lacks is seen before the search", () => {
    const ran = start(["--html", "none/p.html", "draw", "a.xml"]);
    assert.deepEqual([ran.status, ran.output, existsSync(join(base, "seen"))], [6, "", false]);
    assert.ok(ran.said.includes("none/p.html can't be written: none isn't there"));
});

test("the sheet is given though the page can't be written", () => {
    const ran = inShell('ulimit -f 8; exec "$@"', "--html", "p.html", "draw", "a.xml");
    assert.deepEqual([ran.status, ran.output, left()], [6, SHEET, []]);
    assert.ok(ran.said.includes("couldn't write: p.html"));
});

test("two runs of one page are both whole", async () => {
    const jobs = [0, 1, 2].map(() => spawn(process.execPath, command("--html", "p.html", "draw", "a.xml"),
        { cwd: base, env: environment, stdio: "ignore" }));
    const ends = await Promise.all(jobs.map((job) => new Promise((resolve) => { job.on("close", resolve); })));
    assert.deepEqual([ends, left()], [[0, 0, 0], ["p.html"]]);
    assert.ok(file().endsWith("</html>\n"));
});

test("an interrupt leaves nothing", async () => {
    for (const sign of /** @type {NodeJS.Signals[]} */ (["SIGINT", "SIGTERM", "SIGHUP"])) {
        rmSync(join(base, "started"), { force: true });
        const job = spawn(process.execPath, command("--html", "p.html", "draw", "a.xml"), { cwd: base, env: { ...environment, SLEEP: "30" } });
        let said = "";
        job.stderr.on("data", (/** @type {Buffer} */ it) => { said += it; });
        await until("started");
        job.kill(sign);
        assert.equal(await new Promise((resolve) => { job.on("close", resolve); }), 130);
        assert.ok(said.endsWith("railplan: p.html isn't written\n"), said);
        assert.deepEqual(left(), []);
    }
});

test("a program that is killed leaves no page", () => {
    const ran = start(["--html", "p.html", "draw", "a.xml"], { STATUS: "137" });
    assert.deepEqual([ran.status, ran.output, ran.said, left()], [137, "", "railplan: p.html isn't written\n", []]);
});

test("an output that can't be written still has its page", () => {
    const ran = inShell('exec "$@" > /dev/full', "--html", "p.html", "draw", "a.xml");
    assert.equal(ran.status, 6);
    assert.ok(ran.said.endsWith("railplan: p.html is written\n"), ran.said);
    assert.ok(file().endsWith("</html>\n"));
});

test("a reader that is gone hears only of the page", () => {
    const ran = inShell('{ "$@"; echo $? > status; } | true', "--html", "p.html", "draw", "a.xml");
    assert.ok(["6\n", "0\n"].includes(file("status")));
    assert.ok(["railplan: p.html is written\n", ""].includes(ran.said), ran.said);
    assert.ok(file().endsWith("</html>\n"));
});

test("reasons are said behind the answer", () => {
    const OUTPUT = printing("railplan-why 1\nlaws 1\nlaw 5 node 0 node 1\n");
    const ran = start(["--dxf", "p.dxf", "explain", "a.xml"], { OUTPUT });
    assert.equal(ran.output, "railplan-why 1\nlaws 1\nlaw 5 node 0 node 1\n");
    assert.ok(ran.said.startsWith("railplan: no drawing on this grid meets these laws together:\n  law 5: A1 and "), ran.said);
});

test("page words that are none", () => {
    for (const words of [["--html", "p", "graph", "f"], ["--html", "p", "--paper", "A9", "draw", "f"], ["--html", "", "draw", "f"],
        ["--html", "p", "--labels", "x", "draw", "f"], ["--paper", "A4", "draw", "f"]]) {
        assert.equal(start(words).status, 2, words.join(" "));
    }
});

test("what counts without a word is what the help says", () => {
    const usual = Object.fromEntries([...PAGE_WORDS].filter(([, it]) => it.choices).map(([word, it]) => [word.slice(2), it.usual ?? ""]));
    assert.deepEqual(new Run({ words: [], output: "" }).record.settings, usual);
    assert.deepEqual(PAGE_WORDS.get("--paper")?.choices, [...PAPERS.keys()]);
});

test("which run draws a pair", () => {
    /**
     * @type {(criteria: [string, string], ending: string, ...pairs: [number, number][]) =>
     * import("../both/page/texts.js").Front}
     */
    const front = (criteria, ending, ...pairs) => ({ criteria, pairs, ending });
    assert.deepEqual(pairOptions(front(["height", "width"], "whole", [2, 9], [3, 7]), 1, new Map([["--conflicts", "9"]])),
        ["--conflicts", "9", "--height", "3", "--order", "width"]);
    assert.deepEqual(pairOptions(front(["bends", "width"], "whole", [2, 9]), 0, new Map()), ["--width", "9", "--order", "bends"]);
    const whole = front(["bends", "diagonal"], "whole", [1, 9], [2, 8], [3, 7]);
    assert.deepEqual([0, 1, 2].map((at) => pairOptions(whole, at, new Map())),
        [["--order", "bends,diagonal"], null, ["--order", "diagonal,bends"]]);
    assert.equal(pairOptions(front(["bends", "diagonal"], "conflicts", [1, 9], [2, 8]), 1, new Map()), null);
});
