/** What is read from a log as it grows, and what is shown of it. */
import assert from "node:assert/strict";
import { spawnSync } from "node:child_process";
import { existsSync, mkdtempSync, readFileSync, rmSync, writeFileSync } from "node:fs";
import { tmpdir } from "node:os";
import { join } from "node:path";
import { test } from "node:test";
import { PROGRAM, hasProgram } from "./clone.js";
import { InClone, PLACE, TOP } from "./clones.js";
import { Searched, bar, duration, progressLine } from "../both/searched.js";
import { COMMANDS, CRITERIA, read } from "../both/words.js";
import { LONG, Log, ROOM, ownLog, runWatched } from "../terminal/progress.js";

const BEGUN = "railplan-log 1\nf 1 -2 0\nf 2 0\n";
const ASKED = `${BEGUN}q 0\nl 1 0\nl 2 0\nm\nb height 1 5\nb height 2 6\nb height 3 7\nq -6 0\n`;
const BENDS = `${ASKED}r 6 0\nb bends 14 9\nb bends 13 8\nq -7 -9 0\n`;
const encoder = new TextEncoder();
const NO_PROGRAM = { skip: !hasProgram };

/** @param {string} text @returns {Searched} */
function searched(text) {
    const it = new Searched();
    it.take(encoder.encode(text));
    return it;
}

/**
 * a folder of a test's own
 * @param {{after: (done: () => void) => void}} it @returns {string}
 */
function folderOf(it) {
    const folder = mkdtempSync(join(tmpdir(), "railplan-test-"));
    it.after(() => rmSync(folder, { recursive: true }));
    return folder;
}

test("what a log says so far", () => {
    for (const [text, said] of [
        [BEGUN, "writing the formula"], [`${BEGUN}q 0\n`, "looking for a first drawing"],
        [`${BEGUN}q 0\nr 0\n`, "no drawing is lawful"],
        [`${BEGUN}q 0\nm\n`, "a drawing is found, looking for a better one"], [ASKED, "height: at most 2 found, looking for 1"],
        [`${ASKED}r 6 0\n`, "height 2 is least"], [BENDS, "height 2 is least · bends: at most 14 found, looking for 13"],
        [`${BENDS}m\nq -7 -8 0\n`, "height 2 is least · bends: at most 13 found, looking for 12"],
        [`${BENDS}r 9 0\n`, "height 2 is least · bends 14 is least"],
    ]) {
        assert.equal(searched(text).inWords(), said);
    }
});

test("clauses are counted", () => {
    assert.equal(searched(BENDS).learnt, 2);
});

test("a log that grows is read piece by piece", (it) => {
    const log = new Log(join(folderOf(it), "l"));
    log.follow();
    for (let end = 0; end < BENDS.length + 7; end += 7) {
        writeFileSync(log.name, BENDS.slice(0, end));
        log.follow();
    }
    const { learnt, length } = log.searched;
    assert.deepEqual([log.searched.inWords(), learnt, length], [searched(BENDS).inWords(), 2, BENDS.length]);
});

test("a whole log says the values of the sheet", NO_PROGRAM, (it) => {
    const log = new Log(join(folderOf(it), "l")), station = `${TOP}/examples/station.xml`;
    const sheet = spawnSync(PROGRAM, ["draw", station, "--log", log.name], { encoding: "utf-8" }).stdout;
    log.follow();
    const values = sheet.split("\n").at(-3)?.split(" ").slice(1).map(Number) ?? [];
    assert.deepEqual([...log.searched.settled()], CRITERIA.map((criterion, at) => [criterion, values[at]]));
});

test("the clauses learnt so far give the drawing found so far", NO_PROGRAM, (it) => {
    const log = join(folderOf(it), "l"), station = `${TOP}/examples/station.xml`;
    spawnSync(PROGRAM, ["draw", station, "--log", log]);
    const text = readFileSync(log, "utf-8");
    const sheets = [text.indexOf("\nm\n") + 3, text.lastIndexOf("\nm\n") + 3].map((at) => {
        const learnt = String(Math.max(1, searched(text.slice(0, at)).learnt));
        return spawnSync(PROGRAM, ["draw", station, "--conflicts", learnt], { encoding: "utf-8" }).stdout;
    });
    assert.match(sheets[0], /^values /m);
    assert.match(sheets[1], /^values 2 2 3 7$/m);
});

test("the line has room on the terminal", () => {
    const run = { command: "draw", seconds: 22, budget: 100, searched: searched(BENDS) };
    const whole = "railplan: height 2 is least · bends: at most 14 found, looking for 13 · [----------------] 2 of 100 · 22 s";
    assert.equal(progressLine(run, 200), whole);
    assert.equal(progressLine(run, 90), whole.replace("[----------------] ", ""));
    assert.equal(progressLine(run, 79), whole.replace("[----------------] ", "").replace("railplan: ", ""));
    for (let width = 20; width < 120; width++) {
        assert.ok(progressLine(run, width).length <= width);
    }
});

test("a bar", () => {
    assert.deepEqual([0, 9, 10, 80, 160, 200].map((it) => bar(it, 160).split("#").length - 1), [0, 0, 1, 8, 16, 16]);
});

test("how long a run took", () => {
    assert.deepEqual([0.94, 9.94, 10.4, 75.2].map(duration), ["0.9 s", "9.9 s", "10 s", "75 s"]);
});

test("each command that takes long says what it does", () => {
    const run = { seconds: 3, budget: 9 };
    for (const { word, takesLong, options } of COMMANDS.values()) {
        const line = progressLine({ ...run, command: word, searched: options.includes("--log") ? searched("") : null }, 200);
        assert.ok(!takesLong || !line.includes("running"), line);
    }
    assert.match(progressLine({ ...run, command: "redraw", searched: searched("") }, 200), /fewer moved nodes/);
    assert.equal(progressLine({ ...run, command: "front", searched: null }, 200), "railplan: looking for the pairs · 3 s");
    assert.deepEqual([...COMMANDS.values()].filter((it) => !it.takesLong).map((it) => it.word), ["graph", "verify", "make"]);
});

test("a long check says what trim saves", async () => {
    const said = /** @type {string[]} */ ([]);
    for (const seconds of [LONG - 0.1, LONG]) {
        const ran = { status: 0, output: new Uint8Array(), files: new Map(), seconds, wasStopped: false };
        const engine = { kind: /** @type {const} */ ("native"), run: async () => ran };
        const context = { top: "", called: "", engine, build: /** @type {any} */ ({}), wasm: "", signal: new AbortController().signal };
        await runWatched(context, read(["check", "f.xml", "s", "l"]), (text) => said.push(text));
    }
    assert.equal(said.length, 1);
    assert.match(said[0], /trim f\.xml s l HINTS once, and recheck of HINTS takes a fraction of it/);
});

test("no log is kept without room", () => {
    assert.equal(ownLog(ROOM - 1), "");
    const name = ownLog(ROOM);
    assert.ok(existsSync(name));
    rmSync(name);
});

const SHOWN = `#!/bin/sh
echo "$@" >> "$HERE/words.$RUN"
while test $# -gt 0; do case $1 in --log) printf 'railplan-log 1\\nq 0\\nl 1 0\\n' > "$2" ;; esac; shift; done
sleep 1.5
echo done
`;

const NO_SCRIPT = { skip: !existsSync("/usr/bin/script") && "there is no script" };

test("what is shown on a terminal, and that its own log is taken away", NO_SCRIPT, (it) => {
    const clone = new InClone(it);
    clone.script(PLACE, SHOWN);
    clone.write("tmp/x", "");
    const runs = [["draw one.xml", "looking for a first drawing · [----------------] 1 of 50,000 · 1 s",
        "draw one.xml --log \\S+/tmp/railplan-\\w+\\.log"],
    ["draw one.xml --log mine", "looking for a first drawing", "draw one.xml --log mine"],
    ["check one.xml s l", "checking the log · 1 s", "check one.xml s l"]];
    for (const [number, [given, shown, asked]] of runs.entries()) {
        const env = { ...clone.how({}).env, TMPDIR: join(clone.top, "tmp"), RUN: String(number) };
        const how = { cwd: clone.top, env, encoding: /** @type {const} */ ("utf-8") };
        const ran = spawnSync("script", ["-qec", `./railplan ${given} > printed`, "/dev/null"], how);
        assert.ok(ran.stdout.includes(`railplan: ${shown}`), ran.stdout);
        assert.match(clone.text(`words.${number}`), new RegExp(`^${asked}\n$`));
    }
    assert.ok(existsSync(join(clone.top, "mine")));
});
