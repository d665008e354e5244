/** What is in the way of a run, the rights that it lacks, and files that are written whole. */
import assert from "node:assert/strict";
import { spawn } from "node:child_process";
import {
    chmodSync, mkdirSync, mkdtempSync, readFileSync, readdirSync, rmSync, symlinkSync, utimesSync, writeFileSync,
} from "node:fs";
import { tmpdir } from "node:os";
import { join } from "node:path";
import { test } from "node:test";
import { InClone, Started } from "./clones.js";
import { BEGINS, Output, isOneFile, realPath, writeWhole } from "../terminal/files.js";
import { bytesOf, textOf } from "../terminal/bytes.js";
import { hold, release, sweep } from "../terminal/locks.js";
import { OPTIONS, PAGE_WORDS } from "../both/words.js";

/**
 * a folder of a test's own
 * @param {{after: (done: () => void) => void}} it @returns {string}
 */
function folderOf(it) {
    const folder = mkdtempSync(join(tmpdir(), "railplan-test-"));
    it.after(() => rmSync(folder, { recursive: true, force: true }));
    return folder;
}

/**
 * files are looked at in a process of its own, whose user has no right to everything
 * @param {InClone} clone @param {string[]} lines @returns {[number, string][]}
 */
function looked(clone, lines) {
    clone.write("look.mjs", `import { look } from "./shell/terminal/files.js";
import { read } from "./shell/both/words.js";
if (process.getuid() === 0) process.setuid(65534);
for (const line of process.argv.slice(2)) {
    process.stderr.write("\\n");
    let status = 0;
    try { look(read(line.split(" "))); } catch (error) { status = error.status; }
    process.stderr.write("=" + status);
}
`);
    const said = clone.launchBy(`node look.mjs ${lines.map((it) => `'${it}'`).join(" ")}`)[2];
    return [...said.matchAll(/\n([^=]*)=(\d+)/g)].map((it) => [Number(it[2]), it[1]]);
}

test("rights that lack are said before a run, and a page is made beside what is there", (it) => {
    const clone = new InClone(it), words = ["--svg", "--log", "--html", "--dxf", "--csv"];
    chmodSync(join(clone.top, ".."), 0o755);
    mkdirSync(join(clone.top, "open"));
    chmodSync(join(clone.top, "open"), 0o777);
    for (const word of words) {
        const begin = BEGINS.get((OPTIONS.get(word) ?? PAGE_WORDS.get(word))?.kind ?? "") ?? "";
        for (const [name, mode] of /** @type {[string, number][]} */ ([[`open/mine${word}`, 0o444], [`open/all${word}`, 0o666],
            [`closed/all${word}`, 0o666]])) {
            clone.write(name, begin);
            chmodSync(join(clone.top, name), mode);
        }
    }
    const found = looked(clone, words.flatMap((it) => [`draw x.xml ${it} closed/new`, `draw x.xml ${it} open/mine${it}`,
        `draw x.xml ${it} open/all${it}`, `draw x.xml ${it} open/new`, `draw x.xml ${it} closed/all${it}`]));
    for (const [number, word] of words.entries()) {
        const [newClosed, mine, all, newOpen, allClosed] = found.slice(number * 5, number * 5 + 5);
        assert.equal(newClosed[0], 6);
        assert.match(newClosed[1], /you haven't the right to make files in closed/);
        assert.deepEqual([mine[0], all[0], newOpen[0]], [6, 0, 0], word);
        assert.equal(allClosed[0], PAGE_WORDS.has(word) ? 6 : 0, word);
    }
    assert.match(looked(clone, ["draw x.xml --svg new"])[0][1], /you haven't the right to make files in this folder\. Name/);
});

test("words with a fault have a page too", (it) => {
    const clone = new InClone(it);
    clone.write("there", "mine");
    const found = looked(clone, ["draw x.xml --widht 4 --html there", "draw x.xml --widht 4 --svg there"]);
    assert.deepEqual(found.map((it) => it[0]), [2, 0]);
});

test("a hyphen is no name of a file that is written", (it) => {
    const clone = new InClone(it), lines = ["--svg", "--log", "--html", "--dxf", "--csv"].map((word) => `draw x.xml ${word} -`);
    const found = looked(clone, [...lines, "trim x.xml s l -", "draw -"]);
    for (const [status, said] of found.slice(0, -1)) {
        assert.equal(status, 2);
        assert.match(said, /^railplan: `-` is no name of a file that is written: .*one that is called so is \.\/-\n$/);
    }
    assert.equal(found.at(-1)?.[0], 0);
});

test("a file is written whole or stays as it was", (it) => {
    const top = folderOf(it), name = join(top, "one");
    for (const data of ["first", "second"]) {
        writeWhole(name, data);
        assert.equal(readFileSync(name, "utf-8"), data);
    }
    mkdirSync(join(top, "two"));
    assert.throws(() => writeWhole(join(top, "two"), "third"));
    const output = new Output(name);
    output.drop();
    assert.deepEqual(readdirSync(top).sort(), ["one", "two"]);
    const again = new Output(name);
    again.write("fourth");
    assert.deepEqual([readFileSync(name, "utf-8"), again.isWritten, readdirSync(top).sort()], ["fourth", true, ["one", "two"]]);
});

test("names of one file", (it) => {
    const top = folderOf(it), name = join(top, "one");
    symlinkSync("one", join(top, "soft"));
    assert.ok(isOneFile(join(top, "soft"), name));
    assert.equal(realPath(`${top}/none/../one`), name);
    writeFileSync(name, "");
    assert.ok(isOneFile(join(top, "soft"), name));
    assert.ok(!isOneFile(join(top, "other"), name));
});

test("names that are no UTF-8 keep their bytes", () => {
    const bytes = Buffer.from([0x61, 0xff, 0xc3, 0xa9, 0xe2, 0x82, 0x20, 0xf0, 0x9f, 0x92, 0x80]);
    assert.deepEqual(bytesOf(textOf(bytes)), bytes);
    assert.equal(textOf(Buffer.from("é💀")), "é💀");
});

test("a lock is one run's, and that of a run which is gone counts for nothing", (it) => {
    const path = join(folderOf(it), "lock");
    assert.equal(hold(path), "held");
    assert.equal(hold(path), "taken");
    release([path]);
    for (const text of ["", "999999999 1", `${process.pid} 1`]) {
        writeFileSync(path, text);
        assert.equal(hold(path), "held", text);
        release([path]);
    }
    assert.equal(hold("/nosuch/lock"), "gone");
});

test("runs that end leave no locks, nor their folder, and each had its lock", async (it) => {
    const clone = new InClone(it), folder = folderOf(it), child = join(clone.top, "child.mjs");
    writeFileSync(child, `import { lock, unlock } from "./shell/terminal/locks.js";
import { read } from "./shell/both/words.js";
for (let times = 0; times < 200; times++) {
    const held = lock(read(["draw", "one.xml", "--log", "log" + process.argv[2]]));
    if (held.length !== 1) throw new Error("no lock");
    unlock(held);
}
`);
    const how = clone.how({ TMPDIR: folder });
    const jobs = ["1", "2", "3"].map((number) => new Started(spawn(process.execPath, [child, number], how)));
    assert.deepEqual(await Promise.all(jobs.map((job) => job.ended)), [0, 0, 0], jobs.map((job) => job.err).join(""));
    assert.deepEqual(readdirSync(folder), []);
});

test("locks of runs that are gone don't pile up, and a young one may be just begun", (it) => {
    const folder = folderOf(it), old = new Date(Date.now() - 3600_000), mine = join(folder, "mine");
    assert.equal(hold(mine), "held");
    for (const [name, isOld] of /** @type {[string, boolean][]} */ ([["gone", true], ["empty", true], ["young", false]])) {
        writeFileSync(join(folder, name), name === "gone" ? "999999999 1" : "");
        if (isOld) {
            utimesSync(join(folder, name), old, old);
        }
    }
    utimesSync(mine, old, old);
    sweep(folder);
    assert.deepEqual(readdirSync(folder).sort(), ["mine", "young"]);
});

test("folders that four runs make at once", async (it) => {
    const folder = folderOf(it);
    const script = `import { makeFolders } from ${JSON.stringify(new URL("../terminal/files.js", import.meta.url).href)};
for (let number = 0; number < 500; number++) { makeFolders(\`${folder}/\${number}/some/more\`); }`;
    const jobs = [1, 2, 3, 4].map(() => new Started(spawn(process.execPath, ["--input-type=module", "-e", script])));
    for (const job of jobs) {
        assert.equal(await job.ended, 0, job.err);
    }
    assert.equal(readdirSync(folder).length, 500);
});
