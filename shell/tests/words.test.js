/** The words: the table and the faults are those of the program; page words count before and behind the command. */
import assert from "node:assert/strict";
import { spawnSync } from "node:child_process";
import { readFileSync } from "node:fs";
import { test } from "node:test";
import { PROGRAM, hasProgram } from "./clone.js";
import { TOP } from "./clones.js";
import * as words from "../both/words.js";

/**
 * the rows of a case
 * @param {string} title @returns {string[][]}
 */
function rowsOf(title) {
    const text = readFileSync(`${TOP}/cases/words/faults.txt`, "utf-8"), begun = text.slice(text.indexOf(`case ${title}\n`));
    const rows = begun.slice(begun.indexOf("\neach ") + 1).split("\n").slice(1);
    return rows.slice(0, rows.findIndex((it) => !it.startsWith("  "))).map((it) => it.split("|").map((part) => part.trim()));
}

/**
 * the words of a line, as a shell parts them
 * @param {string} line @returns {string[]}
 */
function parted(line) {
    return [...line.matchAll(/'([^']*)'|"([^"]*)"|(\S+)/g)].map((it) => it[1] ?? it[2] ?? it[3]);
}

test("rows of the cases", () => {
    const rows = rowsOf("Words with a fault");
    assert.ok(rows.length > 80);
    for (const [line, fault] of rows) {
        assert.equal(words.fault(parted(line))?.line(), `words ${fault}`, line);
    }
});

test("rows of the cases with values", () => {
    for (const [option, value] of rowsOf("Values that aren't allowed")) {
        assert.equal(words.fault(parted(`draw one.xml --${option} ${value}`))?.line(), "words 7 BadValue 4",
            `${option} ${value}`);
    }
});

test("made words as the program judges them", { skip: !hasProgram }, () => {
    const pool = ["a", "b", "", "--log", "--svg", "--width", "4", "0", "65", "height,width", "--order", "height", "--", "--x"];
    let seed = 50;
    const made = (/** @type {number} */ most) => (seed = seed * 1103515245 + 12345 & 0x7fffffff) % most;
    const commands = [...words.COMMANDS.keys(), "drow"].filter((it) => it !== "trial");
    const some = () => Array.from({ length: made(6) }, () => pool[made(pool.length)]);
    const lines = commands.flatMap((it) => Array.from({ length: 6 }, () => [it, ...some()]));
    for (const line of [[], ...lines]) {
        const said = spawnSync(PROGRAM, line, { cwd: "/", encoding: "utf-8" }).stdout.split("\n")[0], found = words.fault(line);
        assert.equal(said.startsWith("words ") ? said : undefined, found?.line(), line.join(" "));
    }
});

test("words without a fault", () => {
    for (const line of ["draw a", "draw --svg s a --log l", "front a width,bends", "make 0", "redraw a a s", "trim a s l h",
        "draw -",
        "draw a --order width"]) {
        assert.equal(words.fault(line.split(" ")), null, line);
    }
});

test("page words before and behind", () => {
    for (const line of ["--html p draw a --width 5", "draw a --width 5 --html p", "draw a --html p --width 5",
        "draw --html p a --width 5"]) {
        assert.equal(words.read(line.split(" ")).inOrder().join(" "), "--html p draw a --width 5");
    }
});

test("--html comes first", () => {
    const line = words.read("--unproved draw a --dxf d --html p --paper A3".split(" "));
    assert.equal(line.inOrder().join(" "), "--html p --dxf d --paper A3 --unproved draw a");
    assert.deepEqual(line.filesWritten.map((it) => [it.word, it.kind]), [["d", "dxf"], ["p", "page"]]);
});

test("a value is no page word", () => {
    const line = words.read("draw a --svg --html --log --help".split(" "));
    assert.deepEqual([line.pages.size, line.asksHelp], [0, false]);
    assert.deepEqual([...line.options], [["--svg", "--html"], ["--log", "--help"]]);
});

test("a page word without its value", () => {
    const line = words.read(["draw", "a", "--html"]);
    assert.deepEqual([line.lacking, line.words], ["--html", ["draw", "a"]]);
});

test("help is seen", () => {
    for (const line of ["draw --help", "--help", "-h", "draw a --help", "--unproved --help"]) {
        assert.ok(words.read(line.split(" ")).asksHelp, line);
    }
    assert.ok(!words.read(["draw", "-h"]).asksHelp);
});

test("files", () => {
    const line = words.read("redraw a --log l b s --width 3".split(" "));
    assert.deepEqual(line.filesRead.map((it) => [it.word, it.kind, it.at]), [["a", "railml", 1], ["b", "railml", 4], ["s",
        "sheet", 5]]);
    assert.deepEqual(line.filesWritten.map((it) => [it.word, it.kind, it.at]), [["l", "log", 3]]);
    assert.deepEqual(words.read("trim a s l h".split(" ")).filesWritten.map((it) => it.word), ["h"]);
    const front = words.read("front a height,width".split(" "));
    assert.deepEqual([front.filesWritten, front.filesRead.map((it) => it.word)], [[], ["a"]]);
});

test("unknown commands have no files", () => {
    assert.deepEqual(words.read("drow a --log l".split(" ")).files(), []);
});

test("options of commands are in the table", () => {
    for (const command of words.COMMANDS.values()) {
        assert.ok(command.options.every((it) => words.OPTIONS.has(it)), command.word);
    }
    for (const command of words.OWN.values()) {
        assert.ok(command.options.every((it) => words.OWN_OPTIONS.has(it) || words.OPTIONS.has(it)), command.word);
    }
});

test("a folder has the options of draw but those of files", () => {
    const own = words.OWN.get("folder")?.options ?? [];
    assert.deepEqual(words.COMMANDS.get("draw")?.options.filter((it) => !own.includes(it)), ["--svg", "--log"]);
});

test("no word has two meanings", () => {
    const tables = [words.COMMANDS, words.OWN, words.OPTIONS, words.OWN_OPTIONS,
        words.PAGE_WORDS].flatMap((it) => [...it.keys()]);
    // a page carries its certificate, and a folder its stations'
    const twice = tables.filter((word, at) => tables.indexOf(word) !== at);
    assert.deepEqual(twice, ["--certify"]);
});

test("the table of options is that of the documents", () => {
    const text = readFileSync(`${TOP}/docs/formats/words.md`, "utf-8");
    const rows = [...text.matchAll(/^\| `(--\w+)` \| [^|]+ \| ([^|]+) \| ([^|]+) \|$/gm)];
    assert.deepEqual(rows.map((it) => it[1]), [...words.OPTIONS.keys()]);
    for (const [, word, value, usual] of rows) {
        const option = words.OPTIONS.get(word);
        if (option?.takes === "number") {
            assert.deepEqual([value, usual], [`${option.low} to ${option.high}`, option.usual]);
        }
    }
});
