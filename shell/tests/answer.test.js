/** Answers as JSON have the fields that the table lists, and no others; the module gives the object that the launcher prints. */
import assert from "node:assert/strict";
import { spawnSync } from "node:child_process";
import { mkdtempSync, readFileSync, rmSync, writeFileSync } from "node:fs";
import { tmpdir } from "node:os";
import { test } from "node:test";
import table from "../both/answer_fields.js";
import { COMMANDS } from "../both/words.js";
import { open } from "../index.js";
import { Clone } from "../terminal/built.js";
import { programThere } from "../terminal/programs.js";
import { InClone, PLACE } from "./clones.js";
import { TOP, edited, signs } from "./clone.js";

/** @typedef {import("../both/answer.js").Answer} Answer */

/** whether a program of these sources is there, with proofs or without */
const hasProgram = await programThere(new Clone(TOP.replace(/\/$/, "")), false) !== null;
const FIELDS = new Map(table.map(([path, type]) => [String(path), String(type)]));
const TYPES = new Map([["text", "string"], ["number", "number"], ["yes or no", "boolean"], ["object", "object"]]);
const examples = (/** @type {string} */ name) => readFileSync(`${TOP}examples/${name}`);

/** what a run reads, by its words: faults of each kind, and each command's answers */
const FILES = new Map([...["one.xml", "one.sheet", "station.xml", "station.sheet", "station_changed.xml",
    "station_signals.xml"].map((it) => /** @type {[string, Uint8Array]} */ ([it, examples(it)])),
["wrong.xml", Buffer.from(edited(signs("examples/station.xml"), [["ref=\"W3.branch\"", "ref=\"W3.brnch\""],
    ["course=\"right\"", "course=\"up\""]]))],
["cut.xml", examples("station.xml").subarray(0, 500)],
["flat.sheet", Buffer.from(edited(signs("examples/station.sheet"), [["3 1 4 2 5 2 6 1", "3 1 6 1"], ["values 2 2 3 7",
    "values 1 0 1 7"]]))], ["hand.sheet", Buffer.from(edited(signs("examples/station.sheet"), [["values 2", "values 3"]]))],
["bad.log", Buffer.from("railplan-log 1\nf 1 0\n")], ["no.log", Buffer.from("railplan-log 1\n")]]);
const LINES = ["draw station.xml --log station.log", "draw one.xml", "draw station.xml --height 1", "draw station.xml --conflicts 5",
    "signals station_signals.xml", "graph station.xml", "front station.xml height,width", "explain station.xml --height 1",
    "explain station.xml", "redraw station_changed.xml station.xml station.sheet", "redraw one.xml one.xml one.sheet --width 1",
    "redraw station.xml station.xml station.sheet --width 2", "verify station.xml station.sheet", "verify station.xml flat.sheet",
    "check station.xml station.sheet station.log", "trim station.xml station.sheet station.log station.hints",
    "recheck station.xml station.sheet station.hints", "check station.xml flat.sheet station.log", "make 3", "trial 7",
    "trial 1", "draw wrong.xml", "draw cut.xml", "draw none.xml", "drow", "draw one.xml --width 99", "verify station.xml hand.sheet",
    "check station.xml station.sheet bad.log", "check station.xml station.sheet no.log", "redraw one.xml wrong.xml one.sheet"];

/**
 * Each field of an answer by its path, with its type; null has none.
 * @param {any} value @param {string} path @param {Map<string, Set<string>>} found
 */
function gather(value, path, found) {
    const type = value === null ? "null" : Array.isArray(value) ? "list" : typeof value;
    found.set(path, (found.get(path) ?? new Set()).add(type));
    const listed = FIELDS.get(path) ?? "";
    if (type === "list" && listed.startsWith("list of objects")) {
        value.forEach((/** @type {any} */ it) => gather(it, `${path}[]`, found));
    } else if (type === "list" && listed === "list of pairs") {
        value.forEach((/** @type {any} */ it) => assert.ok(it.length === 2 && it.every(Number.isInteger), path));
    } else if (type === "list" && listed === "list of texts") {
        value.forEach((/** @type {any} */ it) => assert.equal(typeof it, "string", path));
    } else if (type === "object") {
        Object.entries(value).forEach(([name, it]) => gather(it, path ? `${path}.${name}` : name, found));
    }
}

test("answers have the fields of the table, each of its type, and the table has no others", { skip: !hasProgram }, async () => {
    const railplan = await open(), files = new Map(FILES);
    /** @type {Map<string, Set<string>>} */
    const found = new Map();
    const seen = new Set();
    for (const words of LINES.map((it) => it.split(" "))) {
        const answer = await railplan.run(words, files);
        seen.add(words[0]);
        gather(answer, "", found);
        assert.equal(answer.fault === null, [0, 3, 4].includes(answer.status), words.join(" "));
    }
    assert.ok([...COMMANDS.keys()].every((it) => seen.has(it)));
    const objects = ["", ...[...FIELDS].filter(([, type]) => type.startsWith("list of objects")).map(([path]) => `${path}[]`)];
    assert.deepEqual([...found.keys()].filter((it) => !objects.includes(it)).sort(), [...FIELDS.keys()].sort());
    for (const [path, type] of FIELDS) {
        const plain = type.startsWith("list") ? "list" : TYPES.get(type.replace(" or null", ""));
        const allowed = [plain, type.endsWith("or null") ? "null" : ""];
        assert.ok([...found.get(path) ?? []].every((it) => allowed.includes(it)), `${path}: ${[...found.get(path) ?? []]}`);
    }
});

test("faults have their kind, place and what to do", { skip: !hasProgram }, async () => {
    const railplan = await open(), files = new Map(FILES);
    for (const [words, kind, number, name, place, file, line] of /** @type {[string, ...any[]][]} */ ([
        ["draw wrong.xml", "topology", 7, "UnknownRef", 1427, "wrong.xml", 20],
        ["draw cut.xml", "text", 9, "Unfinished", 477, "cut.xml", 9],
        ["draw none.xml", "read", null, "", 1, null, null], ["drow", "words", 2, "UnknownCommand", 1, null, null],
        ["draw one.xml --width 99", "words", 7, "BadValue", 4, null, null],
        ["verify station.xml hand.sheet", "sheet", 5, "Values", 22, "hand.sheet", 22],
        ["verify station.xml flat.sheet", "law", 4, "", null, "flat.sheet", 11],
        ["check station.xml station.sheet bad.log", "check", null, "Differs", 2, "bad.log", 2],
        ["check station.xml station.sheet no.log", "check", null, "Lacks", 1, null, null],
        ["redraw one.xml wrong.xml one.sheet", "topology", 7, "UnknownRef", 1427, "wrong.xml", 20]])) {
        const { fault } = await railplan.run(words.split(" "), files);
        assert.deepEqual([fault?.kind, fault?.number, fault?.name, fault?.place, fault?.file, fault?.line],
            [kind, number, name, place, file, line], words);
        assert.ok(fault?.sentence.endsWith(fault.remedy), words);
    }
    const { fault, notes } = await railplan.run(["draw", "wrong.xml"], files);
    assert.equal(fault?.remedy, "Did you mean W3.branch, which refers to it?");
    assert.match(notes[0].sentence, /lists 2 things/);
});

test("the launcher prints the object that the module gives", { skip: !hasProgram }, async (it) => {
    const folder = mkdtempSync(`${tmpdir()}/railplan-`), railplan = await open(), files = new Map(FILES);
    it.after(() => rmSync(folder, { recursive: true }));
    FILES.forEach((data, name) => writeFileSync(`${folder}/${name}`, data));
    for (const line of LINES.filter((text) => !/^(drow|trim)/.test(text))) {
        const ran = spawnSync(`${TOP}railplan`, ["--json", ...line.split(" ")], { cwd: folder, encoding: "utf8" });
        const printed = JSON.parse(ran.stdout), given = await railplan.run(line.split(" "), files);
        assert.equal(ran.status, given.status, line);
        const plain = (/** @type {Answer} */ answer) => JSON.stringify(answer).replaceAll(`${TOP}railplan --json`, "railplan")
            .replaceAll(`${TOP}railplan`, "railplan");
        assert.equal(plain(printed), plain(given), line);
    }
});

test("words of the launcher are refused, and a run is stopped", { skip: !hasProgram }, async () => {
    const railplan = await open(), stopped = AbortSignal.abort();
    for (const words of [["--html", "p", "draw", "one.xml"], ["folder", "a", "b"], ["--json", "draw", "one.xml"], ["draw", "--help"]]) {
        await assert.rejects(railplan.run(words, new Map(FILES)), TypeError);
    }
    const { status, fault } = await railplan.run(["draw", "one.xml"], new Map(FILES), stopped);
    assert.deepEqual([status, fault?.kind, fault?.sentence], [130, "run", "the run was stopped"]);
});

test("the example of the page", { skip: !hasProgram }, () => {
    const page = readFileSync(`${TOP}docs/formats/module.md`, "utf8"), example = /```js\n(.*?)```/s.exec(page)?.[1] ?? "";
    const ran = spawnSync("node", ["--input-type=module", "-"], { cwd: TOP, input: example, encoding: "utf8" });
    assert.match(ran.stdout, /^(proved|unproved|unknown) best 7 \d+\n$/, ran.stderr);
});

test("an installation has the module, and a clone without a program says what builds one", (it) => {
    const clone = new InClone(it), script = (/** @type {string} */ folder) =>
        `node --input-type=module -e 'import(process.env.HERE + "/${folder}shell/index.js").then((it) => it.open())`
        + `.then((it) => it.run(["graph", "one.xml"]))`
        + `.then((it) => console.log(it.program.state, it.output), (error) => console.log(error.message))'`;
    assert.match(clone.launchBy(script(""))[1], /^no program of these sources is built\. This builds one: .*\/railplan draw FILE\n$/);
    clone.script(PLACE, "#!/bin/sh\necho ran\n");
    assert.equal(clone.launch(["install", "prefix"])[0], 0);
    assert.equal(clone.launchBy(script("prefix/lib/railplan/"))[1], "unknown ran\n\n");
});
