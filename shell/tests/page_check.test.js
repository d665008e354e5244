/** Pages that are judged: a sound one, and one for each thing that somebody may have changed. */
import assert from "node:assert/strict";
import { createHash } from "node:crypto";
import { readFileSync } from "node:fs";
import { test } from "node:test";
import { inWords, judgePage } from "../both/page/page_check.js";

const EXAMPLES = new URL("../../examples/", import.meta.url);
const file = new Uint8Array(readFileSync(new URL("station.xml", EXAMPLES))), sheet = readFileSync(new URL("station.sheet", EXAMPLES), "utf8");
const graph = readFileSync(new URL("station.graph", EXAMPLES), "utf8"), hints = new TextEncoder().encode("hints");
const sum = (/** @type {Uint8Array | string} */ bytes) => createHash("sha256").update(bytes).digest("hex");
const sha256 = async (/** @type {Uint8Array} */ bytes) => sum(bytes);

/**
 * a program that knows the example's answers, and judges by them
 * @type {import("../both/engine.js").Engine}
 */
const engine = {
    kind: "native",
    async run({ words, files = new Map() }) {
        const isOwn = sum(files.get("station.xml") ?? "") === sum(file), isSheet = sum(files.get("station.sheet") ?? "") === sum(sheet);
        const answers = {
            graph: isOwn ? graph : "topology 3 Missing at 1 pos\n", verify: isOwn && isSheet ? "lawful 2 2 3 7\n" : "broken law 4 node 6\n",
            recheck: isOwn && isSheet && sum(files.get("station.hints") ?? "") === sum(hints) ? "certified 4\n" : "check NotImplied line 3\n",
        };
        const output = new TextEncoder().encode(answers[/** @type {"graph" | "verify" | "recheck"} */ (words[0])]);
        return { status: 0, output, files: new Map(), seconds: 0, wasStopped: false };
    },
};

/** @returns {any} */
const record = () => ({
    words: ["draw", "station.xml"], names: ["station.xml"], options: new Map(), output: sheet, status: 0, graphs: [graph], sheetHash: sum(sheet),
    inputs: [{ facts: { name: "station.xml", sha256: sum(file), size: file.length, date: null, why: "" }, content: file }],
    build: { state: "proved", sha256: "" },
});

/**
 * @param {any} changed
 * @param {Uint8Array | null} [lines]
 */
const wordsOf = async (changed, lines = hints) => inWords(changed, await judgePage(changed, lines, engine, sha256));

test("a sound page is said to be what it is, and no more", async () => {
    assert.equal(await wordsOf(record()),
        "lawful: checked here · none better in height, bends, diagonal, width: certified here · made by a program whose proofs passed: as its maker says");
    assert.equal(await wordsOf(record(), null),
        "lawful: checked here · none better in height, bends, diagonal, width: not certified here · made by a program whose proofs passed: as its maker says");
    assert.match(await wordsOf({ ...record(), build: { state: "unproved", sha256: "" } }), / · made by a program without proofs: as its maker says$/);
});

/**
 * what is said of a page whose sheet ends so, where its hints certify what that claims
 * @param {string} ending @param {string} certified what recheck answers
 */
async function saidWhereEnded(ending, certified) {
    const ended = sheet.replace("end best", ending), changed = { ...record(), output: ended, sheetHash: sum(ended) };
    /** @type {import("../both/engine.js").Engine} */
    const judge = { kind: "native", run: async (job) => {
        const answers = { graph, verify: "lawful 2 2 3 7\n", recheck: `${certified}\n` };
        const output = new TextEncoder().encode(answers[/** @type {"graph" | "verify" | "recheck"} */ (job.words[0])]);
        return { status: 0, output, files: new Map(), seconds: 0, wasStopped: false };
    } };
    return inWords(changed, await judgePage(changed, hints, judge, sha256)).replace(/ · made by.*/, "");
}

test("of a search that stopped no more is said than it settled", async () => {
    assert.equal(await saidWhereEnded("end conflicts 0", "certified 0"), "lawful: checked here · the search stopped, and claims nothing more");
    assert.equal(await saidWhereEnded("end conflicts 2", "certified 2"), "lawful: checked here · none better in height, bends: certified here");
    assert.equal(await saidWhereEnded("end room 1", "certified 1"), "lawful: checked here · none better in height: certified here");
    assert.match(await saidWhereEnded("end conflicts 2", "certified 1"), /^don't use this page: .* certify what the sheet claims: certified 1$/);
    assert.match(await saidWhereEnded("end best", "certified 2"), /^don't use this page: .* certify what the sheet claims: certified 2$/);
});

test("where no drawing is lawful, that is what is certified", async () => {
    const none = "railplan 2\ngrid 40 1 1\norder height bends diagonal width\nend none\n", changed = { ...record(), output: none, sheetHash: sum(none) };
    /** @type {import("../both/engine.js").Engine} */
    const judge = { kind: "native", run: async (job) => ({ status: 0, files: new Map(), seconds: 0, wasStopped: false,
        output: new TextEncoder().encode(job.words[0] === "graph" ? graph : "certified 0\n") }) };
    assert.match(inWords(changed, await judgePage(changed, hints, judge, sha256)), /^no drawing keeps the laws on this grid: certified here · /);
    assert.match(inWords(changed, await judgePage(changed, null, judge, sha256)), /^no drawing keeps the laws on this grid: not certified here · /);
});

test("each change is seen", async () => {
    const other = new TextEncoder().encode(new TextDecoder().decode(file).replace("12520", "12521"));
    const [input] = record().inputs, changes = new Map([
        ["file", { inputs: [{ ...input, content: other }] }],
        ["file and its hash", { inputs: [{ facts: { ...input.facts, sha256: sum(other) }, content: other }] }],
        ["no file", { inputs: [{ ...input, content: null }] }],
        ["graph", { graphs: [graph.replace("upper", "lower")] }],
        ["sheet", { output: sheet.replace("node 6 W3 ", "node 6 W3 1") }],
        ["sheet and its hash", { output: sheet.replace("values 2", "values 1"), sheetHash: sum(sheet.replace("values 2", "values 1")) }],
        ["verify's answer", { words: ["verify", "station.xml", "x"], output: "lawful 1 2 3 7\n", inputs: [input, { facts: input.facts,
            content: new TextEncoder().encode(sheet) }] }],
    ]);
    for (const [name, change] of changes) {
        assert.match(await wordsOf({ ...record(), ...change }), /^don't use this page: it isn't so that /, name);
    }
    assert.match(await wordsOf(record(), new TextEncoder().encode("others")), /certify what the sheet claims: check NotImplied line 3$/);
});

test("a page of hinted lines rechecks them, and says so where they certify nothing", async () => {
    const sheetBytes = new TextEncoder().encode(sheet);
    const of = (/** @type {string} */ output) => ({ ...record(), words: ["recheck", "a", "b", "c"], output, sheetHash: "", inputs: [
        record().inputs[0], ...[sheetBytes, hints].map((content) => ({ facts: { sha256: sum(content) }, content }))] });
    assert.match(await wordsOf(of("certified 4\n")), /^lawful: checked here · none better in height, bends, diagonal, width: certified here · /);
    assert.match(await wordsOf(of("certified 3\n")), /^don't use this page: it isn't so that the program's answer is the one/);
    const others = new TextEncoder().encode("others"), refused = of("check NotImplied line 3\n");
    refused.inputs[2] = { facts: { sha256: sum(others) }, content: others };
    assert.match(await wordsOf(refused, others), /^lawful: checked here · none better in .*: its hints don't certify it · /);
    assert.match(await wordsOf(of("certified 4\n"), others), /^don't use this page: it isn't so that the hinted lines are those of the SHA-256/);
});

test("values that the drawing hasn't are seen where the program takes the sheet", async () => {
    const changed = sheet.replace("values 2 2 3 7", "values 2 2 3 6");
    /** @type {import("../both/engine.js").Engine} */
    const lenient = { kind: "native", run: async (job) => engine.run({ ...job, files: new Map([...job.files ?? [],
        ...(job.files?.has("station.sheet") ? [/** @type {[string, Uint8Array]} */ (["station.sheet", new TextEncoder().encode(sheet)])] : [])]) }) };
    const verdict = await judgePage({ ...record(), output: changed, sheetHash: sum(changed) }, null, lenient, sha256);
    assert.deepEqual(verdict.findings.filter((it) => !it.isRight).map((it) => it.what), ["its values are its own"]);
});
