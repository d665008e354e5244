/** Runs of stored texts, from which tests make pages without the program. */
import { createHash } from "node:crypto";
import { existsSync, readFileSync, readdirSync } from "node:fs";
import { fileURLToPath } from "node:url";
import { read as readFile } from "../../both/infrastructure.js";
import { notShown } from "../../both/messages/not_shown.js";
import { notesOf } from "../../both/messages/telling.js";
import { make } from "../../both/page/kinds.js";
import { INPUTS, Run } from "../../both/page/run.js";
import { Station } from "../../both/page/station.js";
import { readFront, readGraph, readSheet, sheetPart } from "../../both/page/texts.js";
import { read } from "../../both/words.js";

/** @typedef {import("../../both/page/run.js").RunRecord} RunRecord */
/** @typedef {Partial<RunRecord> & {files?: Map<string, string | Uint8Array>}} More what a run has beside its words and output
 * */

export const TOP = fileURLToPath(new URL("../../..", import.meta.url));
export const SAMPLES = fileURLToPath(new URL("samples", import.meta.url));
export const DATE = 1_700_000_000;

/** @type {(name: string) => string} a file of the repository, as a text */
export const stored = (name) => readFileSync(existsSync(`${SAMPLES}/${name}`) ? `${SAMPLES}/${name}` : TOP + name, "utf8");

/** @type {(bytes: string | Uint8Array) => string} */
export const hashOf = (bytes) => createHash("sha256").update(bytes).digest("hex");

/** @param {string} name @returns {string | null} */
function ifStored(name) {
    return existsSync(`${SAMPLES}/${name}`) || existsSync(TOP + name) ? stored(name) : null;
}

/** @param {string} name @param {string | Uint8Array | undefined} given @returns {import("../../both/page/run.js").Input} */
export function inputOf(name, given) {
    const content = given ?? ifStored(name);
    if (content === null) return { facts: { name, sha256: "", size: 0, date: null, why: "It couldn't be read." }, content };
    const bytes = new Uint8Array(Buffer.from(content));
    return { facts: { name, sha256: hashOf(bytes), size: bytes.length, date: DATE, why: "" }, content: bytes };
}

/**
 * A run of these words with this output; files that aren't given are samples or examples.
 * @param {string[]} words
 * @param {string} output
 * @param {More} [how]
 * @returns {Run}
 */
export function runOf(words, output, how) {
    const { files = new Map(), ...more } = /** @type {More} */ (how ?? {});
    const line = read(words);
    const inputs = line.names.slice(0, INPUTS.get(line.command) ?? 0).map((name) => inputOf(name, files.get(name)));
    const graphs = inputs.slice(0, 2).map(({ facts: { name } }) => ifStored(name.replace(/\.\w+$/, ".graph")));
    const hash = /^end /m.test(output) ? hashOf(sheetPart(output)) : "";
    const shown = inputs[0]?.content ? notShown(inputs[0].content, line, output.split("\n"), true) : [];
    return new Run({ words, output, names: line.names, options: line.options, inputs, graphs, date: DATE, sheetHash: hash,
        notShown: shown, ...more });
}

/** @type {(words: string[], output: string, more?: More) => import("../../both/page/page.js").Page} */
export const pageOf = (words, output, more) => make(runOf(words, output, more));

/**
 * A stored run: the words in the first line, and drawings of pairs before them; then the output.
 * @param {string} name
 * @param {More} [more]
 * @returns {Run}
 */
export function sample(name, more) {
    const [first, ...rest] = stored(`${name}.run`).split("\n");
    const [words, output] = [first.split(" ").map((it) => it.replace(/^'|'$/g, "")), rest.join("\n")];
    const drawings = [];
    while (words[0] === "--drawing") drawings.push(stored(words.splice(0, 2)[1]));
    const run = runOf(words, output, more);
    for (const text of drawings) {
        const { values } = readSheet(text);
        run.record.drawings.set(String(readFront(output).criteria.map((it) => values[it])),
            { words: ["draw", words[1]], text });
    }
    return run;
}

/** A run with two signals on a line that rises and falls, over columns that differ in width. */
export function sloping() {
    const run = sample("signals");
    run.record.output = run.record.output.replace("4 0 5 1 7 1 8 0", "4 0 6 2 8 0").replace("3 6 1", "3 7 1")
        .replace(/ \w+ (1 [56] 0)$/gm, " its-name-asks-for-room $1");
    return run;
}

/** @returns {string[]} the names of the stored runs */
export function samples() {
    return readdirSync(SAMPLES).filter((it) => it.endsWith(".run")).map((it) => it.slice(0, -4)).sort();
}

/** @returns {[string, string][]} the stored sheets of made stations, each with its number */
export function madeSheets() {
    const parts = stored("../made.txt").split(/^make (\d+)\n/m).slice(1);
    return Array.from({ length: parts.length / 2 }, (_, at) => [parts[2 * at], parts[2 * at + 1]]);
}

/** @type {(xml: string, graph?: string, labels?: string) => Station} */
export const stationOf = (xml, graph = "", labels = "name") =>
    new Station(graph ? readGraph(graph) : null, readFile(new TextEncoder().encode(xml)), labels);

/** @type {(more?: More) => Run} the run of README's example */
export const example = (more) => runOf(["draw", "examples/station.xml"], stored("examples/station.sheet"), more);

/**
 * The run of a fault, with what the launcher says of it.
 * @param {string} output
 * @param {number} [status]
 * @param {string[]} [words]
 * @param {Map<string, string | Uint8Array>} [files]
 * @returns {Promise<Run>}
 */
export async function faultOf(output, status = 1, words = ["draw", "x.xml"], files = new Map()) {
    const run = runOf(words, `${output}\n`, { status, files, graphs: [] });
    const bytes = (/** @type {string} */ name) => run.record.inputs.find((it) => it.facts.name === name)?.content ?? null;
    /** @type {import("../../both/messages/seen.js").Seen} */
    const seen = { bytes, kind: () => "", names: () => [], why: () => "",
        line: (name, number) => Buffer.from(bytes(name) ?? []).toString().split("\n")[number - 1] ?? "" };
    const notes = await notesOf({ line: read(words), status, output: Buffer.from(run.record.output), called: "./railplan", seen,
        graph: async () => [] });
    run.record.notes = notes.map(({ text, place }) => ({ text, file: place?.name ?? "", line: place?.line ?? 0 }));
    return run;
}
