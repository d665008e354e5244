/**
 * A run's answer as one object of plain fields, for other programs: `--json` prints it, and index.js gives it. Each field is listed in
 * answer_fields.js, which docs/formats/json.md shows. The program's own text is in it to the byte; what is said of it is no part of what is
 * proved.
 */
import { ENDINGS } from "./manual.js";
import { isAnswer, linesOf, notesOf } from "./messages/telling.js";
import { NoPage, VALUES, readFront, readGraph, readMoved, readSignals, readVerdict, readWhy } from "./page/texts.js";
import { VERSION } from "./version.js";

/** @typedef {import("./messages/telling.js").Run} Run */
/** @typedef {import("./notes.js").Note} Note */
/** @typedef {import("./page/texts.js").Drawing} Drawing */
/** @typedef {import("./page/texts.js").Values} Values */
/** @typedef {{state: "proved" | "unproved" | "unknown", form: "native" | "wasm", sha256: string, kit: string}} Ran which program ran:
 * `unknown` is one that something else than railplan built, of which nothing is known to be proved */
/** @typedef {{sentence: string, file: string | null, line: number | null, column: number | null}} Said what is said of a run, as on
 * standard error, and the place in a file where it is about one */
/** @typedef {Said & {kind: string, number: number | null, name: string, place: number | null, remedy: string}} Fault `remedy` is the part
 * of the sentence that comes behind its first full stop */
/** @typedef {object} Common the fields that each answer has
 * @property {string} railplan the version
 * @property {string[]} words
 * @property {number} status
 * @property {string} means
 * @property {Ran | null} program
 * @property {string} output
 * @property {Fault | null} fault
 * @property {Said[]} notes */
/** @typedef {Common & {[field: string]: any}} Answer these, and those of the command */

const STOPPED = 130;
const BEHIND_FIRST = /[.?] (?=[A-Z`])/;
const decoder = new TextDecoder("utf-8", { ignoreBOM: true });

/** @param {Drawing | null} drawing */
function drawn(drawing) {
    const nodes = drawing?.nodes.map(({ number, name, point: [x, y], mileage }) => ({ number, name, x, y, mileage })) ?? null;
    return { nodes, edges: drawing?.edges ?? null };
}

/** @param {Values} values @returns {Values | null} */
function measured(values) {
    return VALUES.every((it) => it in values) ? values : null;
}

/** @param {number[]} grid */
function gridOf([width, height, least]) {
    return { width, height, least };
}

/** @param {[string, number][]} parties */
function partiesOf(parties) {
    return parties.map(([kind, number]) => ({ kind, number }));
}

/** @param {string} text */
function ofSheet(text) {
    const { sheet: { grid, order, drawing, values, ending: [word, settled] }, signals } = readSignals(text);
    const sheet = { grid: gridOf(grid), order, ...drawn(drawing), values: measured(values),
        ending: { word, settled: settled === undefined ? null : Number(settled) } };
    return { sheet, signals: signals.map(({ number, name, edge, point: [x, y] }) => ({ number, name, edge, x, y })) };
}

/** @param {string} text */
function ofGraph(text) {
    const { nodes, edges, above } = readGraph(text);
    return { graph: { nodes: nodes.map(({ legs, side, ...it }) => ({ ...it, legs: legs || null, side: side || null })), edges,
        above: [...above].map((pair) => pair.split(" ").map(Number)) } };
}

/** @param {string} text */
function ofMoved(text) {
    const { grid, moved, of, drawing, values, ending } = readMoved(text);
    const found = drawing ? { count: moved, of } : { count: null, of: null };
    return { moved: { ...found, grid: gridOf(grid), ...drawn(drawing), values: measured(values), ending } };
}

/** @param {string} text */
function ofWhy(text) {
    const { laws, without, ending } = readWhy(text), [, word] = ending.split(" ");
    return { explanation: { ending: word ?? "why",
        laws: laws.map(({ number, parties }, at) => ({ law: number, parties: partiesOf(parties), without: drawn(without[at]) })) } };
}

/** @param {string} text @returns {object} what a judge says of a sheet's drawing, or of a certificate */
function ofJudge(text) {
    const [word, ...rest] = text.trimEnd().split(" "), numbers = rest.map(Number);
    if (word === "certified") {
        return { certificate: { settled: numbers[0] } };
    }
    if (word === "trimmed") {
        return { trimmed: { learnt: numbers[0], kept: numbers[1] } };
    }
    if (!["lawful", "broken"].includes(word)) {
        return {};
    }
    const law = readVerdict(text);
    const values = law ? null : Object.fromEntries(VALUES.map((it, at) => [it, numbers[at]]));
    return { verdict: { lawful: !law, values, law: law?.number ?? null, parties: law ? partiesOf(law.parties) : [] } };
}

/** @param {string} text */
function ofTrial(text) {
    const [, number, word, ...rest] = text.trimEnd().split(" "), isBest = word === "nodes";
    const [nodes, edges, height, width] = [0, 2, 4, 6].map((at) => isBest ? Number(rest[at]) : null);
    return { trial: { number: Number(number), nodes, edges, height, width, ending: isBest ? "best" : word } };
}

/** the fields of each command's answer, out of what the program printed; what make prints is the file itself
 * @type {Map<string, (text: string) => object>} */
const FIELDS = new Map([
    ["draw", (text) => ({ sheet: ofSheet(text).sheet })], ["signals", ofSheet], ["graph", ofGraph], ["redraw", ofMoved],
    ["front", (text) => ({ front: readFront(text) })], ["explain", ofWhy], ["verify", ofJudge], ["check", ofJudge], ["trim", ofJudge],
    ["recheck", ofJudge], ["trial", ofTrial],
]);

/**
 * The fields of the command; none where the program printed no answer.
 * @param {string} command @param {string} text
 * @returns {object}
 */
function fieldsOf(command, text) {
    try {
        return FIELDS.get(command)?.(text) ?? {};
    } catch (error) {
        if (error instanceof NoPage) {
            return {};
        }
        throw error;
    }
}

/**
 * What is said, and its place.
 * @param {Note} note
 * @returns {Said}
 */
function saidOf({ text, place }) {
    return { sentence: text, file: place?.name ?? null, line: place?.line ?? null, column: place?.column ?? null };
}

/**
 * What is said of a fault, by its line and its note; what to do comes behind the first sentence.
 * @param {ReturnType<typeof faultOf>} fault @param {Said} said
 * @returns {Fault}
 */
function faultSaid(fault, said) {
    const found = BEHIND_FIRST.exec(said.sentence);
    return { ...fault, ...said, remedy: found ? said.sentence.slice(found.index + 2) : "" };
}

/**
 * What a fault line says: its kind, the number and the name of the fault, and its place: a byte counted from 0 of a railML file, a line
 * or a word counted from 1, the number of a file, or a place in the order.
 * @param {string[]} fields
 * @returns {{kind: string, number: number | null, name: string, place: number | null}}
 */
function faultOf([kind, ...rest]) {
    if (kind === "old") {
        return faultOf(rest);
    }
    const numberAt = (/** @type {string} */ word) => {
        const at = rest.indexOf(word);
        return at >= 0 && /^\d+$/.test(rest[at + 1]) ? Number(rest[at + 1]) : null;
    };
    switch (kind) {
        case "read":
        case "long":
            return { kind, number: null, name: "", place: Number(rest.at(-1)) };
        case "broken":
            return { kind: "law", number: Number(rest[1]), name: "", place: null };
        case "check":
            return { kind, number: null, name: rest[0], place: Number(rest[2]) };
        case "trim":
            return { kind, number: null, name: rest[0], place: null };
        case "words":
            return { kind, number: Number(rest[0]), name: rest[1], place: Number(rest[2]) };
        case "text":
        case "topology":
        case "signal":
            return { kind, number: Number(rest[0]), name: rest[1], place: numberAt("at") };
        case "sheet":
        case "log":
        case "hints":
            return { kind, number: Number(rest[0]), name: rest[1], place: numberAt("line") };
        case "graph":
        case "order":
            return { kind, number: Number(rest[0]), name: rest[1], place: null };
        default:
            return { kind: "run", number: null, name: "", place: null };
    }
}

/** @param {number} status @returns {string} how a run with this status ends */
function meaningOf(status) {
    return new Map(ENDINGS).get(String(status)) ?? (status > 128 ? `the program was ended by signal ${status - 128}` : "");
}

/**
 * The answer of a run of the program.
 * @param {Run} run @param {Ran | null} program which one ran; none where the words or a file were refused before
 * @returns {Promise<Answer>}
 */
export async function answerOf(run, program) {
    const { line, status } = run, said = linesOf(run.output), output = decoder.decode(run.output);
    const hasAnswer = isAnswer(status, said);
    const notes = status === STOPPED ? [] : (await notesOf(run)).map(saidOf);
    const common = { railplan: VERSION, words: line.words, status, means: meaningOf(status), program, output };
    const fields = hasAnswer || said[0]?.startsWith("broken law ") ? fieldsOf(line.command, output) : {};
    if (hasAnswer) {
        return { ...common, fault: null, notes, ...fields };
    }
    const [first = saidOf({ text: meaningOf(status) }), ...others] = notes;
    return { ...common, fault: faultSaid(faultOf(said.at(-1)?.split(" ") ?? []), first), notes: others, ...fields };
}

/**
 * The answer where the launcher ends a run before the program, with a sentence.
 * @param {string[]} words @param {number} status @param {string} sentence
 * @returns {Answer}
 */
export function refusalOf(words, status, sentence) {
    return { railplan: VERSION, words, status, means: meaningOf(status), program: null, output: "",
        fault: faultSaid({ kind: "launcher", number: null, name: "", place: null }, saidOf({ text: sentence })), notes: [] };
}
