/**
 * The run that a page shows, out of what the program printed: what further runs over the same files say, and what is said of a fault.
 */
import { notShown } from "../messages/not_shown.js";
import { linesOf, notesOf } from "../messages/telling.js";
import { ENDINGS } from "../manual.js";
import { PAGE_WORDS } from "../words.js";
import { Run } from "./run.js";
import { NoPage, readFront, readSheet, sheetPart } from "./texts.js";

/** @typedef {import("../words.js").Line} Line */
/** @typedef {import("./run.js").Drawn} Drawn */
/** @typedef {import("./run.js").RunRecord} RunRecord */
/** @typedef {import("./texts.js").Front} Front */
/** @typedef {{status: number, output: Uint8Array}} Ended */
/** @typedef {object} Around what is around the run, in a terminal or on a desk
 * @property {string} called how railplan is called, to be typed again
 * @property {import("../messages/seen.js").Seen} seen
 * @property {(words: string[]) => Promise<Ended>} ask a further run over the same files
 * @property {(bytes: Uint8Array) => Promise<string>} sha256 */

const encoder = new TextEncoder();

/**
 * What is asked of the pictures, by the page words that are given.
 * @param {Map<string, string>} pages
 * @returns {import("./run.js").Settings}
 */
export function settingsOf(pages) {
    const [paper, labels, side, east] = ["--paper", "--labels", "--side", "--east"].map((word) =>
        pages.get(word) ?? PAGE_WORDS.get(word)?.usual ?? "");
    return { paper, labels, side, east };
}

/** @type {(output: Uint8Array) => string} */
const textOf = (output) => new TextDecoder("utf-8", { ignoreBOM: true }).decode(output);

/**
 * The options with which draw gives the drawing of a pair; none where it gives none of that pair.
 * @param {Front} front
 * @param {number} number
 * @param {Map<string, string>} options
 * @returns {string[] | null}
 */
export function pairOptions({ criteria: [one, other], pairs, ending }, number, options) {
    const [pair, given] = [pairs[number], new Map(options)];
    /** @type {(criterion: string) => boolean} */
    const isSide = (criterion) => criterion === "height" || criterion === "width";
    if (isSide(one)) given.set(`--${one}`, String(pair[0])).set("--order", other);
    else if (isSide(other)) given.set(`--${other}`, String(pair[1])).set("--order", one);
    else if (number === 0) given.set("--order", `${one},${other}`);
    else if (number === pairs.length - 1 && ending === "whole") given.set("--order", `${other},${one}`);
    else return null;
    return [...given].flat();
}

/** @param {string} text @param {Front} front @param {[number, number]} pair @returns {boolean} */
function isDrawingOf(text, { criteria }, pair) {
    try {
        const { drawing, values } = readSheet(text);
        return drawing !== null && criteria.every((it, at) => values[it] === pair[at]);
    } catch (error) {
        if (error instanceof NoPage) return false;
        throw error;
    }
}

/**
 * For each pair of a front its drawing, where one is had.
 * @param {Line} line
 * @param {string} output
 * @param {Around["ask"]} ask
 * @returns {Promise<Map<string, Drawn>>}
 */
async function drawingsOf(line, output, ask) {
    const front = readFront(output);
    /** @type {Map<string, Drawn>} */
    const found = new Map();
    for (const [number, pair] of front.pairs.entries()) {
        const options = pairOptions(front, number, line.options);
        const words = ["draw", line.names[0], ...options ?? []];
        const ran = options && await ask(words);
        const text = ran && [0, 4].includes(ran.status) ? textOf(ran.output) : "";
        if (isDrawingOf(text, front, pair)) found.set(String(pair), { words, text });
    }
    return found;
}

/**
 * What is said of a fault.
 * @param {Line} line
 * @param {Ended} ended
 * @param {Around} around
 * @returns {Promise<import("./run.js").Said[]>}
 */
async function saidOf(line, { status, output }, { called, seen }) {
    const notes = await notesOf({ line, status, output, called, seen, graph: async () => [] });
    const plain = `The run ended with ${status}: ${new Map(ENDINGS).get(String(status)) ?? "no more is known"}.`;
    return (notes.length ? notes : [{ text: plain, place: null }]).map(({ text, place }) =>
        ({ text, file: place?.name ?? "", line: place?.line ?? 0 }));
}

/**
 * The run as its page needs it.
 * @param {Line} line
 * @param {Ended} ended
 * @param {Partial<RunRecord> & {inputs: RunRecord["inputs"]}} known what is known of it: its inputs, settings, program, date, names of
 *     files beside it
 * @param {Around} around
 * @returns {Promise<Run>}
 */
export async function recorded(line, ended, known, around) {
    const output = textOf(ended.output), { inputs } = known;
    const run = new Run({ words: line.words, names: line.names, options: line.options, output, status: ended.status, ...known });
    const { record } = run;
    if (!run.isAnswered) {
        record.notes = await saidOf(line, ended, around);
        return run;
    }
    for (const { facts } of inputs.slice(0, line.command === "redraw" ? 2 : 1)) {
        const ran = await around.ask(["graph", facts.name]);
        record.graphs.push(ran.status === 0 ? textOf(ran.output) : null);
    }
    if (line.command === "front") record.drawings = await drawingsOf(line, output, around.ask);
    if (inputs[0]?.content) record.notShown = notShown(inputs[0].content, line, linesOf(ended.output), true);
    if (output.startsWith("railplan ")) record.sheetHash = await around.sha256(encoder.encode(sheetPart(output)));
    return run;
}
