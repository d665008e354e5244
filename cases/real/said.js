/** What is said on standard error of a run over a file, as the launcher says it. */
import { linesOf, notesOf } from "../../shell/both/messages/telling.js";
import { read } from "../../shell/both/words.js";

/** what a file is called in a run */
export const NAME = "station.xml";
/** what of notes says that a drawing may be other than the station */
export const WARNINGS =
    /wrong side|isn't read|may lie|nothing says|joined at two mileages|jump|kilomet|radi|slip|confirms? the side|disagree|crossing/;

/**
 * The track graph of a file, as the program prints it, or its fault.
 * @param {import("../../shell/both/engine.js").Engine} engine @param {Uint8Array} data
 */
export function graphOf(engine, data) {
    return engine.run({ words: ["graph", NAME], files: new Map([[NAME, data]]) });
}

/**
 * What is said of a run over a file.
 * @param {import("../../shell/both/engine.js").Engine} engine @param {string[]} words @param {Uint8Array} data
 * @param {number} status @param {Uint8Array} output
 * @returns {Promise<string[]>}
 */
export async function saidOf(engine, words, data, status, output) {
    const seen = { bytes: () => data, line: () => "", kind: () => /** @type {const} */ ("other"), names: () => [], why: () => "" };
    const graph = async () => linesOf((await graphOf(engine, data)).output);
    const notes = await notesOf({ line: read(words), status, output, called: "railplan", seen, graph });
    return notes.map((it) => it.text);
}

/**
 * What is said of a file that is drawn.
 * @param {import("../../shell/both/engine.js").Engine} engine @param {Uint8Array} data
 * @returns {Promise<string[]>}
 */
export function saidOfDrawn(engine, data) {
    return saidOf(engine, ["signals", NAME], data, 0, new TextEncoder().encode("end best\n"));
}
