/** Says what a run's end means. */
import { notesOf } from "../both/messages/telling.js";
import { show } from "../both/notes.js";
import { called, coloured, writeError } from "./say.js";
import { SEEN } from "./seen_files.js";

/** @typedef {import("../both/engine.js").Engine} Engine */
/** @typedef {import("../both/words.js").Line} Line */

const decoder = new TextDecoder();

/**
 * The lines of the track graph of a file; none where they can't be had.
 * @param {Engine | null} engine @param {string} name @param {AbortSignal} [signal]
 * @returns {Promise<string[]>}
 */
export async function graphOf(engine, name, signal) {
    const ran = await engine?.run({ words: ["graph", name], signal });
    return ran && !ran.status ? decoder.decode(ran.output).split("\n").slice(0, -1) : [];
}

/**
 * Says what a run's end means: the sentence of a fault, with its place, or what a drawing doesn't show.
 * @param {Line} line @param {{status: number, output: Uint8Array}} ran
 * @param {Engine | null} engine what runs the program, if it is there @param {AbortSignal} [signal]
 * @param {import("../both/messages/seen.js").Seen} [seen] what is seen of the run's files
 */
export async function tell(line, { status, output }, engine, signal, seen = SEEN) {
    const graph = () => graphOf(engine, line.filesRead[0]?.word, signal);
    for (const note of await notesOf({ line, status, output, called: called(), seen, graph })) {
        writeError(show(note, coloured));
    }
}
