/** A certificate on the desk: the log of a search is trimmed, and what is left of it is checked. */
import { linesOf } from "../both/messages/telling.js";

/** @typedef {import("../both/engine.js").Ran} Ran */

const SHEET = "station.sheet", LOG = "search.log", HINTS = "station.hints";

/**
 * @param {(words: string[], files: [string, Uint8Array][]) => Promise<Ran>} program a run over the station and these files
 * @param {string} file the station's name
 * @param {Uint8Array} sheet
 * @param {Uint8Array} log
 * @returns {Promise<{said: string, hints: Uint8Array | undefined}>} what recheck answers, or why there is no answer; and the hinted
 *     lines, where there are any
 */
export async function certified(program, file, sheet, log) {
    const trimmed = await program(["trim", file, SHEET, LOG, HINTS], [[SHEET, sheet], [LOG, log]]), hints = trimmed.files.get(HINTS);
    const ran = trimmed.status === 0 && hints ? await program(["recheck", file, SHEET, HINTS], [[SHEET, sheet], [HINTS, hints]]) : trimmed;
    return { said: linesOf(ran.output).join("\n").trim() || `ended with ${ran.status}`, hints: trimmed.status === 0 ? hints : undefined };
}
