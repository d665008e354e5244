/** The file of a line mended before it is cut, as far as it can be shown that each switch and crossing stays as it was. */
import { otherInFile } from "../mending/judge.js";
import { STRUCTURAL, mended } from "../prepare.js";
import { isRailml3 } from "../railml3/net.js";

/** @typedef {import("../mending/prepared.js").Prepared} Prepared */

/** a three-way switch would be two, which the whole file has not */
const NOT_IN_A_LINE = ["legs"];

/**
 * Mends what leads where too, as tracks that are cut at each switch. A line may be too large for the program, so the file that is mended is
 * read beside the one that was given: where a switch or crossing would be another one, texts and mileages alone are mended.
 * @param {string} name
 * @param {Uint8Array} data
 * @param {string} called
 * @returns {Prepared}
 */
export function mendedLine(name, data, called) {
    const it = mended(name, data, called, { without: NOT_IN_A_LINE });
    const isUntouched = it.source !== null && it.source === it.document && !it.known;
    const other = it.unfit || isUntouched ? "" : it.source ? otherInFile(it) : "what is listed would have to be guessed";
    if (!other) {
        return it;
    }
    const inTexts = mended(name, data, called, { without: STRUCTURAL });
    if (isRailml3(inTexts.document)) {
        it.unfit = `this railML 3 file can't be written as railML 2, by which a line is cut: ${other}`;
        return it;
    }
    return inTexts;
}
