/** Why a line of a sheet, a log or hinted lines isn't read though it looks right: how another program saved the file. */
import { quoted } from "../quoted.js";

/** @typedef {import("./seen.js").Seen} Seen */
/** @typedef {import("../places.js").Place} Place */

const LINE_FEED = 10, RETURN = 13;

/**
 * Where a line of a file begins, and where its line feed is; -1 where it has none.
 * @param {Uint8Array} data @param {number} line counted from 1
 * @returns {{begun: number, ended: number}}
 */
function boundsOf(data, line) {
    let begun = 0;
    for (let number = 1; number < line && begun < data.length; number++) {
        const ended = data.indexOf(LINE_FEED, begun);
        begun = ended < 0 ? data.length : ended + 1;
    }
    return { begun, ended: data.indexOf(LINE_FEED, begun) };
}

/**
 * What another program did to the line at a place, and how it is taken back; "" where nothing of the kind is seen.
 * @param {Seen} seen @param {Place} at
 * @returns {string}
 */
export function savedOtherwise(seen, at) {
    const data = seen.bytes(at.name);
    if (!data?.length || !at.text) {
        return "";
    }
    if (data.subarray(0, 4).includes(0)) {
        return "the file is UTF-16. Save it as UTF-8, without a byte order mark";
    }
    if (data[0] === 0xef && data[1] === 0xbb && data[2] === 0xbf) {
        return "the file begins with a byte order mark. Save it as UTF-8 without one";
    }
    const { begun, ended } = boundsOf(data, at.line), text = data.subarray(begun, ended < 0 ? data.length : ended);
    if (text.at(-1) === RETURN) {
        return "this line ends as Windows ends lines, with a carriage return before the line feed. This takes them out: "
            + `tr -d '\\r' < ${quoted(at.name)} > NEW`;
    }
    if (/^ |\t| {2}| $/.test(at.text)) {
        return "this line has a blank or a tab too many. One blank is between two of its parts, and none before or behind them";
    }
    return begun < data.length && ended < 0
        ? `the file ends behind this line without a line feed. If nothing lacks at its end, this adds one: echo >> ${quoted(at.name)}`
        : "";
}
