/** A place in a file: its line and column, and the line with a mark below the place. */
import { printable } from "./printable.js";

/** @typedef {(text: string, code: string) => string} Paint colours a text by a terminal's code, or leaves it as it is */

const WIDTH = 100;
// so many bytes of a line are shown, where lines are counted
const MOST_SHOWN = 4096;
const LINE_FEED = 10;
const decoder = new TextDecoder("utf-8", { ignoreBOM: true });

/** A file's name, the line and the column, both counted from 1, and the line's text. */
export class Place {
    /** @param {string} name @param {number} line @param {number} column @param {string} text */
    constructor(name, line, column, text) {
        this.name = name;
        this.line = line;
        this.column = column;
        this.text = text;
    }

    head() {
        return `${this.name}:${this.line}:${this.column}`;
    }

    /**
     * the line, cut to the width of a screen, with a mark below the column
     * @param {Paint} paint @returns {string}
     */
    excerpt(paint) {
        const signs = [...this.text];
        const cut = signs.length > WIDTH ? Math.max(0, this.column - 1 - Math.floor(WIDTH / 3)) : 0;
        const shown = (cut ? "…" : "") + signs.slice(cut, cut + WIDTH).join("") + (signs.length > cut + WIDTH ? "…" : "");
        const before = " ".repeat(this.column - 1 - cut + (cut ? 1 : 0));
        return `${String(this.line).padStart(5)} | ${printable(shown)}\n      | ${before}${paint("^", "1;32")}\n`;
    }
}

/** @param {Uint8Array} data @param {number} end @returns {number} how many lines end before a byte */
function linesBefore(data, end) {
    let count = 0;
    for (let at = data.indexOf(LINE_FEED); at >= 0 && at < end; at = data.indexOf(LINE_FEED, at + 1)) {
        count++;
    }
    return count;
}

/**
 * The place of a byte; a byte order mark takes no column.
 * @param {string} name @param {Uint8Array} data @param {number} place
 * @returns {Place}
 */
export function ofByte(name, data, place) {
    const begun = place > 0 ? data.lastIndexOf(LINE_FEED, place - 1) + 1 : 0;
    const ended = data.indexOf(LINE_FEED, begun);
    let text = decoder.decode(data.subarray(begun, ended < 0 ? data.length : ended)).replace(/\r+$/, "");
    let front = decoder.decode(data.subarray(begun, place));
    if (text.includes("\0")) {
        text = text.replaceAll("\0", "").replace(/^\ufffd+/, "");
    }
    if (begun === 0 && text.startsWith("\ufeff")) {
        text = text.slice(1);
        front = front.slice(1);
    }
    return new Place(name, linesBefore(data, place) + 1, [...front].length + 1, text);
}

/**
 * The begin of a line, counted from 1; of no file, or of one that is shorter, the line is empty.
 * @param {string} name @param {Uint8Array | null} data @param {number} line
 * @returns {Place}
 */
export function ofLine(name, data, line) {
    let begun = 0;
    for (let number = 1; data && number < line; number++) {
        const ended = data.indexOf(LINE_FEED, begun);
        begun = ended < 0 ? data.length : ended + 1;
    }
    const found = data?.indexOf(LINE_FEED, begun) ?? -1;
    const ended = found < 0 ? data?.length ?? 0 : found + 1;
    const shown = data?.subarray(begun, Math.min(ended, begun + MOST_SHOWN)) ?? new Uint8Array();
    return new Place(name, line, 1, decoder.decode(shown).replace(/[\r\n]+$/, ""));
}
