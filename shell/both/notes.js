/** Notes to people: a sentence, and where there is one the place that it is about. */
import { printable } from "./printable.js";

/** @typedef {import("./places.js").Place} Place */
/** @typedef {import("./places.js").Paint} Paint */
/** @typedef {{text: string, place?: Place | null}} Note */

/**
 * A note as it is shown on a terminal.
 * @param {Note} note @param {Paint} paint
 * @returns {string}
 */
export function show(note, paint) {
    if (!note.place) {
        return `railplan: ${printable(note.text)}\n`;
    }
    return `${paint(`${printable(note.place.head())}:`, "1")} ${printable(note.text)}\n${note.place.excerpt(paint)}`;
}

/**
 * A note without colours and without the program's name, to be kept.
 * @param {Note} note
 * @returns {string}
 */
export function plain(note) {
    if (!note.place) {
        return `${printable(note.text)}\n`;
    }
    return printable(`${note.place.head()}: ${note.text}\n`) + note.place.excerpt((text) => text);
}
