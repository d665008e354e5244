/** The answer of a run on the desk: what it means, the drawing, what can be saved, and the program's own text. */
import { notesOf } from "../both/messages/telling.js";
import { printable } from "../both/printable.js";
import { element, saving } from "./elements.js";

/** @typedef {import("../both/notes.js").Note} Note */

/** how each status reads */
const ENDINGS = new Map([
    [0, "Done"], [1, "The file has a fault"], [2, "The words have a fault"], [3, "No drawing is lawful on this grid"],
    [4, "The search stopped before its end"], [5, "A file isn't there"], [6, "A file couldn't be written"], [7, "There was no memory for this run"],
    [8, "Refused"], [130, "Stopped"], [134, "The run was ended, by the browser or by a check of the program"],
]);
const GOOD = new Set([0, 3, 4]);
/** of the program's text no more than this is shown; all of it can be saved */
const MOST_SHOWN = 20_000;

/**
 * A note with its place in the file: the line, with a mark below.
 * @param {Note} note
 */
function noteOf(note) {
    if (!note.place) {
        return element("p", {}, printable(note.text));
    }
    const excerpt = note.place.excerpt((text) => text);
    return element("div", {}, element("p", {}, `${printable(note.place.head())}: ${printable(note.text)}`), element("pre", {}, excerpt));
}

/**
 * A drawing as the program drew it.
 * @param {Uint8Array} picture SVG
 * @param {string} what in words
 */
export function pictureOf(picture, what) {
    const image = element("img", { alt: what, src: URL.createObjectURL(new Blob([picture], { type: "image/svg+xml" })) });
    return element("figure", { class: "drawing" }, image, element("figcaption", {}, what));
}

/**
 * @param {{line: import("../both/words.js").Line, status: number, output: Uint8Array, trap?: string,
 *     seen: import("../both/messages/seen.js").Seen, graph: () => Promise<string[]>}} run
 * @param {{picture?: Uint8Array, saved: [string, Uint8Array, string][]}} made the picture, and what can be saved: name, bytes,
 *     type
 * @returns {Promise<HTMLElement>}
 */
export async function answerOf(run, made) {
    const text = new TextDecoder().decode(run.output), lines = text.trimEnd().split("\n");
    const head = [ENDINGS.get(run.status) ?? `Status ${run.status}`, run.trap || lines[lines.length - 1]].filter(Boolean).join(": ");
    const notes = run.status === 130 || run.trap ? [] : await notesOf({ ...run, called: "railplan" });
    return element("div", {}, element("p", { class: GOOD.has(run.status) ? "said" : "said bad" }, head), ...notes.map(noteOf),
        ...(made.picture ? [pictureOf(made.picture, "The program's own drawing")] : []),
        ...(made.saved.length ? [element("p", { class: "row" }, ...made.saved.map((it) => saving(...it)))] : []),
        ...(lines.length > 1 ? [element("details", {}, element("summary", {}, "What the program printed"),
            element("pre", { tabindex: 0 }, text.length > MOST_SHOWN ? `${text.slice(0, MOST_SHOWN)}\n…` : text))] : []));
}
