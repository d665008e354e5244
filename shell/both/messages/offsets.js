/** What absPosOffset means: railML adds it to absPos, and it isn't read. */
import * as railml from "../railml.js";

/** @typedef {import("../railml.js").Document} Document */

/** so many mileages are written out */
const SHOWN = 3;

/**
 * That mileages have an offset which isn't read, and what to write; "" where none has.
 * @param {Document} document
 * @returns {string}
 */
export function offsetsOf(document) {
    const measured = document.tracks().flatMap((track) => [...railml.placesOf(track), ...railml.signals(track)]);
    const found = measured.flatMap((it) => {
        const offset = railml.metres(it.attributes.get("absPosOffset")), own = railml.metres(it.attributes.get("absPos"));
        return offset && own && !offset.isZero() ? [`absPos="${own.plus(offset)}" at ${railml.what(it)}`] : [];
    });
    if (!found.length) {
        return "";
    }
    const more = found.length - SHOWN, rest = more > 0 ? `, and so at ${more} more` : "";
    return `absPosOffset isn't read: add it to absPos. Write ${found.slice(0, SHOWN).join(", ")}${rest}, `
        + "and leave absPosOffset out";
}
