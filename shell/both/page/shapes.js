/**
 * Lines and texts of a picture, as elements, and the box around boxes.
 */
import { element } from "./markup.js";
import { shown } from "./numbers.js";
import { widthOf } from "./widths.js";

/** @typedef {import("./columns.js").Spot} Spot */
/** @typedef {import("./field.js").Box} Box */
/** @typedef {import("./markup.js").Attributes} Attributes */
/** @typedef {import("./markup.js").Element} Element */

/** the size of letters beside a scale */
export const SMALL = 10.5;

/**
 * The box around these.
 * @param {Iterable<Box>} boxes
 * @param {Box} [otherwise] where there are none
 * @returns {Box}
 */
export function bounds(boxes, otherwise = [0, 0, 0, 0]) {
    /** @type {Box | null} */
    let found = null;
    for (const [left, top, right, bottom] of boxes) {
        found ??= [left, top, right, bottom];
        found = [Math.min(found[0], left), Math.min(found[1], top), Math.max(found[2], right), Math.max(found[3], bottom)];
    }
    return found ?? otherwise;
}

/**
 * A text whose base line begins at a point, as long as the table of widths says.
 * @param {string} text
 * @param {Spot} point
 * @param {number} size
 * @param {string} kind
 * @param {{isTurned?: boolean, more?: Attributes}} how
 * @returns {Element}
 */
export function textAt(text, [left, foot], size, kind, { isTurned = false, more = {} } = {}) {
    const [x, y] = [shown(left), shown(foot)];
    return element("text", { class: kind, x, y, "font-size": size, textLength: shown(widthOf(text, size)),
        lengthAdjust: "spacingAndGlyphs", transform: isTurned && `rotate(-90 ${x} ${y})`, ...more }, text);
}

/**
 * @param {string} kind
 * @param {Spot} start
 * @param {Spot} end
 * @returns {Element}
 */
export function lineAt(kind, start, end) {
    return element("line", { class: kind, x1: shown(start[0]), y1: shown(start[1]), x2: shown(end[0]), y2: shown(end[1]) });
}

/** @param {Spot} point @returns {string} what moves an element to a point */
export function movedTo([x, y]) {
    return `translate(${shown(x)},${shown(y)})`;
}

/** @param {Box} box @returns {{viewBox: string, width: string, height: string}} the attributes of a picture of this room */
export function viewOf([left, top, right, bottom]) {
    const [width, height] = [shown(right - left), shown(bottom - top)];
    return { viewBox: `${shown(left)} ${shown(top)} ${width} ${height}`, width, height };
}

/** @type {(...words: string[]) => string} the words that there are, with blanks between */
export const joined = (...words) => words.filter(Boolean).join(" ");
