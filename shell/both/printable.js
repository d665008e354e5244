/** Texts of others, made fit for a terminal. */

// a lone surrogate from U+DC80 to U+DCFF is a byte that is no UTF-8, as terminal/bytes.js reads it
const UNPRINTABLE = /(?![ \n\udc80-\udcff])[\p{C}\p{Z}]/gu;
const BLANK = /[\s\x1c-\x1f\x85]/;

/**
 * One sign for each sign of what others wrote, none of which a terminal takes for an order or shows elsewhere. Line feeds stay,
 * and so does what of a file's name is no UTF-8.
 * @param {string} text
 * @returns {string}
 */
export function printable(text) {
    return text.replace(UNPRINTABLE, (sign) => BLANK.test(sign) && sign !== "\ufeff" ? " " : "\ufffd");
}
