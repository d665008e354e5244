/**
 * How wide a text of a page is.
 *
 * The widths are those of Helvetica, which Arial and Liberation Sans share, in thousandths of the letter's size. A page sets
 * each text's length to the width that it has by this table, so that it takes the same room in any other font too.
 */

export const FONT = "'Liberation Sans', Arial, Helvetica, sans-serif";
export const ASCENT = 0.905;
export const DESCENT = 0.212;
const OTHER = 620;
const FULL = 1000;
/** @type {[number, string][]} */
const SAME = [[191, "'"], [222, "ijl"], [260, "|"], [278, " !,./:;I[\\]ft·"], [333, "()-`r"], [334, "{}"], [355, '"'],
    [389, "*"],
    [469, "^"], [500, "Jcksvxyz"], [556, "#$0123456789?L_abdeghnopqu–"], [584, "+<=>~"], [611, "FTZß"], [667, "&ABEKPSVXY"],
    [722, "CDHNRUw"], [778, "GOQØ"], [833, "Mm"], [889, "%æ"], [944, "W"], [1000, "…Æ"], [1015, "@"]];
/** @type {Map<string, number>} each letter's width, as far as it was asked for */
const widths = new Map(SAME.flatMap(([width, letters]) => [...letters].map((it) => [it, width])));

// the letters that are as wide as they are high: those of Chinese, Japanese and Korean, and pictures
const SQUARE = `1100-115F 231A-231B 2329-232A 23E9-23EC 23F0 23F3 25FD-25FE 2614-2615 2648-2653 267F 2693 26A1 26AA-26AB
    26BD-26BE 26C4-26C5 26CE 26D4 26EA 26F2-26F3 26F5 26FA 26FD 2705 270A-270B 2728 274C 274E 2753-2755 2757
    2795-2797 27B0 27BF 2B1B-2B1C 2B50 2B55 2E80-303E 3041-3247 3250-4DBF 4E00-A4C6 A960-A97C AC00-D7A3 F900-FAD9
    FE10-FE19 FE30-FE6B FF01-FF60 FFE0-FFE6 16FE0-1B2FB 1F004 1F0CF 1F18E 1F191-1F19A 1F200-1F320 1F32D-1F335
    1F337-1F37C 1F37E-1F393 1F3A0-1F3CA 1F3CF-1F3D3 1F3E0-1F3F0 1F3F4 1F3F8-1F43E 1F440 1F442-1F4FC 1F4FF-1F53D
    1F54B-1F54E 1F550-1F567 1F57A 1F595-1F596 1F5A4 1F5FB-1F64F 1F680-1F6C5 1F6CC 1F6D0-1F6D2 1F6D5-1F6DF
    1F6EB-1F6EC 1F6F4-1F6FC 1F7E0-1F7F0 1F90C-1F93A 1F93C-1F945 1F947-1F9FF 1FA70-1FAF6 20000-3134A`;
const square = new RegExp(`[${SQUARE.replace(/[0-9A-F]+/g, "\\u{$&}").replace(/\s+/g, "")}]`, "u");

/**
 * Whether a letter is written over the one before: it is moved before a mark that comes last in order.
 * @param {string} letter
 * @returns {boolean}
 */
function isMark(letter) {
    const last = "\u0345";
    return letter === last || !(last + letter).normalize("NFD").startsWith(last);
}

/**
 * @param {string} letter
 * @returns {number}
 */
function letterWidth(letter) {
    let found = widths.get(letter);
    if (found === undefined) {
        const [plain] = letter.normalize("NFD");
        found = isMark(letter) ? 0 : square.test(letter) ? FULL : widths.get(plain) ?? OTHER;
        widths.set(letter, found);
    }
    return found;
}

/**
 * The width of a text, in the units of the letters' size; one of marks alone has some too.
 * @param {string} text
 * @param {number} size
 * @returns {number}
 */
export function widthOf(text, size) {
    let sum = 0;
    for (const letter of text) sum += letterWidth(letter);
    return Math.max(sum, 200) * size / 1000;
}

/**
 * @param {number} size
 * @returns {number}
 */
export function heightOf(size) {
    return (ASCENT + DESCENT) * size;
}

/**
 * The text, or its two ends around three dots, as long as the room allows; at least two letters remain.
 * @param {string} text
 * @param {number} size
 * @param {number} room
 * @returns {string}
 */
export function shortened(text, size, room) {
    if (widthOf(text, size) <= room) return text;
    const letters = [...text];
    for (let kept = letters.length - 1; kept > 1; kept -= 1) {
        const behind = Math.floor(kept / 2);
        const short = `${letters.slice(0, kept - behind).join("")}…${letters.slice(letters.length - behind).join("")}`;
        if (widthOf(short, size) <= room) return short;
    }
    return `${letters[0]}…${letters[letters.length - 1]}`;
}
