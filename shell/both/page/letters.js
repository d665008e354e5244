/**
 * Names as a reader sees them: what shows nothing, or turns the direction of writing, is spelled as ‹U+200B›.
 *
 * Of two names that look alike each letter beyond ASCII is spelled so.
 */

const UNSEEN = /[\p{C}\p{Z}]/u;
/** @type {(first: number, end: number) => number[]} */
const range = (first, end) => Array.from({ length: end - first }, (_, at) => first + at);
// fillers and selectors that show nothing, though their categories are those of letters and marks
const BLANK = new Set([0x034F, 0x115F, 0x1160, 0x17B4, 0x17B5, 0x2800, 0x3164, 0xFFA0, 0x2039, 0x203A,
    ...range(0x180B, 0x1810), ...range(0xFE00, 0xFE10), ...range(0xE0100, 0xE01F0)]);
const SAME = [..."ABESIJKMHOPCTYXaeopcyxsijdhqwABEZHIKMNOPTYXovuo-------//:..:"];
const LIKE = new Map([..."АВЕЅІЈКМНОРСТУХаеорсухѕіјԁһԛԝΑΒΕΖΗΙΚΜΝΟΡΤΥΧονւօ‐‑‒–—―−∕⁄∶ꓸ․׃"].map((it, at) => [it, SAME[at]]));

/** @type {(letter: string) => number} */
const numberOf = (letter) => Number(letter.codePointAt(0));

/**
 * A character by its number.
 * @param {string} letter
 * @returns {string}
 */
export function spelled(letter) {
    return `‹U+${numberOf(letter).toString(16).toUpperCase().padStart(4, "0")}›`;
}

/** @type {(letter: string) => boolean} */
const isSeen = (letter) => letter === " " || !BLANK.has(numberOf(letter)) && !UNSEEN.test(letter);

/**
 * The text with each character that can't be seen spelled.
 * @param {string} text
 * @returns {string}
 */
export function visible(text) {
    return /^[ -~]*$/.test(text) ? text : [...text].map((it) => isSeen(it) ? it : spelled(it)).join("");
}

/** @type {(text: string) => string} what two texts that look alike have in common */
const skeleton = (text) => [...visible(text).normalize("NFKC")].map((it) => LIKE.get(it) ?? it).join("");

/** @type {(text: string) => string} */
const spelledOut = (text) => [...text].map((it) => /[ -~]/.test(it) ? it : spelled(it)).join("");

/** How each of a station's texts is shown. */
export class Letters {
    /** @param {Iterable<string>} texts */
    constructor(texts = []) {
        /** @type {Map<string, string>} */
        const first = new Map();
        /** @type {Set<string>} the texts that look like another one */
        this.alike = new Set();
        for (const text of texts) {
            const known = first.get(skeleton(text));
            if (known === undefined) first.set(skeleton(text), text);
            else if (known !== text) this.alike.add(known).add(text);
        }
    }

    /**
     * @param {string} text
     * @returns {string}
     */
    shown(text) {
        return this.alike.has(text) ? spelledOut(text) : visible(text);
    }
}
