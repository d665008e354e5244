/** The text of a file in the encoding that it says: UTF-8, UTF-16, Latin-1 and what else this system can decode. */
import { validText } from "./xml.js";

const DECLARED = /^<\?xml[^>]*?encoding\s*=\s*["']([^"'<>]+)["']/;
const FRONT = 200;
const UTF_8 = /^(utf[-_ ]?8|u8)$/i;
const LATIN_1 = /^(iso[-_ ]?8859[-_]?1|latin[-_ ]?1|l1)$/i;
const WINDOWS_1252 = /^(windows-1252|cp-?1252)$/i;
const ASCII = /^(us-)?ascii$/i;
// the signs of windows-1252 from 0x80 on; at five places it has none
const FROM_80 = "€\0‚ƒ„…†‡ˆ‰Š‹Œ\0Ž\0\0‘’“”•–—˜™š›œ\0žŸ";
// how a file begins that is UTF-16, and how it is decoded
const UTF_16 = [["\xff\xfe", "utf-16le"], ["\xfe\xff", "utf-16be"], ["<\0", "utf-16le"], ["\0<", "utf-16be"]];
const PIECE = 4096;

/** @typedef {{text: string, bad: number}} Decoded a text, and the first byte that isn't of the encoding, or -1 */
/** @typedef {object} Read a file's text
 * @property {string} text
 * @property {string} name the encoding where it isn't UTF-8, or ""
 * @property {string} guess what would have to be guessed, or "" */

/** @param {Uint8Array} data @returns {string} a sign for each byte */
function singleBytes(data) {
    let text = "";
    for (let at = 0; at < data.length; at += PIECE) {
        text += String.fromCharCode(...data.subarray(at, at + PIECE));
    }
    return text;
}

/**
 * The encoding that a file's first line names, or "".
 * @param {string} text
 * @returns {string}
 */
export function declaredIn(text) {
    return DECLARED.exec(text)?.[1] ?? "";
}

/**
 * The text with another name of its encoding in its first line.
 * @param {string} text @param {string} name
 * @returns {string}
 */
export function declaring(text, name) {
    const found = DECLARED.exec(text)?.[0] ?? "", own = declaredIn(text);
    return found && found.slice(0, found.length - 1 - own.length) + name + text.slice(found.length - 1) || text;
}

/** @param {Uint8Array} data @returns {Decoded} */
function utf8(data) {
    const text = validText(data), length = new TextEncoder().encode(text).length;
    return { text: text.replace(/^\ufeff/, ""), bad: length < data.length ? length : -1 };
}

/** @param {Uint8Array} data @param {string} label @returns {Decoded} */
function utf16(data, label) {
    const text = validText(data, label);
    return { text: text.replace(/^\ufeff/, ""), bad: 2 * text.length < data.length ? 2 * text.length : -1 };
}

/** @param {Uint8Array} data @param {string} name @returns {Decoded | null} null where the encoding isn't known */
function named(data, name) {
    if (ASCII.test(name) || LATIN_1.test(name)) {
        return { text: singleBytes(data), bad: ASCII.test(name) ? data.findIndex((it) => it > 0x7f) : -1 };
    }
    if (WINDOWS_1252.test(name)) {
        const text = singleBytes(data).replace(/[\x80-\x9f]/g, (it) => FROM_80[it.charCodeAt(0) - 0x80]);
        return { text, bad: text.replace(/\0/g, "").length < text.length ? firstNone(data) : -1 };
    }
    if (UTF_8.test(name)) {
        return utf8(data);
    }
    let label = "";
    try {
        label = new TextDecoder(name).encoding;
    } catch {
        return null;
    }
    if (label.startsWith("utf-16")) {
        return utf16(data, label);
    }
    const text = validText(data, label);
    // a byte of windows-.. that has no sign is decoded as a control sign, and each sign is one byte
    const foreign = label.startsWith("windows-") ? text.search(/[\x80-\x9f]/) : -1;
    const isCut = text !== new TextDecoder(label, { ignoreBOM: true }).decode(data);
    return { text, bad: foreign >= 0 ? foreign : isCut ? text.length : -1 };
}

/** @param {Uint8Array} data @returns {number} the first byte that windows-1252 has no sign for, or -1 */
function firstNone(data) {
    return data.findIndex((it) => it >= 0x80 && it < 0xa0 && FROM_80[it - 0x80] === "\0");
}

/**
 * A file's text, by how it begins, or else by what its first line says of its encoding.
 * @param {Uint8Array} data
 * @returns {Read}
 */
export function textOf(data) {
    const front = singleBytes(data.subarray(0, FRONT)), wide = UTF_16.find(([begun]) => front.startsWith(begun));
    if (wide || front.startsWith("\xef\xbb\xbf")) {
        const { text, bad } = wide ? utf16(data, wide[1]) : utf8(data), name = wide ? "UTF-16" : "UTF-8";
        return { text, name: wide ? name : "", guess: bad < 0 ? "" : `the file begins as ${name} does, and byte ${bad} isn't` };
    }
    const declared = declaredIn(front), name = declared || "UTF-8", found = named(data, name);
    if (!found) {
        return { text: "", name, guess: `the file says that it is ${name}, and this encoding isn't known` };
    }
    const said = declared ? "the file says that it is" : "without a word on its encoding a file is";
    const guess = found.bad < 0 ? ""
        : `${said} ${name}, and byte ${found.bad} isn't. Name its encoding in the first line, as encoding="ISO-8859-1"`;
    return { text: found.text, name: UTF_8.test(name) ? "" : name, guess };
}
