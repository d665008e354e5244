/**
 * Words and names of files as texts that keep every byte: a byte that is no UTF-8 is a lone surrogate, U+DC00 and the byte.
 * Node gives them up in `process.argv` and in names of files; here they are read and written whole.
 */
import { readFileSync } from "node:fs";

const RAW = /[\udc80-\udcff]/;
// an own regular expression, as one with `u` takes pairs of surrogates together
const RAW_ALONE = /([\udc80-\udcff]+)/u;
const strict = new TextDecoder("utf-8", { fatal: true, ignoreBOM: true });

/**
 * how many bytes the sign that begins with this byte has
 * @param {number} first @returns {number}
 */
function lengthOf(first) {
    return first < 0x80 ? 1 : first < 0xe0 ? 2 : first < 0xf0 ? 3 : 4;
}

/**
 * The text of some bytes.
 * @param {Uint8Array} bytes
 * @returns {string}
 */
export function textOf(bytes) {
    try {
        return strict.decode(bytes);
    } catch {
        let text = "";
        for (let at = 0; at < bytes.length;) {
            const end = at + lengthOf(bytes[at]);
            try {
                text += strict.decode(bytes.subarray(at, end));
                at = end;
            } catch {
                text += String.fromCharCode(0xdc00 + bytes[at++]);
            }
        }
        return text;
    }
}

/**
 * Whether a text has bytes that are no UTF-8.
 * @param {string} text
 * @returns {boolean}
 */
export function isRaw(text) {
    return RAW.test(text) && RAW_ALONE.test(text);
}

/**
 * The bytes of a text.
 * @param {string} text
 * @returns {Buffer}
 */
export function bytesOf(text) {
    if (!isRaw(text)) {
        return Buffer.from(text);
    }
    return Buffer.concat(text.split(RAW_ALONE).map((part, number) => number % 2
        ? Buffer.from([...part].map((sign) => sign.charCodeAt(0) - 0xdc00)) : Buffer.from(part)));
}

/**
 * A name as the system's calls take it.
 * @param {string} name
 * @returns {string | Buffer}
 */
export function path(name) {
    return isRaw(name) ? bytesOf(name) : name;
}

/**
 * The words of this process, with every byte: how the launcher was called, and the words behind it.
 * @returns {{called: string, given: string[]}}
 */
export function ownWords() {
    const given = process.argv.slice(2);
    try {
        const all = textOf(readFileSync("/proc/self/cmdline")).split("\0").slice(0, -1);
        const first = all.length - given.length;
        return { called: all[first - 1], given: all.slice(first) };
    } catch {
        return { called: process.argv[1], given };
    }
}
