/**
 * A run over the system's files by an engine that has files in memory alone: inputs are read before it, outputs written behind
 * it.
 */
import { closeSync, fsyncSync, ftruncateSync, openSync, readSync, writeSync } from "node:fs";
import { Line, fault } from "../both/words.js";
import { path } from "./bytes.js";

/** @typedef {import("../both/engine.js").Job} Job */
/** @typedef {import("../both/engine.js").Ran} Ran */

/** the most bytes that the program reads of a file of a kind, and one more, by which it sees that there are more */
const MOST_BYTES = new Map([["log", (512 << 20) + 1], ["hints", (512 << 20) + 1]]);
const MOST_OTHER = (4 << 20) + 1;
const UNWRITTEN = 6;

/**
 * @param {string} name
 * @param {number} most
 * @returns {Uint8Array | undefined} nothing where it can't be read
 */
export function readUpTo(name, most) {
    let file = -1;
    try {
        file = openSync(path(name), "r");
        let bytes = new Uint8Array(1 << 16), length = 0;
        for (;;) {
            const got = readSync(file, bytes, length, Math.min(bytes.length, most) - length, null);
            length += got;
            if (got === 0 || length === most) {
                return bytes.subarray(0, length);
            }
            if (length === bytes.length) {
                const grown = new Uint8Array(2 * length);
                grown.set(bytes);
                bytes = grown;
            }
        }
    } catch {
        return undefined;
    } finally {
        if (file >= 0) {
            closeSync(file);
        }
    }
}

/**
 * @param {string} name
 * @param {Uint8Array} bytes
 * @returns {boolean} whether it was written
 */
function write(name, bytes) {
    try {
        const file = openSync(path(name), "w");
        try {
            for (let at = 0; at < bytes.length;) {
                at += writeSync(file, bytes, at);
            }
            if (bytes.length === 0) {
                ftruncateSync(file);
            }
            try {
                fsyncSync(file);
            } catch {
                // a pipe or a device has nothing to be made safe
            }
        } finally {
            closeSync(file);
        }
        return true;
    } catch {
        return false;
    }
}

/**
 * A job over the system's files. The program gets a name of its own for each file, as names in memory have no folders above the
 * first one; a fault of the words is found before a file is opened.
 * @param {import("../both/engine.js").Engine} engine
 * @param {Job} job
 * @returns {Promise<Ran>}
 */
export async function runOverSystem(engine, job) {
    /** @type {Map<string, string>} */
    const names = new Map();
    /** @type {Map<string, Uint8Array>} */
    const files = new Map();
    const words = [...job.words];
    for (const { word, kind, isWritten, at } of fault(words) ? [] : new Line(words).files()) {
        const bytes = isWritten ? undefined : readUpTo(word, MOST_BYTES.get(kind) ?? MOST_OTHER);
        words[at] = names.get(word) ?? `/${names.size}`;
        names.set(word, words[at]);
        if (bytes) {
            files.set(words[at], bytes);
        }
    }
    const ran = await engine.run({ ...job, words, files }), wordOf = new Map([...names].map(([word, name]) => [name, word]));
    const isWritten = [...ran.files].map(([name, bytes]) => write(wordOf.get(name) ?? name, bytes)).every(Boolean);
    return { ...ran, files: new Map(), status: isWritten ? ran.status : UNWRITTEN };
}
