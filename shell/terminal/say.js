/** What the launcher says to people, on standard error. It never fails: where nobody can hear it, nothing is said. */
import { closeSync, writeSync } from "node:fs";
import { isatty } from "node:tty";
import { getSystemErrorMap } from "node:util";
import { printable } from "../both/printable.js";
import { bytesOf, ownWords } from "./bytes.js";

// what the system calls an error, where Node has another name for it
const OTHERWISE = new Map([["EISDIR", "is a directory"], ["EEXIST", "file exists"], ["EIO", "input/output error"],
    ["ENAMETOOLONG", "file name too long"], ["ELOOP", "too many levels of symbolic links"], ["ETXTBSY", "text file busy"],
    ["EXDEV", "invalid cross-device link"], ["ENFILE", "too many open files in system"]]);

/** The run is over, with this status. */
export class Ended extends Error {
    /** @param {number} status @param {string} [sentence] what was said */
    constructor(status, sentence = "") {
        super(`ended with ${status}`);
        this.status = status;
        this.sentence = sentence;
    }
}

/**
 * Writes all of some bytes; a stream that is full is waited for.
 * @param {number} handle @param {Uint8Array} data
 */
function writeAll(handle, data) {
    while (data.length) {
        try {
            data = data.subarray(writeSync(handle, data));
        } catch (error) {
            if (codeOf(error) !== "EAGAIN") {
                throw error;
            }
            Atomics.wait(new Int32Array(new SharedArrayBuffer(4)), 0, 0, 5);
        }
    }
}

/**
 * the code of a system's error, or ""
 * @param {unknown} error @returns {string}
 */
export function codeOf(error) {
    const { code = "" } = /** @type {{code?: string}} */ (error);
    return code;
}

/** @param {string} text */
export function writeError(text) {
    try {
        writeAll(2, bytesOf(text));
    } catch {
        return;
    }
}

/**
 * Says a sentence in a line of its own.
 * @param {string} text
 */
export function say(text) {
    writeError(`railplan: ${printable(text)}\n`);
}

/**
 * Ends the run, with a sentence or without.
 * @param {number} status @param {string} [sentence]
 * @returns {never}
 */
export function end(status, sentence = "") {
    if (sentence) {
        say(sentence);
    }
    throw new Ended(status, sentence);
}

/**
 * whether standard error is a terminal
 * @returns {boolean}
 */
export function isTerminal() {
    return isatty(2);
}

/**
 * whether standard error is a terminal that shows colours, and nobody asked for none
 * @returns {boolean}
 */
export function hasColour() {
    return isTerminal() && !process.env.NO_COLOR && process.env.TERM !== "dumb";
}

/** @param {string} text @param {string} code @returns {string} */
export function coloured(text, code) {
    return hasColour() ? `\x1b[${code}m${text}\x1b[0m` : text;
}

/**
 * Hands on what a run prints; where that fails the run ends with 6.
 * @param {Uint8Array} data
 */
export function writeOutput(data) {
    try {
        writeAll(1, data);
    } catch (error) {
        end(6, codeOf(error) === "EPIPE" ? "" : `the output couldn't be written: ${why(error)}`);
    }
}

/** Closes standard output, as some disks say only then that they are full. */
export function closeOutput() {
    try {
        closeSync(1);
    } catch (error) {
        end(6, `the output couldn't be written: ${why(error)}`);
    }
}

/**
 * What the system says of an error, as the end of a sentence.
 * @param {unknown} error
 * @returns {string}
 */
export function why(error) {
    const { errno = 0 } = /** @type {{errno?: number}} */ (error);
    const text = OTHERWISE.get(codeOf(error)) ?? getSystemErrorMap().get(errno)?.[1]
        ?? (error instanceof Error ? error.message : String(error));
    return text.slice(0, 1).toLowerCase() + text.slice(1);
}

/**
 * how the launcher is called, to be typed again
 * @returns {string}
 */
export function called() {
    const name = ownWords().called;
    const at = name.lastIndexOf("/");
    const folders = (process.env.PATH ?? "").split(":");
    return at >= 0 && folders.includes(name.slice(0, at).replace(/(?!^)\/+$/, "")) ? name.slice(at + 1) : name;
}
