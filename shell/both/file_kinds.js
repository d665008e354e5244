/** The kinds of files that railplan reads and writes, in words, and how long one may be. */
import { quoted } from "./quoted.js";

/** what a file of a kind is called */
export const CALLED = new Map([["log", "a log"], ["picture", "a picture"], ["hints", "hinted lines"], ["page", "a page"],
    ["dxf", "a CAD drawing"], ["csv", "a table"], ["railml", "a railML file"], ["sheet", "a sheet"]]);
/** how many bytes of a file of a kind are read */
export const MOST_BYTES = new Map([["railml", 4194304], ["sheet", 4194304], ["log", 536870912], ["hints", 536870912]]);
/** how many bytes are read of a file that is larger than the program reads: a line, and what is prepared. 25 times as much memory
 * is taken while it is read, mended and cut. */
export const MOST_OF_LINE = 128 << 20;
/** what is asked of the name of a file that a run writes */
export const OWN_NAME = "a file that is written needs a name of its own";

/**
 * That two names are of one file or folder, or are one name.
 * @param {string} one @param {string} other @param {string} [kind]
 * @returns {string}
 */
export function oneTwice(one, other, kind = "file") {
    return one === other ? `${one} is named twice` : `${one} and ${other} are one ${kind}`;
}

/**
 * That a file is longer than what is read, and what to do.
 * @param {string} name @param {string} kind @param {string} called how the launcher is called
 * @returns {string}
 */
export function tooLong(name, kind, called) {
    const most = `${(MOST_BYTES.get(kind) ?? 0) >> 20} MiB`;
    const advice = kind === "railml" ? `Of a line's file ${called} stations ${quoted(name)} STATIONS writes one of each station; of a `
        + "station export the infrastructure alone"
        : kind === "log" ? "A search on a smaller grid, or with fewer criteria, has a shorter log" : "Is it the right file?";
    return `${name} has more than ${most}, and no more is read. ${advice}`;
}

/**
 * That the file of a line is longer than what is read, and what to do.
 * @param {string} name
 * @returns {string}
 */
export function lineTooLong(name) {
    return `${name} has more than ${MOST_OF_LINE >> 20} MiB, and no more is read. Export a part of it, or the infrastructure alone`;
}
