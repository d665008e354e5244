/** What messages ask of the files of a run, as this system has them. */
import { closeSync, lstatSync, openSync, readdirSync, readSync } from "node:fs";
import { path, textOf } from "./bytes.js";
import { couldnt, isPlain, reread, stateOf } from "./files.js";

const LINE_FEED = 10;
const PIECE = 1 << 20;
// so many bytes of a line are shown
const MOST_SHOWN = 4096;

/**
 * The begin of a line of a plain file; of a long file no more is read than this line needs.
 * @param {string} name @param {number} number
 * @returns {Uint8Array}
 */
function frontOfLine(name, number) {
    const file = openSync(path(name), "r");
    try {
        const piece = new Uint8Array(PIECE);
        let left = number - 1, found = new Uint8Array();
        for (let count = readSync(file, piece); count > 0; count = readSync(file, piece)) {
            let at = 0;
            for (; left > 0; left--) {
                const feed = piece.subarray(0, count).indexOf(LINE_FEED, at);
                if (feed < 0) {
                    break;
                }
                at = feed + 1;
            }
            if (left === 0) {
                const feed = piece.subarray(0, count).indexOf(LINE_FEED, at), end = feed < 0 ? count : feed;
                found = Buffer.concat([found, piece.subarray(at, end)]);
                if (feed >= 0 || found.length >= MOST_SHOWN) {
                    break;
                }
            }
        }
        return found.subarray(0, MOST_SHOWN);
    } finally {
        closeSync(file);
    }
}

/** @type {import("../both/messages/seen.js").Seen} */
export const SEEN = {
    bytes: reread,
    line(name, number) {
        try {
            const front = isPlain(name) ? frontOfLine(name, number) : new Uint8Array();
            return new TextDecoder("utf-8", { ignoreBOM: true }).decode(front).replace(/[\r\n]+$/, "");
        } catch {
            return "";
        }
    },
    kind(name) {
        try {
            lstatSync(path(name));
            return stateOf(name)?.isDirectory() ? "folder" : "other";
        } catch {
            return "";
        }
    },
    names(folder) {
        try {
            return readdirSync(path(folder || "."), { encoding: "buffer" }).map(textOf);
        } catch {
            return [];
        }
    },
    why: couldnt,
};
