/**
 * The files of a run. They are looked at before it: nothing that is something else is written over, and nothing is lost late.
 * Inputs are read once, and outputs are written whole or not at all.
 */
import {
    accessSync, closeSync, constants, fchmodSync, fstatSync, fsyncSync, lstatSync, mkdirSync, openSync, readlinkSync, readSync,
    realpathSync, renameSync, statSync, unlinkSync, writeFileSync,
} from "node:fs";
import { basename, dirname, join, resolve } from "node:path";
import { CALLED, MOST_BYTES, OWN_NAME, oneTwice } from "../both/file_kinds.js";
import { fault } from "../both/words.js";
import { path, textOf } from "./bytes.js";
import { codeOf, end, why } from "./say.js";

/** @typedef {import("../both/words.js").File} File */
/** @typedef {import("../both/words.js").Line} Line */
/** @typedef {import("node:fs").Stats} Stats */

/** how a file of each kind begins, in small letters */
export const BEGINS = new Map([["log", "railplan-log"], ["picture", "<svg"], ["small", "<svg"], ["hints", "railplan-hints"],
    ["page", "<!doctype html"], ["dxf", "0\r\nsection"], ["csv", "km,kind,name,id"], ["sheet", "railplan "]]);

const MOST_READ = 4194304;
const PIECE = 1 << 20;

// ---- what is there

/**
 * what is known of a file, or nothing where it isn't there
 * @param {string} name @returns {Stats | null}
 */
export function stateOf(name) {
    try {
        return statSync(path(name));
    } catch {
        return null;
    }
}

/** @param {string} name @param {number} right @returns {boolean} */
function hasRight(name, right) {
    try {
        accessSync(path(name), right);
        return true;
    } catch {
        return false;
    }
}

/**
 * Where a name leads to, through links, also that of a file that isn't there yet.
 * @param {string} name @returns {string}
 */
export function realPath(name) {
    try {
        return textOf(realpathSync.native(path(name), "buffer"));
    } catch (error) {
        const folder = dirname(resolve(name));
        if (codeOf(error) === "ENOENT") {
            try {
                return realPath(resolve(folder, textOf(readlinkSync(path(name), "buffer"))));
            } catch {
                return folder === resolve(name) ? folder : join(realPath(folder), basename(name));
            }
        }
        return resolve(name);
    }
}

/** @param {Stats} one @param {Stats} other @returns {boolean} */
function isSame(one, other) {
    return one.dev === other.dev && one.ino === other.ino;
}

/** @param {string} one @param {string} other @returns {boolean} */
export function isOneFile(one, other) {
    if (realPath(one) === realPath(other)) {
        return true;
    }
    const there = stateOf(one), too = stateOf(other);
    return there !== null && too !== null && isSame(there, too);
}

/**
 * whether a file can be read again
 * @param {string} name @returns {boolean}
 */
export function isPlain(name) {
    return stateOf(name)?.isFile() ?? false;
}

/**
 * Reads a file to so many bytes and no more.
 * @param {string} name @param {number} most
 * @returns {Uint8Array}
 */
export function front(name, most) {
    const handle = openSync(path(name), "r");
    try {
        return frontOf(handle, most);
    } finally {
        closeSync(handle);
    }
}

/** @param {number} handle @param {number} most @returns {Uint8Array} */
function frontOf(handle, most) {
    const pieces = [];
    for (let left = most; left > 0;) {
        const piece = Buffer.alloc(Math.min(left, PIECE));
        const count = readSync(handle, piece, 0, piece.length, null);
        if (!count) {
            break;
        }
        pieces.push(piece.subarray(0, count));
        left -= count;
    }
    return Buffer.concat(pieces);
}

/**
 * What a file has, to explain what the program said of it; a pipe has been read, and would be waited for.
 * @param {string} name
 * @returns {Uint8Array | null}
 */
export function reread(name) {
    try {
        return isPlain(name) ? front(name, MOST_READ + 1) : null;
    } catch {
        return null;
    }
}

/**
 * Why a file couldn't be read, or "".
 * @param {string} name @returns {string}
 */
export function couldnt(name) {
    try {
        front(name, 1);
        return "";
    } catch (error) {
        return why(error);
    }
}

// ---- what is in the way

/**
 * The program compares names and not files: what it has read, or its log, would be written over.
 * @param {File[]} read @param {File[]} written
 */
function refuseOneFile(read, written) {
    written.forEach((it, number) => {
        for (const other of [...read, ...written.slice(0, number)]) {
            if ((it.word !== other.word || it.at < 0) && isOneFile(other.word, it.word)) {
                end(2, `${oneTwice(other.word, it.word)}: ${OWN_NAME}`);
            }
        }
    });
}

/**
 * `-` is standard output for other programs, and here it would be a file of this name.
 * @param {File[]} written
 */
export function refuseHyphen(written) {
    if (written.some((it) => it.word === "-")) {
        end(2, "`-` is no name of a file that is written: standard output has the answer and nothing else. Name a file; one "
            + "that is called so is ./-");
    }
}

/**
 * Standard output or standard error that goes into a file of the run. Where the sentence would come behind what is in the
 * file it isn't said.
 * @param {File[]} named @param {number} handle @param {string} called @param {string} behind
 */
function refuseStream(named, handle, called, behind) {
    const out = fstatSync(handle);
    if (!out.isFile()) {
        return;
    }
    for (const it of named) {
        const there = stateOf(it.word);
        if (there && isSame(there, out)) {
            const done = it.isWritten ? "writes" : out.size ? "reads" : "reads. The shell has emptied it by now";
            const said = `${called} goes into ${it.word}, which this run ${done}. Name another file behind ${behind}`;
            end(2, out.size && isSame(out, fstatSync(2)) ? "" : said);
        }
    }
}

/**
 * whether a file that begins so may be written over by one of a kind
 * @param {Uint8Array} data @param {string} kind
 */
export function beginsAs(data, kind) {
    const text = Buffer.from(data).toString("latin1");
    return text.replace(/^\xef\xbb\xbf/, "").toLowerCase().startsWith(BEGINS.get(kind) ?? "");
}

/** A file of pages is written whole and takes the place of what is there: never that of a link, a pipe or a device.
 * @param {File} it */
export function refuseReplaced(it) {
    const there = lstatSync(path(it.word), { throwIfNoEntry: false });
    if (there?.isSymbolicLink()) {
        end(2, `${it.word} is a link, and isn't replaced. Name the file that it leads to`);
    }
    if (there && !there.isFile() && !there.isDirectory()) {
        end(2, `${it.word} is no plain file, and isn't replaced. Name another file`);
    }
}

/**
 * A file that is there, isn't empty and doesn't begin as its kind does.
 * @param {File[]} written
 */
function refuseOtherKinds(written) {
    for (const it of written) {
        if (it.at < 0) {
            refuseReplaced(it);
        }
        const there = stateOf(it.word), kind = CALLED.get(it.kind);
        if (there?.isFIFO()) {
            end(2, `${it.word} is a pipe, and ${kind} is written piece by piece: a reader would see its end too early. `
                + "Name a file");
        }
        if (there?.isFile() && there.size && hasRight(it.word, constants.R_OK) && !beginsAs(front(it.word, 32), it.kind)) {
            end(2, `${it.word} is there and isn't ${kind}. Name another file, or delete it`);
        }
    }
}

/** A file that couldn't be written: it would be lost after the search. One of pages is made beside what is there.
 * @param {File[]} written */
export function refuseUnwritable(written) {
    for (const it of written) {
        const there = stateOf(it.word), folder = dirname(it.word) || ".";
        const what = `${it.word} can't be written`;
        if (there?.isDirectory()) {
            end(6, `${what}: it is a folder. Name a file in it`);
        }
        if (there && !hasRight(it.word, constants.W_OK)) {
            end(6, `${what}: you haven't the right to. Name another file`);
        }
        if (there && it.at >= 0) {
            continue;
        }
        if (!stateOf(folder)?.isDirectory()) {
            const isThere = lstatSync(path(folder), { throwIfNoEntry: false });
            end(6, `${what}: ${folder} ${isThere ? "is no folder" : "isn't there"}. Make the folder, or name another file`);
        }
        if (!hasRight(folder, constants.W_OK | constants.X_OK)) {
            end(6, `${what}: you haven't the right to make files in ${folder === "." ? "this folder" : folder}. Name another file`);
        }
    }
}

/**
 * Refuses with 2 what would be written over, and with 6 what couldn't be written. Of words with a fault only pages are made.
 * @param {Line} line
 */
export function look(line) {
    const hasFault = fault(line.words) !== null;
    const written = line.filesWritten.filter((it) => it.at < 0 || !hasFault);
    refuseHyphen(written);
    refuseOneFile(line.filesRead, written);
    const named = hasFault ? written : [...line.filesRead, ...written];
    refuseStream(named, 1, "standard output", ">");
    refuseStream(named, 2, "standard error", "2>");
    refuseOtherKinds(written);
    refuseUnwritable(written);
}

/**
 * The status and the line with which the program answers to the first input that isn't there or is too long.
 * @param {Line} line
 * @returns {{status: number, text: string} | null}
 */
export function unread(line) {
    for (const [at, it] of line.filesRead.entries()) {
        const there = stateOf(it.word);
        if (!there || there.isDirectory() || !hasRight(it.word, constants.R_OK)) {
            return { status: 5, text: `read failed ${at + 1}` };
        }
        if (there.isFile() && there.size > (MOST_BYTES.get(it.kind) ?? Infinity)) {
            return { status: 1, text: `long ${at + 1}` };
        }
    }
    return null;
}

// ---- inputs and outputs

/** @typedef {object} FileFacts what is known of a file of the run: its hash and size, or why there are none
 * @property {string} name
 * @property {string} [sha256]
 * @property {number} [size]
 * @property {number} [date] when it was changed, in seconds
 * @property {string} [why] */
/** @typedef {{facts: FileFacts, content: Uint8Array | null}} Input a file as it was read, once; without bytes where it
 * couldn't be */

/**
 * Reads a file, a pipe or a device once, to one byte more than the program reads.
 * @param {string} name
 * @returns {Promise<Input>}
 */
export async function readOnce(name) {
    try {
        const handle = openSync(path(name), "r");
        try {
            const known = fstatSync(handle), content = frontOf(handle, MOST_READ + 1);
            const date = known.isFile() ? known.mtimeMs / 1000 : undefined;
            if (content.length > MOST_READ) {
                return { facts: { name, date, why: "It is longer than 4,194,304 bytes." }, content };
            }
            const { createHash } = await import("node:crypto");
            const sha256 = createHash("sha256").update(content).digest("hex");
            return { facts: { name, sha256, size: content.length, date }, content };
        } finally {
            closeSync(handle);
        }
    } catch (error) {
        return { facts: { name, why: `It couldn't be read: ${sentenceOf(error)}.` }, content: null };
    }
}

/**
 * what the system says of an error, as a sentence begins
 * @param {unknown} error @returns {string}
 */
export function sentenceOf(error) {
    const text = why(error);
    return text.slice(0, 1).toUpperCase() + text.slice(1);
}

/**
 * A file that the run wrote, by its hash; it may be too long to be held.
 * @param {string} name
 * @returns {Promise<FileFacts>}
 */
export async function hashed(name) {
    const { createHash } = await import("node:crypto");
    const total = createHash("sha256"), piece = Buffer.alloc(PIECE);
    try {
        const handle = openSync(path(name), "r");
        try {
            if (!fstatSync(handle).isFile()) {
                return { name, why: "It is no plain file, so it has no hash here." };
            }
            let size = 0;
            for (let count; (count = readSync(handle, piece, 0, PIECE, null));) {
                total.update(piece.subarray(0, count));
                size += count;
            }
            return { name, sha256: total.digest("hex"), size };
        } finally {
            closeSync(handle);
        }
    } catch (error) {
        return { name, why: `It couldn't be read: ${sentenceOf(error)}.` };
    }
}

/**
 * Makes a folder and those above it, as far as they aren't there; Node's own way goes on for ever where the system makes none.
 * @param {string} name
 */
export function makeFolders(name) {
    if (stateOf(name)?.isDirectory()) {
        return;
    }
    if (dirname(name) !== name) {
        makeFolders(dirname(name));
    }
    try {
        mkdirSync(path(name));
    } catch (error) {
        // another run may have made it meanwhile
        if (codeOf(error) !== "EEXIST" || !stateOf(name)?.isDirectory()) {
            throw error;
        }
    }
}

/**
 * Takes a file away, if it is there.
 * @param {string} name
 */
export function remove(name) {
    try {
        unlinkSync(path(name));
    } catch {
        return;
    }
}

/**
 * Writes a file beside what is there and then in its place: it is there whole or as it was.
 * @param {string} name @param {Uint8Array | string} data
 */
export function writeWhole(name, data) {
    const part = join(dirname(name), `.${basename(name)}.${process.pid}`);
    try {
        writeFileSync(path(part), data, { flag: "wx" });
        renameSync(path(part), path(name));
    } catch (error) {
        if (codeOf(error) !== "EEXIST") {
            remove(part);
        }
        throw error;
    }
}

/** A name that nothing may be written to; the status with which the run ends. */
export class Refused extends Error {
    /** @param {string} sentence @param {number} [status] */
    constructor(sentence, status = 2) {
        super(sentence);
        this.status = status;
    }
}

/** A file that is written whole: into a temporary one of its folder, which takes its place at the end, with the rights of
 * what was there. Whether that may be replaced was looked at by then. */
export class Output {
    /** @param {string} name */
    constructor(name) {
        this.name = name;
        this.isWritten = false;
        this.part = "";
        const there = stateOf(name), part = join(dirname(name), `.${unusual()}.tmp`);
        try {
            const handle = openSync(path(part), "wx", 0o666);
            this.part = part;
            if (there) {
                fchmodSync(handle, there.mode & 0o7777);
            }
            closeSync(handle);
        } catch (error) {
            this.drop();
            throw new Refused(`couldn't write: ${name}: ${sentenceOf(error)}`, 6);
        }
    }

    /**
     * Writes the text, and takes the place of what was there.
     * @param {string} text
     */
    write(text) {
        try {
            const handle = openSync(path(this.part), "r+");
            try {
                writeFileSync(handle, text);
                fsyncSync(handle);
            } finally {
                closeSync(handle);
            }
            renameSync(path(this.part), path(this.name));
            this.part = "";
            this.isWritten = true;
        } catch (error) {
            throw new Refused(`couldn't write: ${this.name}: ${sentenceOf(error)}`, 6);
        } finally {
            this.drop();
        }
    }

    /** Takes the temporary file away. */
    drop() {
        if (this.part) {
            remove(this.part);
            this.part = "";
        }
    }
}

/**
 * a name that no other file has
 * @returns {string}
 */
function unusual() {
    return `${process.pid.toString(36)}${Math.random().toString(36).slice(2, 10)}`;
}
