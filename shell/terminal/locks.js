/**
 * Files that one run has for itself alone: two runs that write one file at a time would leave neither's. A lock is a file with
 * the number of the process that has it, and when that began; where no such process is there any more, the lock counts for
 * nothing.
 */
import { createHash } from "node:crypto";
import {
    linkSync, lstatSync, mkdirSync, readFileSync, readdirSync, renameSync, rmdirSync, statSync, unlinkSync, writeFileSync,
} from "node:fs";
import { bytesOf } from "./bytes.js";
import { realPath, stateOf } from "./files.js";
import { codeOf, end } from "./say.js";

/** @typedef {import("../both/words.js").Line} Line */
/**
 * @typedef {"held" | "taken" | "gone" | "none"} Hold that a lock is ours, that another run has it, that its folder isn't there,
 * or that there can be none
 */

// from this age on, in milliseconds, a lock of no process is one that was left
const OLD = 60000;

/**
 * a process that is there: its number, and when it began; else nothing
 * @param {string} number @returns {string}
 */
function processOf(number) {
    try {
        const text = readFileSync(`/proc/${number}/stat`, "latin1");
        const fields = text.slice(text.lastIndexOf(")") + 2).split(" ");
        return fields[0] === "Z" ? "" : `${number} ${fields[19]}`;
    } catch {
        return isThere(Number(number)) ? `${number} 0` : "";
    }
}

/** @param {number} number @returns {boolean} */
function isThere(number) {
    try {
        process.kill(number, 0);
        return true;
    } catch (error) {
        return codeOf(error) === "EPERM";
    }
}

/** @param {string} path @returns {string} */
function holderOf(path) {
    try {
        return readFileSync(path, "latin1");
    } catch {
        return "";
    }
}

/** @param {string} path */
function takeAway(path) {
    try {
        unlinkSync(path);
    } catch {
        return;
    }
}

/**
 * takes a lock away whose holder is gone, and never that of one which came meanwhile
 * @param {string} path @param {string} mine
 */
function takeAwayStale(path, mine) {
    try {
        renameSync(path, mine);
        const holder = holderOf(mine);
        if (processOf(holder.split(" ")[0]) === holder) {
            linkSync(mine, path);
        }
    } catch {
        return;
    } finally {
        takeAway(mine);
    }
}

/**
 * Takes a lock, if no other run has it.
 * @param {string} path
 * @returns {Hold}
 */
export function hold(path) {
    const mine = `${path}.${process.pid}`;
    for (;;) {
        try {
            writeFileSync(mine, processOf(String(process.pid)), { mode: 0o600, flag: "wx" });
            linkSync(mine, path);
            return "held";
        } catch (error) {
            if (codeOf(error) !== "EEXIST") {
                return codeOf(error) === "ENOENT" ? "gone" : "none";
            }
        } finally {
            takeAway(mine);
        }
        const holder = holderOf(path);
        if (holder && processOf(holder.split(" ")[0]) === holder) {
            return "taken";
        }
        takeAwayStale(path, mine);
    }
}

/**
 * a folder of this user alone, or ""; it is made where it isn't there, or where a run that ends takes it away just now
 * @returns {string}
 */
function lockFolder() {
    const user = process.getuid?.() ?? 0;
    const folder = `${process.env.TMPDIR || "/tmp"}/railplan-${user}`;
    for (;;) {
        try {
            mkdirSync(folder, { mode: 0o700 });
        } catch (error) {
            if (codeOf(error) !== "EEXIST") {
                return "";
            }
        }
        try {
            const there = lstatSync(folder);
            return there.isDirectory() && there.uid === user && !(there.mode & 0o022) ? folder : "";
        } catch (error) {
            if (codeOf(error) !== "ENOENT") {
                return "";
            }
        }
    }
}

/**
 * Takes the locks away that runs left which were killed; young ones may be just begun.
 * @param {string} folder
 */
export function sweep(folder) {
    for (const name of readdirSync(folder)) {
        const path = `${folder}/${name}`, holder = holderOf(path);
        const age = Date.now() - (statSync(path, { throwIfNoEntry: false })?.mtimeMs ?? Date.now());
        if (age > OLD && processOf(holder.split(" ")[0]) !== holder) {
            takeAwayStale(path, `${path}.${process.pid}`);
        }
    }
}

/**
 * takes a lock in the folder of this user, which a run that ends meanwhile may have taken away
 * @param {string} folder @param {string} name
 * @returns {Hold}
 */
function holdIn(folder, name) {
    const path = `${folder}/${name}`;
    let found = hold(path);
    while (found === "gone" && lockFolder()) {
        found = hold(path);
    }
    return found;
}

/**
 * Holds the files that are written for this run alone; the locks that are held.
 * @param {Line} line
 * @returns {string[]}
 */
export function lock(line) {
    const folder = lockFolder();
    /** @type {string[]} */
    const held = [];
    try {
        sweep(folder);
    } catch {
        // no folder of locks, or a run that ends takes it away just now
    }
    for (const it of folder ? line.filesWritten : []) {
        const there = stateOf(it.word);
        if (there && !there.isFile()) {
            continue;
        }
        const name = createHash("sha256").update(bytesOf(realPath(it.word))).digest("hex");
        const found = holdIn(folder, name);
        if (found === "held") {
            held.push(`${folder}/${name}`);
        } else if (found === "taken") {
            unlock(held);
            end(2, `another run is writing ${it.word}. Wait for its end, or name another file`);
        }
    }
    return held;
}

/**
 * Takes locks away.
 * @param {string[]} held
 */
export function release(held) {
    held.forEach(takeAway);
}

/**
 * Takes the locks of `lock` away, and their folder where no other run has a lock in it.
 * @param {string[]} held
 */
export function unlock(held) {
    release(held);
    try {
        rmdirSync(lockFolder());
    } catch {
        return;
    }
}
