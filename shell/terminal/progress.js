/** A run that is watched on a terminal: how far its search is, and what an interrupt leaves. */
import { closeSync, openSync, readSync, statfsSync } from "node:fs";
import { tmpdir } from "node:os";
import { quotedLine } from "../both/quoted.js";
import { Searched, duration, progressLine } from "../both/searched.js";
import { COMMANDS, OPTIONS } from "../both/words.js";
import { path } from "./bytes.js";
import { remove } from "./files.js";
import { called, say, writeError } from "./say.js";

/** @typedef {import("./context.js").Context} Context */
/** @typedef {import("../both/engine.js").Ran} Ran */
/** @typedef {import("../both/words.js").Line} Line */

const UNKNOWN_COLUMNS = 100;
/** room that is left for a log that is only read for what it says of the search */
export const ROOM = 2 ** 31;
// bytes of a log that are read at once, and for how many milliseconds it is read each second
const PIECE = 4 << 20;
const PATIENCE = 300;
/** from how many seconds on a check is long */
export const LONG = 10;

/**
 * How wide the terminal is on which progress is shown: that of standard error; some say 0, as they don't know it.
 * @returns {number}
 */
function columns() {
    return process.stderr.columns || UNKNOWN_COLUMNS;
}

/** A log that grows, and is read as far as it is there. */
export class Log {
    /** @param {string} name */
    constructor(name) {
        this.name = name;
        this.searched = new Searched();
    }

    /** Reads what was added since; of a log that grows faster than it is read, a part. */
    follow() {
        const until = performance.now() + PATIENCE, piece = Buffer.alloc(PIECE);
        try {
            const handle = openSync(path(this.name), "r");
            try {
                while (performance.now() < until) {
                    const count = readSync(handle, piece, 0, PIECE, this.searched.length);
                    if (!count) {
                        return;
                    }
                    this.searched.take(piece.subarray(0, count));
                }
            } finally {
                closeSync(handle);
            }
        } catch {
            return;
        }
    }
}

/** Shows each second how far a run is, on a terminal. */
class Watch {
    /** @param {Line} line @param {string} log */
    constructor(line, log) {
        this.line = line;
        this.log = log ? new Log(log) : null;
        this.began = performance.now();
        this.timer = setInterval(() => this.show(), 1000);
        this.isShown = false;
    }

    show() {
        this.log?.follow();
        this.isShown = true;
        const run = {
            command: this.line.command,
            seconds: (performance.now() - this.began) / 1000,
            budget: Number(this.line.options.get("--conflicts") ?? OPTIONS.get("--conflicts")?.usual),
            searched: this.log?.searched ?? null,
        };
        writeError(`\r${progressLine(run, columns() - 1)}\x1b[K`);
    }

    end() {
        clearInterval(this.timer);
        if (this.isShown) {
            writeError("\r\x1b[K");
        }
    }
}

/**
 * The name of a log in the folder for what doesn't last, where there is room enough for one; else there is none.
 * @param {number} [free] bytes that are free there
 * @returns {string}
 */
export function ownLog(free = freeIn(tmpdir())) {
    const name = `${tmpdir()}/railplan-${process.pid}${Math.random().toString(36).slice(2, 8)}.log`;
    try {
        if (free < ROOM) {
            return "";
        }
        closeSync(openSync(name, "wx", 0o600));
        return name;
    } catch {
        return "";
    }
}

/** @param {string} folder @returns {number} */
function freeIn(folder) {
    try {
        const { bavail, bsize } = statfsSync(folder);
        return bavail * bsize;
    } catch {
        return 0;
    }
}

/**
 * Runs the words and shows how far the run is.
 * @param {Context} context @param {Line} line @param {string} log the log that is followed @param {string[]} more further words
 * @returns {Promise<Ran>}
 */
async function shown({ engine, signal }, line, log, more) {
    const watch = new Watch(line, log);
    try {
        return await engine.run({ words: [...line.words, ...more], signal });
    } finally {
        watch.end();
    }
}

/**
 * Runs the words and shows how far the run is; a log that is only for this is taken away, and where there was no room for it
 * the run goes without.
 * @param {Context} context @param {Line} line @param {(sentence: string) => void} [tell]
 * @returns {Promise<Ran>}
 */
export async function runWatched(context, line, tell = say) {
    const named = line.options.get("--log") ?? "", hasLog = COMMANDS.get(line.command)?.options.includes("--log");
    const own = hasLog && !named ? ownLog() : "";
    try {
        let ran = await shown(context, line, named || own, own ? ["--log", own] : []);
        if (ran.status === 6 && own) {
            ran = await shown(context, line, "", []);
        }
        if (ran.wasStopped) {
            await sayStopped(line, ran.seconds, named || own, named);
        }
        if (line.command === "check" && ran.status === 0 && ran.seconds >= LONG) {
            const names = quotedLine(line.names);
            tell(`that took ${ran.seconds.toFixed(0)} s. ${called()} trim ${names} HINTS once, and recheck of HINTS takes a `
                + "fraction of it");
        }
        return ran;
    } finally {
        if (own) {
            remove(own);
        }
    }
}

/**
 * Says what an interrupted run leaves that nobody watched.
 * @param {Line} line @param {Ran} ran
 */
export async function stopped(line, ran) {
    const named = COMMANDS.get(line.command)?.options.includes("--log") ? line.options.get("--log") ?? "" : "";
    await sayStopped(line, ran.seconds, named, named);
}

/**
 * What an interrupted run leaves, and how to have what it found.
 * @param {Line} line @param {number} seconds @param {string} log @param {string} named a log that stays
 */
async function sayStopped(line, seconds, log, named) {
    say(`stopped after ${duration(seconds)}; nothing was printed`);
    const read = log ? new Log(log) : null;
    read?.follow();
    const searched = read?.searched;
    if (searched?.hasModel && line.command !== "redraw") {
        const { again } = await import("../both/messages/advice.js");
        const better = again(line, called(), { conflicts: Math.max(1, searched.learnt) });
        say(`found so far: a drawing; ${searched.inWords()}. This gives the best drawing found so far: ${better}`);
    }
    if (named && searched?.length) {
        say(`${named} holds the beginning of a log, which certifies nothing`);
    }
}
