/** Runs the program as native code of this system, and keeps what it prints, so that more can be said of it. */
import { spawn } from "node:child_process";
import { mkdtempSync, readFileSync, rmSync, writeFileSync } from "node:fs";
import { tmpdir } from "node:os";
import { resolve as absolute } from "node:path";
import { bytesOf, isRaw } from "./bytes.js";
import { end, why } from "./say.js";
import { isStopping, numberOf } from "./signals.js";
import { COMMANDS, isFileName, read } from "../both/words.js";

/** @typedef {import("../both/engine.js").Job} Job */
/** @typedef {import("../both/engine.js").Ran} Ran */

// how long a program has to end, from the signal that asks it to
const PATIENCE = 5000;
// within this time a signal reaches all programs of a terminal
const TOGETHER = 30;
// how often it is looked at what a run over files has written
const LOOK_MS = 100;
const NO_MEMORY = 7;

/**
 * how a shell reads one word; bytes that Node couldn't hand on are written by printf
 * @param {string} word @returns {string}
 */
function quoted(word) {
    if (!isRaw(word)) {
        return `'${word.replaceAll("'", "'\\''")}'`;
    }
    return `"$(printf '${[...bytesOf(word)].map((it) => `\\${it.toString(8).padStart(3, "0")}`).join("")}')"`;
}

/**
 * the program and its words as Node starts them: by a shell where a word is no UTF-8
 * @param {string} program @param {string[]} words @returns {[string, string[]]}
 */
function startable(program, words) {
    return words.some(isRaw) ? ["/bin/sh", ["-c", `exec "$0" ${words.map(quoted).join(" ")}`, program]] : [program, words];
}

/** @typedef {object} How how a program is run
 * @property {boolean} [isApart] apart from the terminal, where its signals are ignored
 * @property {boolean} [isQuiet] without the terminal's input, and without what it would say
 * @property {string[]} [front] words that come before the job's
 * @property {string} [folder] the folder in which the program runs, for which names of files are made absolute */

/** The program as native code. */
export class NativeEngine {
    /** @param {string} program @param {How} [how] */
    constructor(program, how = {}) {
        /** @type {"native"} */
        this.kind = "native";
        this.program = program;
        this.how = how;
    }

    /**
     * Runs the program; where somebody stops this run, it stops the program too.
     * @param {Job} job @returns {Promise<Ran>}
     */
    run(job) {
        return job.files ? this.runOver(job, job.files) : this.runHere(job);
    }

    /** @param {Job} job @returns {Promise<Ran>} */
    async runHere(job) {
        const began = performance.now();
        const none = { status: 130, output: new Uint8Array(), files: new Map(), wasStopped: true };
        if (job.signal?.aborted) {
            return { ...none, seconds: 0 };
        }
        const ended = await this.ended(job);
        const seconds = (performance.now() - began) / 1000;
        if (job.signal?.aborted) {
            return { ...none, seconds };
        }
        return { ...ended, files: new Map(), seconds, wasStopped: false };
    }

    /**
     * the status of the program and what it printed
     * @param {Job} job @returns {Promise<{status: number, output: Uint8Array}>}
     */
    ended(job) {
        const { isApart = false, isQuiet = false, front = [], folder } = this.how;
        const [program, words] = startable(this.program, [...front, ...folder ? withPlaces(job.words) : job.words]);
        const started = spawn(program, words, {
            argv0: program === this.program && !front.length ? "railplan_main" : undefined,
            stdio: isQuiet ? ["ignore", "pipe", "ignore"] : ["inherit", "pipe", "inherit"],
            detached: isApart,
            cwd: folder,
        });
        /** @type {Buffer[]} */
        const pieces = [];
        started.stdout?.on("data", (/** @type {Buffer} */ piece) => pieces.push(piece));
        const stop = () => stopProgram(started);
        job.signal?.addEventListener("abort", stop, { once: true });
        return new Promise((resolve, reject) => {
            started.on("error", (/** @type {Error} */ error) => {
                try {
                    end(10, `${this.program} couldn't be started: ${why(error)}`);
                } catch (ended) {
                    reject(ended);
                }
            });
            started.on("close", (/** @type {number | null} */ status, /** @type {string | null} */ sign) => {
                job.signal?.removeEventListener("abort", stop);
                const found = { status: statusOf(status, sign), output: Buffer.concat(pieces) };
                // a terminal sends a signal to both, and the program may have ended before it is heard here
                setTimeout(() => resolve(found), isStopping(sign) && !job.signal?.aborted ? TOGETHER : 0);
            });
        });
    }

    /**
     * Runs the program over files that are handed to it, in a folder of their own.
     * @param {Job} job @param {Map<string, Uint8Array>} files @returns {Promise<Ran>}
     */
    async runOver(job, files) {
        const folder = mkdtempSync(`${tmpdir()}/railplan-`);
        try {
            const { words, written } = placed(job.words, files, folder);
            const look = job.seen && looking(written, job.seen), timer = look && setInterval(look, LOOK_MS);
            const ran = await this.runHere({ ...job, words }).finally(() => clearInterval(timer));
            look?.();
            for (const [name, place] of ran.wasStopped || ran.status === NO_MEMORY ? [] : written) {
                const data = contentOf(place);
                if (data) {
                    ran.files.set(name, data);
                }
            }
            return ran;
        } finally {
            rmSync(folder, { recursive: true, force: true });
        }
    }
}

/** @param {string} place @returns {Buffer | null} */
function contentOf(place) {
    try {
        return readFileSync(place);
    } catch {
        return null;
    }
}

/**
 * What tells of the files that a run writes as they grow; each call says what is new since the one before.
 * @param {Map<string, string>} written the files' places, by the names that the words have
 * @param {NonNullable<Job["seen"]>} seen
 */
function looking(written, seen) {
    const known = new Map([...written.keys()].map((name) => [name, 0]));
    return () => {
        for (const [name, place] of written) {
            const data = contentOf(place), from = known.get(name) ?? 0;
            if (data && data.length > from) {
                known.set(name, data.length);
                seen(name, data.subarray(from));
            }
        }
    };
}

/**
 * The words with absolute names of files; no other words are changed.
 * @param {string[]} words
 * @returns {string[]}
 */
function withPlaces(words) {
    const line = read(words), command = COMMANDS.get(line.command);
    const places = new Set(line.files().map((it) => it.at));
    if (command?.names.length && isFileName(command.names[0])) {
        line.places.slice(command.names.length).forEach((at) => places.add(at));
    }
    return words.map((word, at) => places.has(at) && word ? absolute(word) : word);
}

/**
 * The words with places in a folder for the names of files, of which those that are read are written there.
 * @param {string[]} words @param {Map<string, Uint8Array>} files @param {string} folder
 * @returns {{words: string[], written: Map<string, string>}}
 */
function placed(words, files, folder) {
    const there = [...words];
    const written = new Map();
    for (const it of read(words).files()) {
        there[it.at] = `${folder}/${it.at}`;
        const data = files.get(it.word);
        if (it.isWritten) {
            written.set(it.word, there[it.at]);
        } else if (data) {
            writeFileSync(there[it.at], data);
        }
    }
    return { words: there, written };
}

/**
 * The status of a program that ended by itself or by a signal. By SIGXFSZ the system says that a file is longer than it may
 * be, which is a file that couldn't be written.
 * @param {number | null} status @param {string | null} sign
 * @returns {number}
 */
function statusOf(status, sign) {
    return sign === "SIGXFSZ" ? 6 : sign ? 128 + numberOf(sign) : status ?? 0;
}

/**
 * Ends a program of ours that somebody stopped.
 * @param {any} started
 */
function stopProgram(started) {
    started.kill("SIGTERM");
    const late = setTimeout(() => started.kill("SIGKILL"), PATIENCE);
    started.once("exit", () => {
        clearTimeout(late);
        started.stdout.destroy();
    });
}
