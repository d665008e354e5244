/**
 * What is found in many stations' files, side by side: the program's track graph of each, and where its signals lie. To start a program
 * takes the longer the more memory the one that starts it has, and a line takes much: so processes of their own, which know nothing of the
 * line, start the program and read the files.
 */
import { fork } from "node:child_process";
import { fileURLToPath } from "node:url";
import { foundIn } from "../both/line/judged.js";
import { processors } from "./building.js";
import { NativeEngine } from "./native_engine.js";
import { Ended, end } from "./say.js";

/** @typedef {import("../both/engine.js").Engine} Engine */
/** @typedef {import("../both/line/judged.js").Found} Found */
/** @typedef {import("node:child_process").ChildProcess} ChildProcess */
/** @typedef {{found: (name: string, bytes: Uint8Array) => Promise<Found>, count: number, close: () => void}} Finder what looks into files, into
 * how many at once, and how it ends */
/** @typedef {{name: string, bytes: Uint8Array}} Asked a file that a process is to look into */
/** @typedef {{found?: Found, ended?: {status: number, sentence: string}, fault?: string}} Answer what a process found; or with what it
 * ended, and what it said by then; or a fault of its own */

const PROCESS = fileURLToPath(new URL("./finding_process.js", import.meta.url));
/** fewer files are looked into by this process */
const FEW = 8;

/** A process that looks into one file at a time, in the order in which they are given to it. */
class Helper {
    /** @param {NativeEngine} engine */
    constructor({ program, how }) {
        /** @type {{answer: (found: Found) => void, fail: (error: unknown) => void}[]} */
        this.waiting = [];
        this.process = fork(PROCESS, [JSON.stringify({ program, how })], { serialization: "advanced", execArgv: [],
            stdio: ["ignore", "inherit", "inherit", "ipc"] });
        this.process.on("message", (/** @type {Answer} */ answer) => this.take(answer));
        this.process.on("error", (error) => this.fail(error));
        this.process.on("exit", () => this.fail(new Error("a process that looks into files ended by itself")));
    }

    /** @param {string} name @param {Uint8Array} bytes @returns {Promise<Found>} */
    found(name, bytes) {
        return new Promise((answer, fail) => {
            this.waiting.push({ answer, fail });
            this.process.send(/** @type {Asked} */ ({ name, bytes }), (error) => error && this.fail(error));
        });
    }

    /** @param {Answer} answer */
    take({ found, ended, fault }) {
        const asked = this.waiting.shift();
        found ? asked?.answer(found) : asked?.fail(ended ? new Ended(ended.status, ended.sentence) : new Error(fault));
    }

    /** @param {unknown} error */
    fail(error) {
        this.waiting.splice(0).forEach((it) => it.fail(error));
    }

    /** once nothing is asked of it, or it is to stop, it ends */
    close() {
        if (this.process.connected) {
            this.process.disconnect();
        }
    }
}

/**
 * What looks into files, by processes of its own where they are many.
 * @param {Engine} engine @param {number} files how many there are @param {AbortSignal} signal
 * @returns {Finder}
 */
export function finderOf(engine, files, signal) {
    const count = Math.min(processors(), files);
    if (!(engine instanceof NativeEngine) || files < FEW) {
        return { found: (name, bytes) => foundIn(engine, name, bytes, signal), count: Math.max(1, count), close: () => undefined };
    }
    const helpers = Array.from({ length: count }, () => new Helper(engine)), close = () => helpers.forEach((it) => it.close());
    signal.addEventListener("abort", close, { once: true });
    return { count, close, found: async (name, bytes) => {
        const stopped = { status: 130, text: "", signals: new Map(), wasStopped: true };
        if (signal.aborted) {
            return stopped;
        }
        const idle = helpers.reduce((least, it) => (it.waiting.length < least.waiting.length ? it : least));
        return idle.found(name, bytes).then((found) => (signal.aborted ? stopped : found), (error) => {
            if (signal.aborted) {
                return stopped;
            }
            throw error instanceof Ended ? error : end(10, error instanceof Error ? error.message : String(error));
        });
    } };
}
