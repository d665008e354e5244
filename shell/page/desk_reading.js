/**
 * What takes long to read is read in a worker, of the desk's own script: a station's file, what prepare mends of it, and the
 * stations of a line.
 */
import { wholeOf } from "../both/line/judged.js";
import { mendedLine } from "../both/line/mended.js";
import { cutLine } from "../both/line/stations.js";
import { offeredOf } from "../both/mending/offered.js";
import { notShown } from "../both/messages/not_shown.js";
import { read as readFile } from "../both/railml.js";
import { sidesOf } from "../both/sides/said.js";
import { read } from "../both/words.js";

/** @typedef {import("../both/mending/offered.js").Offered} Mended */
/** @typedef {{tracks: number, points: number, good: string[], open: string[]}} Read what a file has: tracks, switches and crossings, what
 * confirms its sides, and what a drawing of it doesn't show */
/**
 * @typedef {{said: string[], files: import("../both/line/stations.js").StationFile[],
 *     whole: import("../both/line/judged.js").Whole}} Cut the stations of a line, what is to be said, and what the whole file says of
 *     each switch and signal
 */
/** @typedef {{what: "read" | "mend" | "cut", name: string, bytes: Uint8Array}} Wanted */

const CALLED = "railplan";

/**
 * @param {string} name
 * @param {Uint8Array} bytes
 * @returns {Read}
 */
function readNow(name, bytes) {
    const document = readFile(bytes), tracks = document.tracks();
    const points = document.elements.filter((it) => it.name === "switch" || it.name === "crossing").length;
    const isRead = !document.trouble;
    return { tracks: tracks.length, points, good: isRead ? sidesOf(document).good : [], open: isRead ? notShown(bytes, read(["draw", name]), [], true) : [] };
}

/**
 * @param {string} name
 * @param {Uint8Array} bytes
 * @returns {Cut}
 */
function cutNow(name, bytes) {
    const it = mendedLine(name, bytes, CALLED), document = readFile(it.data);
    if (it.unfit || document.trouble) {
        return { said: [it.unfit || `line ${document.trouble?.line}: ${document.trouble?.what}`], files: [], whole: wholeOf(document) };
    }
    const { said, files } = cutLine(document, { range: null });
    return { said: [...it.guesses, ...said], files, whole: wholeOf(document) };
}

/** answers each message, in a worker */
export function serveReading() {
    const does = { read: readNow, mend: (/** @type {string} */ name, /** @type {Uint8Array} */ bytes) => offeredOf(name, bytes, CALLED), cut: cutNow };
    onmessage = ({ data }) => {
        const { what, name, bytes } = /** @type {Wanted} */ (data);
        try {
            postMessage({ answer: does[what](name, bytes) });
        } catch (error) {
            postMessage({ fault: error instanceof Error ? error.message : String(error) });
        }
    };
}

/** Reads files, each in a worker of its own that ends with it. */
export class Reader {
    /** @param {string} script the address of the desk's script */
    constructor(script) {
        this.script = script;
    }

    /**
     * @param {Wanted} wanted
     * @returns {Promise<any>}
     */
    ask(wanted) {
        const worker = new Worker(this.script);
        return new Promise((resolve, reject) => {
            worker.onmessage = ({ data }) => ("fault" in data ? reject(new Error(data.fault)) : resolve(data.answer));
            worker.onerror = (event) => reject(new Error(event.message || "the browser ended the worker"));
            worker.postMessage(wanted);
        }).finally(() => worker.terminate());
    }

    /** @param {string} name @param {Uint8Array} bytes @returns {Promise<Read>} */
    read(name, bytes) {
        return this.ask({ what: "read", name, bytes });
    }

    /** @param {string} name @param {Uint8Array} bytes @returns {Promise<Mended>} */
    mend(name, bytes) {
        return this.ask({ what: "mend", name, bytes });
    }

    /** @param {string} name @param {Uint8Array} bytes @returns {Promise<Cut>} */
    cut(name, bytes) {
        return this.ask({ what: "cut", name, bytes });
    }
}
