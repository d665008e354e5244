/**
 * A run of the desk: how far it is, and the best drawing so far. That one a second run finds, of the same search with as many
 * learnt clauses as it had then: it ends with the drawing that was found by then.
 */
import { Searched, duration } from "../both/searched.js";
import { OPTIONS } from "../both/words.js";

/** @typedef {import("../both/wasm_engine.js").WasmEngine} WasmEngine */
/** @typedef {Awaited<ReturnType<WasmEngine["run"]>>} Ran */
/**
 * @typedef {{picture?: Uint8Array, sheet: Uint8Array, log: Uint8Array}} Found a drawing: its picture, where the command has one, what
 * was printed, and the log of its search
 */

/** how often is said how far it is, in milliseconds */
const OFTEN = 200;
/** the commands whose search can be done again with as many learnt clauses */
const DRAWING = new Set(["draw", "signals", "redraw"]);
export const PICTURE = "picture.svg", LOG = "search.log";
/** how a run ends that has no answer: it was stopped, had no memory, or was ended by the browser or by a check of the program */
export const CUT = new Set([130, 7, 134]);

/** One run, from its words to its end. */
export class Search {
    /**
     * @param {{main: WasmEngine, second: WasmEngine}} engines
     * @param {string[]} words with the log and the picture, where the command has them
     * @param {Map<string, Uint8Array>} files
     * @param {{far: (said: string) => void, found: (found: Found) => void}} hear hears how far it is, and of each better drawing
     */
    constructor(engines, words, files, hear) {
        this.engines = engines;
        this.words = words;
        this.files = files;
        this.hear = hear;
        // what ends the search, and what ends the run that draws the best so far
        this.stop = new AbortController();
        this.leave = new AbortController();
        this.searched = new Searched();
        this.began = performance.now();
        /** what was known when the second run began */
        this.known = "";
        /** @type {Promise<void> | undefined} the run that draws the best so far */
        this.looking = undefined;
        /** @type {Found | undefined} */
        this.best = undefined;
    }

    /** @returns {Promise<Ran>} */
    async run() {
        const hasLog = this.words.includes("--log");
        const seen = (/** @type {string} */ name, /** @type {Uint8Array} */ piece) => {
            if (name === LOG) {
                this.searched.take(piece);
                this.look();
            }
        };
        const tick = setInterval(() => this.say(hasLog), OFTEN);
        this.say(hasLog);
        const job = { words: this.words, files: this.files, signal: this.stop.signal };
        try {
            const ran = await this.engines.main.run(hasLog ? { ...job, seen } : job);
            // a drawing that was found and isn't drawn yet
            if (CUT.has(ran.status)) await this.looking;
            return ran;
        } finally {
            clearInterval(tick);
            this.end();
        }
    }

    /** ends the search; where a drawing that it found is being drawn, a second call leaves that */
    halt() {
        if (this.stop.signal.aborted) this.leave.abort();
        this.stop.abort();
    }

    /** ends all of it */
    end() {
        this.stop.abort();
        this.leave.abort();
    }

    /** @param {boolean} hasLog */
    say(hasLog) {
        if (this.stop.signal.aborted) {
            return this.hear.far("the search is stopped, and the drawing that it found is being drawn; Stop leaves it");
        }
        const seconds = duration((performance.now() - this.began) / 1000);
        const budget = Number(this.words[this.words.indexOf("--conflicts") + 1 || this.words.length] ?? OPTIONS.get("--conflicts")?.usual);
        const learnt = `${this.searched.learnt.toLocaleString("en")} of ${budget.toLocaleString("en")} clauses learnt`;
        this.hear.far(hasLog ? `${this.searched.inWords()} · ${learnt} · ${seconds}` : `running · ${seconds}`);
    }

    /** draws the best so far, where a better one was found and none is being drawn */
    look() {
        const known = this.searched.hasModel ? this.searched.inWords() : "";
        if (!DRAWING.has(this.words[0]) || this.looking || this.stop.signal.aborted || known === this.known || known === "") {
            return;
        }
        this.known = known;
        const budget = String(this.searched.learnt + 1), at = this.words.indexOf("--conflicts");
        const words = at < 0 ? [...this.words, "--conflicts", budget] : this.words.map((word, place) => (place === at + 1 ? budget : word));
        this.looking = this.engines.second.run({ words, files: this.files, signal: this.leave.signal }).then((ran) => {
            this.looking = undefined;
            const picture = ran.files.get(PICTURE), log = ran.files.get(LOG);
            if ([0, 4].includes(ran.status) && log && !this.leave.signal.aborted) {
                this.best = { picture, log, sheet: ran.output };
                this.hear.found(this.best);
                this.look();
            }
        });
    }
}
