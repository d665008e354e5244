/**
 * A run as its page needs it: the words and what it gave, its files as they were read, and what the launcher says of it.
 */
import { nothing, read } from "../infrastructure.js";
import { Scene } from "./drawing.js";
import { Station } from "./station.js";
import { NoPage, readGraph } from "./texts.js";

/** @typedef {import("./facts.js").Build} Build */
/** @typedef {import("./facts.js").FileFacts} FileFacts */
/** @typedef {import("./texts.js").Drawing} Drawing */
/** @typedef {import("./texts.js").Graph} Graph */
/** @typedef {{paper: string, labels: string, side: string, east: string}} Settings what is asked of the pictures; no east where
 * it isn't said where east is */
/** @typedef {{facts: FileFacts, content: Uint8Array | null}} Input a file as it was read; without bytes where it couldn't be */
/** @typedef {{text: string, file: string, line: number}} Said a sentence, and the line of a file that it is about; no file
 * where there is none */
/** @typedef {{words: string[], text: string}} Drawn the words of a run that draws a pair of a front, and its sheet */
/** @typedef {object} RunRecord
 * @property {string[]} words
 * @property {string[]} names the files that the words name
 * @property {Map<string, string>} options
 * @property {string} output
 * @property {number} status
 * @property {Input[]} inputs
 * @property {(string | null)[]} graphs the track graphs of the railML files, as the program has them
 * @property {Map<string, Drawn>} drawings of a front, by the pair as `1,2`
 * @property {FileFacts | null} log
 * @property {Settings} settings
 * @property {Build} build
 * @property {string} version
 * @property {number | null} date
 * @property {string} page the page's own name
 * @property {string} sheetBeside
 * @property {string} hintsBeside
 * @property {string[]} frontWords the words before the command, but the page's own name
 * @property {string} sheetHash of the sheet that the output has
 * @property {string[]} notShown what the file has and the drawing doesn't show
 * @property {Said[]} notes what the launcher says of a fault */

/** how a run ends that has an answer */
export const ANSWERED = [0, 3, 4, 8];
/** how many files each command reads first that its page needs */
export const INPUTS = new Map([["draw", 1], ["signals", 1], ["front", 1], ["explain", 1], ["verify", 2], ["redraw", 3]]);

const EMPTY = new Uint8Array();
/** @type {Map<string, "left" | "right">} at which edge east is: kilometres rise from left to right */
const EDGES = new Map([["rising", "right"], ["falling", "left"], ["right", "right"], ["left", "left"]]);

/** @param {string | null | undefined} text @returns {Graph | null} */
function graphOf(text) {
    try {
        return text ? readGraph(text) : null;
    } catch (error) {
        if (error instanceof NoPage) return null;
        throw error;
    }
}

export class Run {
    /** @param {Partial<RunRecord> & {words: string[], output: string}} record */
    constructor(record) {
        /** @type {RunRecord} */
        this.record = { names: [], options: new Map(), status: 0, inputs: [], graphs: [], drawings: new Map(), log: null,
            settings: { paper: "A3", labels: "name", side: "right", east: "" }, build: { state: "unknown", sha256: "" },
            version: "", date: null, page: "", sheetBeside: "", hintsBeside: "", frontWords: [], sheetHash: "", notShown: [],
            notes: [], ...record };
    }

    get command() {
        return this.record.words[0];
    }

    get file() {
        return this.record.names[0] ?? "";
    }

    /** @returns {string} the first file's name, without its folder and ending */
    get stem() {
        return this.file.slice(this.file.lastIndexOf("/") + 1).replace(/\.xml$/, "");
    }

    /** @returns {boolean} whether it gave an answer, and no fault */
    get isAnswered() {
        return ANSWERED.includes(this.record.status);
    }

    /** @param {number} number @returns {Uint8Array} */
    content(number) {
        return this.record.inputs[number]?.content ?? EMPTY;
    }

    /** @param {number} number @returns {string} */
    text(number) {
        return new TextDecoder("utf-8", { ignoreBOM: true }).decode(this.content(number));
    }

    /** @param {number} [number] @returns {Station} */
    station(number = 0) {
        const content = this.content(number);
        return new Station(graphOf(this.record.graphs[number]), content.length ? read(content) : nothing(),
            this.record.settings.labels);
    }

    /**
     * @param {Drawing} drawing
     * @param {Station} station
     * @param {ConstructorParameters<typeof Scene>[2]} [how]
     * @returns {Scene}
     */
    scene(drawing, station, how = {}) {
        const { side, paper, east } = this.record.settings;
        return new Scene(drawing, station, { isLeft: side === "left", paper, east: EDGES.get(east), ...how });
    }
}
