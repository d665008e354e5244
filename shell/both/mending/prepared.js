/** A file while it is mended, and what is said of it. */
import { Edits } from "../edits.js";
import * as railml from "../railml.js";

/** @typedef {import("../edits.js").Edit} Edit */
/** @typedef {import("../railml.js").Element} Element */

/** what the file doesn't say, and would have to be guessed */
export class Guess extends Error {}

/** why the file isn't one that can be mended */
export class Unfit extends Error {}

/** A file while it is mended, and what was said of it: why it isn't one that can be mended, changes, what would have to be
 * guessed, and what to look at. */
export class Prepared {
    /** @param {string} name @param {Uint8Array} data @param {string} called */
    constructor(name, data, called) {
        this.name = name;
        this.called = called;
        this.edits = new Edits(name, data);
        this.unfit = "";
        /** @type {string[]} */
        this.changes = [];
        /** @type {string[]} */
        this.guesses = [];
        /** @type {string[]} */
        this.doubts = [];
        /** @type {railml.Document | null} */
        this.read = null;
        /** @type {railml.Document | null} the file as it was read, once its text is one that is read */
        this.source = null;
        /** @type {import("../railml3/around.js").Known | null} what a railML 3 file says of itself; of others it is read of `source` */
        this.known = null;
        /** @type {Map<string, string>} the old ids of what has a new one */
        this.renamed = new Map();
        /** @type {Map<string, string>} switches that were made, each with the switch of which it is a part */
        this.made = new Map();
        /** whether more than the text was changed: what leads where, or mileages of switches and crossings */
        this.isRebuilt = false;
        /** whether mileages were counted anew */
        this.isRecounted = false;
        /** @type {Set<string>} the switches whose hands were exchanged, as was asked */
        this.exchanged = new Set();
    }

    get data() {
        return this.edits.data;
    }

    /** the elements of the file as it is by now */
    get document() {
        this.read ??= railml.read(this.data);
        return this.read;
    }

    /** @param {Edit[]} edits */
    replace(edits) {
        if (edits.length) {
            this.edits.replace(edits);
            this.read = null;
        }
    }

    /** @param {Uint8Array} data writes the whole anew */
    become(data) {
        this.edits = new Edits(this.name, data);
        this.read = null;
    }

    /** @param {number} place @returns {string} where the file that was read has what is at this byte now */
    at(place) {
        return this.edits.at(place);
    }

    /** @param {Element} it @param {string} said notes a change at an element */
    changed(it, said) {
        this.changes.push(`${this.at(it.place)}: ${said}`);
    }

    /** @param {Element} it @param {string} said notes what would have to be guessed at an element */
    guess(it, said) {
        this.guesses.push(`${this.at(it.place)}: ${said}`);
    }
}
