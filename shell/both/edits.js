/** A file's bytes while they are edited, and where the file that was read had what is at a byte now. */
import { Place } from "./places.js";

/** @typedef {import("./railml.js").Element} Element */
/** @typedef {{begun: number, ended: number, text: string}} Edit a text in place of the bytes from one to the other */

// one sign for each byte; blanks are named by their codes, as some bytes are no blank that would be one as a sign
const single = new TextDecoder("latin1");
const decoder = new TextDecoder();
const TAG = /<[^ \t-\r/>]+(?:[ \t-\r]+[^ \t-\r=<>]+[ \t-\r]*=[ \t-\r]*(?:"[^"]*"|'[^']*'))*[ \t-\r]*\/?>/y;
const LINE_FEED = 10, SLASH = 47;
/** of each so many bytes the line and the column are kept */
const STEP = 4096;
const REFERENCES = new Map([["&", "&amp;"], ["<", "&lt;"], [">", "&gt;"], ['"', "&quot;"], ["'", "&apos;"]]);

/** @param {string} text @returns {string} a value of an attribute as it is written */
function valueText(text) {
    return text.replace(/[&<>"']/g, (it) => REFERENCES.get(it) ?? it);
}

/** @type {Map<string, RegExp>} */
const patterns = new Map();

/** @param {string} name of an attribute @returns {RegExp} the attribute in a tag */
function valuePattern(name) {
    const known = patterns.get(name) ?? new RegExp(`([ \\t-\\r]${name}[ \\t-\\r]*=[ \\t-\\r]*)(?:"([^"]*)"|'([^']*)')`);
    patterns.set(name, known);
    return known;
}

/**
 * Bytes with edits made, of which no two meet.
 * @param {Uint8Array} data @param {(Edit & {data: Uint8Array})[]} sorted in their order
 * @returns {Uint8Array}
 */
function replaced(data, sorted) {
    const written = new Uint8Array(sorted.reduce((sum, it) => sum + it.data.length - (it.ended - it.begun), data.length));
    let at = 0, to = 0;
    for (const { begun, ended, data: text } of sorted) {
        written.set(data.subarray(at, begun), to);
        written.set(text, to + begun - at);
        to += begun - at + text.length;
        at = ended;
    }
    written.set(data.subarray(at), to);
    return written;
}

/** @param {Edit[]} edits @returns {(Edit & {data: Uint8Array})[]} in their order, with the bytes of each */
function sorted(edits) {
    const encoder = new TextEncoder();
    return edits.map((it) => ({ ...it, data: encoder.encode(it.text) }))
        .sort((one, other) => one.begun - other.begun || one.ended - other.ended);
}

/** Edits in their order, for each where it ends behind them, and by how much all before it made the text grow. */
export class Moved {
    /** @param {(Edit & {data: Uint8Array})[]} edits */
    constructor(edits) {
        this.edits = edits;
        this.grown = [0];
        /** @type {number[]} */
        this.ends = [];
        for (const { begun, ended, data } of edits) {
            const grown = this.grown[this.grown.length - 1];
            this.ends.push(begun + grown + data.length);
            this.grown.push(grown + data.length - (ended - begun));
        }
    }

    /** @param {number} place @returns {number} where a byte was before these edits */
    before(place) {
        let low = 0, high = this.ends.length;
        while (low < high) {
            const middle = (low + high) >> 1;
            if (this.ends[middle] <= place) {
                low = middle + 1;
            } else {
                high = middle;
            }
        }
        const was = place - this.grown[low];
        return low < this.edits.length ? Math.min(was, this.edits[low].begun) : was;
    }
}

/** A file's bytes, as they were and as they are by now. */
export class Edits {
    /** @param {string} name @param {Uint8Array} data */
    constructor(name, data) {
        this.name = name;
        this.source = data;
        this.data = data;
        this.signs = single.decode(data);
        /** @type {Moved[]} */
        this.moved = [];
        /** @type {{line: number, column: number}[]} those of each so many bytes of the file that was read */
        this.steps = [];
    }

    /** @param {Edit[]} edits */
    replace(edits) {
        if (!edits.length) {
            return;
        }
        const made = sorted(edits);
        this.data = replaced(this.data, made);
        this.signs = single.decode(this.data);
        this.moved.push(new Moved(made));
    }

    /**
     * That an attribute of an element has a value: in place of the one it has, or as its first one.
     * @param {Element} it @param {string} name @param {string} value @returns {Edit}
     */
    setting(it, name, value) {
        const there = this.valueIn(it.place, name), place = it.place + 1 + new TextEncoder().encode(it.name).length;
        return there ? { ...there, text: valueText(value) } : { begun: place, ended: place, text: ` ${name}="${valueText(value)}"` };
    }

    /** @param {Element} it @param {string} name @returns {Edit[]} that it hasn't this attribute any more */
    leavingOut(it, name) {
        const there = this.valueIn(it.place, name);
        if (!there) {
            return [];
        }
        const front = /[ \t-\r]+[^ \t-\r=]+[ \t-\r]*=[ \t-\r]*["']$/.exec(this.signs.slice(it.place, there.begun));
        return [{ begun: there.begun - (front?.[0].length ?? 0), ended: there.ended + 1, text: "" }];
    }

    /** @param {Element} it @param {string} name @returns {Edit[]} that it has another name */
    naming(it, name) {
        const size = new TextEncoder().encode(it.name).length, begun = it.place + 1;
        const edits = [{ begun, ended: begun + size, text: name }];
        if (this.data[it.ended - 2] !== SLASH) {
            const end = this.signs.lastIndexOf("</", it.ended) + 2;
            edits.push({ begun: end, ended: end + size, text: name });
        }
        return edits;
    }

    /** @param {Element} it @param {Edit[]} [edits] @returns {string} its text, with those of some edits that are in it */
    textOf(it, edits = []) {
        return this.between(it.place, it.ended, edits);
    }

    /** @param {Element} it @param {Edit[]} [edits] @returns {string} the tag with which it begins, with edits of it */
    tagOf(it, edits = []) {
        TAG.lastIndex = it.place;
        return this.between(it.place, it.place + (TAG.exec(this.signs)?.[0].length ?? 0), edits);
    }

    /** @param {number} from @param {number} to @param {Edit[]} edits @returns {string} */
    between(from, to, edits) {
        const within = edits.filter(({ begun, ended }) => begun >= from && ended <= to)
            .map((edit) => ({ ...edit, begun: edit.begun - from, ended: edit.ended - from }));
        return decoder.decode(replaced(this.data.subarray(from, to), sorted(within)));
    }

    /** @param {Element} it @returns {Edit} that it isn't there, and its line neither where nothing else is on it */
    removing(it) {
        const before = /(^|\n)[ \t]*$/.exec(this.signs.slice(Math.max(0, it.place - 200), it.place));
        const behind = /^[ \t]*\r?\n/.exec(this.signs.slice(it.ended, it.ended + 200));
        const isAlone = before && behind;
        return { begun: it.place - (isAlone ? before[0].replace(/^\n/, "").length : 0), ended: it.ended + (isAlone ? behind[0].length : 0),
            text: "" };
    }

    /** @param {Element} it @param {string} text @returns {Edit} that a text comes at the end of an element that has children */
    appending(it, text) {
        const isEmpty = this.data[it.ended - 2] === SLASH, end = this.signs.lastIndexOf("</", it.ended);
        return isEmpty ? { begun: it.ended - 2, ended: it.ended, text: `>${text}</${it.name}>` } : { begun: end, ended: end, text };
    }

    /** @param {string} text @returns {number[]} each place of a text */
    allOf(text) {
        const sought = single.decode(new TextEncoder().encode(text)), found = [];
        for (let at = this.signs.indexOf(sought); at >= 0; at = this.signs.indexOf(sought, at + 1)) {
            found.push(at);
        }
        return found;
    }

    /**
     * Where the value of an attribute is, of the tag that begins at a byte.
     * @param {number} place @param {string} name @returns {{begun: number, ended: number} | null}
     */
    valueIn(place, name) {
        TAG.lastIndex = place;
        const tag = TAG.exec(this.signs)?.[0] ?? "";
        const found = valuePattern(name).exec(tag);
        if (!found) {
            return null;
        }
        const begun = place + found.index + found[1].length + 1;
        return { begun, ended: begun + (found[2] ?? found[3]).length };
    }

    /** @param {number} place @returns {string} the name, line and column that what is at this byte now had in the file */
    at(place) {
        return this.head(this.moved.reduceRight((at, moved) => moved.before(at), place));
    }

    /**
     * The name, line and column of a byte that was read. They are many, and in any order: so they are counted on from the last of some
     * places of which it is known.
     * @param {number} place @returns {string}
     */
    head(place) {
        const { source, steps } = this;
        if (!steps.length) {
            const hasMark = source[0] === 0xef && source[1] === 0xbb && source[2] === 0xbf;
            steps.push({ line: 1, column: hasMark ? -1 : 0 });
        }
        for (let step = steps.length; step * STEP <= place; step++) {
            steps.push(this.counted(steps[step - 1], (step - 1) * STEP, step * STEP));
        }
        const step = Math.floor(place / STEP), { line, column } = this.counted(steps[step], step * STEP, place);
        return new Place(this.name, line, Math.max(column, 0) + 1, "").head();
    }

    /** @param {{line: number, column: number}} from @param {number} begun the byte where that is @param {number} ended
     * @returns {{line: number, column: number}} line and column of another byte behind it */
    counted({ line, column }, begun, ended) {
        for (let at = begun; at < ended; at++) {
            const byte = this.source[at];
            // a byte that continues a sign takes no column
            column = byte === LINE_FEED ? 0 : column + Number((byte & 0xc0) !== 0x80);
            line += Number(byte === LINE_FEED);
        }
        return { line, column };
    }
}
