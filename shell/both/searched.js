/** What a search has found so far, read from its log as the log grows, and in words. */

const FEED = 10;
const KINDS = new Map(["b", "q", "r", "m", "l"].map((kind) => [kind.charCodeAt(0), kind]));
const decoder = new TextDecoder("ascii");

/**
 * The front of a log that was read so far, and what it says: the bounds by their variables, how many clauses were learnt, what
 * is asked, and what was found.
 */
export class Searched {
    constructor() {
        this.length = 0;
        this.learnt = 0;
        this.hasModel = false;
        this.hasQuery = false;
        this.isRefuted = false;
        /** @type {Map<number, {criterion: string, value: number}>} */
        this.bounds = new Map();
        /** below which value each criterion of the last query is to be @type {Map<string, number>} */
        this.asked = new Map();
        this.rest = new Uint8Array();
    }

    /**
     * Takes what was added to the log; those of its lines that make the formula, which are most, are only passed over.
     * @param {Uint8Array} piece
     */
    take(piece) {
        this.length += piece.length;
        let data = piece;
        if (this.rest.length) {
            data = new Uint8Array(this.rest.length + piece.length);
            data.set(this.rest);
            data.set(piece, this.rest.length);
        }
        let at = 0;
        for (let end = data.indexOf(FEED); end >= 0; end = data.indexOf(FEED, at)) {
            const kind = KINDS.get(data[at]);
            if (kind === "l") {
                this.learnt++;
            } else if (kind) {
                this.takeLine(decoder.decode(data.subarray(at, end)).split(" "));
            }
            at = end + 1;
        }
        this.rest = data.slice(at);
    }

    /** @param {string[]} line */
    takeLine([kind, ...fields]) {
        if (kind === "b" && fields.length === 3) {
            this.bounds.set(Number(fields[2]), { criterion: fields[0], value: Number(fields[1]) });
        } else if (kind === "m") {
            this.hasModel = true;
            this.isRefuted = false;
        } else if (kind === "q") {
            this.asked = this.limits(fields);
            this.hasQuery = true;
            this.isRefuted = false;
        } else if (kind === "r") {
            this.isRefuted = true;
        }
    }

    /** @param {string[]} fields @returns {Map<string, number>} */
    limits(fields) {
        const found = new Map();
        for (const it of fields) {
            const bound = /^-\d+$/.test(it) ? this.bounds.get(-Number(it)) : undefined;
            if (bound) {
                found.set(bound.criterion, bound.value);
            }
        }
        return found;
    }

    /**
     * The values that are known to be the least, by criterion: those that the query holds, and one that it refuted.
     * @returns {Map<string, number>}
     */
    settled() {
        const asked = [...this.asked], last = asked.pop();
        const known = new Map(asked.map(([criterion, value]) => [criterion, value - 1]));
        return this.isRefuted && last ? known.set(...last) : known;
    }

    /**
     * The value of the drawing that was found of which less is asked for; it may be less by now.
     * @returns {Map<string, number>}
     */
    found() {
        return new Map(this.hasModel && !this.isRefuted ? [...this.asked].slice(-1) : []);
    }

    /** @returns {string} */
    inWords() {
        if (!this.hasQuery) {
            return "writing the formula";
        }
        if (!this.hasModel) {
            return this.isRefuted ? "no drawing is lawful" : "looking for a first drawing";
        }
        const said = [...this.settled()].map(([criterion, value]) => `${criterion} ${value} is least`);
        for (const [criterion, value] of this.found()) {
            said.push(`${criterion}: at most ${value} found, looking for ${value - 1}`);
        }
        return said.join(" · ") || "a drawing is found, looking for a better one";
    }
}

const BAR = 16;
// what a command without a log is doing
const DOING = new Map([["front", "looking for the pairs"], ["explain", "looking for laws that can't be met together"],
    ["trial", "searching"], ["check", "checking the log"], ["trim", "trimming the log"],
    ["recheck", "checking the hinted lines"]]);
const grouped = new Intl.NumberFormat("en-US");

/**
 * A part of a whole as a bar.
 * @param {number} part @param {number} whole
 * @returns {string}
 */
export function bar(part, whole) {
    const filled = Math.min(BAR, Math.floor(BAR * part / whole));
    return `[${"#".repeat(filled)}${"-".repeat(BAR - filled)}]`;
}

/**
 * How long a run took.
 * @param {number} seconds
 * @returns {string}
 */
export function duration(seconds) {
    return `${seconds.toFixed(seconds < 9.95 ? 1 : 0)} s`;
}

/**
 * How far a run is, in a line that has so many columns.
 * @param {{command: string, seconds: number, budget: number, searched: Searched | null}} run @param {number} columns
 * @returns {string}
 */
export function progressLine({ command, seconds, budget, searched }, columns) {
    const time = `${seconds.toFixed(0)} s`;
    let said = DOING.get(command) ?? "running", end = time, lines = [`railplan: ${said} · ${end}`];
    if (searched) {
        said = command === "redraw" ? "looking for a drawing with fewer moved nodes" : searched.inWords();
        end = `${grouped.format(searched.learnt)} of ${grouped.format(budget)} · ${time}`;
        lines = [`railplan: ${said} · ${bar(searched.learnt, budget)} ${end}`, `railplan: ${said} · ${end}`];
    }
    const fitting = [...lines, `${said} · ${end}`].find((it) => it.length <= columns);
    return fitting ?? `${said.slice(0, Math.max(0, columns - end.length - 4))}… · ${end}`.slice(0, columns);
}
