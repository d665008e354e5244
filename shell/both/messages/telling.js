/** What the end of a run means: its answer, its fault lines and refusals in sentences, with the places that they are about. */
import { CALLED, tooLong } from "../file_kinds.js";
import { near } from "../near.js";
import { quoted } from "../quoted.js";

/** @typedef {import("../notes.js").Note} Note */
/** @typedef {import("../words.js").Line} Line */
/** @typedef {import("./seen.js").Seen} Seen */
/** @typedef {object} Run a run that ended
 * @property {Line} line its words
 * @property {number} status
 * @property {Uint8Array} output what the program printed
 * @property {string} called how the launcher is called, to be typed again
 * @property {Seen} seen what is seen of its files
 * @property {() => Promise<string[]>} graph asks the program for the lines of the track graph of the run's first file; none
 * where they can't be had */

const NO_WORDS = 10;
const KILLED = 137;
const decoder = new TextDecoder();

/**
 * The lines of what a program printed.
 * @param {Uint8Array} output
 * @returns {string[]}
 */
export function linesOf(output) {
    const text = decoder.decode(output).replace(/\n$/, "");
    return text ? text.split("\n") : [];
}

/**
 * Why a file couldn't be read, and what to do.
 * @param {string} name @param {Seen} seen @param {string} called
 * @returns {string}
 */
export function unread(name, seen, called) {
    if (name === "-") {
        return "`-` isn't there; standard input is /dev/stdin";
    }
    if (name === "-h" && !seen.kind(name)) {
        return `\`-h\` was taken for the name of a file, and isn't there: ${called} --help says all`;
    }
    const kind = seen.kind(name);
    if (kind === "folder") {
        return `${name} is a folder. Name one file in it; ${called} folder ${name} OUT draws each station in it`;
    }
    if (!kind) {
        const meant = nearby(name, seen);
        return `${name} isn't there${meant ? `. Did you mean ${meant}?` : ""}`;
    }
    return `${name} can't be read: ${seen.why(name) || "it changed meanwhile"}`;
}

/** @param {string} name @returns {[string, string]} the part before the ending and the ending, in small letters */
function partsOf(name) {
    const at = name.lastIndexOf("."), small = name.toLowerCase();
    return at > 0 && !/^\.*$/.test(name.slice(0, at)) ? [small.slice(0, at), small.slice(at)] : [small, ""];
}

/**
 * A file of the same folder whose name is nearly the same, and either the part before the ending or the ending the very same.
 * @param {string} name @param {Pick<Seen, "names">} seen
 * @returns {string}
 */
export function nearby(name, seen) {
    const folder = name.slice(0, name.lastIndexOf("/") + 1), [stem, ending] = partsOf(name.slice(folder.length));
    const others = seen.names(folder).map((other) => ({ other, parts: partsOf(other) }));
    const stems = new Map(others.filter((it) => it.parts[1] === ending).map((it) => [it.parts[0], it.other]));
    const endings = new Map(others.filter((it) => it.parts[0] === stem).map((it) => [it.parts[1], it.other]));
    const found = stems.get(near(stem, stems.keys(), 0.8)) ?? endings.get(near(ending, endings.keys()));
    return found ? folder + found : "";
}

/**
 * What prepare makes of a file with a fault: the program says the first fault alone. Where it would change the file and nothing has
 * to be guessed, the line that does so; where the file lacks more than one thing, the line that lists them.
 * @param {string} name @param {Uint8Array} data @param {string} called
 * @param {Note[]} said what is said of the fault
 * @returns {Promise<Note[]>}
 */
async function byPrepare(name, data, called, said) {
    const { mended } = await import("../prepare.js"), { guesses, changes, unfit } = mended(name, data, called);
    const line = `${called} prepare ${quoted(name)} NEW.xml`, count = changes.length;
    if (guesses.length > 1) {
        return [{ text: `this isn't all: ${line} lists ${guesses.length} things that this file lacks` }];
    }
    return unfit || guesses.length || !count || /NEW\.xml (writes|takes)/.test(said[0]?.text ?? "") ? []
        : [{ text: `${line} writes the file with ${count === 1 ? "1 change" : `${count} changes`}, and says ${count === 1 ? "it" : "each"}` }];
}

/** the faults that changes of prepare are about */
const MENDED = ["Missing", "Id", "Number", "UnknownRef", "EndKind", "OutsideTrack", "NotForward"];

/** The end of a run that gave no answer. */
export class Ending {
    /** @param {Run} run */
    constructor(run) {
        this.run = run;
        this.line = run.line;
        this.seen = run.seen;
    }

    /** @returns {Promise<string>} the line to type, with the names of this run where it shows which is which */
    async usage() {
        const { inOrder } = await import("./sheet_faults.js"), { typed, usage } = await import("./word_faults.js");
        const names = inOrder(this.seen, this.line), { called } = this.run;
        return names.length ? typed(called, [this.line.command, ...names]) : usage(this.line.command, called);
    }

    /** @param {...string} kinds @returns {string} the first file of these kinds that is read, or "" */
    ofKind(...kinds) {
        return this.line.filesRead.find((it) => kinds.includes(it.kind))?.word ?? "";
    }

    /** @returns {Promise<Note[]>} what is said of it: by its fault line, or else by its status */
    async notes() {
        let fields = linesOf(this.run.output).at(-1)?.split(" ") ?? [""], name = this.ofKind("railml");
        if (fields[0] === "old" && fields.length > 1) {
            fields = fields.slice(1);
            name = this.line.filesRead[1].word;
        }
        switch (fields[0]) {
            case "text":
            case "topology":
            case "signal":
            case "graph":
            case "order":
                return this.ofStation(name, fields);
            case "words":
                return this.ofWords(fields);
            case "read":
                return [{ text: unread(this.line.filesRead[Number(fields[2]) - 1].word, this.seen, this.run.called) }];
            case "long": {
                const { word, kind } = this.line.filesRead[Number(fields[1]) - 1];
                return [{ text: tooLong(word, kind, this.run.called) }];
            }
            case "sheet":
            case "broken":
                return this.ofSheet(fields);
            case "log":
            case "hints":
            case "check":
                return this.ofLog(fields);
            case "trim":
                return (await import("./log_faults.js")).withoutHints(this.ofKind("log"));
            default:
                return this.ofStatus();
        }
    }

    /** @param {string[]} fields @returns {Promise<Note[]>} */
    async ofWords([, , fault, position]) {
        const { sentence } = await import("./word_faults.js");
        const { line, called, seen } = this.run, { words: given, before } = line;
        return [{ text: sentence(fault, { given, at: Number(position) - 1, called, seen, before }) }];
    }

    /** @param {string} name @param {string[]} fields @returns {Promise<Note[]>} */
    async ofStation(name, fields) {
        const [table, , fault, , place, ...named] = fields, data = this.seen.bytes(name), { called } = this.run;
        if (!data) {
            return [{ text: `${name} has a fault, and can't be read again to show where: ${fields.join(" ")}. Name a file` }];
        }
        if (table === "text") {
            const { lineOf, wrongFile } = await import("./sheet_faults.js");
            const other = wrongFile(this.seen, name, CALLED.get("railml") ?? "", await this.usage());
            return other ? [{ text: other, place: lineOf(this.seen, name, 1) }]
                : (await import("./text_faults.js")).notes(fault, { name, data, place: Number(place), called });
        }
        const { Station, notes } = await import("./topology_faults.js"), station = new Station(name, data, called);
        if (table === "topology") {
            const said = notes(station, fault, Number(place), named);
            return [...said, ...MENDED.includes(fault) ? await byPrepare(name, data, called, said) : []];
        }
        if (table === "signal") {
            return (await import("./signal_faults.js")).notes(station, fault, Number(place), named);
        }
        const graph = await import("./graph_faults.js");
        const said = table === "graph" ? graph.notes(station, fault, fields.slice(3)) : graph.contradicts(station, fields.slice(3));
        return [...said, ...MENDED.includes(fault) ? await byPrepare(name, data, called, said) : []];
    }

    /** @param {string[]} fields @returns {Promise<Note[]>} */
    async ofSheet(fields) {
        const { broken, notes } = await import("./sheet_faults.js"), sheet = this.ofKind("sheet");
        if (fields[0] === "sheet") {
            return notes(this.seen, sheet, fields[2], Number(fields[4]), await this.usage());
        }
        const parties = fields.slice(3).flatMap((kind, at, all) => (at % 2 ? [] : [{ kind, number: all[at + 1] }]));
        return broken(this.seen, sheet, Number(fields[2]), parties);
    }

    /** @param {string[]} fields @returns {Promise<Note[]>} */
    async ofLog(fields) {
        const { lacks, notes, refused } = await import("./log_faults.js"), name = this.ofKind("log", "hints");
        const [table, refusal, fault, place, number] = fields;
        if (table === "log" || table === "hints") {
            return notes(this.seen, name, table, fault, Number(number), await this.usage());
        }
        if (refusal !== "Lacks") {
            return refused(this.seen, name, refusal, Number(place));
        }
        const [order, ending] = [3, 4].map((at) => this.seen.line(this.ofKind("sheet"), at));
        return lacks(name, Number(place), order.split(" ").slice(1), ending === "end none");
    }

    /** @returns {Note[]} an end that no line says */
    ofStatus() {
        const { status } = this.run;
        if (status === 6) {
            const written = this.line.filesWritten.filter((it) => it.at >= 0).map((it) => it.word).join(" or ");
            return [{ text: `${written || "the output"} couldn't be written. Is there room on the disk?` }];
        }
        if (status === 7) {
            return [{ text: "there was no memory for this run. End other programs, or ask for a smaller grid" }];
        }
        if (status > 128) {
            const memory = status === KILLED ? ". Was there too little memory?" : "";
            return [{ text: `the program was ended by signal ${status - 128}${memory}` }];
        }
        return status === NO_WORDS ? [{ text: "the program couldn't have the words of the command line. Is a word no UTF-8?" }]
            : [];
    }
}

/** @param {Run} run @param {string[]} said @returns {Promise<Note[]>} what is said of an answer that is no fault */
async function ofAnswer(run, said) {
    const { line, status, called, seen } = run, { command } = line, advice = await import("./advice.js");
    const answer = { line, called, said }, last = said.at(-1) ?? "";
    const isSearch = ["draw", "signals", "redraw", "front"].includes(command);
    /** @type {Note[]} */
    const found = [];
    if (isSearch && command !== "front") {
        const data = seen.bytes(line.names[0]), { notShown } = await import("./not_shown.js");
        found.push(...data ? notShown(data, line, said).map((text) => ({ text })) : []);
    }
    if (status === 0 && command === "graph") {
        const data = seen.bytes(line.names[0]), { sidesOf } = await import("../sides/said.js"), { read } = await import("../railml.js");
        const { good, doubts } = data ? sidesOf(read(data)) : { good: [], doubts: [] };
        found.push(...[...good, ...doubts].map((text) => ({ text })));
    }
    if (command === "draw") {
        found.push(...advice.oddPicture(line.options.get("--svg") ?? "", said));
    }
    if (status === 0 && command === "explain" && said.some((it) => it.startsWith("laws "))) {
        const graph = await run.graph(), { laws } = await import("./explained.js");
        found.push(...laws(said, seen.bytes(line.names[0]), graph), advice.larger(answer, graph));
    }
    if (last === "drawing exists") {
        found.push(advice.drawingExists(answer));
    }
    if (status === 0 && ["check", "trim", "recheck"].includes(command)) {
        found.push(...advice.certified(answer, seen));
    }
    if (status === 0 && command === "verify") {
        found.push(advice.lawful(last.split(" ").slice(1)));
    }
    if (status === 3 && isSearch) {
        found.push(advice.noDrawing(answer, await run.graph()));
    }
    if (status === 4 && (isSearch || command === "explain")) {
        found.push(advice.stopped(answer));
    }
    return found;
}

/**
 * Whether a run printed what its command is there for, and no line that says why it didn't.
 * @param {number} status @param {string[]} said the lines of the output
 * @returns {boolean}
 */
export function isAnswer(status, said) {
    return [0, 3, 4].includes(status) && !/^(?:check|trim) /.test(said[0] ?? "");
}

/**
 * What a run's end means; what can't be explained is left as it is.
 * @param {Run} run
 * @returns {Promise<Note[]>}
 */
export async function notesOf(run) {
    try {
        const said = linesOf(run.output);
        return await (isAnswer(run.status, said) ? ofAnswer(run, said) : new Ending(run).notes());
    } catch (error) {
        if (error instanceof TypeError || error instanceof RangeError) {
            return [];
        }
        throw error;
    }
}
