/** What a fault of a sheet means, which law a sheet's drawing breaks, and what a file is by its first line. */
import { CALLED } from "../file_kinds.js";
import { Place } from "../places.js";
import { valuesLine } from "../sheet_values.js";
import { COMMANDS } from "../words.js";
import { savedOtherwise } from "./saved_otherwise.js";

/** @typedef {import("../notes.js").Note} Note */
/** @typedef {import("./seen.js").Seen} Seen */
/** @typedef {{kind: string, number: string}} Party a node or an edge by its number */

/** the texts of a run, by how their first line begins */
const FIRST_LINES = [["railgraph", "the answer of graph"], ["railplan-moved", "the answer of redraw"],
    ["railplan-log", "a log"], ["railplan-hints", "hinted lines"], ["railplan-front", "the answer of front"],
    ["railplan-why", "the answer of explain"],
    ["railplan ", "a sheet"], ["<", "a railML file"], ["\ufeff<", "a railML file"]];

/**
 * The begin of a line of a file.
 * @param {Seen} seen @param {string} name @param {number} number
 * @returns {Place}
 */
export function lineOf(seen, name, number) {
    return new Place(name, number, 1, seen.line(name, number));
}

/** @param {Seen} seen @param {string} name @returns {string} what a file is by its first line; "" where that doesn't show it */
function kindOf(seen, name) {
    const begun = seen.line(name, 1);
    return FIRST_LINES.find(([front]) => begun.startsWith(front))?.[1] ?? "";
}

/**
 * The names of a run in the order in which its command takes them; none where their first lines don't show that order.
 * @param {Seen} seen @param {import("../words.js").Line} line
 * @returns {string[]}
 */
export function inOrder(seen, line) {
    const there = new Map(line.filesRead.map((it) => [kindOf(seen, it.word), it.word]));
    const found = (COMMANDS.get(line.command)?.names ?? []).map((name, at) => {
        const called = CALLED.get(name.kind) ?? "";
        const word = name.isWritten ? line.names[at] : there.get(called) ?? "";
        if (!name.isWritten) {
            there.delete(called);
        }
        return word;
    });
    return there.size || !found.every(Boolean) ? [] : found;
}

/**
 * That a file is of another kind than its place among the names.
 * @param {Seen} seen @param {string} name @param {string} wanted @param {string} usage
 * @returns {string}
 */
export function wrongFile(seen, name, wanted, usage) {
    const found = kindOf(seen, name);
    if (!found || found === wanted) {
        return "";
    }
    const these = found === "hinted lines" ? "these are" : "this is";
    return `${these} ${found}, and ${wanted} ${wanted === "hinted lines" ? "are" : "is"} read here: ${usage}`;
}

/** @param {Seen} seen @param {Place} at @param {string} usage @returns {string} */
function form(seen, at, usage) {
    const other = wrongFile(seen, at.name, "a sheet", usage);
    if (other) {
        return other;
    }
    if (/^end (none|conflicts 0|room 0)/.test(at.text)) {
        return "this sheet has no drawing, as the search found none. Only check and recheck take such a sheet";
    }
    if (at.text.startsWith("signals ")) {
        return "the sheet ends before this line: these are the places of signals. sed '/^end /q' takes the sheet out";
    }
    if (!at.text) {
        return at.line === 1 ? "the sheet is empty. draw prints one"
            : "the sheet ends too early, or this line is empty. Was it copied to its end?";
    }
    return savedOtherwise(seen, at) || "this line hasn't the form that a sheet has here. docs/formats/sheet.md shows each line; draw writes them";
}

/** @param {Seen} seen @param {Place} at @returns {string} */
function range(seen, at) {
    if (at.text.startsWith("grid")) {
        return "this is no grid: the width is 1 to 64, the height 0 to 12, the least length 1 to 16";
    }
    if (at.text.startsWith("order")) {
        return "this is no order: one to four of height, bends, diagonal and width, each once";
    }
    return "this ending can't be: fewer criteria are settled than the order has, and none without a drawing";
}

/**
 * That a sheet's values aren't those of its points, and the line that is. What its ending claims was of other points.
 * @param {Seen} seen @param {Place} at
 * @returns {string}
 */
function values(seen, at) {
    const text = new TextDecoder().decode(seen.bytes(at.name) ?? new Uint8Array()), line = valuesLine(text);
    const said = "these aren't the values of the drawing above: its height, bends, diagonal and width";
    if (!line) {
        return `${said}. Was a point changed?`;
    }
    const ending = text.split("\n")[at.line] ?? "", claims = /^end (best|(conflicts|room) [1-4])$/.test(ending);
    return `${said}. If its points are as they are meant, this line is: ${line}`
        + (claims ? `. And \`${ending}\` claims that no drawing is better, which nobody showed of these points: \`end conflicts 0\` `
            + "claims nothing" : "");
}

/** @type {Map<string, (seen: Seen, at: Place, usage: string) => string>} what is said of each fault */
export const SHEET = new Map([
    ["Form", form],
    ["Range", range],
    ["Graph", () => "this line isn't the station's: a count, a number, a name, a mileage or an end differs from the file. Is "
        + "the sheet of another file, or was the file changed since? draw makes a new one"],
    ["Shape", () => "these points are no line: a line goes from west to east, level or rising or falling by one row a column, "
        + "in at most three parts. docs/trust/laws.md shows the eleven shapes"],
    ["Values", values],
]);

/**
 * What is said of a sheet's fault in a line.
 * @param {Seen} seen @param {string} sheet @param {string} fault @param {number} number @param {string} usage
 * @returns {Note[]}
 */
export function notes(seen, sheet, fault, number, usage) {
    const place = lineOf(seen, sheet, number);
    return [{ text: SHEET.get(fault)?.(seen, place, usage) ?? "", place }];
}

// ---- broken laws

/** @type {Map<number, (one: string, other: string) => string>} what a drawing that breaks a law does */
export const LAWS = new Map([
    [1, (one) => `${one} lies off the grid. Columns go from 0 to the width, rows from 0 to the height`],
    [2, (one, other) => `${one} and ${other} aren't in the order of their mileages: the one of smaller mileage lies further `
        + "west, and two of one mileage lie in one column"],
    [3, (one) => `the line of ${one} doesn't join its two nodes, or is shorter than the grid's least length`],
    [4, (one) => `at ${one} the lines don't meet as they must: at an end the line is level, at a joint both have one slope, at `
        + "a switch the branch turns off to its side, at a crossing each path goes on straight"],
    [5, (one, other) => `${one} and ${other} are at one point`],
    [6, (one, other) => `${one} isn't above ${other} in all the columns that both lines have`],
    [7, (one, other) => `${one} and ${other} cross or touch, or change which of them is above`],
]);

/** The names of a sheet's nodes and edges, and the lines where they are. */
class Drawing {
    /** @param {string[]} lines */
    constructor(lines) {
        /** @type {Map<string, {line: number, name: string}>} */
        this.nodes = new Map();
        /** @type {Map<string, {line: number, fields: string[]}>} */
        this.edges = new Map();
        lines.forEach((text, at) => {
            const fields = text.split(/\s+/).filter(Boolean);
            if (fields.length > 3 && fields[0] === "node") {
                this.nodes.set(fields[1], { line: at + 1, name: fields[2] });
            } else if (fields.length > 4 && fields[0] === "edge") {
                this.edges.set(fields[1], { line: at + 1, fields });
            }
        });
    }

    /** @param {Party} party @returns {{name: string, line: number}} a party in words, and its line */
    party({ kind, number }) {
        if (kind === "node") {
            const { line, name } = this.nodes.get(number) ?? { line: 0, name: "" };
            return { name: name ? `node ${number} (${name})` : `node ${number}`, line };
        }
        const found = this.edges.get(number);
        if (!found) {
            return { name: `edge ${number}`, line: 0 };
        }
        const { line, fields } = found;
        const isNamed = !/^\d+$/.test(fields[2]) || fields.length % 2 === 1;
        const [west, east] = fields.slice(isNamed ? 3 : 2).map((it) => this.nodes.get(it)?.name ?? it);
        return { name: `edge ${number} (${isNamed ? `${fields[2]}, ` : ""}from ${west} to ${east})`, line };
    }
}

/**
 * The law that a drawing breaks, with its parties by name.
 * @param {Seen} seen @param {string} sheet @param {number} law @param {Party[]} parties
 * @returns {Note[]}
 */
export function broken(seen, sheet, law, parties) {
    const drawing = new Drawing(new TextDecoder().decode(seen.bytes(sheet) ?? new Uint8Array()).split("\n"));
    const found = parties.map((it) => drawing.party(it));
    const said = LAWS.get(law)?.(found[0]?.name ?? "", found[1]?.name ?? "") ?? "";
    const places = found.filter((it) => it.line).map((it) => lineOf(seen, sheet, it.line));
    return [{ text: `the drawing breaks law ${law}: ${said}`, place: places[0] },
        ...places.slice(1).map((place) => ({ text: `${found[1].name} is here`, place }))];
}
