/**
 * The texts that the program prints, as records: graphs, sheets, verdicts, signals, explanations, pairs of values.
 *
 * The program wrote these texts, or accepted them. So no fault of theirs is explained: a text of another form raises NoPage.
 */

/** @typedef {[number, number]} Point a column and a row */
/** @typedef {["node" | "edge", number]} Party */
/** @typedef {{number: number, name: string, point: Point, mileage: string | null}} Node */
/** @typedef {{number: number, track: string | null, west: number, east: number, points: Point[]}} Edge */
/** @typedef {{nodes: Node[], edges: Edge[]}} Drawing */
/** @typedef {{[criterion: string]: number}} Values */
/** @typedef {{grid: number[], order: string[], drawing: Drawing | null, values: Values, ending: string[]}} Sheet */
/** @typedef {{number: number, name: string, edge: number, point: Point}} Signal */
/** @typedef {{number: number, parties: Party[]}} Law */
/** @typedef {object} Why laws that no drawing keeps at once, and for each a drawing that keeps all others; or a word in their
 * place
 * @property {Law[]} laws
 * @property {Drawing[]} without
 * @property {string} ending */
/** @typedef {{grid: number[], ending: string, moved: number, of: number, drawing: Drawing | null, values: Values}} Moved */
/** @typedef {{criteria: [string, string], pairs: Point[], ending: string}} Front */
/** @typedef {object} GraphNode a node of the track graph; of a switch also where its legs lie, and the side of the diverging
 * one
 * @property {number} number
 * @property {string} name
 * @property {string} kind
 * @property {string} mileage
 * @property {string} legs
 * @property {string} side */
/** @typedef {{number: number, track: string, west: number, east: number}} GraphEdge */
/** @typedef {{nodes: GraphNode[], edges: GraphEdge[], above: Set<string>}} Graph `above` has pairs of edges, as `1 2` */

export const VALUES = ["height", "bends", "diagonal", "width"];
const SHEETS = ["railplan 2", "railplan 1"];

/** The output is none of which there is a page. */
export class NoPage extends Error {}

/**
 * A whole number.
 * @param {string | undefined} text
 * @returns {number}
 */
function whole(text) {
    if (text === undefined || !/^[+-]?\d+$/.test(text)) throw new NoPage(`${text} is no whole number`);
    return Number(text);
}

/** The lines of a text, as fields, from one of the titles on. */
class Lines {
    /** @param {string} text @param {string[]} titles */
    constructor(text, titles) {
        const lines = text.split("\n");
        const first = lines.findIndex((line) => titles.includes(line));
        if (first < 0) throw new NoPage(`the output has no ${titles.join(" or ")}`);
        this.title = lines[first];
        this.lines = lines;
        this.at = first + 1;
    }

    /** @param {string} word @returns {boolean} */
    nextIs(word) {
        return this.at < this.lines.length && this.lines[this.at].split(" ", 1)[0] === word;
    }

    /** @param {string} word @returns {string[]} */
    take(word) {
        if (!this.nextIs(word)) throw new NoPage(`a line \`${word}\` lacks`);
        this.at += 1;
        return this.lines[this.at - 1].split(" ").slice(1);
    }

    /** @param {string} word @returns {number[]} */
    numbers(word) {
        return this.take(word).map(whole);
    }

    /**
     * As many things as the line says.
     * @template T
     * @param {string} word the line that has their number
     * @param {() => T} one
     * @returns {T[]}
     */
    many(word, one) {
        return Array.from({ length: whole(this.take(word)[0]) }, one);
    }
}

/** @param {string[]} fields @returns {Point[]} */
function pointsOf(fields) {
    const numbers = fields.map(whole);
    return Array.from({ length: Math.floor(numbers.length / 2) }, (_, at) => [numbers[2 * at], numbers[2 * at + 1]]);
}

/**
 * @param {string} text
 * @returns {Graph}
 */
export function readGraph(text) {
    const lines = new Lines(text, ["railgraph 1"]);
    const nodes = lines.many("nodes", () => {
        const [number, name, kind, ...rest] = lines.take("node");
        const mileage = rest[rest.length - 1];
        const [legs, side] = rest.length > 1 ? rest : ["", ""];
        return { number: whole(number), name, kind, mileage, legs, side };
    });
    const edges = lines.many("edges", () => {
        const [number, track, west, east] = lines.take("edge");
        return { number: whole(number), track, west: whole(west), east: whole(east) };
    });
    const above = new Set();
    while (lines.nextIs("above")) above.add(lines.numbers("above").join(" "));
    return { nodes, edges, above };
}

/**
 * The lines from `nodes` to the last edge; an older sheet has neither mileages nor tracks.
 * @param {Lines} lines
 * @param {boolean} [hasNames]
 * @returns {Drawing}
 */
function readDrawing(lines, hasNames = true) {
    const nodes = lines.many("nodes", () => {
        const [number, name, x, y, mileage] = lines.take("node");
        return { number: whole(number), name, point: /** @type {Point} */ ([whole(x), whole(y)]), mileage: mileage ?? null };
    });
    const edges = lines.many("edges", () => {
        const [number, ...fields] = lines.take("edge");
        const track = hasNames ? fields.shift() ?? null : null;
        return { number: whole(number), track, west: whole(fields[0]), east: whole(fields[1]),
            points: pointsOf(fields.slice(2)) };
    });
    return { nodes, edges };
}

/** @param {Lines} lines @returns {Values} */
function readValues(lines) {
    const numbers = lines.numbers("values");
    return Object.fromEntries(VALUES.map((it, at) => [it, numbers[at]]));
}

/** @param {Lines} lines @returns {Sheet} */
function sheetFrom(lines) {
    /** @type {Sheet} */
    const sheet = { grid: [...lines.numbers("grid"), 1].slice(0, 3), order: lines.take("order"), drawing: null, values: {},
        ending: [] };
    if (lines.nextIs("nodes")) {
        sheet.drawing = readDrawing(lines, lines.title === SHEETS[0]);
        sheet.values = readValues(lines);
    }
    sheet.ending = lines.take("end");
    return sheet;
}

/**
 * @param {string} text
 * @returns {Sheet}
 */
export function readSheet(text) {
    return sheetFrom(new Lines(text, SHEETS));
}

/**
 * A sheet and, where it has a drawing, the signals behind it.
 * @param {string} text
 * @returns {{sheet: Sheet, signals: Signal[]}}
 */
export function readSignals(text) {
    const lines = new Lines(text, SHEETS);
    const sheet = sheetFrom(lines);
    if (!lines.nextIs("signals")) return { sheet, signals: [] };
    const signals = lines.many("signals", () => {
        const [number, name, edge, x, y] = lines.take("signal");
        return { number: whole(number), name, edge: whole(edge), point: /** @type {Point} */ ([whole(x), whole(y)]) };
    });
    return { sheet, signals };
}

/**
 * The front of the text that is a sheet: up to the line `end`, with its line feed.
 * @param {string} text
 * @returns {string}
 */
export function sheetPart(text) {
    const lines = text.split("\n");
    const last = lines.findIndex((line) => line.startsWith("end "));
    if (last < 0) throw new NoPage("the output has no line `end`");
    return lines.slice(0, last + 1).join("\n") + "\n";
}

/**
 * The drawing that redraw found, as a sheet that claims nothing but its values: nobody showed that none is better. "" where none
 * was found.
 * @param {string} text
 * @returns {string}
 */
export function movedSheet(text) {
    const lines = text.split("\n"), at = lines.findIndex((it) => it.startsWith("moved "));
    if (at < 0) return "";
    const ended = lines.findIndex((it) => it.startsWith("end "));
    return ["railplan 2", lines[at - 1], `order ${VALUES.join(" ")}`, ...lines.slice(at + 1, ended), "end conflicts 0", ""].join("\n");
}

/**
 * The sheet of an answer of signals or redraw; "" where it has no drawing.
 * @param {string} text
 * @returns {string}
 */
export function sheetIn(text) {
    return text.startsWith("railplan-moved ") ? movedSheet(text)
        : text.startsWith("railplan ") && readSignals(text).sheet.drawing ? sheetPart(text) : "";
}

/**
 * A law with its parties, each a kind and a number.
 * @param {string[]} fields
 * @returns {Law}
 */
function lawFrom([number, ...parties]) {
    const count = Math.floor(parties.length / 2);
    return {
        number: whole(number),
        parties: Array.from({ length: count }, (_, at) => {
            const kind = parties[2 * at] === "node" ? "node" : "edge";
            return /** @type {Party} */ ([kind, whole(parties[2 * at + 1])]);
        }),
    };
}

/**
 * The law that is broken, or none where the drawing is lawful.
 * @param {string} text
 * @returns {Law | null}
 */
export function readVerdict(text) {
    for (const line of text.split("\n")) {
        if (line.startsWith("lawful ")) return null;
        if (line.startsWith("broken law ")) return lawFrom(line.split(" ").slice(2));
    }
    throw new NoPage("the output is no verdict");
}

/**
 * @param {string} text
 * @returns {Why}
 */
export function readWhy(text) {
    const ending = ["drawing exists", "why conflicts", "why room"].find((it) => text.split("\n").includes(it));
    if (ending) return { laws: [], without: [], ending };
    const lines = new Lines(text, ["railplan-why 1"]);
    const laws = lines.many("laws", () => lawFrom(lines.take("law")));
    const without = laws.map(() => {
        lines.take("without");
        return readDrawing(lines);
    });
    lines.take("end");
    return { laws, without, ending: "" };
}

/**
 * @param {string} text
 * @returns {Moved}
 */
export function readMoved(text) {
    const lines = new Lines(text, ["railplan-moved 1"]);
    /** @type {Moved} */
    const found = { grid: lines.numbers("grid"), ending: "", moved: 0, of: 0, drawing: null, values: {} };
    if (lines.nextIs("moved")) {
        const [moved, , of] = lines.take("moved");
        Object.assign(found, { moved: whole(moved), of: whole(of), drawing: readDrawing(lines), values: readValues(lines) });
    }
    found.ending = lines.take("end")[0];
    return found;
}

/**
 * @param {string} text
 * @returns {Front}
 */
export function readFront(text) {
    const lines = new Lines(text, ["railplan-front 1"]);
    const [one, other] = lines.take("front");
    /** @type {Point[]} */
    const pairs = [];
    while (lines.nextIs("pair")) {
        const [first, second] = lines.numbers("pair");
        pairs.push([first, second]);
    }
    return { criteria: [one, other], pairs, ending: lines.take("end")[0] };
}
