/**
 * Laws, values and endings in words.
 */
import { atNode, byMileage } from "../messages/law_words.js";
import { VALUES } from "./texts.js";

/** @typedef {import("./station.js").Station} Station */
/** @typedef {import("./texts.js").Drawing} Drawing */
/** @typedef {import("./texts.js").Law} Law */
/** @typedef {import("./texts.js").Party} Party */
/** @typedef {[string, string]} Badge a kind of ending, and a word or two */

/** @type {Map<string, [string, string]>} what each value counts: one of it, and several */
const MEASURED = new Map([["height", ["row above the lowest", "rows above the lowest"]],
    ["bends", ["point at which a line turns", "points at which lines turn"]],
    ["diagonal", ["column in which a line rises or falls", "columns in which a line rises or falls, added up over all lines"]],
    ["width", ["column right of the first", "columns right of the first"]]]);

/**
 * For each value its name, the number and what it counts.
 * @param {import("./texts.js").Values} values
 * @returns {[string, string, string][]}
 */
export function measured(values) {
    return VALUES.map((name) => [name, String(values[name]), MEASURED.get(name)?.[values[name] === 1 ? 0 : 1] ?? ""]);
}

/**
 * @param {string[]} words
 * @returns {string}
 */
export function listed(words) {
    return words.length === 1 ? words[0] : `${words.slice(0, -1).join(", ")} and ${words[words.length - 1]}`;
}

/**
 * @param {number[]} grid
 * @returns {string}
 */
export function gridInWords([width, height, least]) {
    return `columns 0 to ${width}, rows 0 to ${height}${least === 1 ? "" : `, each edge over ${least} columns or more`}`;
}

/**
 * What the last line of a sheet says.
 * @param {string[]} ending
 * @param {string[]} order
 * @returns {string}
 */
export function endingOfSearch([word, count], order) {
    if (word === "best") return `No lawful drawing on this grid is better in ${listed(order)}, compared in this order.`;
    if (word === "none") return "No drawing on this grid is lawful.";
    const why = word === "conflicts" ? "its budget of conflicts was spent" : "there was no room for more";
    const settled = Number(count ?? 0);
    const is = settled === 0 ? "Whether a lawful drawing is better isn't settled."
        : `On ${listed(order.slice(0, settled))} no lawful drawing is better; the rest isn't settled.`;
    return `The search ended early, since ${why}. ${is}`;
}

/** @type {Map<string, Badge>} */
const BADGES = new Map([["best", ["settled", "lawful, and none better"]], ["none", ["settled", "no drawing on this grid"]]]);

/**
 * How the search ended, in a word or two, and which kind of ending it is.
 * @param {string} ending
 * @returns {Badge}
 */
export function badgeOf(ending) {
    return BADGES.get(ending) ?? ["open", "search stopped"];
}

const MOVED = new Map([["best", "In no lawful drawing on this grid fewer nodes move."],
    ["none", "No drawing on this grid is lawful."],
    ["conflicts", "The search ended early, since its budget of conflicts was spent. Fewer nodes may do."],
    ["room", "The search ended early, since there was no room for more. Fewer nodes may do."]]);

/** @type {(ending: string) => string} */
export const endingOfMoved = (ending) => MOVED.get(ending) ?? "";

const FRONTS = new Map([
    ["whole", "These are all: each lawful drawing on this grid has at least the values of one of these pairs."],
    ["none", "No drawing on this grid is lawful."],
    ["conflicts", "The search for the front ended early, its budget of conflicts spent. These are on it; more may follow."],
    ["room", "The search for the front ended early, for want of room. These are on it; more may follow."]]);

/** @type {(ending: string) => string} */
export const endingOfFront = (ending) => FRONTS.get(ending) ?? "";

/** @param {Party} party @param {Drawing} drawing @param {Station} station @returns {string} */
function nameOf([kind, number], drawing, station) {
    if (kind === "node") return `the node ${station.label(drawing.nodes[number].name)}`;
    const edge = drawing.edges[number];
    const [west, east] = [edge.west, edge.east].map((end) => station.label(drawing.nodes[end].name));
    return `the piece ${edge.track ? `of track ${station.label(edge.track)}` : number} from ${west} to ${east}`;
}

/**
 * What a law asks of its parties, as part of a sentence.
 * @param {Law} law
 * @param {Drawing} drawing
 * @param {Station} station
 * @returns {string}
 */
export function asked(law, drawing, station) {
    const [one, other] = law.parties.map((it) => nameOf(it, drawing, station));
    const nodes = law.parties.map(([, number]) => drawing.nodes[number]);
    const known = station.node(nodes[0]?.number ?? 0);
    switch (law.number) {
        case 1: return `${one} lies on the grid`;
        case 2: return byMileage(placed(nodes[0], station), placed(nodes[1], station));
        case 3: return `the line of ${one} goes from its left to its right node, and over as many columns as is asked for`;
        case 4: return atNode(station.label(nodes[0].name), known?.kind ?? "", known?.side ?? "");
        case 5: return `${one} and ${other} lie at two points, and not at one`;
        case 6: return `${one} lies above ${other}`;
        default: return `${one} and ${other} don't cross`;
    }
}

/** @type {(node: import("./texts.js").Node, station: Station) => {name: string, mileage: string}} */
const placed = ({ name, mileage }, station) => ({ name: station.label(name), mileage: mileage ?? "" });

/**
 * @param {string} text
 * @returns {string}
 */
export function sentence(text) {
    return `${text.slice(0, 1).toUpperCase()}${text.slice(1)}.`;
}

/**
 * What a verdict says.
 * @param {Law} law
 * @param {Drawing} drawing
 * @param {Station} station
 * @returns {string}
 */
export function broken(law, drawing, station) {
    return `Law ${law.number} is broken. It asks: ${asked(law, drawing, station)}. In this drawing that isn't so.`;
}
