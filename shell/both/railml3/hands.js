/**
 * To which hand a crossing's path leaves it, by what lies around: railML 3 doesn't say which of two paths lies to the left. The
 * switches say which pieces of track lie above which. A piece that lies above another one lies above all that meets at an end
 * of that,
 * since no two pieces cross but at a crossing. So most often only one hand is left.
 */
import * as railml from "../railml.js";
import { Orders } from "../sides/confirmed.js";

/** @typedef {import("../railml.js").Element} Element */
/** @typedef {import("../railml.js").Document} Document */

/** What is known of which edge lies above which, with all that follows from it. */
class Known {
    /** @param {Orders} orders */
    constructor(orders) {
        this.orders = orders;
        this.edges = orders.graph.edges;
        /** @type {Set<number>} pairs of edges, the first above the second */
        this.pairs = new Set();
        /** @type {Map<Element, number[]>} the edges that meet at a node */
        this.at = new Map();
        this.edges.forEach(({ west, east }, number) => [west, east].forEach((node) =>
            this.at.set(node, [...this.at.get(node) ?? [], number])));
    }

    /** @param {Iterable<number>} pairs */
    add(pairs) {
        const more = [...pairs];
        for (let pair = more.pop(); pair !== undefined; pair = more.pop()) {
            if (!this.pairs.has(pair)) {
                this.pairs.add(pair);
                more.push(...this.following(pair));
            }
        }
    }

    /** @param {number} edge @param {number} beside @returns {number[]} the edges that meet at an end of an edge, where
     * another one passes
     * that end, and that lie beside that one */
    meeting(edge, beside) {
        const { west, east } = this.edges[edge], [begun, ended] = this.orders.spans[beside];
        const passed = [west, east].filter((node, at) => {
            const mileage = this.orders.spans[edge][at];
            return mileage >= begun && mileage <= ended && this.edges[beside].west !== node && this.edges[beside].east !== node;
        });
        return passed.flatMap((node) => this.at.get(node) ?? []).filter((one) => one !== beside && this.orders.overlap(one,
            beside));
    }

    /** @param {number} pair @returns {number[]} the pairs that follow from one */
    following(pair) {
        const { size } = this.orders, upper = Math.floor(pair / size), lower = pair % size;
        return [...this.meeting(lower, upper).map((one) => upper * size + one), ...this.meeting(upper, lower).map((one) =>
            one * size + lower)];
    }
}

/**
 * Which crossings of a file leave to the right, where all of them are written to the left, and of which nothing says it.
 * @param {Document} document
 * @returns {{right: Element[], unclear: Element[]}}
 */
export function handsOfCrossings(document) {
    const orders = new Orders(document), known = new Known(orders), right = [], decided = new Set();
    known.add(orders.said.filter((it) => it.node.name === "switch").flatMap((it) => [...it.pairs]));
    let left = orders.said.filter((it) => it.node.name === "crossing");
    for (let count = -1; left.length && left.length !== count;) {
        count = left.length;
        const clear = left.filter(({ pairs }) => {
            const isSo = [...pairs].some((pair) => known.pairs.has(pair)), isOther = [...pairs].some((pair) =>
                known.pairs.has(orders.turned(pair)));
            return isSo !== isOther;
        });
        for (const it of clear) {
            const isSo = [...it.pairs].some((pair) => known.pairs.has(pair));
            right.push(...isSo ? [] : [it.node]);
            decided.add(it.node);
            known.add(isSo ? it.pairs : [...it.pairs].map((pair) => orders.turned(pair)));
        }
        left = left.filter((it) => !clear.includes(it));
    }
    return { right, unclear: document.tracks().flatMap(railml.points).filter((it) => it.name === "crossing"
        && !decided.has(it)) };
}
