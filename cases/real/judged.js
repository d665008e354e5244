/** Whether the program's track graph of a file is as the ground is. */
import { readGraph } from "../../shell/both/page/texts.js";

/** @typedef {import("./ground.js").Truth} Truth */
/** @typedef {import("./ground.js").Way} Way */
/** @typedef {import("../../shell/both/page/texts.js").Graph} Graph */

/** two mileages of one place are no further apart, in metres */
const SAME = 1;

/** A track graph, as the program gives it, beside the truth. */
class Judged {
    /** @param {string} text @param {Truth} truth @param {(id: string) => string} known the id that a node or track had on the ground */
    constructor(text, truth, known) {
        this.graph = readGraph(text);
        this.truth = truth;
        this.known = known;
        this.names = this.graph.nodes.map((it) => known(it.name));
        /** @type {string[]} */
        this.wrong = [];
        this.isTurned = false;
    }

    /** @param {number} node @param {Way} way @returns {number[]} the edges there, from the upper to the lower */
    legs(node, way) {
        const found = this.graph.edges.filter((it) => (way === "east" ? it.west : it.east) === node).map((it) => it.number);
        return found.length === 2 && !this.graph.above.has(found.join(" ")) ? found.reverse() : found;
    }

    /** @param {number} edge @param {Way} way @returns {string[]} to which points or ends it leads, over joints and over switches
     * that aren't of the
     * ground, from the upper to the lower */
    leaves(edge, way) {
        const { east, west } = this.graph.edges[edge], node = way === "east" ? east : west, { kind } = this.graph.nodes[node];
        if (this.truth.places.has(this.names[node])) {
            return [this.names[node]];
        }
        const further = this.legs(node, way);
        return further.length && (kind === "switch" || kind === "joint" || further.length === 1)
            ? further.flatMap((it) => this.leaves(it, way))
            : [`end ${this.truth.laterals.get(this.known(this.graph.edges[edge].track)) ?? ""}`];
    }

    /** @param {number} node @param {Way} way @returns {string} what lies there, from the upper to the lower */
    around(node, way) {
        return this.legs(node, way).flatMap((it) => this.leaves(it, way)).join(" ");
    }

    /** @param {boolean} isTurned whether the whole is seen from the other side @returns {string[]} what isn't so */
    differing(isTurned) {
        const at = new Map(this.names.map((name, number) => [name, number]));
        const turn = (/** @type {Way} */ way) => (isTurned === (way === "east") ? "west" : "east");
        const found = (/** @type {string} */ id, /** @type {Way} */ way, /** @type {string[]} */ wanted) => {
            const node = at.get(id), here = node === undefined ? "nothing" : this.around(node, turn(way));
            const there = (isTurned ? [...wanted].reverse() : wanted).join(" ");
            return here === there ? [] : [`${id} ${way}: ${here}, truly ${there}`];
        };
        return [...[...this.truth.switches].flatMap(([id, { legs, leaves, toe }]) => [...found(id, legs, leaves),
            ...found(id, legs === "east" ? "west" : "east", [toe])]),
            ...[...this.truth.crossings].flatMap(([id, { west, east }]) => [...found(id, "west", west), ...found(id, "east", east)]),
            ...this.misplaced(isTurned)];
    }

    /** @param {boolean} isTurned @returns {string[]} tracks that lie above others, and truly below */
    misplaced(isTurned) {
        const lateral = (/** @type {string} */ edge) => this.truth.laterals.get(this.known(this.graph.edges[Number(edge)].track));
        return [...this.graph.above].flatMap((pair) => {
            const [upper, lower] = pair.split(" "), [one, two] = [lateral(upper), lateral(lower)];
            return one === undefined || two === undefined || one === two || one > two !== isTurned ? []
                : [`${this.graph.edges[Number(upper)].track} lies above ${this.graph.edges[Number(lower)].track}`];
        });
    }

    /** @returns {string[]} points whose mileages are in another order than the points on the ground */
    misordered() {
        const placed = this.graph.nodes.flatMap((it) => {
            const at = this.truth.places.get(this.known(it.name));
            return at === undefined ? [] : [{ name: it.name, at, mileage: Number(it.mileage) * (this.isTurned ? -1 : 1) }];
        }).sort((one, two) => one.at - two.at);
        return placed.slice(1).flatMap((it, number) => (it.mileage + SAME < placed[number].mileage && it.at > placed[number].at + SAME
            ? [`${it.name} lies east of ${placed[number].name}, and is drawn west of it`] : []));
    }

    /** @returns {string[]} points at other mileages than on the ground */
    elsewhere() {
        return this.graph.nodes.flatMap((it) => {
            const wanted = this.truth.mileages.get(this.known(it.name));
            return wanted === undefined || Math.abs(Number(it.mileage) - wanted) <= SAME ? []
                : [`${it.name} is at ${it.mileage}, truly at ${wanted}`];
        });
    }
}

/**
 * What of a track graph isn't as on the ground: sides and neighbours; and the order of points, and their mileages.
 * @param {string} text what `graph` printed @param {Truth} truth @param {(id: string) => string} [known] the id that one had on the ground
 * @param {boolean} [mayBeTurned] whether east may be where mileages fall
 * @returns {{wrong: string[], misordered: string[], elsewhere: string[]}}
 */
export function judged(text, truth, known = (id) => id, mayBeTurned = false) {
    const it = new Judged(text, truth, known);
    let wrong = it.differing(false);
    if (mayBeTurned && wrong.length && !it.differing(true).length) {
        it.isTurned = true;
        wrong = [];
    }
    return { wrong, misordered: it.misordered(), elsewhere: it.elsewhere() };
}
