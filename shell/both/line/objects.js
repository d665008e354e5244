/**
 * What lies along the tracks of a line, in order, so that the objects of a stretch are found without going through all of a track: a
 * track of a line may have ten thousands. Positions and mileages are micrometres.
 */
import { signals } from "../railml.js";
import { stretch } from "../searching.js";
import { micrometres, mileageOf } from "./network.js";

/** @typedef {import("../railml.js").Element} Element */
/** @typedef {{at: number, it: Element}} Placed */
/** @typedef {{placed: Placed[], others: Element[]}} Ordered the objects of a list by their positions, and those that say none */

/** The objects along the tracks of a file. */
export class Objects {
    constructor() {
        /** @type {Map<Element, Ordered>} */
        this.lists = new Map();
        /** @type {Map<Element, number[]>} the mileages of the signals of each track */
        this.mileages = new Map();
    }

    /** @param {Element} list @returns {Ordered} */
    orderedOf(list) {
        const known = this.lists.get(list);
        if (known) {
            return known;
        }
        /** @type {Ordered} */
        const made = { placed: [], others: [] };
        for (const it of list.children) {
            const at = micrometres(it.attributes.get("pos"));
            at === undefined ? made.others.push(it) : made.placed.push({ at, it });
        }
        made.placed.sort((one, other) => one.at - other.at);
        this.lists.set(list, made);
        return made;
    }

    /**
     * The objects of a list between two positions, in file order.
     * @param {Element} list @param {number} low @param {number} high @param {boolean} isFirst whether those that say no position are among
     * them
     * @returns {Element[]}
     */
    between(list, low, high, isFirst) {
        const { placed, others } = this.orderedOf(list), found = stretch(placed, ({ at }) => at, low, high).map(({ it }) => it);
        return [...found, ...isFirst ? others : []].sort((one, other) => one.place - other.place);
    }

    /**
     * The mileages of a track's signals that lie between two mileages.
     * @param {Element} track @param {number} low @param {number} high
     * @returns {number[]}
     */
    signalsBetween(track, low, high) {
        const known = this.mileages.get(track) ?? signals(track).flatMap((it) => mileageOf(it) ?? []).sort((one, other) => one - other);
        this.mileages.set(track, known);
        return stretch(known, (it) => it, low, high);
    }
}
