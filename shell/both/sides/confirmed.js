/**
 * Whether a file itself confirms that the hands of incoming switches are seen as those of outgoing ones. Where two ways lead
 * from one
 * switch to another, as by a loop or by two crossovers, both switches say which way lies above. With the hands of all incoming
 * switches exchanged they would contradict each other. So a file that has such places says how hands are seen. Exchanged
 * hands move
 * no piece of track, so they make no other fault of the track graph. A file that is mirrored as a whole isn't seen so.
 */
import * as railml from "../railml.js";
import { TrackGraph } from "../track_graph.js";

/** @typedef {import("../railml.js").Element} Element */
/** @typedef {import("../railml.js").Document} Document */
/** @typedef {import("../track_graph.js").Fork} Fork */
/** @typedef {{node: Element, isIncoming: boolean, pairs: Set<number>}} Said which edges a switch or crossing has above which;
 * an edge's
 * number times the count of edges, and that of the one below */

/** so many edges the program takes; of more nothing is said */
const MOST_EDGES = 160;

/** @param {Element} point @returns {boolean} */
export function isIncoming(point) {
    return point.name === "switch" && point.named("connection")[0]?.attributes.get("orientation") === "incoming";
}

/** @param {Element} point @returns {boolean} */
export function isOutgoing(point) {
    return point.name === "switch" && point.named("connection")[0]?.attributes.get("orientation") === "outgoing";
}

/** What the switches and crossings of a file say of which edge lies above which. */
export class Orders {
    /** @param {Document} document */
    constructor(document) {
        this.graph = new TrackGraph(document);
        this.size = this.graph.edges.length;
        /** of a file with more edges nothing is known */
        this.isRead = this.size <= MOST_EDGES;
        this.spans = this.graph.edges.map(({ west, east }) => [west, east].map((it) => railml.mileage(it)?.toNumber() ?? 0));
        /** @type {Map<Element, Said>} */
        const said = new Map();
        for (const fork of this.isRead ? this.graph.forks : []) {
            const there = said.get(fork.node) ?? { node: fork.node, isIncoming: isIncoming(fork.node), pairs: new Set() };
            this.addPairs(fork, there.pairs);
            said.set(fork.node, there);
        }
        this.said = [...said.values()];
        this.incoming = this.said.filter((it) => it.isIncoming);
        this.others = this.said.filter((it) => !it.isIncoming);
    }

    /** @param {Fork} fork @param {Set<number>} pairs */
    addPairs({ way, upper, lower }, pairs) {
        const above = this.graph.reached(way, upper), below = this.graph.reached(way, lower);
        const [ones, others] = [[...above].filter((it) => !below.has(it)), [...below].filter((it) => !above.has(it))];
        for (const one of ones) {
            for (const other of others) {
                if (this.overlap(one, other)) {
                    pairs.add(one * this.size + other);
                }
            }
        }
    }

    /** @returns {[number, number][]} the pairs of edges of which a switch or crossing says that the first lies above */
    get above() {
        return this.said.flatMap(({ pairs }) => [...pairs].map((pair) =>
            /** @type {[number, number]} */ ([Math.floor(pair / this.size), pair % this.size])));
    }

    /** @param {number} one @param {number} other @returns {boolean} whether two edges share more than one mileage */
    overlap(one, other) {
        const [west, east] = this.spans[one], [begun, ended] = this.spans[other];
        return Math.max(west, begun) < Math.min(east, ended);
    }

    /** @param {number} pair @returns {number} the same two edges the other way round */
    turned(pair) {
        return (pair % this.size) * this.size + Math.floor(pair / this.size);
    }

    /** @param {(it: Said) => boolean} [isExchanged] the switches whose hands are the other ones @returns {Uint16Array} how
     * many switches
     * and crossings say of two edges, by their pair, that the first lies above */
    counted(isExchanged = () => false) {
        const counts = new Uint16Array(this.size * this.size);
        for (const it of this.said) {
            const isOther = isExchanged(it);
            it.pairs.forEach((pair) => counts[isOther ? this.turned(pair) : pair]++);
        }
        return counts;
    }

    /** @param {Uint16Array} counts @returns {number[]} the pairs of which both say that they lie above the other */
    contradicting(counts) {
        return [...counts.keys()].filter((pair) => counts[pair] && counts[this.turned(pair)]);
    }

    get contradicts() {
        return this.contradicting(this.counted()).length > 0;
    }

    /** whether two edges would each lie above the other, were the hands of all incoming switches exchanged */
    get contradictsExchanged() {
        return this.contradicting(this.counted((it) => it.isIncoming)).length > 0;
    }

    /** whether one hand alone, exchanged, has nothing contradict: no other says what it says, and each contradiction is one
     * of its own */
    get isOfOneHand() {
        const counts = this.counted(), both = this.contradicting(counts);
        return this.said.some(({ pairs }) => [...pairs].every((pair) => counts[pair] === 1)
            && both.every((pair) => pairs.has(pair) || pairs.has(this.turned(pair))));
    }

    /** @returns {number} how many loops and crossovers say that incoming and outgoing switches are seen alike */
    get confirming() {
        const of = (/** @type {Said[]} */ ones, /** @type {Said[]} */ others) => {
            const known = new Set(others.flatMap((it) => [...it.pairs]));
            return ones.filter((it) => [...it.pairs].some((pair) => known.has(pair))).length;
        };
        return Math.min(of(this.incoming, this.others), of(this.others, this.incoming));
    }
}
