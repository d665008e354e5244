/**
 * A file's track graph, numbered as the program gives its edges, to say by names what a fault says by numbers. It is built for
 * files whose topology has no fault. Nothing is judged here: it says from which switch or crossing an order comes.
 */
import { ZERO } from "./decimal.js";
import * as railml from "./railml.js";

/** @typedef {import("./railml.js").Element} Element */
/** @typedef {"east" | "west"} Way */
/** @typedef {{name: string, west: Element, east: Element}} Edge a piece of track, or a join between switches: its track's or
 * connection's id, and its nodes */
/** @typedef {{node: Element, way: Way, upper: number, lower: number}} Fork two edges on one side of a node: the way that they
 * lead from it, the upper one and the lower one */

/** @template K @template V @param {Map<K, V[]>} map @param {K} key @param {V} value */
function push(map, key, value) {
    const there = map.get(key);
    if (there) {
        there.push(value);
    } else {
        map.set(key, [value]);
    }
}

/** The edges by number, and the forks of its switches and crossings. */
export class TrackGraph {
    /** @param {import("./railml.js").Document} document */
    constructor(document) {
        this.byId = railml.byId(document);
        this.tracks = document.tracks();
        /** @type {Edge[]} */
        this.edges = [];
        /** @type {Map<number, number>} the piece that leads on from a place of a track, and the one that leads to it */
        this.behind = new Map();
        /** @type {Map<number, number>} */
        this.before = new Map();
        /** @type {Map<number, number>} the join of a connection, by its place */
        this.joins = new Map();
        this.tracks.forEach((it) => this.addPieces(it));
        this.addJoins();
        /** @type {Record<Way, Map<number, number[]>>} */
        this.leaving = { east: new Map(), west: new Map() };
        this.edges.forEach((it, number) => {
            push(this.leaving.east, it.west.place, number);
            push(this.leaving.west, it.east.place, number);
        });
        /** @type {Record<Way, Map<number, Set<number>>>} */
        this.known = { east: new Map(), west: new Map() };
        this.forks = this.tracks.flatMap(railml.points).flatMap((it) => this.forksOf(it));
    }

    // ---- edges

    /** @param {Element} connection @returns {Element | undefined} the connection that it is joined to */
    other(connection) {
        return this.byId.get(connection.attributes.get("ref") ?? "");
    }

    /**
     * The element that is the node: of a track end that is joined the other's, where that is listed first or is no end.
     * @param {Element} it @returns {Element}
     */
    node(it) {
        const connection = railml.ENDS.includes(it.name) ? it.named("connection")[0] : undefined;
        const owner = connection && this.other(connection)?.parent;
        return owner && (railml.POINTS.includes(owner.name) || owner.place < it.place) ? owner : it;
    }

    /** @param {string} name @param {Element} one @param {Element} other @returns {number} */
    add(name, one, other) {
        const isTurned = (railml.mileage(other) ?? ZERO).compare(railml.mileage(one) ?? ZERO) < 0;
        return this.edges.push(isTurned ? { name, west: other, east: one } : { name, west: one, east: other }) - 1;
    }

    /** @param {Element} track */
    addPieces(track) {
        const begin = railml.endOf(track, "trackBegin"), end = railml.endOf(track, "trackEnd");
        if (!begin || !end) {
            return;
        }
        const spots = [begin, ...railml.points(track).sort(railml.byPosition), end];
        for (let at = 1; at < spots.length; at++) {
            const number = this.add(track.id, this.node(spots[at - 1]), this.node(spots[at]));
            this.behind.set(spots[at - 1].place, number);
            this.before.set(spots[at].place, number);
        }
    }

    addJoins() {
        for (const it of [...this.byId.values()].sort((one, two) => one.place - two.place)) {
            const other = this.other(it);
            const isJoin = other && railml.isOfPoint(it) && railml.isOfPoint(other) && it.place < other.place;
            if (isJoin && it.parent && other.parent) {
                const number = this.add(it.id, it.parent, other.parent);
                this.joins.set(it.place, number);
                this.joins.set(other.place, number);
            }
        }
    }

    /**
     * The edge along which a connection leads away from its switch or crossing.
     * @param {Element} connection @returns {number | undefined}
     */
    beyond(connection) {
        const other = this.other(connection);
        if (!other?.parent) {
            return undefined;
        }
        const { name, place } = other.parent;
        return name === "trackBegin" ? this.behind.get(place)
            : name === "trackEnd" ? this.before.get(place) : this.joins.get(other.place);
    }

    // ---- forks

    /** @param {Element} it @returns {Fork[]} */
    forksOf(it) {
        const before = this.before.get(it.place), after = this.behind.get(it.place);
        if (before === undefined || after === undefined) {
            return [];
        }
        return it.name === "switch" ? this.switchFork(it, before, after) : this.crossingForks(it, before, after);
    }

    /** @param {Element} it @param {number} before @param {number} after @returns {Fork[]} */
    switchFork(it, before, after) {
        const connection = it.named("connection")[0];
        const branch = connection && this.beyond(connection);
        if (branch === undefined) {
            return [];
        }
        const leg = connection.attributes.get("orientation") === "outgoing" ? after : before;
        const course = connection.attributes.get("course"), isStraight = course === "straight";
        const [diverging, straight] = isStraight ? [leg, branch] : [branch, leg];
        const hand = isStraight ? it.attributes.get("trackContinueCourse") : course;
        const way = this.edges[leg].west === it ? "east" : "west";
        const isUpper = (hand === "left") === (way === "east");
        return [{ node: it, way, upper: isUpper ? diverging : straight, lower: isUpper ? straight : diverging }];
    }

    /** @param {Element} it @param {number} before @param {number} after @returns {Fork[]} */
    crossingForks(it, before, after) {
        const byWay = new Map(it.named("connection").map((child) => [child.attributes.get("orientation"), child]));
        const coming = byWay.get("incoming"), going = byWay.get("outgoing");
        const incoming = coming && this.beyond(coming), outgoing = going && this.beyond(going);
        if (byWay.size !== 2 || incoming === undefined || outgoing === undefined) {
            return [];
        }
        const isRising = this.edges[after].west === it;
        const own = isRising ? [before, after] : [after, before];
        const other = isRising ? [incoming, outgoing] : [outgoing, incoming];
        const [rising, falling] = going?.attributes.get("course") === "left" ? [other, own] : [own, other];
        return [{ node: it, way: "west", upper: falling[0], lower: rising[0] },
            { node: it, way: "east", upper: rising[1], lower: falling[1] }];
    }

    // ---- orders

    /** @param {Way} way @param {number} edge @returns {Set<number>} the edges that are reached from one, itself among them */
    reached(way, edge) {
        const known = this.known[way].get(edge);
        if (known) {
            return known;
        }
        const found = new Set([edge]);
        for (const one of found) {
            const end = way === "east" ? this.edges[one].east : this.edges[one].west;
            this.leaving[way].get(end.place)?.forEach((it) => found.add(it));
        }
        this.known[way].set(edge, found);
        return found;
    }

    /** @param {number} upper @param {number} lower @returns {Fork[]} the forks that have one edge above another */
    origins(upper, lower) {
        return this.forks.filter((fork) => {
            const above = this.reached(fork.way, fork.upper), below = this.reached(fork.way, fork.lower);
            return above.has(upper) && !below.has(upper) && below.has(lower) && !above.has(lower);
        });
    }

    /** @param {number} number @returns {string} */
    pieceInWords(number) {
        const { name, west, east } = this.edges[number];
        return `${name} from ${west.id} to ${east.id}`;
    }
}
