/**
 * The tracks of a file as a network: nodes, the pieces of track between them, and ways over joints from one switch or crossing
 * to the next. Lengths and mileages are whole micrometres, as numbers.
 */
import { byId, connections, endOf, points } from "../railml.js";
import { Objects } from "./objects.js";

/** @typedef {import("../railml.js").Element} Element */
/** @typedef {import("../railml.js").Document} Document */
/**
 * The track between two neighbouring places of one track; `at` counts a track's pieces from its begin.
 * @typedef {{track: Element, at: number, one: Element, other: Element, length: number}} Piece
 */
/**
 * What a node leads to: the node behind a piece, or, without one, behind a join of two switches.
 * @typedef {{node: Element, piece: Piece | null, length: number}} Neighbour
 */
/**
 * A way from a node over joints: its pieces (null for a join), the nodes behind each, and its length.
 * @typedef {{pieces: (Piece | null)[], nodes: Element[], length: number}} Way
 */

const POINT_NAMES = new Set(["switch", "crossing"]);

/**
 * A number of metres as micrometres; nothing where it is none.
 * @param {string | undefined} text
 */
export function micrometres(text) {
    const number = text === undefined || text.trim() === "" ? NaN : Number(text);
    return Number.isFinite(number) ? Math.round(number * 1e6) : undefined;
}

/** @param {Element} it */
export function positionOf(it) {
    return micrometres(it.attributes.get("pos")) ?? 0;
}

/**
 * An element's own mileage, else its track begin's, as far as the two positions are apart.
 * @param {Element} it
 */
export function mileageOf(it) {
    const own = micrometres(it.attributes.get("absPos"));
    const track = own === undefined ? it.above("track") : null, begin = track ? endOf(track, "trackBegin") : null;
    const base = begin && begin !== it ? micrometres(begin.attributes.get("absPos")) : undefined;
    return own ?? (base === undefined ? undefined : base + positionOf(it) - positionOf(/** @type {Element} */ (begin)));
}

/** @param {Element} it */
export function isPoint(it) {
    return POINT_NAMES.has(it.name);
}

/** The tracks of a file as a network. */
export class Network {
    /** @param {Document} document */
    constructor(document) {
        this.document = document;
        this.connections = byId(document);
        /**
         * @type {Map<Element, {places: Element[], pieces: Piece[]}>} the places of each track from its begin, and its pieces
         */
        this.tracks = new Map();
        /** @type {Map<Element, Piece[]>} */
        this.piecesAt = new Map();
        for (const track of document.tracks()) {
            this.addTrack(track);
        }
        /** @type {Map<Element, Element[]>} the switches that a switch is joined to without a track */
        this.joined = new Map();
        for (const connection of this.connections.values()) {
            this.addJoin(connection);
        }
        this.objects = new Objects();
        /** @type {Set<string>} all ids of the file */
        this.ids = new Set(document.elements.map((it) => it.id).filter(Boolean));
        /** @type {Map<string, Element>} operational points by their ids */
        this.operationalPoints = new Map(document.elements.filter((it) => it.name === "ocp").map((it) => [it.id, it]));
    }

    /** @param {Element} track */
    addTrack(track) {
        const begin = endOf(track, "trackBegin"), end = endOf(track, "trackEnd");
        if (!begin || !end) {
            return;
        }
        const places = [begin, ...points(track).sort((one, other) => positionOf(one) - positionOf(other)), end];
        const pieces = places.slice(1).map((other, at) => {
            const one = places[at], piece = { track, at, one, other, length: Math.abs(positionOf(other) - positionOf(one)) };
            for (const node of new Set([this.nodeOf(one), this.nodeOf(other)])) {
                const known = this.piecesAt.get(node);
                known ? known.push(piece) : this.piecesAt.set(node, [piece]);
            }
            return piece;
        });
        this.tracks.set(track, { places, pieces });
    }

    /** @param {Element} connection */
    addJoin(connection) {
        const owner = connection.parent, other = this.partnerOf(connection)?.parent;
        if (owner && other && isPoint(owner) && isPoint(other)) {
            this.joined.set(owner, [...(this.joined.get(owner) ?? []), other]);
        }
    }

    /**
     * The connection that a connection refers to.
     * @param {Element} connection
     */
    partnerOf(connection) {
        return this.connections.get(connection.attributes.get("ref") ?? "");
    }

    /**
     * What a track's end is joined to: a switch, a crossing or another track's end.
     * @param {Element} end
     */
    joinedTo(end) {
        const connection = end.named("connection")[0];
        return (connection && this.partnerOf(connection)?.parent) ?? null;
    }

    /**
     * The node of a place: of an end that is joined, the switch or crossing, or of two ends the one that comes first in the
     * file.
     * @param {Element} place
     */
    nodeOf(place) {
        const other = isPoint(place) ? null : this.joinedTo(place);
        return other && (isPoint(other) || other.place < place.place) ? other : place;
    }

    /**
     * @param {Element} node
     * @returns {"point" | "joint" | "end"}
     */
    kindOf(node) {
        return isPoint(node) ? "point" : this.joinedTo(node) ? "joint" : "end";
    }

    /**
     * What lies around a node.
     * @param {Element} node
     * @returns {Neighbour[]}
     */
    beyond(node) {
        const pieces = (this.piecesAt.get(node) ?? []).map((piece) => {
            const one = this.nodeOf(piece.one), other = this.nodeOf(piece.other);
            return { node: one === node ? other : one, piece, length: piece.length };
        });
        return [...pieces, ...(this.joined.get(node) ?? []).map((other) => ({ node: other, piece: null, length: 0 }))];
    }

    /** the switches and crossings of tracks that have no begin or no end: they are in no network */
    left() {
        return this.document.tracks().filter((track) => !this.tracks.has(track)).flatMap((track) => points(track));
    }

    /** what of the file's joins isn't mutual, or an id that comes twice, in words; nothing where the file is sound in this */
    fault() {
        const listed = connections(this.document), twice = listed.find((it) => this.connections.get(it.id) !== it);
        if (twice) {
            return `two connections have the id ${twice.id}`;
        }
        const odd = listed.find((it) => this.partnerOf(it) && this.partnerOf(/** @type {Element} */ (this.partnerOf(it))) !== it);
        return odd ? `connection ${odd.id} refers to ${odd.attributes.get("ref")}, which refers to another one` : "";
    }

    /** all switches and crossings of the network, track by track */
    points() {
        return [...this.tracks.values()].flatMap(({ places }) => places.slice(1, -1));
    }

    /**
     * The way from a node to the next switch, crossing or end.
     * @param {Neighbour} start what the node leads to first
     * @returns {Way}
     */
    wayFrom(start) {
        /** @type {Way} */
        const way = { pieces: [start.piece], nodes: [start.node], length: start.length };
        for (let at = start; this.kindOf(at.node) === "joint";) {
            const piece = at.piece, next = this.beyond(at.node).find((it) => it.piece !== piece);
            if (!next || way.pieces.length > this.tracks.size + 1) {
                break;
            }
            way.pieces.push(next.piece);
            way.nodes.push(next.node);
            way.length += next.length;
            at = next;
        }
        return way;
    }
}
