/**
 * On which piece of track an object lies, and at which kilometre; or why that can't be known.
 *
 * Its piece follows from how far it is along its own track, between two neighbours of that track. Its kilometre is its own, or
 * follows from its neighbours where these are as far apart by kilometres as they are along the track. What contradicts
 * itself has no place: a drawing that showed it somewhere would say more than is known.
 */
import { Decimal, ZERO } from "../decimal.js";

/** @typedef {import("../trackside.js").Trackside} Trackside */
/** @typedef {import("./station.js").Station} Station */
/** @typedef {import("./texts.js").Drawing} Drawing */
/** @typedef {import("./texts.js").Signal} Signal */
/** @typedef {object} Place a place on a piece of track
 * @property {number} edge
 * @property {Decimal} metres its mileage
 * @property {Decimal} east how far it is along its track, so that it grows to the east
 * @property {boolean} isTurned whether its track leads to the west */
/** @typedef {object} Located an object with its place
 * @property {number} number
 * @property {Trackside} object
 * @property {Place | null} place
 * @property {Place | null} far of a long object the place of its other end
 * @property {string} why why it has no place */

/** what lengths and kilometres may differ by between neighbours, in metres */
const ROUNDING = new Decimal(false, 1n, 0);
export const UNKNOWN = {
    pos: "the file doesn't say how far along its track it is",
    track: "the track's pieces aren't known",
    outside: "it isn't between its track's begin and end",
    switch: "it is at a switch or crossing, and on which side isn't known",
    metres: "its kilometre isn't known",
    order: "its kilometre isn't between those of its piece of track",
    mixed: "along its track it comes otherwise than by its kilometre",
    signal: "a signal of its piece of track has no kilometre",
    length: "its length isn't known",
    side: "on which side of its track it is isn't known",
    way: "its length isn't known to lead from its place towards the end of its track",
    scale: "kilometres needn't rise from left to right here",
    room: "there is no room",
};

/** @type {(metres: string | null | undefined) => Decimal | null} */
const decimal = (metres) => Decimal.of(metres ?? "");

/** A track's pieces, with where they begin and end along it. */
class Along {
    /** @param {Station} station @param {Drawing} drawing @param {string} track */
    constructor(station, drawing, track) {
        const known = station.file.tracks.get(track);
        this.drawing = drawing;
        this.nodes = station.nodesAlong(track);
        this.edges = station.pieces(track);
        /** @type {(Decimal | null)[]} */
        this.at = known ? [known.begin.pos, ...known.points.map((it) => it.pos), known.end.pos] : [];
        const names = known?.points.map((it) => it.id) ?? [];
        this.isKnown = this.nodes.length > 1 && this.at.length === this.nodes.length
            && names.every((it, at) => station.node(this.nodes[at + 1])?.name === it)
            && this.at.every((it, at) => it && (!at || it.compare(/** @type {Decimal} */ (this.at[at - 1])) >= 0));
    }

    /**
     * The place of what is so far along the track and has this mileage of its own, or why there is none.
     * @param {Decimal} pos
     * @param {Decimal | null} own
     * @returns {Place | string}
     */
    placeOf(pos, own) {
        if (!this.isKnown) return UNKNOWN.track;
        const at = /** @type {Decimal[]} */ (this.at), last = at.length - 1;
        if (pos.compare(at[0]) < 0 || pos.compare(at[last]) > 0) return UNKNOWN.outside;
        if (at.slice(1, -1).some((it) => it.equals(pos))) return UNKNOWN.switch;
        const beyond = at.findIndex((it) => it.compare(pos) > 0), behind = beyond < 0 ? last : beyond;
        const edge = this.edges[behind - 1], [from, to] = [behind - 1, behind].map((it) =>
            decimal(this.drawing.nodes[this.nodes[it]].mileage));
        if (!from || !to) return UNKNOWN.metres;
        const [low, high] = from.compare(to) <= 0 ? [from, to] : [to, from];
        const metres = own ?? within(between(pos, [at[behind - 1], from], [at[behind], to]), low, high);
        if (!metres) return UNKNOWN.metres;
        if (metres.compare(low) < 0 || metres.compare(high) > 0) return UNKNOWN.order;
        const isEast = this.drawing.edges[edge].west === this.nodes[behind - 1];
        return { edge, metres, east: isEast ? pos : pos.negated(), isTurned: !isEast };
    }
}

/** @typedef {[Decimal, Decimal]} Measured how far along a track, and the mileage there */

/**
 * @type {(pos: Decimal, one: Measured, other: Measured) => Decimal | null} the mileage between two places; null where it jumps
 */
function between(pos, [begun, from], [ended, to]) {
    const apart = to.minus(from);
    if (apart.absolute().minus(ended.minus(begun)).absolute().compare(ROUNDING) > 0) return null;
    const way = pos.minus(begun);
    return apart.compare(ZERO) < 0 ? from.minus(way) : from.plus(way);
}

/**
 * @type {(metres: Decimal | null, low: Decimal, high: Decimal) => Decimal | null} a mileage that rounding doesn't bring outside
 */
const within = (metres, low, high) => metres && (metres.compare(low) < 0 ? low : metres.compare(high) > 0 ? high : metres);

/** The objects of a station in a drawing. */
export class Pieces {
    /** @param {Station} station @param {Drawing} drawing @param {Signal[]} signals @param {boolean} isRising */
    constructor(station, drawing, signals, isRising) {
        this.station = station;
        this.drawing = drawing;
        this.signals = signals;
        /** @type {Map<string, Along>} */
        this.tracks = new Map();
        const isOne = station.graph !== null && station.graph.edges.length === drawing.edges.length
            && station.graph.nodes.every((it, at) => it.name === drawing.nodes[at]?.name);
        /** @type {Located[]} */
        this.located = station.file.objects.map((object, number) => {
            const found = !isRising ? UNKNOWN.scale : isOne ? this.#locate(object) : UNKNOWN.track;
            return typeof found === "string" ? { number, object, place: null, far: null, why: found }
                : { number, object, ...found, why: "" };
        });
        this.#dropMixed();
    }

    /** @param {string} track @returns {Along} */
    #along(track) {
        const known = this.tracks.get(track) ?? new Along(this.station, this.drawing, track);
        this.tracks.set(track, known);
        return known;
    }

    /** @param {Trackside} object @returns {{place: Place, far: Place | null} | string} */
    #locate({ track, pos, own, isLong, length, direction, side }) {
        if (!pos) return UNKNOWN.pos;
        const along = this.#along(track), place = along.placeOf(pos, own);
        if (typeof place === "string") return place;
        if (!isLong) return { place, far: null };
        if (!length) return UNKNOWN.length;
        if (side !== "left" && side !== "right") return UNKNOWN.side;
        if (direction === "down") return UNKNOWN.way;
        const far = along.placeOf(pos.plus(length), null);
        return typeof far === "string" ? far : { place, far };
    }

    /** Takes their places from objects whose order along a piece isn't that of their kilometres. */
    #dropMixed() {
        /** @type {Map<number, {place: Place, one: Located | null}[]>} */
        const pieces = new Map();
        const add = (/** @type {Place} */ place, /** @type {Located | null} */ one) =>
            pieces.set(place.edge, [...pieces.get(place.edge) ?? [], { place, one }]);
        for (const one of this.located) for (const place of [one.place, one.far]) if (place) add(place, one);
        for (const edge of [...pieces.keys()]) {
            const signals = this.signals.filter((it) => it.edge === edge).map((it) => this.#ofSignal(it));
            for (const place of signals) if (place && typeof place !== "string") add(place, null);
            if (signals.includes(null)) for (const { one } of pieces.get(edge) ?? []) if (one) drop(one, UNKNOWN.signal);
        }
        for (const listed of pieces.values()) {
            for (const { place, one } of listed) {
                if (one && listed.some((it) => isMixed(place, it.place))) drop(one, UNKNOWN.mixed);
            }
        }
    }

    /**
     * @param {Signal} signal
     * @returns {Place | null | "elsewhere"} the place of a signal of its own track; null without kilometre
     */
    #ofSignal({ name, edge }) {
        const metres = this.station.signalMileage(name), known = this.station.signal(name);
        if (!metres) return null;
        const { track, west } = this.drawing.edges[edge], along = this.#along(track ?? "");
        const at = along.edges.indexOf(edge);
        if (!known?.pos || known.track !== track || !along.isKnown || at < 0) return "elsewhere";
        const isTurned = west !== along.nodes[at];
        return { edge, metres, east: isTurned ? known.pos.negated() : known.pos, isTurned };
    }
}

/** @param {Located} one @param {string} why */
function drop(one, why) {
    Object.assign(one, { place: null, far: null, why });
}

/**
 * @type {(one: Place, other: Place) => boolean} whether two places of a piece have another order by kilometres than along it
 */
function isMixed(one, other) {
    return one.east.compare(other.east) * one.metres.compare(other.metres) < 0;
}
