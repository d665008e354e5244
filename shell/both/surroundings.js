/**
 * What lies around each switch and crossing: the next switch, crossing or end by each of its legs, over joints of tracks. Of a
 * switch first what lies at its points, then by its legs from the left to the right; of a crossing what lies there clockwise.
 * So it is the same from whichever side the whole is seen.
 */
import { connectionsOf, partnerOf } from "./mending/names.js";
import { asRead } from "./mending/numbers.js";
import { firstAt } from "./searching.js";
import * as railml from "./railml.js";

/** @typedef {import("./railml.js").Element} Element */
/** @typedef {import("./railml.js").Document} Document */
/** @typedef {import("./page/texts.js").Graph} Graph */
/** @typedef {Map<string, string[]>} Surroundings of each switch and crossing, by its id */

/** @param {string[]} clockwise @returns {string[]} what lies around a crossing, begun with the least of two that are opposite each other */
function normal(clockwise) {
    const turned = [...clockwise.slice(2), ...clockwise.slice(0, 2)];
    return turned.join(" ") < clockwise.join(" ") ? turned : clockwise;
}

/** @param {Element} it @returns {number} */
function positionOf(it) {
    return Number(asRead(it.attributes.get("pos") ?? "") || 0);
}

/**
 * The places of a track from its begin to its end. `furthest` is the greatest position up to each place but the begin, so it
 * never falls.
 * @typedef {{spots: Element[], furthest: number[]}} Places
 */

/** @param {Element} track @returns {Places} */
function placesOf(track) {
    const inner = railml.points(track).map((it) => /** @type {const} */ ([it, positionOf(it)]))
        .sort(([, one], [, other]) => one - other).map(([it]) => it);
    const spots = [railml.endOf(track, "trackBegin"), ...inner, railml.endOf(track, "trackEnd")].flatMap((it) => it ?? []);
    let most = -Infinity;
    return { spots, furthest: spots.map((it, at) => (at ? most = Math.max(most, positionOf(it)) : most)) };
}

/** A file's tracks, walked along. A ref that names what a connection belongs to is followed too. */
export class Walked {
    /** @param {Document} document */
    constructor(document) {
        this.document = document;
        this.known = railml.byId(document);
        const tracks = document.tracks();
        this.owners = new Map([...tracks, ...tracks.flatMap(railml.placesOf)].map((it) => [it.id, it]));
        /** @type {Map<Element, Places>} */
        this.places = new Map(tracks.map((track) => [track, placesOf(track)]));
        /** @type {Map<Element, number>} of each place which one of its track it is */
        this.numbers = new Map([...this.places.values()].flatMap(({ spots }) =>
            spots.map((it, at) => /** @type {const} */ ([it, at]))));
        /** @type {Map<Element, string>} what is reached by an end of a track, as far as it was asked for */
        this.reached = new Map();
    }

    /** @param {Element} it @param {1 | -1} step @returns {Element | undefined} the next place of its track */
    beside(it, step) {
        return this.places.get(/** @type {Element} */ (it.above("track")))?.spots[(this.numbers.get(it) ?? -1) + step];
    }

    /** @param {Element} from @param {1 | -1} step @returns {string} what comes next along its track, over joints */
    along(from, step) {
        const next = this.beside(from, step);
        return !next ? "" : railml.POINTS.includes(next.name) ? next.id : this.out(next);
    }

    /** @param {Element} connection @returns {string} what is reached by it; "" where it leads to nothing in the file */
    beyond(connection) {
        const next = this.met(connection);
        return !next ? "" : railml.POINTS.includes(next.name) ? next.id : this.out(next);
    }

    /** @param {Element} connection @returns {Element | undefined} the switch or crossing to which it leads; of a track the next place
     * behind the end to which it leads */
    met(connection) {
        const owner = partnerOf(this.known, this.owners, connection)?.parent;
        return !owner || railml.POINTS.includes(owner.name) ? owner ?? undefined
            : this.beside(owner, owner.name === "trackBegin" ? 1 : -1);
    }

    /** @param {Element} end of a track @returns {string} what is reached there, over any number of joints, or the end itself */
    out(end) {
        const passed = new Set();
        let found = "", at = end;
        while (!passed.has(at) && !this.reached.has(at)) {
            passed.add(at);
            const [connection] = connectionsOf(at), next = connection && this.met(connection);
            if (!next || railml.POINTS.includes(next.name)) {
                found = next?.id ?? "";
                break;
            }
            at = next;
        }
        found ||= this.reached.get(at) ?? at.id;
        for (const one of [...passed].reverse()) {
            found ||= one.id;
            this.reached.set(one, found);
        }
        return found;
    }

    /** @param {Element} it @returns {string[]} */
    ofSwitch(it) {
        const legs = it.named("connection"), step = legs[0]?.attributes.get("orientation") === "incoming" ? -1 : 1;
        const own = this.along(it, step), by = (/** @type {string} */ course) =>
            legs.filter((leg) => leg.attributes.get("course") === course)
            .map((leg) => this.beyond(leg));
        const straight = by("straight"), goesOn = it.attributes.get("trackContinueCourse");
        const toe = this.along(it, step === 1 ? -1 : 1);
        if (legs.length === 1 && straight.length) {
            return goesOn === "left" ? [toe, own, ...straight] : [toe, ...straight, own];
        }
        return [toe, ...by("left"), ...straight.length ? straight : [own], ...by("right")];
    }

    /** @param {Element} it @returns {string[]} */
    ofCrossing(it) {
        const legs = it.named("connection"), of = (/** @type {string} */ way) =>
            legs.find((leg) => leg.attributes.get("orientation") === way);
        const [incoming, outgoing] = [of("incoming"), of("outgoing")].map((leg) => (leg ? this.beyond(leg) : ""));
        const [before, after] = [this.along(it, -1), this.along(it, 1)];
        return normal(of("outgoing")?.attributes.get("course") === "left" ? [before, outgoing, after, incoming]
            : [incoming, after, outgoing, before]);
    }

    /** @returns {Surroundings} */
    all() {
        return new Map(this.document.tracks().flatMap(railml.points)
            .map((it) => [it.id, it.name === "switch" ? this.ofSwitch(it) : this.ofCrossing(it)]));
    }

    /** @returns {Map<string, string>} of each signal between which two it lies, by its position */
    signals() {
        return new Map(this.document.tracks().flatMap((track) => railml.signals(track).map((it) => {
            const { spots, furthest } = /** @type {Places} */ (this.places.get(track)), at = positionOf(it);
            const found = firstAt(furthest.length, (one) => furthest[one] > at), number = Math.min(found, spots.length - 1);
            const [before, behind] = [spots[number - 1], spots[number]];
            const ends = before && behind ? [this.along(before, 1), this.along(behind, -1)].sort().join(" and ") : "";
            return /** @type {const} */ ([it.id, ends]);
        })));
    }
}

/** A track graph, as the program gives it, walked along. */
class WalkedGraph {
    /** @param {Graph} graph @param {Map<string, string>} made switches that were made, each with the switch of which it is a part */
    constructor(graph, made) {
        this.graph = graph;
        this.made = made;
    }

    /** @param {number} node @param {"east" | "west"} way @returns {number[]} the edges there, from the upper to the lower */
    legs(node, way) {
        const found = this.graph.edges.filter((it) => (way === "east" ? it.west : it.east) === node).map((it) => it.number);
        return found.length === 2 && !this.graph.above.has(found.join(" ")) ? found.reverse() : found;
    }

    /** @param {number} edge @param {"east" | "west"} way @param {string} from the switch from which one comes @returns {string[]} */
    leaves(edge, way, from) {
        const { east, west } = this.graph.edges[edge], number = way === "east" ? east : west, { name, kind } = this.graph.nodes[number];
        const further = this.legs(number, way), isPoint = kind === "switch" || kind === "crossing", of = this.made.get(name);
        if (further.length && (!isPoint || of === from)) {
            return further.flatMap((it) => this.leaves(it, way, from));
        }
        return [of ?? name];
    }

    /** @param {number} node @param {"east" | "west"} way @returns {string[]} */
    around(node, way) {
        return this.legs(node, way).flatMap((it) => this.leaves(it, way, this.graph.nodes[node].name));
    }

    /** @returns {Surroundings} */
    all() {
        const points = this.graph.nodes.filter(({ kind, name }) => (kind === "switch" || kind === "crossing") && !this.made.has(name));
        return new Map(points.map(({ number, name, kind, legs }) => {
            const east = this.around(number, "east"), west = this.around(number, "west");
            if (kind === "crossing") {
                return [name, normal([west[0], east[0], east[1], west[1]])];
            }
            // towards the west the left is below
            return [name, legs === "east" ? [...west, ...east] : [...east, ...west.reverse()]];
        }));
    }
}

/**
 * What lies around each switch and crossing by the program's track graph.
 * @param {Graph} graph @param {Map<string, string>} [made] switches that were made, each with the switch of which it is a part
 * @returns {Surroundings}
 */
export function surroundingsOfGraph(graph, made = new Map()) {
    return new WalkedGraph(graph, made).all();
}
