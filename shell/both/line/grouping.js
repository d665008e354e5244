/**
 * Which switches and crossings of a line make a station: by operational points, by distance, by a stretch of kilometres, or by
 * tracks.
 */
import { isPoint, micrometres, mileageOf, positionOf } from "./network.js";
import { Least, listUnder, stretch } from "../searching.js";

/** @typedef {import("../railml.js").Element} Element */
/** @typedef {import("./network.js").Network} Network */
/** @typedef {{low: number, high: number} | null} Range in micrometres of mileage */
/** @typedef {{range?: Range, tracks?: string[]}} Asked which part of a line is asked for; without it, all stations */
/** @typedef {{name: string, title: string, points: Element[]}} Station its name for a file, and its title */

const METRE = 1e6, KILOMETRE = 1e9;
/** what the program takes at most */
const MOST_TRACKS = 128, MOST_NODES = 128, MOST_EDGES = 160;
/** a switch further than this from every operational point belongs to none */
const FAR = 6000 * METRE;
/** switches that a way of this length joins are of one station; the two ends of a loop up to four times that */
const NEAR = 1500 * METRE;

/**
 * @param {number | undefined} mileage in micrometres
 */
export function kilometre(mileage) {
    return mileage === undefined ? "?" : (mileage / KILOMETRE).toFixed(3);
}

/**
 * The least mileage of some places.
 * @param {Element[]} places
 */
export function leastMileage(places) {
    const known = places.map(mileageOf).filter((it) => it !== undefined);
    return known.length ? Math.min(.../** @type {number[]} */ (known)) : undefined;
}

/** Sets of things that are joined, one by one. */
class Joined {
    constructor() {
        /** @type {Map<Element, Element>} */
        this.above = new Map();
    }

    /**
     * The thing that represents all of a set.
     * @param {Element} it
     */
    root(it) {
        let root = it;
        for (let next = this.above.get(root); next; next = this.above.get(root)) {
            root = next;
        }
        while (it !== root) {
            const next = /** @type {Element} */ (this.above.get(it));
            this.above.set(it, root);
            it = next;
        }
        return root;
    }

    /**
     * @param {Element} one
     * @param {Element} other
     */
    join(one, other) {
        const [a, b] = [this.root(one), this.root(other)];
        if (a !== b) {
            this.above.set(a, b);
        }
    }
}

/**
 * Switches and crossings in groups that short ways join. A loop between two counts as short up to four times the length.
 * @param {Network} network
 * @param {Set<Element>} among
 * @param {number} near
 */
export function byDistance(network, among, near) {
    const sets = new Joined();
    for (const node of among) {
        /** @type {Map<Element, number[]>} */
        const lengths = new Map();
        for (const start of network.beyond(node)) {
            const way = network.wayFrom(start), last = way.nodes[way.nodes.length - 1];
            if (among.has(last) && last !== node) {
                lengths.set(last, [...(lengths.get(last) ?? []), way.length]);
            }
        }
        for (const [last, found] of lengths) {
            if (Math.min(...found) <= near || (found.length > 1 && Math.min(...found) <= 4 * near)) {
                sets.join(node, last);
            }
        }
    }
    /** @type {Map<Element, Element[]>} */
    const groups = new Map();
    for (const it of among) {
        listUnder(groups, sets.root(it), it);
    }
    return [...groups.values()];
}

/**
 * Whether a station of these is within what the program takes.
 * @param {Network} network
 * @param {Element[]} points
 */
export function fits(network, points) {
    const own = new Set(points), pieces = new Set(), nodes = new Set(points), tracks = new Set();
    for (const it of own) {
        for (const { node, piece } of network.beyond(it)) {
            nodes.add(node);
            pieces.add(piece ?? node);
            tracks.add(piece ? piece.track : node);
        }
    }
    return tracks.size <= MOST_TRACKS && nodes.size <= MOST_NODES && pieces.size <= MOST_EDGES;
}

/**
 * Parts that each fit, cut at the longest ways.
 * @param {Network} network
 * @param {Element[]} points
 * @param {number} [near]
 * @returns {Element[][]}
 */
export function parted(network, points, near = NEAR) {
    if (fits(network, points)) {
        return [points];
    }
    for (let less = near; less > METRE; less /= 1.5) {
        const parts = byDistance(network, new Set(points), less);
        if (parts.length > 1) {
            return parts.flatMap((part) => parted(network, part, less / 2));
        }
    }
    const sorted = [...points].sort((one, other) => (mileageOf(one) ?? 0) - (mileageOf(other) ?? 0)), half = sorted.length >> 1;
    if (half === 0) {
        return [points];
    }
    return [...parted(network, sorted.slice(0, half), METRE), ...parted(network, sorted.slice(half), METRE)];
}

/**
 * The operational points of a file: their names and codes, the switches that name one, and places on tracks that name one.
 * @param {Network} network
 */
export function operationalPoints(network) {
    /** @type {Map<string, {name: string, code: string}>} */
    const names = new Map();
    const { elements } = network.document;
    for (const [id, it] of network.operationalPoints) {
        names.set(id, { name: it.attributes.get("name") ?? "", code: it.attributes.get("code") ?? "" });
    }
    /** @type {Map<Element, string>} */
    const own = new Map();
    /** @type {Map<Element, {at: number, ref: string}[]>} by track */
    const named = new Map();
    for (const it of elements) {
        const ref = it.attributes.get("ocpStationRef") ?? it.attributes.get("ocpRef") ?? "";
        const track = names.has(ref) ? it.above("track") : null;
        if (!track) {
            continue;
        }
        const placed = it.name === "macroscopicNode" ? it.parent : it;
        if (isPoint(it)) {
            own.set(it, ref);
        } else if (placed && micrometres(placed.attributes.get("pos")) !== undefined) {
            listUnder(named, track, { at: positionOf(placed), ref });
        }
    }
    return { names, own, named };
}

/**
 * The operational point of each node: that which it names, else the nearest along the tracks.
 * @param {Network} network
 * @param {ReturnType<typeof operationalPoints>} known
 */
function nearestPoints(network, { own, named }) {
    const queue = /** @type {Least<{node: Element, ref: string}>} */ (new Least());
    own.forEach((ref, node) => queue.add(0, { node, ref }));
    for (const [track, spots] of named) {
        spots.sort((one, other) => one.at - other.at);
        for (const { one, other } of network.tracks.get(track)?.pieces ?? []) {
            const [begin, end] = [positionOf(one), positionOf(other)];
            for (const { at, ref } of stretch(spots, (it) => it.at, begin, end)) {
                queue.add(at - begin, { node: network.nodeOf(one), ref });
                queue.add(end - at, { node: network.nodeOf(other), ref });
            }
        }
    }
    /** @type {Map<Element, string>} */
    const found = new Map();
    for (let next = queue.take(); next; next = queue.take()) {
        const { by: far, it: { node: here, ref } } = next;
        if (found.has(here) || far > FAR) {
            continue;
        }
        found.set(here, ref);
        for (const { node, length } of network.beyond(here)) {
            if (!found.has(node)) {
                queue.add(far + length, { node, ref });
            }
        }
    }
    own.forEach((ref, node) => found.set(node, ref));
    return found;
}

/**
 * @param {Network} network
 * @param {Element[]} points
 * @returns {Station[]} stations that are named by their least mileage
 */
function stationsByDistance(network, points) {
    const groups = byDistance(network, new Set(points), NEAR).flatMap((group) => parted(network, group));
    return groups.map((group) => {
        const at = kilometre(leastMileage(group));
        return { name: `km${at.replace(".", "_")}`, title: `km ${at}`, points: group };
    });
}

/**
 * Stations by operational point, and by distance where there is none near.
 * @param {Network} network
 * @returns {{stations: Station[], said: string[]}}
 */
function allStations(network) {
    const known = operationalPoints(network), nearest = nearestPoints(network, known);
    /** @type {Map<string, Element[]>} */
    const groups = new Map();
    /** @type {Element[]} */
    const left = [];
    for (const it of network.points()) {
        const ref = nearest.get(it);
        const group = ref === undefined ? left : groups.get(ref);
        if (group) {
            group.push(it);
        } else {
            groups.set(/** @type {string} */ (ref), [it]);
        }
    }
    /** @type {Station[]} */
    const stations = [], said = [];
    for (const [ref, points] of groups) {
        const { name, code } = known.names.get(ref) ?? { name: "", code: "" }, parts = parted(network, points);
        if (parts.length > 1) {
            said.push(`${name || ref} has ${points.length} switches and crossings, too many for one file: it is in ${parts.length} parts`);
        }
        parts.forEach((part, at) => stations.push({
            name: (code || name || ref) + (parts.length > 1 ? `_${at + 1}` : ""),
            title: (name || ref) + (parts.length > 1 ? `, part ${at + 1}` : ""), points: part,
        }));
    }
    const without = [...known.names].filter(([ref]) => !groups.has(ref)).map(([ref, it]) => it.name || ref);
    if (without.length) {
        said.push(`operational points without a switch or crossing, so without a file: ${listed(without)}`);
    }
    if (left.length) {
        said.push(groups.size
            ? `${left.length} switches and crossings have no operational point within ${FAR / KILOMETRE} km of track: they are grouped by distance`
            : "no switch, end of a track or object names an operational point: stations are grouped by distance");
    }
    return { stations: [...stations, ...stationsByDistance(network, left)], said };
}

/**
 * Names in a sentence, the first of many.
 * @param {string[]} names
 */
export function listed(names) {
    return names.length <= 12 ? names.join(", ") : `${names.slice(0, 12).join(", ")} and ${names.length - 12} more`;
}

/**
 * @param {Network} network
 * @param {string[]} wanted ids or names of tracks
 */
function ofTracks(network, wanted) {
    const tracks = [...network.tracks].filter(([track]) => wanted.includes(track.id) || wanted.includes(track.attributes.get("name") ?? ""));
    const nodes = tracks.flatMap(([, { places }]) => places.map((place) => network.nodeOf(place)));
    return { points: [...new Set(nodes.filter(isPoint))], missing: wanted.filter((it) => !tracks.some(([track]) =>
        track.id === it || track.attributes.get("name") === it)) };
}

/**
 * The stations of a file, in the order of their mileages, and what is to be said of how they were found.
 * @param {Network} network
 * @param {Asked} asked
 * @returns {{stations: Station[], said: string[]}}
 */
export function stationsOf(network, asked) {
    if (asked.range) {
        const { low, high } = asked.range, title = `km ${kilometre(low)} to ${kilometre(high)}`;
        const points = network.points().filter((it) => {
            const at = mileageOf(it);
            return at !== undefined && at >= low && at <= high;
        });
        return points.length ? { stations: [{ name: title.replace(/[^\w.-]+/g, "_"), title, points }], said: [] }
            : { stations: [], said: [`no switch or crossing lies between km ${kilometre(low)} and ${kilometre(high)}`] };
    }
    if (asked.tracks) {
        const { points, missing } = ofTracks(network, asked.tracks), said = missing.map((it) => `no track has the id or name ${it}`);
        return { stations: points.length ? [{ name: asked.tracks.join("_"), title: asked.tracks.join(", "), points }] : [], said };
    }
    const { stations, said } = allStations(network);
    const least = new Map(stations.map((it) => [it, leastMileage(it.points) ?? Infinity]));
    return { stations: stations.sort((one, other) => /** @type {number} */ (least.get(one)) - /** @type {number} */ (least.get(other))), said };
}
