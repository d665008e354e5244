/**
 * One mileage for tracks that are joined. Which way each of them leads follows from how they are joined, and how far from their
 * lengths. Of all ways to count them that is taken which changes the fewest mileages that the file gives.
 */
import { Decimal } from "../decimal.js";
import { joinsOf, lengthOf, spotsOf } from "../one_mileage.js";
import * as railml from "../railml.js";
import { Least, firstAt } from "../searching.js";
import { TrackGraph } from "../track_graph.js";
import { asRead } from "./numbers.js";

/** @typedef {import("./prepared.js").Prepared} Prepared */
/** @typedef {import("../railml.js").Element} Element */
/** @typedef {import("../edits.js").Edit} Edit */
/** @typedef {1 | -1} Way whether mileages rise or fall from a track's begin to its end */
/** @typedef {{it: Element, node: number, at: number, given: number | null, own: number | null}} Place an end, switch or crossing: the
 * number of its node, its position, the mileage that is written there, and that with which it is read */

/** two mileages of one place that are no further apart are no fault, in metres */
const NEAR = 1;
/** a track's length is so near to its mileages, as in a curve */
const PART = 0.1;
/** mileages are written in whole parts of this, in metres */
const STEP = 0.001;
/** of so many tracks each is tried as the one from which the others are counted */
const TRIED = 24;

/** @param {Element} it @returns {number} */
function positionOf(it) {
    return railml.position(it).toNumber();
}

/** @param {number} metres @returns {string} */
function written(metres) {
    return asRead(String(Decimal.of(metres.toFixed(3))));
}

/** Tracks that are joined, and which way each leads where one of them rises. What the file says of each place is read once. */
class Group {
    /** @param {TrackGraph} graph @param {Element} first */
    constructor(graph, first) {
        this.graph = graph;
        /** @type {Map<Element, Way>} */
        this.ways = new Map([[first, 1]]);
        /** @type {Element | null} a track that leads back to where it comes from */
        this.back = null;
        for (const track of this.ways.keys()) {
            this.follow(track);
        }
        this.tracks = [...this.ways.keys()];
        /** @type {Map<Element, number>} */
        this.numbers = new Map();
        /** @type {number[][]} which of the tracks have a place at each node */
        this.tracksAt = [];
        this.places = new Map(this.tracks.map((track, number) => [track, spotsOf(track).map((it) => this.placeOf(number, it))]));
        this.spots = [...this.places.values()].flat();
    }

    /** @param {Element} track */
    follow(track) {
        for (const { next, nextWay } of joinsOf(this.graph, track, this.ways.get(track) ?? 1)) {
            if (!this.ways.has(next)) {
                this.ways.set(next, nextWay);
            } else if (this.ways.get(next) !== nextWay) {
                this.back ??= next;
            }
        }
    }

    /** @param {number} track which one @param {Element} it @returns {Place} */
    placeOf(track, it) {
        const element = this.graph.node(it), node = this.numbers.get(element) ?? this.tracksAt.push([]) - 1;
        this.numbers.set(element, node);
        this.tracksAt[node].push(track);
        return { it, node, at: positionOf(it), given: railml.metres(it.attributes.get("absPos"))?.toNumber() ?? null,
            own: railml.mileage(it)?.toNumber() ?? null };
    }

    /** @param {Element} track @returns {Place[]} */
    placesOf(track) {
        return this.places.get(track) ?? [];
    }
}

/** One way to count a group: from one of its tracks, with its mileage rising or falling. */
class Count {
    /** @param {Group} group @param {Element} first @param {Way} way */
    constructor(group, first, way) {
        this.group = group;
        this.first = first;
        /** whether the ways of the group are turned */
        this.sign = way * (group.ways.get(first) ?? 1);
        /** of each node; of what isn't counted no number */
        this.mileages = new Float64Array(group.tracksAt.length).fill(NaN);
        this.isSound = true;
        const start = group.placesOf(first).find((it) => it.given !== null);
        if (start) {
            this.mileages[start.node] = Number(start.given);
            this.countAll();
        }
        this.isSound &&= start !== undefined;
        this.changed = group.spots.filter((it) => it.given !== null && Math.abs(it.given - this.at(it)) >= NEAR).length;
        /** how many places have another mileage than they are read with */
        this.otherwise = group.spots.filter((it) => differs(it, this)).length;
    }

    /** @param {Place} it @returns {number} */
    at(it) {
        return this.mileages[it.node];
    }

    /** @param {Place} it @returns {boolean} */
    isKnown(it) {
        return !Number.isNaN(this.at(it));
    }

    /** counts each track once something of it is known, of those that are known the one that the group has first */
    countAll() {
        const { group } = this, known = new Set([this.first]), queue = /** @type {Least<Element>} */ (new Least());
        queue.add(0, this.first);
        for (let next = queue.take(); next; next = queue.take()) {
            this.count(next.it);
            for (const other of group.placesOf(next.it).flatMap((it) => group.tracksAt[it.node])) {
                if (!known.has(group.tracks[other])) {
                    known.add(group.tracks[other]);
                    queue.add(other, group.tracks[other]);
                }
            }
        }
    }

    /** @param {Element} track */
    count(track) {
        const way = (this.group.ways.get(track) ?? 1) * this.sign, places = this.group.placesOf(track);
        const known = places.find((it) => this.isKnown(it)), isGood = known !== undefined && this.fits(places, known, way);
        const fixed = places.flatMap((it) => {
            const mileage = this.isKnown(it) ? this.at(it) : isGood ? it.given : null;
            return mileage === null ? [] : [{ at: it.at, mileage }];
        });
        for (const it of places) {
            if (!this.isKnown(it)) {
                this.mileages[it.node] = Math.round(between(fixed, it.at, way) / STEP) * STEP;
            }
        }
        this.isSound &&= places.every((it, number) => !number || way * (this.at(it) - this.at(places[number - 1])) >= 0);
    }

    /** @param {Place[]} places those of a track @param {Place} from the first that is known @param {number} way @returns {boolean}
     * whether the mileages that the file gives are those of its lengths */
    fits(places, from, way) {
        const base = this.at(from), given = places.filter((it) => it.given !== null);
        const areFit = given.every((it) => {
            const length = it.at - from.at, gap = Number(it.given) - (base + way * length);
            return Math.abs(gap) <= Math.max(NEAR, Math.abs(length) * PART);
        });
        return areFit && given.every((it, number) => !number || way * (Number(it.given) - Number(given[number - 1].given)) >= 0);
    }
}

/** @param {{at: number, mileage: number}[]} fixed places of a track with their mileages, by position @param {number} at @param {number} way
 * @returns {number} the mileage of a place: between two of them by its part of their distance, else by its length */
function between(fixed, at, way) {
    const before = fixed[firstAt(fixed.length, (number) => fixed[number].at > at) - 1];
    const after = fixed[firstAt(fixed.length, (number) => fixed[number].at >= at)];
    if (before && after) {
        const length = after.at - before.at;
        return length ? before.mileage + (after.mileage - before.mileage) * (at - before.at) / length : before.mileage;
    }
    const near = before ?? after ?? { at, mileage: 0 };
    return near.mileage + way * (at - near.at);
}

/** @param {Group} group @returns {Count[]} the ways to count it that are sound, those that change the fewest mileages first */
function countsOf(group) {
    const tracks = [...group.tracks].sort((one, other) => spotsOf(other).length - spotsOf(one).length || lengthOf(other) - lengthOf(one));
    const counts = tracks.slice(0, TRIED).flatMap((track) => [new Count(group, track, 1), new Count(group, track, -1)])
        .filter((it) => it.isSound);
    return counts.sort((one, other) => one.changed - other.changed || one.otherwise - other.otherwise);
}

/** @param {Prepared} it @param {Element} track @param {Count} count @returns {Edit[]} its mileages, with those of its signals */
function recounted(it, track, count) {
    const places = count.group.placesOf(track), fixed = places.map((place) => ({ at: place.at, mileage: count.at(place) }));
    const way = (count.group.ways.get(track) ?? 1) * count.sign;
    const placed = railml.signals(track).filter((signal) => signal.attributes.has("pos"));
    return [...places.map((place) => it.edits.setting(place.it, "absPos", written(count.at(place)))),
        ...placed.map((signal) => it.edits.setting(signal, "absPos", written(between(fixed, positionOf(signal), way))))];
}

/** @param {Place} place @param {Count} count @returns {boolean} whether a place has another mileage than it is read with */
function differs(place, count) {
    return place.own === null || Math.abs(place.own - count.at(place)) >= NEAR;
}

/** @param {Prepared} it @param {Group} group @returns {Edit[]} */
function counting(it, group) {
    const [best, ...others] = countsOf(group), [first] = group.tracks;
    if (group.back) {
        it.guess(
            group.back,
            `track ${group.back.id} leads back to where it comes from, so that no one mileage rises along all: a triangle, a turning `
            + "loop, or a wrong orientation. See on the plan of the station where it leads");
        return [];
    }
    if (!best) {
        it.guess(first, `no way to count track ${first.id} and what is joined to it is known: where are two places of it on the `
            + "line? Write their absPos");
        return [];
    }
    const turned = others.find((count) => count.sign !== best.sign && count.changed === best.changed && count.otherwise === best.otherwise);
    const tracks = group.tracks.filter((track) => group.placesOf(track).some((place) => differs(place, best)));
    if (tracks.length && turned) {
        it.guess(first, `the mileages of track ${first.id} and of what is joined to it may rise or fall from its begin: nothing in `
            + "the file says which. Write the absPos of both its ends");
        return [];
    }
    for (const track of tracks) {
        const ends = [0, -1].map((at) => /** @type {Place} */ (group.placesOf(track).at(at)));
        const [from, to] = ends.map((end) => written(best.at(end))), was = ends.map((end) => railml.mileage(end.it) ?? "nothing");
        it.changed(track, `track ${track.id} is counted with track ${best.first.id}: from ${from} to ${to}, not from ${was[0]} to `
            + `${was[1]}`);
        it.isRebuilt = it.isRecounted = true;
    }
    return tracks.flatMap((track) => recounted(it, track, best));
}

/** @param {Prepared} it gives tracks that are joined one mileage */
export function countAsOne(it) {
    const graph = new TrackGraph(it.document), seen = new Set();
    it.replace(it.document.tracks().flatMap((track) => {
        if (seen.has(track) || !spotsOf(track).length) {
            return [];
        }
        const group = new Group(graph, track);
        group.tracks.forEach((one) => seen.add(one));
        return group.tracks.length > 1 ? counting(it, group) : [];
    }));
}
