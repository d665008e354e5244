/**
 * Which way each track of a station leads follows from how it is joined, outwards from one track, and how far from its length.
 * A change of a file is tried here: one orientation turned, or one track's mileages counted anew. It says nothing of the proof:
 * it finds what is written wrongly.
 */
import * as railml from "./railml.js";
import { firstAt } from "./searching.js";
import { TrackGraph } from "./track_graph.js";

/** @typedef {import("./railml.js").Element} Element */
/** @typedef {import("./railml.js").Document} Document */
/** @typedef {1 | -1} Way whether the mileage rises or falls from a track's begin to its end */
/** @typedef {{own: Element, other: Element}} Join a place of a track, and the one that it is joined to */
/** @typedef {{turned?: Element, anew?: Element}} Change a switch or crossing whose connections lead the other way, or a track
 * whose own mileages don't count */

/** two mileages that are no further apart are one, in metres */
const SAME = 0.001;
/** two mileages of one place that are no further apart are no fault, in metres */
const NEAR = 1;
/** a track's length is so near to its mileages, as in a curve */
const PART = 0.1;
/** of so many tracks each is tried as the one by which the others are judged */
const TRIED = 24;

/** what was counted before: an element stays as it was read
 * @type {WeakMap<Element, number | null>} */
const knownMileages = new WeakMap();
/** @type {WeakMap<Element, Element[]>} */
const knownSpots = new WeakMap();

/** @param {Element} it @returns {number | null} */
export function mileageOf(it) {
    const known = knownMileages.get(it);
    if (known !== undefined) {
        return known;
    }
    const found = railml.mileage(it)?.toNumber() ?? null;
    knownMileages.set(it, found);
    return found;
}

/** @param {Element} it @returns {number} */
function positionOf(it) {
    return railml.position(it).toNumber();
}

/** @param {Element} track @returns {number} */
export function lengthOf(track) {
    const spots = spotsOf(track);
    return spots.length ? positionOf(spots[spots.length - 1]) - positionOf(spots[0]) : 0;
}

/** @param {Element} track @returns {Element[]} its begin, its switches and crossings by position, and its end; none where an
 * end lacks */
export function spotsOf(track) {
    const known = knownSpots.get(track);
    if (known) {
        return known;
    }
    const begin = railml.endOf(track, "trackBegin"), end = railml.endOf(track, "trackEnd");
    const found = begin && end ? [begin, ...railml.points(track).sort(railml.byPosition), end] : [];
    knownSpots.set(track, found);
    return found;
}

/**
 * What gives the mileages of a track's objects between two of its places that have theirs, in metres: a track of a line may have
 * ten thousands of objects and thousands of places.
 * @param {Element} track
 * @returns {(it: Element) => number | null} null where it isn't between two, or their mileages aren't known
 */
export function betweenPlaces(track) {
    const spots = spotsOf(track), positions = spots.map(railml.position);
    /** @type {import("./decimal.js").Decimal[]} the greatest position up to each place */
    const furthest = [];
    for (const at of positions) {
        const most = furthest[furthest.length - 1] ?? at;
        furthest.push(at.compare(most) > 0 ? at : most);
    }
    return (it) => {
        const at = railml.position(it), behind = firstAt(spots.length, (number) => furthest[number].compare(at) >= 0);
        const [one = null, other = null] = [spots[behind - 1], spots[behind]].map((spot) => spot && mileageOf(spot));
        if (one === null || other === null) {
            return null;
        }
        const length = positions[behind].minus(positions[behind - 1]).toNumber();
        const part = length ? at.minus(positions[behind - 1]).toNumber() / length : 0;
        return Math.round((one + (other - one) * part) * 1000) / 1000;
    };
}

/** @param {number | null} one @param {number | null} other @returns {boolean} */
export function areApart(one, other) {
    return one === null || other === null || Math.abs(one - other) >= SAME;
}

/** @param {number} gap @param {number} length @returns {boolean} whether two mileages, so far apart, are those of a length */
function isFit(gap, length) {
    return Math.abs(gap) <= Math.max(NEAR, length * PART);
}

/** @param {Element} it @param {Element} connection @param {Element} [turned] @returns {Way} to which end of its track one
 * leaves it, seen from the other track */
function wayOut(it, connection, turned) {
    if (railml.ENDS.includes(it.name)) {
        return it.name === "trackEnd" ? 1 : -1;
    }
    return (connection.attributes.get("orientation") === "outgoing") !== (it === turned) ? 1 : -1;
}

/**
 * What is joined to a track, and which way it leads: what leads out here leads in there.
 * @param {TrackGraph} graph @param {Element} track @param {Way} way whether the track rises
 * @param {Element} [turned] a switch or crossing whose connections lead the other way
 * @returns {Generator<{here: Element, there: Element, next: Element, nextWay: Way}>} a place of the track, that to which it is
 * joined, the track of this and its way
 */
export function* joinsOf(graph, track, way, turned) {
    for (const here of spotsOf(track)) {
        for (const connection of here.named("connection")) {
            const other = graph.other(connection), there = other?.parent, next = there?.above("track");
            if (other && there && next && spotsOf(next).length) {
                yield { here, there, next, nextWay: /** @type {Way} */ (-way * wayOut(here, connection, turned)
                    * wayOut(there, other, turned)) };
            }
        }
    }
}

/** The tracks that are joined to one: which way each leads and where it is, with one change of the file or none. */
export class Layout {
    /** @param {TrackGraph} graph @param {Element} first @param {Change} [change] */
    constructor(graph, first, change = {}) {
        const { turned, anew } = change;
        this.graph = graph;
        this.turned = turned;
        this.anew = anew;
        /** @type {Map<Element, Way>} */
        this.ways = new Map();
        /** @type {Map<Element, number>} of each end, switch and crossing */
        this.mileages = new Map();
        /** @type {Map<Element, Join>} where each track is joined to one that was counted before it */
        this.joins = new Map();
        /** @type {Join[]} where a track leads back: by these joins it goes the other way */
        this.backs = [];
        /** whether all mileages of the file fit, but for those of the track that is counted anew */
        this.fits = true;
        /** @type {Element[]} tracks whose mileages aren't those of their joins and lengths */
        this.odd = [];
        /** @type {Element[]} places of the track that is counted anew whose mileages others give */
        this.fixed = [];
        const [begin] = spotsOf(first);
        this.count(first, this.ownWay(first) || 1, begin, mileageOf(begin) ?? 0);
        for (const track of this.ways.keys()) {
            this.follow(track);
        }
        this.spread();
        const disordered = [...this.ways.keys()].filter((track) => track !== anew && this.disorderOf(track).length);
        this.fits &&= !disordered.length;
        this.odd = this.odd.length ? this.odd : disordered;
    }

    /** @param {Element} track @returns {[Element, number][]} two places of it that don't follow one another as the program has
     * them, with their mileages; none where all do */
    disorderOf(track) {
        const way = this.ways.get(track) ?? 1, seen = spotsOf(track).map((it) => {
            const node = this.graph.node(it), isAnew = node.above("track") === this.anew;
            return /** @type {[Element, number]} */ ([it, Number(isAnew ? this.mileages.get(node) : mileageOf(node))]);
        });
        const behind = seen.findIndex(([, mileage], at) => at > 0 && way * (mileage - seen[at - 1][1]) < 0);
        return behind < 0 ? [] : seen.slice(behind - 1, behind + 1);
    }

    /** @param {Element} track @returns {Way | 0} which way its own mileages go; 0 where they go to and fro, or are too few */
    ownWay(track) {
        const given = spotsOf(track).flatMap((it) => this.given(it) ?? []);
        const steps = given.slice(1).map((it, at) => it - given[at]).filter((it) => it);
        return !steps.length ? 0 : steps.every((it) => it > 0) ? 1 : steps.every((it) => it < 0) ? -1 : 0;
    }

    get isMended() {
        return this.fits && !this.backs.length;
    }

    /** @param {Element} it @returns {number | null} the mileage that the file gives a place; null where only what the place is
     * joined to gives one */
    given(it) {
        return it.attributes.has("absPos") || this.graph.node(it) === it ? mileageOf(it) : null;
    }

    /** @param {Element} track @param {Way} way @param {Element} place @param {number} mileage counts a track from a known
     * place */
    count(track, way, place, mileage) {
        this.ways.set(track, way);
        const spots = spotsOf(track).map((it) => {
            const length = positionOf(it) - positionOf(place), counted = mileage + way * length, given = this.given(it);
            const isGood = given === null || isFit(given - counted, Math.abs(length));
            return { it, isGood, counted: Math.round(counted / SAME) * SAME, given };
        });
        const going = spots.flatMap(({ given }) => given ?? []);
        const isGood = spots.every((it) => it.isGood)
            && going.every((it, at) => !at || way * (it - going[at - 1]) >= 0);
        const isAnew = track === this.anew;
        this.fits &&= isGood || isAnew;
        if (!isGood && !isAnew && !this.isLoose(track, going, way)) {
            this.odd.push(track);
        }
        for (const { it, counted, given } of spots) {
            this.mileages.set(it, isAnew || !isGood ? counted : given ?? counted);
        }
        if (isAnew) {
            this.fixed.push(place);
        }
    }

    /** @param {Element} track @param {number[]} going its mileages @param {Way} way @returns {boolean} whether its mileages fit
     * but for the place that it is joined to, whose mileage isn't written */
    isLoose(track, going, way) {
        const join = this.joins.get(track), other = join?.other.attributes.has("absPos") ? null : join?.other.above("track");
        const own = join && this.given(join.own), there = join && this.mileages.get(join.other);
        return Boolean(other) && isFit(own === null ? 0 : Number(own) - Number(there), lengthOf(/** @type {Element} */ (other)))
            && going.every((it, at) => !at || way * (it - going[at - 1]) >= 0);
    }

    /** @param {Element} track counts what is joined to a track */
    follow(track) {
        for (const { here, there, next, nextWay } of joinsOf(this.graph, track, this.ways.get(track) ?? 1, this.turned)) {
            if (!this.ways.has(next)) {
                this.joins.set(next, { own: there, other: here });
                this.count(next, nextWay, there, this.mileages.get(here) ?? 0);
            } else if (this.ways.get(next) !== nextWay) {
                this.backs.push({ own: there, other: here });
            } else {
                this.close(here, there);
            }
        }
    }

    /** @param {Element} here @param {Element} there two places that are joined, both counted */
    close(here, there) {
        const gap = (this.mileages.get(here) ?? 0) - (this.mileages.get(there) ?? 0);
        const loose = [here, there].filter((it) => this.given(it) === null || it.above("track") === this.anew);
        const length = Math.max(0, ...loose.map((it) => lengthOf(it.above("track") ?? it)));
        this.fits &&= isFit(gap, length);
        for (const [it, other] of [[here, there], [there, here]]) {
            if (it.above("track") === this.anew && other.above("track") !== this.anew && !this.fixed.includes(it)) {
                this.mileages.set(it, this.mileages.get(other) ?? 0);
                this.fixed.push(it);
            }
        }
    }

    /** Between two places that are fixed the others of a track lie as their positions do. */
    spread() {
        const fixed = this.fixed.sort(railml.byPosition), of = (/** @type {Element} */ it) => this.mileages.get(it) ?? 0;
        fixed.slice(1).forEach((after, at) => {
            const before = fixed[at], length = positionOf(after) - positionOf(before);
            for (const it of spotsOf(/** @type {Element} */ (this.anew))) {
                const part = (positionOf(it) - positionOf(before)) / length;
                if (length && !fixed.includes(it) && part > 0 && part < 1) {
                    this.mileages.set(it, Math.round((of(before) + (of(after) - of(before)) * part) / SAME) * SAME);
                }
            }
        });
    }

    /** @param {Element} track @returns {Element[]} its ends, switches and crossings that have another mileage here */
    others(track) {
        return spotsOf(track).filter((it) => areApart(mileageOf(it), this.mileages.get(it) ?? null));
    }
}

/** @typedef {{plain: Layout, turned: Element[], anew: Map<Element, Layout>, odd: Map<Element, Layout>}} Changes what is joined
 * to a track as the file has it; each switch that alone mends it when it is turned, and each track that does when it is counted
 * anew; and the tracks whose kilometres contradict the others', with how these have them: more than one of them may be right
 * where as much speaks for each */

/** @param {Element[]} tracks @returns {number} how many mileages the file writes along tracks */
function writtenAlong(tracks) {
    return tracks.flatMap(spotsOf).filter((it) => it.attributes.has("absPos")).length;
}

/**
 * The tracks whose kilometres contradict those of the others: as few as may be, by the mileages that are written along them.
 * @param {TrackGraph} graph @param {Element[]} placed the tracks with mileages
 * @returns {Map<Element, Layout>} each with the others' layout; all that may be them where the file can't say which
 */
function oddOf(graph, placed) {
    const layouts = placed.slice(0, TRIED).map((it) => new Layout(graph, it)).filter((it) => it.odd.length);
    const counts = layouts.map((it) => writtenAlong(it.odd)), least = Math.min(...counts);
    const found = layouts.filter((_, at) => counts[at] === least);
    return new Map(found.flatMap((it) => it.odd.map((track) => /** @type {[Element, Layout]} */ ([track, it]))));
}

/**
 * Each single change of the tracks that are joined to one which has all of them fit.
 * @param {Document} document @param {Element} within
 * @returns {Changes | null} null where a track has no two ends, or where all fits as it is
 */
export function changesOf(document, within) {
    if (!spotsOf(within).length) {
        return null;
    }
    const graph = new TrackGraph(document), met = new Layout(graph, within), part = [...met.ways.keys()];
    const rising = part.filter((it) => met.ownWay(it)).sort((one, other) => spotsOf(other).length - spotsOf(one).length);
    const plain = new Layout(graph, rising[0] ?? within);
    if (plain.isMended) {
        return null;
    }
    // a track with one mileage alone is read as if it rose
    const placed = [...rising, ...part.filter((it) => !rising.includes(it) && writtenAlong([it]))];
    const points = part.flatMap(railml.points);
    const turned = points.filter((it) => new Layout(graph, rising[0] ?? within, { turned: it }).isMended);
    const anew = plain.backs.length ? [] : part.flatMap((track) => {
        const first = placed.find((it) => it !== track), layout = first && new Layout(graph, first, { anew: track });
        const isNew = layout?.isMended && layout.others(track).some((it) => graph.node(it) === it);
        return isNew ? /** @type {[Element, Layout][]} */ ([[track, layout]]) : [];
    });
    return { plain, turned, anew: new Map(anew), odd: plain.backs.length ? new Map() : oddOf(graph, placed) };
}
