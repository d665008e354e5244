/** Ends that say nothing, switches beside their tracks, and switches with two connections. */
import { Decimal, ZERO } from "../decimal.js";
import { knownOf, roomAt } from "../messages/topology_faults.js";
import * as railml from "../railml.js";
import { freshId, idsOf } from "./names.js";
import { asRead } from "./numbers.js";
import { stretch } from "../searching.js";

/** @typedef {import("./prepared.js").Prepared} Prepared */
/** @typedef {import("../railml.js").Element} Element */
/** @typedef {import("../edits.js").Edit} Edit */

/** so far outside its track a point is by rounding, in metres */
const DECIMETRE = new Decimal(false, 1n, 1);
const HALF_METRE = new Decimal(false, 5n, 1);
/** a switch that is no further from its track's end is at it, in metres */
export const AT_END = new Decimal(false, 1n, 2);
/** two ends that are no further apart may be meant for each other, in metres */
const NEAR = new Decimal(false, 50n, 0);

/** @param {Element} track @returns {boolean} whether its mileage falls from its begin to its end */
export function falls(track) {
    const [begun, ended] = railml.ENDS.map((name) => railml.endOf(track, name)).map((end) => end && railml.mileage(end));
    return !!begun && !!ended && ended.compare(begun) < 0;
}

// ---- ends

/** @param {Element} end @returns {number} 1 where it leads towards greater mileages, -1 towards smaller ones */
function wayOut(end) {
    return (end.name === "trackEnd") !== falls(/** @type {Element} */ (end.above("track"))) ? 1 : -1;
}

/** @typedef {{connection: Element, owner: Element, at: Decimal}} Loose a connection that is joined to none, at a mileage */

/** What ends that refer to nothing may mean: a file's connections, and of these the ones that are joined to none. */
class Meant {
    /** @param {railml.Document} document */
    constructor(document) {
        this.known = knownOf(document);
        this.dangling = railml.dangling(document);
        const all = this.dangling.flatMap((connection) => (connection.parent ? [{ connection, owner: connection.parent }] : []))
            .map((it) => ({ ...it, at: railml.mileage(it.owner) }));
        /** @type {Loose[]} by their mileages */
        this.placed = all.flatMap(({ at, ...it }) => (at ? [{ ...it, at }] : [])).sort((one, other) => one.at.compare(other.at));
        /** those whose mileage isn't known */
        this.anywhere = all.filter(({ at }) => !at);
    }

    /** @param {Element} end @returns {boolean} whether a connection that is joined to none lies at its place, and may be meant */
    hasOther(end) {
        const at = railml.mileage(end), isElse = (/** @type {{owner: Element}} */ it) => it.owner !== end;
        if (!at) {
            return this.anywhere.some(isElse) || this.placed.some(isElse);
        }
        const near = stretch(this.placed, (it) => it.at.toNumber(), at.minus(NEAR).toNumber(), at.plus(NEAR).toNumber());
        return this.anywhere.some(isElse)
            || near.some((it) => isElse(it) && !(railml.ENDS.includes(it.owner.name) && wayOut(it.owner) === wayOut(end)));
    }

    /** @param {Element} end @returns {boolean} whether it is clear that an end leads out of the file */
    leadsOut(end) {
        const { owners, backs } = this.known, [connection] = end.named("connection");
        const names = [end.id, connection?.id, end.above("track")?.id ?? ""];
        const isNamed = names.some((id) => id !== undefined && backs.has(id));
        return !isNamed && !(connection && (owners.has(connection.attributes.get("ref") ?? "") || this.hasOther(end)));
    }
}

/** @param {Prepared} it has ends open that say nothing, or that refer to what isn't in the file */
export function mendEnds(it) {
    const { document } = it, dangling = new Set(railml.dangling(document));
    const all = document.tracks().flatMap((track) => railml.ENDS.flatMap((name) => railml.endOf(track, name) ?? []));
    const ends = all.filter((end) => {
        const having = end.named(...railml.ENDINGS);
        return !having.length || having.length === 1 && dangling.has(having[0]);
    });
    if (!ends.length) {
        return;
    }
    const meant = new Meant(document), taken = idsOf(document);
    it.replace(ends.filter((end) => meant.leadsOut(end)).flatMap((end) => {
        const [connection] = end.named(...railml.ENDINGS), isSilent = !connection;
        const text = `<openEnd id="${freshId(taken, `${end.id}.open`)}"/>`;
        it.isRebuilt = true;
        it.changed(end, isSilent ? `${railml.what(end)} says nothing of how the track ends: it is written as an open end`
            : `${railml.what(end)} refers to ${connection.attributes.get("ref")
                || "nothing"}, which isn't in the file: it is written as an open end`);
        return [isSilent ? it.edits.appending(end, text) : { begun: connection.place, ended: connection.ended, text }];
    }));
}

// ---- switches beside their tracks

/** @param {Prepared} it @param {Element} point @param {Decimal} pos @param {Element} track @returns {Edit[]} that it is at
 * another position of its
 * track, and its mileage as far */
function moving(it, point, pos, track) {
    const own = railml.metres(point.attributes.get("absPos")), by = pos.minus(railml.position(point));
    const edits = [it.edits.setting(point, "pos", asRead(String(pos)))];
    if (own) {
        edits.push(it.edits.setting(point, "absPos", asRead(String(falls(track) ? own.minus(by) : own.plus(by)))));
    }
    return edits;
}

/** @param {Prepared} it moves a switch or crossing into its track that lies up to a decimetre outside */
export function mendOutside(it) {
    it.replace(it.document.tracks().flatMap((track) => {
        const [begin, end] = railml.ENDS.map((name) => railml.endOf(track, name));
        if (!begin || !end) {
            return [];
        }
        return railml.points(track).flatMap((point) => {
            const pos = railml.position(point), isBehind = pos.compare(railml.position(end)) > 0, edge = isBehind ? end : begin;
            const apart = isBehind ? pos.minus(railml.position(end)) : railml.position(begin).minus(pos);
            const room = apart.compare(ZERO) > 0 && apart.compare(DECIMETRE) <= 0 ? roomAt(track, point, edge) : ZERO;
            if (room.isZero()) {
                return [];
            }
            const inside = isBehind ? railml.position(end).minus(room) : railml.position(begin).plus(room);
            it.isRebuilt = true;
            it.changed(
                point, `${railml.what(
                point)} lies ${apart} m outside its track: it is moved to pos="${asRead(String(inside))}", and its mileage as far`);
            return moving(it, point, inside, track);
        });
    }));
}

// ---- switches with two connections

/** @param {Element} point @param {string} way incoming or outgoing @returns {Decimal | null} half a metre towards the legs, where
 * nothing else is
 * so near */
function besideOf(point, way) {
    const track = /** @type {Element} */ (point.above("track")), from = railml.position(point);
    const ahead = railml.placesOf(track).filter((other) => other !== point)
        .map((other) => (way === "outgoing" ? railml.position(other).minus(from) : from.minus(railml.position(other))));
    const isFree = ahead.every((apart) => apart.compare(ZERO) < 0 || apart.compare(HALF_METRE) > 0);
    return isFree ? (way === "outgoing" ? from.plus(HALF_METRE) : from.minus(HALF_METRE)) : null;
}

/** @param {Prepared} it @param {Element} point @param {Set<string>} taken @returns {Edit[]} that a three-way switch is two */
function parting(it, point, taken) {
    const [one, other] = point.named("connection"), track = /** @type {Element} */ (point.above("track"));
    const ways = [one, other].map((leg) => leg.attributes.get("orientation") ?? ""),
        hands = [one, other].map((leg) => leg.attributes.get("course"));
    const pos = ways[0] === ways[1] && hands.includes("left") && hands.includes("right") ? besideOf(point, ways[0]) : null;
    if (!pos) {
        return [];
    }
    const id = freshId(taken, `${point.id}.2`);
    it.made.set(id, point.id);
    it.isRebuilt = true;
    it.changed(point, `the three-way switch ${point.id} is written as two: behind it, half a metre towards its legs, ${id} with the `
        + `connection ${other.id}`);
    const away = (/** @type {Element} */ leg) => ({ begun: leg.place, ended: leg.ended, text: "" });
    const copy = it.edits.textOf(point, [it.edits.setting(point, "id", id), ...moving(it, point, pos, track), away(one)]);
    return [away(other), { begun: point.ended, ended: point.ended, text: `\n${copy}` }];
}

/** @param {Prepared} it @param {Element} point @returns {Edit[]} that the leg on which the track goes on is joined to the track's
 * end, where a switch
 * at that end has both its legs as connections */
function goingOn(it, point) {
    const legs = point.named("connection"), straight = legs.find((leg) => leg.attributes.get("course") === "straight");
    const branch = legs.find((leg) => leg !== straight), way = straight?.attributes.get("orientation");
    const track = /** @type {Element} */ (point.above("track")), end = railml.endOf(track, way === "incoming" ? "trackBegin" : "trackEnd");
    const apart = end && railml.position(end).minus(railml.position(point)).absolute(), open = end?.named(...railml.ENDINGS);
    const isAtEnd = apart && apart.compare(AT_END) <= 0 && open?.length === 1 && open[0].name === "openEnd";
    if (!straight || !branch || branch.attributes.get("orientation") !== way || !isAtEnd) {
        return [];
    }
    it.isRebuilt = true;
    it.changed(
        point, `switch ${point.id} has both its legs as connections: ${straight.id}, by which the track goes straight on, is that of `
        + `${railml.what(end)} now`);
    const text = it.edits.textOf(straight, ["course", "orientation"].flatMap((name) => it.edits.leavingOut(straight, name)));
    return [{ begun: straight.place, ended: straight.ended, text: "" }, { begun: open[0].place, ended: open[0].ended, text }];
}

/** @param {Prepared} it */
export function mendLegs(it) {
    const points = it.document.tracks().flatMap(railml.points)
        .filter((point) => point.name === "switch" && point.named("connection").length === 2);
    const taken = points.length ? idsOf(it.document) : new Set();
    it.replace(points.flatMap((point) => {
        const edits = goingOn(it, point);
        return edits.length ? edits : parting(it, point, taken);
    }));
}
