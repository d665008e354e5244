/** What a fault of the track graph, or of the order of its edges, means: the elements behind its names and numbers. */
import * as railml from "../railml.js";
import { alongTheTrack } from "../sides/said.js";
import { TrackGraph } from "../track_graph.js";
import { offsetsOf } from "./offsets.js";
import { causeOf } from "./side_mismatch.js";

/** @typedef {import("../railml.js").Element} Element */
/** @typedef {import("../notes.js").Note} Note */
/** @typedef {import("./topology_faults.js").Station} Station */

/** @param {Station} station @param {string} name @returns {Element | undefined} the element of a node's name */
function nodeOf(station, name) {
    return station.document.tracks().flatMap(railml.placesOf).find((it) => it.id === name);
}

/** @param {Station} station @param {string[]} named @returns {Note[]} */
function tooManyNodes(station, [count]) {
    return [{ text: `${station.name}: the station has ${count} ends, joints, switches and crossings, and 128 are drawn. `
        + station.cutting() }];
}

/** @param {Station} station @param {string[]} named @returns {Note[]} */
function tooManyEdges(station, [count]) {
    return [{ text: `${station.name}: the station has ${count} pieces of track, and 160 are drawn. ${station.cutting()}` }];
}

/** @param {Element} one @param {Element} other @returns {boolean} */
function haveOneMileage(one, other) {
    const [mileage, too] = [railml.mileage(one), railml.mileage(other)];
    return mileage && too ? mileage.equals(too) : mileage === too;
}

/** @param {Station} station @param {string} advice @returns {string} with what is said of offsets before it */
function withOffsets(station, advice) {
    const offsets = offsetsOf(station.document);
    return offsets ? `${offsets}. If it isn't that: ${advice}` : advice;
}

/** @param {TrackGraph} graph @param {number} edge @returns {string} which of two switches has the smaller mileage, where both
 * orientations say it */
function smallerOf(graph, edge) {
    const { west, east } = graph.edges[edge];
    if (west.name !== "switch" || east.name !== "switch" || west.above("track") === east.above("track")) {
        return "";
    }
    const [first, second] = [west, east].map((it) => {
        const rises = graph.edges[graph.behind.get(it.place) ?? edge].west === it;
        return (it.named("connection")[0]?.attributes.get("orientation") === "outgoing") === rises;
    });
    const said = first !== second ? `: by their orientations and kilometres that is switch ${(first ? west : east).id}` : "";
    return `, and the smaller mileage at that which lies towards smaller kilometres${said}`;
}

/**
 * Both nodes of a piece of track have one mileage.
 * @param {Station} station @param {string[]} named @returns {Note[]}
 */
function notForward(station, [track, metres]) {
    const graph = new TrackGraph(station.document);
    const level = graph.edges.find((it) => it.name === track && haveOneMileage(it.west, it.east));
    if (!level) {
        return [{ text: `${station.name}: both ends of a piece of ${track} are at ${metres} m. Give them two mileages` }];
    }
    if (level.west === level.east) {
        const loop = level.west.name === "switch" ? ` by its own switch ${level.west.id}, as a turning loop (balloon)` : "";
        return [{ text: `the track ${track} is joined to itself${loop}, so both its ends are at ${metres} m. A ring has no `
            + "west and east: cut it, and write two ends", place: station.place(level.west) }];
    }
    const [first, second] = level.west.place < level.east.place ? [level.west, level.east] : [level.east, level.west];
    const advice = [first, second].some((it) => railml.ENDS.includes(it.name))
        ? "Move the switch or crossing a little away from the track's end, in pos and absPos, past no other"
        : `Write them half a metre apart, in pos and absPos, past no other${smallerOf(graph, graph.edges.indexOf(level))}`;
    const text = `${railml.what(first)} and ${railml.what(second)} are both at ${metres} m, and a piece of ${track} goes from `
        + `the one to the other. ${withOffsets(station, advice)}`;
    return [{ text, place: station.place(first) },
    { text: `${railml.what(second)} is here`, place: station.place(second) }];
}

/**
 * The edges at a node don't lie on the sides where they must.
 * @param {Station} station @param {string[]} named @returns {Note[]}
 */
function sideMismatch(station, [name]) {
    const it = nodeOf(station, name);
    if (!it) {
        return [{ text: `${station.name}: at ${name} the pieces of track don't lie on the sides where they must` }];
    }
    const said = { switch: mismatchOfSwitch, crossing: mismatchOfCrossing }[it.name] ?? mismatchOfJoint;
    const known = railml.byId(station.document);
    const joined = it.named("connection").flatMap((child) => known.get(child.attributes.get("ref") ?? "")?.parent ?? []);
    const text = `${said(it)}. ${withOffsets(station, causeOf(station.document, it, station.prepared()) || unknownCause(it))}`;
    return [{ text, place: station.place(it) }, ...joined.map((other) => ({
        text: `it is joined to ${railml.what(other)}${at(other) || ","} which is here`, place: station.place(other),
    }))];
}

/** @param {Element} it @returns {string} */
function at(it) {
    const metres = railml.mileage(it);
    return metres ? `, at ${metres} m,` : "";
}

/** @param {Element} it @returns {string} */
function mismatchOfSwitch(it) {
    return `the switch ${it.id}${at(it)} must have its two legs on one side and its trunk on the other, and hasn't`;
}

/** @param {Element} it @returns {string} */
function mismatchOfCrossing(it) {
    return `the crossing ${it.id}${at(it)} must have one piece of each path on each side, the outgoing one on that to which `
        + "its track goes on, and hasn't";
}

/** @param {Element} it @returns {string} */
function mismatchOfJoint(it) {
    return `at ${railml.what(it)}${at(it)} two tracks are joined, and both lie on one side of it`;
}

/** @param {Element} it @returns {string} what to look at where the file's own lengths and mileages show no cause */
function unknownCause(it) {
    const look = { switch: "the orientation of its connection", crossing: "which connection is incoming and which outgoing" };
    return "Look at the mileages (absPos) of the tracks that meet there, as one file has one mileage, and at "
        + (look[/** @type {"switch"} */ (it.name)] ?? "which ends are joined");
}

/** @type {Map<string, (station: Station, named: string[]) => Note[]>} what is said of each fault */
export const GRAPH = new Map([["TooManyNodes", tooManyNodes], ["TooManyEdges", tooManyEdges], ["NotForward", notForward],
    ["SideMismatch", sideMismatch]]);

/**
 * What is said of a fault of the track graph.
 * @param {Station} station @param {string} fault @param {string[]} named
 * @returns {Note[]}
 */
export function notes(station, fault, named) {
    return /** @type {(station: Station, named: string[]) => Note[]} */ (GRAPH.get(fault))(station, named);
}

// ---- the order of edges

/**
 * What at a switch or crossing says which edge is above.
 * @param {import("../track_graph.js").Fork} fork
 * @returns {string}
 */
export function hand({ node }) {
    return node.named("connection")
        .filter((it) => node.name === "switch" || it.attributes.get("orientation") === "outgoing")
        .flatMap((it) => ["course", "orientation"].filter((key) => it.attributes.has(key))
            .map((key) => `${key}="${it.attributes.get(key)}"`))
        .join(", ");
}

/**
 * Each of two edges is above the other: the pieces by name, and the switches and crossings from which it comes.
 * @param {Station} station @param {string[]} named
 * @returns {Note[]}
 */
export function contradicts(station, named) {
    const graph = new TrackGraph(station.document), [one, other] = named.map(Number);
    const pieces = [one, other].map((it) => graph.pieceInWords(it));
    const found = [[one, other], [other, one]]
        .flatMap(([upper, lower]) => graph.origins(upper, lower).slice(0, 1).map((fork) => ({ upper, lower, fork })))
        .sort((before, behind) => before.fork.node.place - behind.fork.node.place);
    const along = alongTheTrack(station.document, station.prepared());
    return [{ text: `${station.name}: the piece of track ${pieces[0]} and the piece ${pieces[1]} would each lie above the `
        + "other. Of the places below one turns off to the wrong hand (course) or the wrong way (orientation)" },
    ...found.map(({ upper, lower, fork }) => ({
        text: `by the ${railml.what(fork.node)} (${hand(fork)}) ${graph.pieceInWords(upper)} lies above `
            + `${graph.pieceInWords(lower)}`,
        place: station.place(fork.node),
    })), ...along ? [{ text: along }] : []];
}
