/** What a fault of a station's signals means, and what to do about it. */
import { ofByte } from "../places.js";
import * as railml from "../railml.js";
import { also, lackingOf, number, outsideTrack, repeatedId, wrongId } from "./topology_faults.js";

/** @typedef {import("../railml.js").Element} Element */
/** @typedef {import("./topology_faults.js").Station} Station */
/** @typedef {import("./topology_faults.js").Sentence} Sentence */

/** @param {Station} station @returns {Element[]} the signals that are selected, in file order */
function signalsOf(station) {
    return station.document.tracks().flatMap(railml.signals);
}

/** @type {Sentence} */
function tooMany(station) {
    return `this is signal 513 of ${signalsOf(station).length}, and a file may have 512. Export a part of the station`;
}

/** @type {Sentence} */
function missing(station, it, [attribute]) {
    return lackingOf(attribute, it ? `the signal ${it.id}`.trimEnd() : "this signal");
}

/** @type {Sentence} */
function crowded(station, it, [id]) {
    return `the signal ${id} is the 16th on one piece of track, and 15 have room there, so a station with all of them isn't `
        + "drawn. draw draws it without any signals";
}

/** @param {Element | null} it @returns {string} which of a signal's numbers is none */
function wrongNumber(it) {
    const pos = it?.attributes.get("pos") ?? "";
    return railml.metres(pos) && !/[,eE]/.test(pos) && it?.attributes.has("absPos") ? "absPos" : "pos";
}

/** @type {Map<string, Sentence>} what is said of each fault */
export const SIGNAL = new Map([["TooMany", tooMany], ["Missing", missing], ["Id", wrongId], ["RepeatedId", repeatedId],
    ["Number", (station, it, [id]) => number(station, it, [id, wrongNumber(it)])], ["OutsideTrack", outsideTrack],
    ["Crowded", crowded]]);

/**
 * What is said of a fault of the signal whose tag begins at a byte.
 * @param {Station} station @param {string} fault @param {number} place @param {string[]} named
 * @returns {import("../notes.js").Note[]}
 */
export function notes(station, fault, place, named) {
    const it = station.document.at(place);
    const text = /** @type {Sentence} */ (SIGNAL.get(fault))(station, it, named);
    return [{ text, place: ofByte(station.name, station.data, place) }, ...also(station, fault, it, named, signalsOf(station))];
}
