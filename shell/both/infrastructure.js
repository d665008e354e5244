/**
 * What a railML file says beyond the texts of the program: names, kinds of ends, types of tracks, signals, and what else lies
 * at tracks.
 *
 * Its elements are those of railml.js, which selects what the program selects. So what is in an element that the program skips
 * isn't seen here either. A file that can't be read so says nothing, and `trouble` says why. Other than a message, a page has
 * no use for a file's bytes and their places: so here characters are read too that the program takes and no reader of XML does.
 */
import { Decimal } from "./decimal.js";
import * as railml from "./railml.js";
import { stationPoint, neighbourNames } from "./operational_points.js";
import { elementsAt, objectOf } from "./trackside.js";

/** @typedef {Map<string, string>} Given an element's attributes */
/** @typedef {{id: string, kind: string, ref: string, mileage: Decimal | null, pos: Decimal | null}} TrackEnd */
/** @typedef {object} SignalInFile
 * @property {string} id
 * @property {string} name
 * @property {string} track
 * @property {string} direction
 * @property {string} type main, distant, combined, shunting or repeater; "" where the file doesn't say it
 * @property {string} use its function
 * @property {boolean} isVirtual
 * @property {Decimal | null} own
 * @property {Decimal | null} pos */
/** @typedef {{id: string, pos: Decimal | null}} Place a switch or crossing of a track, and how far along it it is */
/** @typedef {object} Track
 * @property {string} id
 * @property {string} name
 * @property {string} type
 * @property {TrackEnd} begin
 * @property {TrackEnd} end
 * @property {Place[]} points from its begin to its end */
/** @typedef {{type: string, normal: string, course: string, goesOn: string}} Point what a switch or crossing says of itself,
 * and the course of its connection */
/** @typedef {object} Infrastructure
 * @property {string} title
 * @property {Map<string, string>} names
 * @property {Map<string, string>} ends
 * @property {Map<string, Track>} tracks
 * @property {Map<string, SignalInFile>} signals
 * @property {Map<string, string>} owners
 * @property {Map<string, Point>} points switches and crossings
 * @property {Map<string, string>} leads where lines go on, by the ids of ends: the names of operational points
 * @property {import("./trackside.js").Trackside[]} objects in file order
 * @property {string} trouble */

const ENDS = new Map([["openEnd", "open end"], ["bufferStop", "buffer stop"], ["macroscopicNode", "line goes on"]]);
const NUMBER = /^[\t\n\r ]*[+-]?(\d{1,9}(\.\d{0,6})?|\.\d{1,6})[\t\n\r ]*$/;
const REFERENCE = /&#(?:x([0-9a-fA-F]{1,8})|([0-9]{1,8}));/g;
// characters that the program takes and readers of XML don't are read as private ones, and given back afterwards
const PRIVATE = 0xF0000;
const REFUSED = /[\x00-\x08\x0b\x0c\x0e-\x1f\ufffe\uffff]/g;
const HIDDEN = /[\u{F0000}-\u{F0008}\u{F000B}\u{F000C}\u{F000E}-\u{F001F}\u{FFFFE}\u{FFFFF}]/gu;

/**
 * A signal's mileage: its own, or as far from the begin's as its place on the track is.
 * @param {SignalInFile} signal
 * @param {TrackEnd} begin
 * @returns {Decimal | null}
 */
export function mileageOf(signal, begin) {
    if (signal.own || !signal.pos || !begin.mileage || !begin.pos) return signal.own;
    return begin.mileage.plus(signal.pos).minus(begin.pos);
}

/** @param {Given} attributes @param {string} name @returns {Decimal | null} */
function number(attributes, name) {
    const text = attributes.get(name) ?? "";
    return NUMBER.test(text) ? Decimal.of(text) : null;
}

/** @type {(text: string) => string} the text with refused characters as private ones */
function hidden(text) {
    /** @type {(code: number) => string} */
    const moved = (code) => String.fromCodePoint(PRIVATE + code);
    return text.replace(REFUSED, (it) => moved(it.charCodeAt(0))).replace(REFERENCE, (whole, six, ten) => {
        const code = six ? parseInt(six, 16) : Number(ten);
        return code <= 0xFFFF && String.fromCharCode(code).search(REFUSED) === 0 ? `&#${PRIVATE + code};` : whole;
    });
}

/** @type {(text: string) => string} */
const givenBack = (text) => text.replace(HIDDEN, (it) => String.fromCharCode(Number(it.codePointAt(0)) - PRIVATE));

/** @type {(it: railml.Element) => Given} */
const given = (it) => new Map([...it.attributes].map(([name, value]) => [givenBack(name), givenBack(value)]));

/** @returns {TrackEnd} */
const noEnd = () => ({ id: "", kind: "", ref: "", mileage: null, pos: null });

/**
 * @param {string} [trouble]
 * @returns {Infrastructure} one that says nothing
 */
export function nothing(trouble = "") {
    return { title: "", names: new Map(), ends: new Map(), tracks: new Map(), signals: new Map(), owners: new Map(),
        points: new Map(), leads: new Map(), objects: [], trouble };
}

/** What the elements of a file say. */
class Taken {
    /** @param {railml.Document} document */
    constructor(document) {
        this.found = nothing();
        this.found.title = title(document);
        this.leads = neighbourNames(document);
        for (const track of document.tracks()) this.#takeTrack(track);
    }

    /** @param {Given} attributes */
    #name(attributes) {
        const [id, name] = [attributes.get("id"), attributes.get("name")];
        if (id && name?.trim() && !this.found.names.has(id)) this.found.names.set(id, name);
    }

    /** @param {railml.Element} it */
    #takeTrack(it) {
        const attributes = given(it);
        const id = attributes.get("id") ?? "";
        /** @type {Track} */
        const track = { id, name: attributes.get("name") ?? "", type: attributes.get("type") ?? "", begin: noEnd(),
            end: noEnd(), points: [] };
        this.found.tracks.set(id, track);
        this.#name(attributes);
        for (const end of it.named("trackTopology").flatMap((below) => below.named("trackBegin", "trackEnd"))) {
            this.#takeEnd(end.name === "trackBegin" ? track.begin : track.end, end);
        }
        for (const point of railml.points(it).sort(railml.byPosition)) this.#takePoint(track, point);
        for (const signal of railml.signals(it)) this.#takeSignal(track, given(signal));
        for (const one of elementsAt(it)) {
            const attributes = given(one);
            this.found.objects.push(objectOf(one.name, id, attributes, (name) => number(attributes, name)));
        }
    }

    /** @param {Track} track @param {railml.Element} point */
    #takePoint(track, point) {
        const attributes = given(point), id = attributes.get("id") ?? "", of = (/** @type {string} */ it) =>
            attributes.get(it) ?? "";
        const listed = point.named("connection");
        this.#name(attributes);
        track.points.push({ id, pos: number(attributes, "pos") });
        this.found.points.set(id, { type: of("type"), normal: of("normalPosition"), goesOn: of("trackContinueCourse"),
            course: listed.length === 1 ? given(listed[0]).get("course") ?? "" : "" });
        for (const one of listed) this.found.owners.set(given(one).get("id") ?? "", id);
    }

    /** @param {TrackEnd} end @param {railml.Element} it */
    #takeEnd(end, it) {
        const attributes = given(it);
        Object.assign(end, { id: attributes.get("id") ?? "", mileage: number(attributes, "absPos"),
            pos: number(attributes, "pos") });
        this.#name(attributes);
        for (const below of it.named("connection", ...ENDS.keys())) {
            const kind = ENDS.get(below.name);
            if (kind) {
                end.kind = kind;
                this.found.ends.set(end.id, kind);
                const leads = this.leads.get(below);
                if (leads) this.found.leads.set(end.id, givenBack(leads));
            } else {
                end.kind = "connection";
                end.ref = given(below).get("ref") ?? "";
                this.found.owners.set(given(below).get("id") ?? "", end.id);
            }
        }
    }

    /** @param {Track} track @param {Given} attributes */
    #takeSignal(track, attributes) {
        const id = attributes.get("id") ?? "";
        if (this.found.signals.has(id)) return;
        this.found.signals.set(id, {
            id, name: attributes.get("name") ?? "", track: track.id, direction: attributes.get("dir") ?? "",
            type: attributes.get("type") ?? "", use: attributes.get("function") ?? "",
            isVirtual: ["true", "1"].includes((attributes.get("virtual") ?? "").trim()),
            own: number(attributes, "absPos"), pos: number(attributes, "pos"),
        });
    }
}

/**
 * @type {(document: railml.Document) => string} the station's operational point, the infrastructure's name, or the file's title
 */
function title(document) {
    const point = givenBack(stationPoint(document));
    if (point) return point;
    const names = document.stations().map((it) => (given(it).get("name") ?? "").trim());
    const titles = document.elements.filter((it) => ["title", "dc:title"].includes(it.name))
        .filter((it) => it.above("metadata") && it.above("metadata")?.parent === document.root);
    return [...names.reverse(), ...titles.map((it) => givenBack(it.text).trim())].find(Boolean) ?? "";
}

/**
 * What a railML file says; nothing but why not, where it can't be read.
 * @param {Uint8Array} file
 * @returns {Infrastructure}
 */
export function read(file) {
    let text;
    try {
        text = new TextDecoder("utf-8", { fatal: true, ignoreBOM: true }).decode(file);
    } catch {
        return nothing("the file isn't UTF-8");
    }
    const document = railml.read(new TextEncoder().encode(hidden(text)));
    const { trouble } = document;
    return trouble ? nothing(`line ${trouble.line}: ${trouble.what}`) : new Taken(document).found;
}
