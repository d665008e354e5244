/**
 * The elements of a railML file with their places: to explain a fault that the program found, to say what it passes over, and
 * for the names on pages. What is selected is what the program selects: names without a prefix along infrastructure, tracks,
 * track, trackTopology.
 */
import { Decimal, ZERO } from "./decimal.js";
import { parse } from "./xml.js";

export const ENDS = ["trackBegin", "trackEnd"];
export const POINTS = ["switch", "crossing"];
export const ENDINGS = ["connection", "openEnd", "bufferStop", "macroscopicNode"];
/** elements whose text is kept */
const TITLES = ["title", "dc:title"];

/** An element: the byte where its tag begins and the one behind its end, its name, attributes, parent and children; of a title
 * also its text. */
export class Element {
    /** @param {number} place @param {string} name @param {Map<string, string>} attributes @param {Element | null} parent */
    constructor(place, name, attributes, parent) {
        this.place = place;
        this.ended = place;
        this.name = name;
        this.attributes = attributes;
        this.parent = parent;
        /** @type {Element[]} */
        this.children = [];
        this.text = "";
    }

    get id() {
        return this.attributes.get("id") ?? "";
    }

    /** @param {...string} names @returns {Element[]} the children of these names */
    named(...names) {
        const { children } = this;
        return children.length ? children.filter((it) => names.includes(it.name)) : [];
    }

    /** @param {string} name @returns {Element | null} the element itself or the nearest around it of this name */
    above(name) {
        /** @type {Element | null} */
        let it = this;
        while (it && it.name !== name) {
            it = it.parent;
        }
        return it;
    }
}

/** The elements of a file in file order, those that are open where reading stopped, and why it stopped before the end. */
export class Document {
    constructor() {
        /** @type {Element[]} */
        this.elements = [];
        /** @type {Element[]} */
        this.open = [];
        /** @type {import("./xml.js").Trouble | null} */
        this.trouble = null;
    }

    /** @returns {Element | null} */
    get root() {
        return this.elements[0] ?? null;
    }

    /** @param {number} place @returns {Element | null} */
    at(place) {
        return this.elements.find((it) => it.place === place) ?? null;
    }

    /** @returns {Element[]} */
    stations() {
        const root = this.root;
        return root?.name === "infrastructure" ? [root] : root?.name === "railml" ? root.named("infrastructure") : [];
    }

    /** @returns {Element[]} */
    tracks() {
        return this.stations().flatMap((it) => it.named("tracks")).flatMap((it) => it.named("track"));
    }
}

/**
 * The elements, as far as the text goes without a fault.
 * @param {Uint8Array} data
 * @returns {Document}
 */
export function read(data) {
    const document = new Document(), open = document.open;
    document.trouble = parse(data, {
        open(place, name, attributes) {
            const it = new Element(place, name, attributes, open.at(-1) ?? null);
            document.elements.push(it);
            open.at(-1)?.children.push(it);
            open.push(it);
        },
        close(ended) {
            const it = open.pop();
            if (it) {
                it.ended = ended;
            }
        },
        text(text) {
            const it = open.at(-1);
            if (it && TITLES.includes(it.name)) {
                it.text += text;
            }
        },
    });
    return document;
}

/**
 * A number of metres, or nothing.
 * @param {string | undefined} text
 * @returns {Decimal | null}
 */
export function metres(text) {
    return Decimal.of(text ?? "");
}

// ---- the topology of a track

/** @param {Element} track @returns {Element | null} */
export function topology(track) {
    return track.named("trackTopology")[0] ?? null;
}

/** @param {Element} track @param {string} name trackBegin or trackEnd @returns {Element | null} */
export function endOf(track, name) {
    return topology(track)?.named(name)[0] ?? null;
}

/** @param {Element} track @returns {Element[]} the switches and crossings of a track, in file order */
export function points(track) {
    return topology(track)?.named("connections").flatMap((it) => it.named(...POINTS)) ?? [];
}

/** @param {Element} it @returns {Decimal} */
export function position(it) {
    return metres(it.attributes.get("pos")) ?? ZERO;
}

/** @param {Element} one @param {Element} other @returns {number} for sorting along a track */
export function byPosition(one, other) {
    return position(one).compare(position(other));
}

/** @type {Map<Element, string>} */
const NONE = new Map();

/**
 * An element's absPos; without one its track begin's, as far as the two positions are apart.
 * @param {Element} it
 * @param {Map<Element, string>} [written] what is to be written as the absPos of some that have none
 * @returns {Decimal | null}
 */
export function mileage(it, written = NONE) {
    const absPos = (/** @type {Element} */ one) => metres(written.get(one) ?? one.attributes.get("absPos"));
    const own = absPos(it), track = it.above("track");
    const begin = track && endOf(track, "trackBegin");
    if (own || !begin || begin === it) {
        return own;
    }
    const base = absPos(begin);
    const at = metres(it.attributes.get("pos")), begun = metres(begin.attributes.get("pos"));
    return base && at && begun ? base.plus(at).minus(begun) : null;
}

/** @param {Element} track @returns {Element[]} the signals of a track, in file order */
export function signals(track) {
    return track.named("ocsElements").flatMap((it) => it.named("signals")).flatMap((it) => it.named("signal"));
}

/** @param {Element} one @param {Element} other @returns {number} for sorting into file order */
function byPlace(one, other) {
    return one.place - other.place;
}

/** @param {Document} document @returns {Element[]} the connections that are selected, in file order */
export function connections(document) {
    return document.tracks().flatMap(placesOf).flatMap((it) => it.named("connection")).sort(byPlace);
}

/** @param {Element} track @returns {Element[]} the ends, switches and crossings of a track */
export function placesOf(track) {
    return [...topology(track)?.named(...ENDS) ?? [], ...points(track)];
}

/** @param {Document} document @returns {Map<string, Element>} the connections by their ids */
export function byId(document) {
    return new Map(connections(document).map((it) => [it.id, it]));
}

/**
 * The element that a track's begin or end is joined to, with its mileage where the file says it.
 * @param {Map<string, Element>} known the connections by their ids
 * @param {Element} end
 * @param {Map<Element, string>} [written] what is to be written as the absPos of some that have none
 * @returns {{element: Element, mileage: Decimal} | null}
 */
export function joinedMileage(known, end, written = NONE) {
    for (const connection of end.named("connection")) {
        const other = known.get(connection.attributes.get("ref") ?? "")?.parent;
        const found = other && mileage(other, written);
        if (other && found) {
            return { element: other, mileage: found };
        }
    }
    return null;
}

/** @param {Document} document @returns {Element[]} the elements whose ids must differ, in file order */
export function withIds(document) {
    const tracks = document.tracks();
    return [...tracks, ...tracks.flatMap(placesOf), ...connections(document)].sort(byPlace);
}

/** @param {Element} it @returns {boolean} */
export function isOfPoint(it) {
    return it.parent !== null && POINTS.includes(it.parent.name);
}

/** @param {Element} it @returns {string[]} the attributes that it must have, in the order in which the program looks for
 * them */
export function required(it) {
    if (it.name !== "connection") {
        return ["id", ...it.name === "track" ? [] : ["pos"], ...it.name === "trackBegin" ? ["absPos"] : []];
    }
    const hasCourse = isOfPoint(it) && (it.parent?.name === "switch" || it.attributes.get("orientation") === "outgoing");
    return ["id", "ref", ...isOfPoint(it) ? ["orientation"] : [], ...hasCourse ? ["course"] : []];
}

/**
 * Each required attribute that an element lacks, with the element, in file order.
 * @param {Document} document
 * @returns {{element: Element, name: string}[]}
 */
export function lacking(document) {
    return withIds(document).flatMap((element) => required(element)
        .filter((name) => !element.attributes.has(name))
        .map((name) => ({ element, name })));
}

const HANDS = ["left", "right"];
const WAYS = ["outgoing", "incoming"];

/** @param {Element} it @returns {boolean} whether a connection of a switch or crossing has a course that isn't read */
export function hasNoHand(it) {
    const course = it.attributes.get("course");
    if (course === undefined || HANDS.includes(course) || !required(it).includes("course")) {
        return false;
    }
    const goesOn = it.parent?.attributes.get("trackContinueCourse") ?? "";
    return !(it.parent?.name === "switch" && course === "straight" && HANDS.includes(goesOn));
}

/** @param {Element} it @returns {boolean} whether a connection of a switch or crossing has an orientation that isn't read */
export function hasNoWay(it) {
    return required(it).includes("orientation") && !WAYS.includes(it.attributes.get("orientation") ?? WAYS[0]);
}

/** @param {Document} document @returns {Element[]} the connections that refer to none that is read, in file order */
export function dangling(document) {
    const known = byId(document);
    return connections(document).filter((it) => it.attributes.has("ref") && !known.has(it.attributes.get("ref") ?? ""));
}

/** @param {Element} it @returns {string} an element in words */
export function what(it) {
    const called = { trackBegin: "begin", trackEnd: "end" }[it.name] ?? it.name;
    if (ENDS.includes(it.name)) {
        const track = it.above("track");
        return track?.id ? `the ${called} of track ${track.id}` : `the ${called} ${it.id}`;
    }
    return `${called} ${it.id}`.trimEnd();
}
