/** A net of railML 3 as tracks of railML 2: each net element is a track, with the switch or crossing at the end where its
 * points are. */
import { asRead } from "../mending/numbers.js";
import { listUnder } from "../searching.js";
import { idOf } from "./around.js";
import { HANDS, across, elementOf, nameOf, under, whatOf } from "./net.js";

/** @typedef {import("../railml.js").Element} Element */
/** @typedef {import("./net.js").End} End */
/** @typedef {import("./net.js").Hand} Hand */
/** @typedef {import("./net.js").Net} Net */
/** @typedef {import("./net.js").Switch} Switch */
/** @typedef {import("./net.js").Crossing} Crossing */

/** @param {string} text @returns {string} */
function escaped(text) {
    return text.replaceAll("&", "&amp;").replaceAll("<", "&lt;").replaceAll('"', "&quot;");
}

/** @param {string} name @param {Record<string, string | undefined>} attributes @param {string[]} [inner] @returns {string} */
function tag(name, attributes, inner = []) {
    const given = Object.entries(attributes).filter(([, value]) => value !== undefined && value !== "");
    const front = `<${name}${given.map(([key, value]) => ` ${key}="${escaped(value ?? "")}"`).join("")}`;
    return inner.length ? `${front}>${inner.join("")}</${name}>` : `${front}/>`;
}

/** @param {Switch} it @returns {Hand} the hand of the leg on which the track goes on; it says nothing of sides */
export function straightOf({ element }) {
    const said = element.attributes.get("continueCourse"), other = element.attributes.get("branchCourse");
    const radii = HANDS.map((hand) => Math.abs(Number(under(element, `${hand}Branch`)[0]?.attributes.get("radius")) || 0));
    return said === "left" || said === "right" ? said : other === "left" ? "right" : other === "right" ? "left"
        : radii[0] === radii[1] ? "left" : (radii[0] === 0 || radii[1] !== 0 && radii[0] > radii[1]) ? "left" : "right";
}

/** A net while it is written. */
class Writer {
    /** @param {Net} net */
    constructor(net) {
        this.net = net;
        /** @type {Map<End, string>} what is written into an end */
        this.inner = new Map();
        /** @type {Map<End, string[]>} the switches and crossings there */
        this.points = new Map();
        /** @type {Map<string, string>} */
        this.names = new Map(under(net.functional, "tracks", "track").flatMap((track) => track.children
            .flatMap((it) => [it, ...it.children]).flatMap((it) => {
            const of = it.attributes.get("netElementRef");
            return of ? [/** @type {[string, string]} */ ([of, nameOf(track)])] : [];
        })));
        /** @type {Map<string, import("./net.js").Signal[]>} the signals on each net element, along it */
        this.signalsOf = new Map();
        [...net.signals].sort((one, other) => one.part - other.part).forEach((it) => listUnder(this.signalsOf, it.of, it));
        this.operationalPoints = under(net.functional, "operationalPoints", "operationalPoint").filter(nameOf);
        /** @type {Map<string, string[]>} on each net element the places of operational points */
        this.places = new Map();
        // of one point alone the station is called after it
        (this.operationalPoints.length > 1 ? this.operationalPoints : []).forEach((it) => this.addPlaces(it));
        net.switches.forEach((it) => this.addSwitch(it));
        net.crossings.forEach((it) => this.addCrossing(it));
        for (const [end, [other, ...more]] of [...net.joined].map(([from, to]) => /** @type {const} */ ([from, [...to]]))) {
            if (!this.inner.has(end) && !more.length) {
                this.inner.set(end, this.connection(end, `${idOf(other)}.c`));
            }
        }
    }

    /** @param {End} end @param {string} ref @returns {string} */
    connection(end, ref) {
        return tag("connection", { id: `${idOf(end)}.c`, ref });
    }

    /** @param {Element} it an operational point: by its places a line is cut into stations */
    addPlaces(it) {
        this.net.spotsOf(it).forEach(({ of, part }, at) => {
            const pos = asRead(String(this.net.lengthOf(of).toNumber() * part));
            listUnder(this.places, of, tag("crossSection", { id: `${it.id}.${at + 1}`, ocpRef: it.id, pos }));
        });
    }

    /** @param {End} one @param {End} other joins two ends */
    join(one, other) {
        this.inner.set(one, this.connection(one, `${idOf(other)}.c`));
        this.inner.set(other, this.connection(other, `${idOf(one)}.c`));
    }

    /** @param {End} end @returns {string} its position on its element */
    position(end) {
        return asRead(end.endsWith("0") ? "0" : String(this.net.lengthOf(elementOf(end))));
    }

    /** @param {End} end @returns {string | undefined} */
    mileage(end) {
        const measure = this.net.measures.get(end);
        return measure && asRead(String(measure));
    }

    /** @param {string} name @param {Element} element @param {End} end @param {string[]} legs @param {Record<string, string>}
     * [more] */
    addPoint(name, element, end, legs, more = {}) {
        this.points.set(end, [...this.points.get(end) ?? [], tag(name,
            { id: element.id, name: nameOf(element), pos: this.position(end), absPos: this.mileage(end), ...more }, legs)]);
    }

    /** @param {Switch} it */
    addSwitch(it) {
        const { element, toe, legs } = it, straight = straightOf(it), hand = straight === "left" ? "right" : "left", leg = `${element.id}.c`;
        this.join(toe, legs[straight]);
        this.inner.set(legs[hand], this.connection(legs[hand], leg));
        this.addPoint("switch", element, toe, [tag("connection", { id: leg, ref: `${idOf(legs[hand])}.c`, course: hand,
            orientation: toe.endsWith("1") ? "outgoing" : "incoming" })]);
    }

    /** @param {End} end @returns {number} towards greater mileages along its element, or towards smaller ones */
    way(end) {
        const [here, there] = [end, across(end)].map((it) => this.net.measures.get(it));
        return here && there ? there.compare(here) : 0;
    }

    /** @param {Crossing} it its first path is the track's own, the other one leads over it; the hand is found when all is
     * written */
    addCrossing({ element, paths: [[own, on], path] }) {
        const before = own.endsWith("1") ? this.way(own) : this.way(on);
        const [incoming, outgoing] = this.way(path[0]) === before ? path : [path[1], path[0]];
        const ids = [incoming, outgoing].map((_, at) => `${element.id}.${"io"[at]}`);
        if (!before || this.way(incoming) === this.way(outgoing) || this.way(own) === this.way(on)) {
            this.net.doubt(element, `${whatOf(element)}: measures don't say which two net elements lie on one side of it`);
        }
        this.join(own, on);
        [incoming, outgoing].forEach((end, at) => this.inner.set(end, this.connection(end, ids[at])));
        const at = own.endsWith("1") ? own : on, isBegin = !at.endsWith("1");
        const [first, second] = isBegin ? [outgoing, incoming] : [incoming, outgoing];
        this.addPoint("crossing", element, at, [tag("connection", { id: ids[isBegin ? 1 : 0], ref: `${idOf(first)}.c`, course: "straight",
            orientation: "incoming" }), tag("connection", { id: ids[isBegin ? 0 : 1], ref: `${idOf(second)}.c`, course: "left",
            orientation: "outgoing" })], { type: "simpleCrossing" });
    }

    /** @param {End} end @returns {string} */
    end(end) {
        const inner = this.inner.get(end) ?? tag(this.net.buffers.has(end) ? "bufferStop" : "openEnd", { id: `${idOf(end)}.o` });
        return tag(end.endsWith("0") ? "trackBegin" : "trackEnd", { id: idOf(end), pos: this.position(end),
            absPos: this.mileage(end) }, [inner]);
    }

    /** @param {string} id @returns {string} */
    signals(id) {
        const length = this.net.lengthOf(id).toNumber(), [from, to] = [0, 1].map((at) => this.net.measures.get(`${id} ${at}`)?.toNumber());
        const found = (this.signalsOf.get(id) ?? []).map(({ element, part, dir }) =>
            tag("signal", { id: element.id, name: nameOf(element), dir, pos: asRead(String(length * part)),
                absPos: from === undefined || to === undefined ? undefined : asRead((from + (to - from) * part).toFixed(3)) }));
        return found.length ? tag("ocsElements", {}, [tag("signals", {}, found)]) : "";
    }

    /** @param {string} id @returns {string} */
    track(id) {
        const ends = [`${id} 0`, `${id} 1`], points = ends.flatMap((end) => this.points.get(end) ?? []);
        const places = this.places.get(id) ?? [];
        const topology = tag("trackTopology", {}, [...ends.map((end) => this.end(end)), ...points.length ? [tag("connections",
            {}, points)] : [], ...places.length ? [tag("crossSections", {}, places)] : []]);
        return tag("track", { id, name: this.names.get(id) }, [topology, this.signals(id)].filter(Boolean));
    }

    /** @returns {string} */
    text() {
        const { net, operationalPoints: points } = this, [point] = points;
        const listed = points.map((it) => tag("ocp", { id: it.id, name: nameOf(it) }));
        const controlled = this.places.size ? [tag("operationControlPoints", {}, listed)] : [];
        const tracks = [...net.elements.keys()].map((id) => `${this.track(id)}\n`);
        return `<?xml version="1.0" encoding="UTF-8"?>\n<railml xmlns="http://www.railml.org/schemas/2013" version="2.2">\n`
            + `${tag("infrastructure", { id: net.infrastructure?.id, name: points.length === 1 ? nameOf(point) : "" },
                [tag("tracks", {}, ["\n", ...tracks]), ...controlled])}\n</railml>\n`;
    }
}

/**
 * A net as railML 2; what isn't clear is noted in the net.
 * @param {Net} net
 * @returns {string}
 */
export function writtenAs2(net) {
    return new Writer(net).text();
}
