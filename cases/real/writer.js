/** Tracks of the ground as railML 2, in the ways of several producers. */
import { Crossing, Switch, Track, other } from "./ground.js";

/** @typedef {import("./ground.js").Ground} Ground */
/** @typedef {import("./ground.js").Way} Way */
/** @typedef {object} Coordinates how geoCoord is written
 * @property {"latitude" | "longitude" | "northing" | "easting"} first which number comes first
 * @property {number} [bearing] where the line leads, in degrees from north
 * @property {number} [radius] of the curve on which the line lies, in metres; to the left
 * @property {boolean} [isMirrored]
 * @property {"all" | "ends"} [on] */
/** @typedef {object} Style
 * @property {string} version
 * @property {string} namespace
 * @property {number} decimals
 * @property {"all" | "begins" | "begins and ends" | "open begins" | "none"} mileages where absPos is written
 * @property {boolean} ofObjects whether objects have absPos
 * @property {"points" | "track"} course from where the hand of an incoming switch is seen
 * @property {boolean} goesOn whether trackContinueCourse is written
 * @property {string} moreOfSwitches further attributes of each switch
 * @property {string} rootAttributes
 * @property {string} head
 * @property {string} doctype
 * @property {boolean} isBare whether there is no railml element
 * @property {boolean} isTight whether all is on one line
 * @property {Coordinates | null} coordinates
 * @property {string} before behind the infrastructure's begin
 * @property {(text: string) => string} changed
 * @property {(text: string) => Uint8Array} encoded */

/** @type {Style} */
const USUAL = { version: "2.2", namespace: "http://www.railml.org/schemas/2013", decimals: 3, mileages: "all", ofObjects: true,
    course: "points",
    goesOn: false, moreOfSwitches: "", rootAttributes: "", head: '<?xml version="1.0" encoding="UTF-8"?>', doctype: "", isBare: false,
    isTight: false, coordinates: null, before: "", changed: (text) => text, encoded: (text) => new TextEncoder().encode(text) };
const DEGREE = 111320;

/** @param {string} text @returns {string} */
export function escaped(text) {
    return text.replaceAll("&", "&amp;").replaceAll("<", "&lt;").replaceAll('"', "&quot;");
}

/** @param {Record<string, string>} attributes @returns {string} */
function tagText(attributes) {
    return Object.entries(attributes).map(([name, value]) => ` ${name}="${escaped(value)}"`).join("");
}

/** One file, while it is written. */
class Writer {
    /** @param {Ground} ground @param {Style} style */
    constructor(ground, style) {
        this.ground = ground;
        this.style = style;
    }

    /** @param {number} metres @returns {string} */
    number(metres) {
        return metres.toFixed(this.style.decimals).replace(/^-(0(\.0*)?)$/, "$1");
    }

    /** @param {Track} track @param {number} at @returns {string} */
    coordinate(track, at) {
        const { coordinates } = this.style;
        if (!coordinates) {
            return "";
        }
        const { first, bearing = 90, radius = 0, isMirrored = false } = coordinates;
        const lateral = isMirrored ? -track.lateral : track.lateral;
        const along = radius ? (radius - lateral) * Math.sin(at / radius) : at;
        const left = radius ? radius - (radius - lateral) * Math.cos(at / radius) : lateral;
        const [sine, cosine] = [Math.sin, Math.cos].map((of) => of((bearing / 180) * Math.PI));
        const east = along * sine - left * cosine, north = along * cosine + left * sine;
        const [latitude, longitude] = [59 + north / DEGREE, 10 + east / (DEGREE * Math.cos((59 / 180) * Math.PI))]
            .map((it) => it.toFixed(8));
        const [easting, northing] = [600000 + east, 6600000 + north].map((it) => it.toFixed(3));
        const shown = { latitude: `${latitude} ${longitude}`, longitude: `${longitude} ${latitude}`, northing: `${northing} ${easting}`,
            easting: `${easting} ${northing}` }[first];
        return `<geoCoord coord="${shown}"${first === "latitude" ? ' epsgCode="4326"' : ""}/>`;
    }

    /** @param {Track} track @param {number} at @param {string} what @returns {string} */
    mileage(track, at, what) {
        const { mileages } = this.style, isEnd = what === "trackBegin" || what === "trackEnd";
        const isOpen = isEnd && typeof track.ends[track.wayOf(what)] === "string";
        const isWritten = mileages === "all" || what === "trackBegin"
            && (mileages.startsWith("begins") || mileages === "open begins" && isOpen)
            || what === "trackEnd" && mileages === "begins and ends";
        return isWritten ? ` absPos="${this.number(this.ground.mileage(track, at))}"` : "";
    }

    /** @param {Track} track @param {Way} way @returns {string} what is written at a track's end */
    endText(track, way) {
        const end = track.ends[way], name = track.endAt(way), id = track.connectionAt(way);
        if (end === "open") {
            return `<openEnd id="${id}o"/>`;
        }
        if (end === "bufferStop") {
            return `<bufferStop id="${id}s"/>`;
        }
        if (end === "nothing") {
            return "";
        }
        if ("text" in end) {
            return end.text.replace("{id}", id);
        }
        const ref = end.to instanceof Track ? end.to.connectionAt(other(way)) : end.to instanceof Switch ? end.to.connection
            : end.to.connectionAt(other(way));
        return name ? `<connection id="${id}" ref="${escaped(ref)}"/>` : "";
    }

    /** @param {Track} track @param {string} name trackBegin or trackEnd @returns {string} */
    end(track, name) {
        const way = track.wayOf(name), at = way === "west" ? track.from : track.to, end = track.ends[way];
        const to = typeof end === "object" && "to" in end ? end.to : null;
        const place = to instanceof Switch || to instanceof Crossing ? to.track : track;
        return `<${name} id="${track.id}_${name === "trackBegin" ? "b" : "e"}" pos="${this.number(track.positionOf(at))}"`
            + `${this.mileage(track, at, name)}>${this.coordinate(place, at)}${this.endText(track, way)}</${name}>`;
    }

    /** @param {Switch} it @returns {string} */
    switch(it) {
        const { style } = this, { track, branch, legs } = it, isOutgoing = (legs === "east") !== track.isTurned;
        const isLeft = (it.side === "upper") === (legs === "east");
        const isSeen = style.course === "points" || isOutgoing ? isLeft : !isLeft;
        const ref = branch instanceof Track ? branch.connectionAt(other(legs)) : branch instanceof Switch ? branch.connection : branch;
        const connection = { id: it.connection, ref, orientation: isOutgoing ? "outgoing" : "incoming",
            course: it.course || (isSeen ? "left" : "right"), ...it.more };
        const goesOn = style.goesOn && !it.attributes.trackContinueCourse ? ' trackContinueCourse="straight"' : "";
        return `<switch id="${it.id}" name="${escaped(
            it.name)}" pos="${this.number(track.positionOf(it.at))}"${this.mileage(track, it.at, "switch")}`
            + `${tagText(
                it.attributes)}${goesOn}${style.moreOfSwitches}>${this.coordinate(track, it.at)}<connection${tagText(
                connection)}/></switch>`;
    }

    /** @param {Crossing} it @returns {string} */
    crossing(it) {
        const { track, paths } = it, begin = track.wayOf("trackBegin"), end = other(begin);
        const connection = (/** @type {Way} */ way, /** @type {string} */ orientation, /** @type {string} */ course) =>
            `<connection${tagText({ id: it.connectionAt(way), ref: paths[way].connectionAt(other(way)), orientation, course })}/>`;
        // the path that rises to the east leaves to the left by either end
        return `<crossing id="${it.id}" name="${escaped(
            it.name)}" pos="${this.number(track.positionOf(it.at))}"${this.mileage(track, it.at, "crossing")} `
            + `type="${it.type}">${this.coordinate(track, it.at)}${connection(begin, "incoming", "straight")}`
            + `${connection(end, "outgoing", it.rises ? "left" : "right")}</crossing>`;
    }

    /** @param {Track} track @param {string} group @returns {string[]} the lists of a group, with their tags */
    lists(track, group) {
        const placed = track.objects.filter((it) => it.group === group);
        return [...new Set(placed.map((it) => it.list))].flatMap((list) => [`<${list}>`, ...placed.filter((it) => it.list === list)
            .sort((one, two) => track.positionOf(one.at) - track.positionOf(two.at)).map((it, number) => {
                const mileage = this.style.ofObjects ? ` absPos="${this.number(this.ground.mileage(track, it.at))}"` : "";
                return `<${it.element} id="${it.element}_${track.id}_${number}" pos="${this.number(track.positionOf(it.at))}"${mileage}`
                    + `${tagText(it.attributes)}/>`;
            }), `</${list}>`]);
    }

    /** @param {Track} track @returns {string[]} */
    track(track) {
        const points = [...track.points].sort((one, two) => track.positionOf(one.at) - track.positionOf(two.at));
        const connections = points.map((it) => (it instanceof Switch ? this.switch(it) : this.crossing(it)));
        const groups = ["trackElements", "ocsElements"].flatMap((group) => {
            const lists = this.lists(track, group);
            return lists.length ? [`<${group}>`, ...lists, `</${group}>`] : [];
        });
        return [`<track id="${track.id}" name="${escaped(track.name)}" type="${track.type}" mainDir="up">`, "<trackTopology>",
            this.end(track, "trackBegin"), this.end(track, "trackEnd"),
            ...connections.length ? ["<connections>", ...connections, "</connections>"] : [],
            ...track.jumps.length ? ["<mileageChanges>", ...track.jumps, "</mileageChanges>"] : [],
            ...this.lists(track, "trackTopology"), "</trackTopology>", ...groups, "</track>"];
    }

    /** @returns {string} */
    text() {
        const { ground, style } = this, { operationalPoints } = ground;
        const points = operationalPoints.map(({ id, name, code }) =>
            `<ocp id="${id}" name="${escaped(name)}" code="${code}" type="operationalName">`
            + `<propOperational operationalType="station"/><designator register="DS100" entry="${code}"/></ocp>`);
        const named = style.isBare ? ` name="${escaped(ground.title)}" xmlns="${style.namespace}"` : "";
        const body = [`<infrastructure id="${ground.id}"${named}>`, style.before, "<tracks>",
            ...ground.tracks.flatMap((it) => this.track(it)), "</tracks>",
            ...points.length ? ["<operationControlPoints>", ...points, "</operationControlPoints>"] : [], "</infrastructure>"]
                .filter(Boolean);
        const lines = style.isBare ? body : [`<railml xmlns="${style.namespace}" xmlns:dc="http://purl.org/dc/elements/1.1/" `
            + `xmlns:xsi="http://www.w3.org/2001/XMLSchema-instance" version="${style.version}"${style.rootAttributes}>`,
            `<metadata><dc:format>${style.version}</dc:format><dc:title>${escaped(ground.title)}</dc:title></metadata>`, ...body,
                "</railml>"];
        return style.changed([style.head, style.doctype, ...lines, ""].filter((it, at, all) => it || at === all.length - 1)
            .join(style.isTight ? "" : "\n"));
    }
}

/**
 * The file of some ground, as a producer writes it.
 * @param {Ground} ground @param {Partial<Style>} [style] what is otherwise than usual
 * @returns {Uint8Array}
 */
export function written(ground, style = {}) {
    const whole = { ...USUAL, ...style };
    return whole.encoded(new Writer(ground, whole).text());
}
