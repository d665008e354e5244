/** Tracks of the ground, cut at each switch and crossing, as infrastructure of railML 3. */
import { Crossing, Switch, Track, other } from "./ground.js";
import { escaped } from "./writer.js";

/** @typedef {import("./ground.js").Ground} Ground */
/** @typedef {import("./ground.js").Way} Way */
/** @typedef {object} Style3
 * @property {string} version
 * @property {(track: Track, at: number) => boolean} isFalling whether an element's coordinates fall, so that it begins at its
 * east end
 * @property {boolean} saysStraight whether a switch says on which leg the track goes on
 * @property {"m" | "km"} units
 * @property {boolean} hasLevels whether a coarser level is in the file too
 * @property {"all" | "some"} measures
 * @property {string} prefix
 * @property {(text: string) => string} changed */

/** @type {Style3} */
const USUAL = { version: "3.2", isFalling: (_, at) => at % 2 === 1, saysStraight: true, units: "m", hasLevels: true,
    measures: "all", prefix: "",
    changed: (text) => text };

/** One file, while it is written. */
class Writer3 {
    /** @param {Ground} ground @param {Style3} style */
    constructor(ground, style) {
        this.ground = ground;
        this.style = style;
        /** @type {Map<string, string>} net relations by their two ends */
        this.relations = new Map();
        /** @type {string[]} */
        this.written = [];
        ground.tracks.forEach((it, at) => {
            it.isTurned = style.isFalling(it, at);
        });
        for (const track of ground.tracks) {
            const end = track.ends.east, next = typeof end === "object" && "to" in end ? end.to : null;
            if (next instanceof Track) {
                this.relation(track, "east", next, "west");
            }
        }
    }

    /** @param {Track} track @param {Way} way @returns {number} its coordinate at an end */
    at(track, way) {
        return (way === "west") === track.isTurned ? 1 : 0;
    }

    /** @param {Track} one @param {Way} way @param {Track} two @param {Way} too @param {string} [navigability] @returns
     * {string} the id of a
     * net relation */
    relation(one, way, two, too, navigability = "Both") {
        const key = [`${one.id} ${way}`, `${two.id} ${too}`].sort().join(" "), there = this.relations.get(key), id = `nr_${this.relations.size}`;
        if (there) {
            return there;
        }
        this.relations.set(key, id);
        this.written.push(`<netRelation id="${id}" positionOnA="${this.at(one, way)}" positionOnB="${this.at(two, too)}" `
            + `navigability="${navigability}"><elementA ref="${one.id}"/><elementB ref="${two.id}"/></netRelation>`);
        return id;
    }

    /** @param {{id: string}} it @param {Track} track @param {string} at @param {string} [more] @returns {string} */
    spot(it, track, at, more = "") {
        return `<spotLocation id="${it.id}_sl" netElementRef="${track.id}" intrinsicCoord="${at}"${more}/>`;
    }

    /** @param {Track} track @param {Way} way @returns {Track} the track that goes on there */
    next(track, way) {
        const end = track.ends[way];
        if (typeof end === "object" && "to" in end && end.to instanceof Track) {
            return end.to;
        }
        throw new Error(`${track.id} isn't cut`);
    }

    /** @param {Switch} it @returns {string} */
    switch(it) {
        const { track, legs, branch } = it, beside = other(legs);
        const straight = this.relation(track, legs, this.next(track, legs), beside);
        const turning = branch instanceof Track ? this.relation(track, legs, branch, beside) : "";
        const hand = (it.side === "upper") === (legs === "east") ? "left" : "right", goesOn = hand === "left" ? "right"
            : "left";
        const said = this.style.saysStraight ? ` continueCourse="${goesOn}" branchCourse="${hand}"` : "";
        const branches = [`<${hand}Branch netRelationRef="${turning}" branchingSpeed="60" radius="300"/>`,
            `<${goesOn}Branch netRelationRef="${straight}" branchingSpeed="100" radius="0"/>`].sort();
        return `<switchIS id="${it.id}"${said} type="ordinarySwitch"><name name="${escaped(it.name)}" language="de"/>`
            + `${this.spot(it, track, String(this.at(track, legs)))}${branches.join("")}</switchIS>`;
    }

    /** @param {Crossing} it @returns {string} */
    crossing(it) {
        const { track, paths: { west, east } } = it, way = track.to === it.at ? "east" : "west", next = this.next(track, way);
        const ends = /** @type {[Track, Way][]} */ ([[track, way], [next, other(way)]]);
        const path = /** @type {[Track, Way][]} */ ([[west, "east"], [east, "west"]]);
        this.relation(...ends[0], ...ends[1]);
        this.relation(...path[0], ...path[1]);
        ends.forEach((one) => path.forEach((two) => this.relation(...one, ...two, "None")));
        return `<crossing id="${it.id}"><name name="${escaped(it.name)}" language="de"/>${this.spot(it, track, String(this.at(track, way)))}</crossing>`;
    }

    /** @param {Track} track @returns {string} */
    element(track) {
        const measures = /** @type {Way[]} */ (["west", "east"]).map((way) => {
            const at = this.ground.mileage(track, way === "west" ? track.from : track.to), coordinate = this.at(track, way);
            const measure = this.style.units === "km" ? at / 1000 : at;
            return { coordinate, text: `<intrinsicCoordinate id="${track.id}_i${coordinate}" intrinsicCoord="${coordinate}">`
                + `<linearCoordinate positioningSystemRef="lps" measure="${measure}"/></intrinsicCoordinate>` };
        }).sort((one, two) => one.coordinate - two.coordinate);
        const isLess = this.style.measures === "some" && track.type === "connectingTrack";
        return `<netElement id="${track.id}" length="${track.to - track.from}"><associatedPositioningSystem id="${track.id}_aps">`
            + `${isLess ? "" : measures.map((it) => it.text).join("")}</associatedPositioningSystem></netElement>`;
    }

    /** @param {Track} track @returns {string[]} */
    signals(track) {
        return track.objects.filter((it) => it.element === "signal").map(({ at, attributes }) => {
            const id = `sig_${attributes.name}`, part = String((track.isTurned ? track.to - at : at - track.from) / (track.to - track.from));
            const isEast = attributes.isEast === "true", way = isEast !== track.isTurned ? "normal" : "reverse";
            return `<signalIS id="${id}" isSwitchable="true"><name name="${attributes.name}" language="de"/>`
                + `${this.spot({ id }, track, part, ` applicationDirection="${way}"`)}</signalIS>`;
        });
    }

    /** @param {Way} way @param {string} kind @returns {string[]} buffer stops or borders there */
    endings(way, kind) {
        const [wanted, name, more] = kind === "bufferStop" ? ["bufferStop", "bufferStop", ""] : ["open", "border",
            ' isOpenEnd="true" type="area"'];
        return this.ground.tracks.filter((it) => it.ends[way] === wanted).map((track) => {
            const id = `${name}_${track.id}_${way}`;
            return `<${name} id="${id}"${more}>${this.spot({ id }, track, String(this.at(track, way)))}</${name}>`;
        });
    }

    /** @returns {string[]} those of the ground, each at its place on a track; of none the ground itself */
    operationalPoints() {
        const { title, tracks, operationalPoints: points } = this.ground;
        const text = (/** @type {string} */ id, /** @type {string} */ name, /** @type {string} */ place) =>
            `<operationalPoint id="${id}"><name name="${escaped(name)}" language="de"/>${place}</operationalPoint>`;
        return points.length ? points.map(({ id, name, at }) => {
            const track = tracks.find((it) => it.objects.some((one) => one.attributes.ocpRef === id && one.at === at));
            const part = track ? (track.isTurned ? track.to - at : at - track.from) / (track.to - track.from) : 0;
            return text(id, name, track ? this.spot({ id }, track, String(part)) : "");
        }) : [text("op", title, "")];
    }

    /** @returns {string} */
    text() {
        const { ground, style } = this, { tracks } = ground, points = tracks.flatMap((it) => it.points);
        const switches = points.flatMap((it) => (it instanceof Switch ? [this.switch(it)] : []));
        const crossings = points.flatMap((it) => (it instanceof Crossing ? [this.crossing(it)] : []));
        const coarse = style.hasLevels ? `<netElement id="line"><elementCollectionUnordered id="line_parts"><elementPart ref="${tracks[0].id}"/>`
            + "</elementCollectionUnordered></netElement>" : "";
        const levels = style.hasLevels ? '<level id="macro" descriptionLevel="Macro"><networkResource ref="line"/></level>'
            : "";
        const names = tracks.map((it) => `<track id="trk_${it.id}" type="mainTrack"><name name="${escaped(it.name)}" language="de"/>`
            + `<linearLocation id="trk_${it.id}_l"><associatedNetElement netElementRef="${it.id}" keepsOrientation="true"/></linearLocation></track>`);
        return [`<?xml version="1.0" encoding="UTF-8"?>\n<railML xmlns="https://www.railml.org/schemas/${style.version}" version="${style.version}">`,
            `<common id="co"><positioning><linearPositioningSystems><linearPositioningSystem id="lps" units="${style.units}" startMeasure="0" `
            + 'endMeasure="99999"/></linearPositioningSystems></positioning></common>',
                '<infrastructure id="is"><topology><netElements>', coarse,
            ...tracks.map((it) => this.element(it)), "</netElements><netRelations>", ...this.written,
            '</netRelations><networks><network id="nw">', levels, '<level id="micro" descriptionLevel="Micro">',
            ...tracks.map((it) => `<networkResource ref="${it.id}"/>`), "</level></network></networks></topology><functionalInfrastructure>",
            "<borders>", ...["west", "east"].flatMap((way) => this.endings(/** @type {Way} */ (way), "border")),
                "</borders><bufferStops>",
            ...["west", "east"].flatMap((way) => this.endings(/** @type {Way} */ (way), "bufferStop")),
                "</bufferStops><crossings>", ...crossings,
            "</crossings><operationalPoints>", ...this.operationalPoints(),
            "</operationalPoints><signalsIS>", ...tracks.flatMap((it) => this.signals(it)), "</signalsIS><switchesIS>",
                ...switches,
            "</switchesIS><tracks>", ...names, "</tracks></functionalInfrastructure></infrastructure></railML>",
                ""].filter((it, at, all) =>
            it || at === all.length - 1).join("\n");
    }
}

/** @param {string} text @param {string} prefix @returns {string} */
function prefixed(text, prefix) {
    return prefix ? text.replace(/<(\/?)(?!\?|!|\/)/g, `<$1${prefix}:`).replace(" xmlns=", ` xmlns:${prefix}=`) : text;
}

/**
 * The file of some ground as railML 3, its tracks cut at each switch and crossing.
 * @param {Ground} ground @param {Partial<Style3>} [style] what is otherwise than usual
 * @returns {Uint8Array}
 */
export function written3(ground, style = {}) {
    const whole = { ...USUAL, ...style };
    ground.cutAtSwitches("end");
    return new TextEncoder().encode(whole.changed(prefixed(new Writer3(ground, whole).text(), whole.prefix)));
}
