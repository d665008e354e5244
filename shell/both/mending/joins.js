/**
 * Tracks that a producer cuts at each switch, joined into one: where two tracks end at each other and a switch or crossing is at
 * that very place, it is at the end of a track, and no piece of track leads on from it. The parts become one track, counted on
 * from the first one; a part that is counted the other way is turned for it, with all that is at it.
 */
import { Decimal } from "../decimal.js";
import * as railml from "../railml.js";
import { asRead } from "./numbers.js";
import { AT_END } from "./places.js";

/** @typedef {import("./prepared.js").Prepared} Prepared */
/** @typedef {import("../railml.js").Element} Element */
/** @typedef {import("../edits.js").Edit} Edit */
/** @typedef {object} Part a track in a chain of tracks
 * @property {Element} track
 * @property {Element} begin
 * @property {Element} end
 * @property {boolean} isTurned whether the chain goes from its end to its begin */

const TURNED =
    new Map([["incoming", "outgoing"], ["outgoing", "incoming"], ["up", "down"], ["down", "up"], ["left", "right"], ["right", "left"]]);
/** what of an object says to which way or side it is, seen along its track */
const SEEN_ALONG = ["dir", "side", "derailSide"];
/** lists of a track's topology, whose elements have positions */
const LISTS = ["mileageChanges", "crossSections", "geoMappings"];
const GROUPS = ["trackElements", "ocsElements"];

/** @param {Element} end @returns {boolean} whether a switch or crossing of its track is at it */
function hasPoint(end) {
    const track = /** @type {Element} */ (end.above("track"));
    return railml.points(track).some((it) => railml.position(it).minus(railml.position(end)).absolute().compare(AT_END) <= 0);
}

/** @param {railml.Document} document @returns {Map<Element, Element>} each end that is to be joined, with the other one */
function joinsOf(document) {
    const known = railml.byId(document), found = new Map();
    const ends = document.tracks().flatMap((track) => railml.ENDS.flatMap((name) => railml.endOf(track, name) ?? []));
    for (const end of ends) {
        const [connection, ...more] = end.named("connection"), partner = known.get(connection?.attributes.get("ref") ?? ""),
            other = partner?.parent;
        const isMutual = partner && known.get(partner.attributes.get("ref") ?? "") === connection;
        const isJoin = isMutual && !more.length && other && railml.ENDS.includes(other.name) && other.above("track") !== end.above("track");
        if (isJoin && (hasPoint(end) || hasPoint(other))) {
            found.set(end, other);
        }
    }
    return found;
}

/** @param {Element} track @returns {Element[]} its begin and its end */
function endsOf(track) {
    return railml.ENDS.flatMap((name) => railml.endOf(track, name) ?? []);
}

/** @param {Element} first @param {Map<Element, Element>} joins @returns {Part[]} the chain that begins with a track; none where
 * it is a ring */
function chainFrom(first, joins) {
    /** @type {Part[]} */
    const chain = [], seen = new Set();
    let [begin, end] = endsOf(first);
    let isTurned = joins.has(begin), track = first;
    for (;;) {
        chain.push({ track, begin, end, isTurned });
        seen.add(track);
        const next = joins.get(isTurned ? begin : end), other = next?.above("track");
        if (!next || !other) {
            return chain;
        }
        if (seen.has(other)) {
            return [];
        }
        track = other;
        [begin, end] = endsOf(track);
        isTurned = next === end;
    }
}

/** @param {Part[]} chain @returns {Part[]} seen from its other end */
function fromOtherEnd(chain) {
    return [...chain].reverse().map((part) => ({ ...part, isTurned: !part.isTurned }));
}

/** @param {railml.Document} document @returns {Part[][]} tracks that are to be one, each chain the way that most of its tracks
 * are counted */
function chainsOf(document) {
    const joins = joinsOf(document);
    /** @type {Set<Element>} */
    const seen = new Set();
    return document.tracks().flatMap((track) => {
        const count = endsOf(track).filter((end) => joins.has(end)).length;
        const chain = count === 1 && !seen.has(track) ? chainFrom(track, joins) : [];
        chain.forEach((part) => seen.add(part.track));
        const turned = chain.filter((part) => part.isTurned).length,
            isOther = turned * 2 > chain.length || turned * 2 === chain.length && chain[0]?.isTurned;
        return chain.length ? [isOther ? fromOtherEnd(chain) : chain] : [];
    });
}

/** One chain, while it becomes one track. */
class Joining {
    /** @param {Prepared} it @param {Part[]} chain */
    constructor(it, chain) {
        this.it = it;
        this.edits = it.edits;
        this.chain = chain;
        this.first = chain[0];
        this.last = chain[chain.length - 1];
        /** @type {Map<Part, Decimal>} where each part begins */
        this.bases = new Map();
        let at = railml.position(this.first.begin);
        for (const part of chain) {
            this.bases.set(part, at);
            at = at.plus(railml.position(part.end)).minus(railml.position(part.begin));
        }
    }

    /** @param {Part} part @param {Element} element @returns {string} its position in the whole */
    position(part, element) {
        const { begin, end, isTurned } = part, pos = railml.position(element), base = /** @type {Decimal} */ (this.bases.get(part));
        return asRead(String(base.plus(isTurned ? railml.position(end).minus(pos) : pos.minus(railml.position(begin)))));
    }

    /** @param {Part} part @param {Element} element @returns {Edit[]} its position, and its mileage where it was counted from its
     * track's begin */
    placing(part, element) {
        const mileage = element.attributes.has("absPos") ? null : railml.mileage(element),
            isMeasured = [...railml.ENDS, ...railml.POINTS, "signal"].includes(element.name);
        const position = element.attributes.has("pos") && this.position(part, element);
        return [...position && position !== asRead(element.attributes.get("pos") ?? "") ? [this.edits.setting(element, "pos", position)]
            : [],
            ...mileage && isMeasured ? [this.edits.setting(element, "absPos", asRead(String(mileage)))] : []];
    }

    /** @param {Part} part @param {Element} point @returns {Edit[]} */
    turning(part, point) {
        if (!part.isTurned) {
            return [];
        }
        const legs = point.named("connection"), ways = legs.map((leg) => TURNED.get(leg.attributes.get("orientation") ?? ""));
        const edits =
            legs.flatMap((leg, at) => (ways[at] ? [this.edits.setting(leg, "orientation", /** @type {string} */ (ways[at]))] : []));
        // the hand to which a path leaves a crossing is the same by both its ends
        const [one, other] = legs.map((leg) => leg.attributes.get("course"));
        if (point.name === "crossing" && legs.length === 2 && one !== other) {
            [other, one].forEach((course, at) => edits.push(...course === undefined ? this.edits.leavingOut(legs[at], "course")
                : [this.edits.setting(legs[at], "course", course)]));
        }
        return edits;
    }

    /** @param {Part} part @param {Element} element @returns {string} an element of a part as it is in the whole */
    text(part, element) {
        const seen = part.isTurned ? SEEN_ALONG.flatMap((name) => {
            const turned = TURNED.get(element.attributes.get(name) ?? "");
            return turned ? [this.edits.setting(element, name, turned)] : [];
        }) : [];
        const isEnd = railml.ENDS.includes(element.name);
        return this.edits.textOf(element, [...this.placing(part, element), ...seen, ...isEnd ? [] : this.turning(part, element)]);
    }

    /** @param {string} name trackBegin or trackEnd @param {Part} part @returns {string} the whole's end, which was one of a part's */
    end(name, part) {
        const from = (name === "trackBegin") !== part.isTurned ? part.begin : part.end;
        const text = this.text(part, from);
        return from.name === name ? text : text.replace(
            new RegExp(`^<${from.name}`), `<${name}`).replace(new RegExp(`</${from.name}>$`), `</${name}>`);
    }

    /** @param {(part: Part) => Element[]} of what of each part is listed @param {string} name of the list @returns {string} a
     * list of all parts */
    list(of, name) {
        const texts = this.chain.flatMap((part) => of(part).map((element) => this.text(part, element)));
        return texts.length ? `<${name}>\n${texts.join("\n")}\n</${name}>\n` : "";
    }

    /** @param {string} group @returns {string} a group of lists of all parts, as their signals */
    group(group) {
        const listsOf = (/** @type {Part} */ part) => part.track.named(group).flatMap((it) => it.children);
        const names = [...new Set(this.chain.flatMap(listsOf).map((it) => it.name))];
        const lists =
            names.map((name) => this.list((part) => listsOf(part).filter((it) => it.name === name).flatMap((it) => it.children), name));
        return names.length ? `<${group}>\n${lists.join("")}</${group}>\n` : "";
    }

    /** @returns {string} the names of all parts, each once */
    name() {
        const names = this.chain.map((part) => part.track.attributes.get("name") ?? "").flatMap((name) => name.split(" + "));
        return [...new Set(names.filter(Boolean))].join(" + ");
    }

    /** @returns {string} the whole track */
    whole() {
        const { track } = this.first, name = this.name(), topology = /** @type {Element} */ (railml.topology(track));
        const lists =
            LISTS.map((list) => this.list((part) => railml.topology(part.track)?.named(list).flatMap((it) => it.children) ?? [], list));
        const read = [...railml.ENDS, "connections", ...LISTS];
        const others = (/** @type {Element} */ parent, /** @type {string[]} */ known) =>
            parent.children.filter((it) => !known.includes(it.name))
            .map((it) => `${this.edits.textOf(it)}\n`).join("");
        return `${this.edits.tagOf(track, name ? [this.edits.setting(track, "name", name)] : [])}\n${this.edits.tagOf(topology)}\n`
            + `${this.end("trackBegin", this.first)}\n${this.end("trackEnd", this.last)}\n`
            + this.list((part) => railml.topology(part.track)?.named("connections").flatMap((it) => it.children) ?? [], "connections")
            + `${lists.join("")}${others(topology, read)}</trackTopology>\n${GROUPS.map((group) => this.group(group)).join("")}`
            + `${others(track, ["trackTopology", ...GROUPS])}</track>`;
    }
}

/** @param {Prepared} it @param {Map<string, string>} gone the tracks that are in another one now @returns {Edit[]} that what is
 * named elsewhere is
 * that one */
function renaming(it, gone) {
    return it.document.elements.filter((element) => !element.above("tracks"))
        .flatMap((element) => [...element.attributes].flatMap(([name, value]) => {
        const id = /(^r|R)ef$/.test(name) ? gone.get(value) : undefined;
        return id === undefined ? [] : [it.edits.setting(element, name, id)];
    }));
}

/** @param {Prepared} it joins tracks that are cut at a switch or crossing */
export function mendJoins(it) {
    const chains = chainsOf(it.document), gone = new Map();
    const edits = chains.flatMap((chain) => {
        const joining = new Joining(it, chain), [{ track }, ...others] = chain;
        others.forEach((part) => gone.set(part.track.id, track.id));
        const turned = chain.filter((part) => part.isTurned).map((part) => part.track.id);
        it.changed(track, `tracks ${chain.map((part) => part.track.id).join(", ")} are cut at switches: they are one track now, ${track.id}`
            + (turned.length ? `, and ${turned.join(", ")} ${turned.length === 1 ? "is" : "are"} counted the other way for it` : ""));
        it.isRebuilt = true;
        return [{ begun: track.place, ended: track.ended, text: joining.whole() }, ...others.map((part) => it.edits.removing(part.track))];
    });
    it.replace([...edits, ...gone.size ? renaming(it, gone) : []]);
}
