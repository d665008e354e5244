/** What a fault of a station's topology means, and what to do about it. */
import { Decimal, ZERO } from "../decimal.js";
import { stationsOf } from "../line/grouping.js";
import { Network } from "../line/network.js";
import { near } from "../near.js";
import { ofByte } from "../places.js";
import { quoted } from "../quoted.js";
import * as railml from "../railml.js";
import { listUnder } from "../searching.js";

/** @typedef {import("../railml.js").Element} Element */
/** @typedef {import("../railml.js").Document} Document */
/** @typedef {import("../notes.js").Note} Note */
/** @typedef {(station: Station, it: Element | null, named: string[]) => string} Sentence what is said of an element, which
 * isn't there where the file couldn't be read so far, and of the names that the fault's line has */

const WAYS = "Write outgoing where the branch leaves towards the track's end, and incoming where it comes from the track's "
    + "begin";
/** so far outside its track a point is by rounding, in metres */
const DECIMETRE = new Decimal(false, 1n, 1);
const HALF_METRE = new Decimal(false, 5n, 1), HALF = 0.5;
const METRE = new Decimal(false, 1n, 0);
/** @type {Map<string, (what: string) => string>} what an element lacks, by the attribute */
const MISSING = new Map([
    ["id", (what) => `${what} has no id. Give it one of its own`],
    ["pos", (what) => `${what} has no pos. Write its distance in metres from the zero of its track`],
    ["ref", (what) => `${what} has no ref. Write the id of the connection that it is joined to`],
    ["orientation", (what) => `${what} has no orientation. ${WAYS}`],
    ["course", (what) => `${what} has no course. Write left or right: the hand to which the branch turns off, seen from the `
        + "points"],
    ["absPos", (what) => `${what} has no absPos. Write the mileage of this point in metres: only mileages say what lies west `
        + "of what"],
]);

/** A file that a fault is about: its name, bytes and elements, and how the launcher is called. */
export class Station {
    /** @param {string} name @param {Uint8Array} data @param {string} called */
    constructor(name, data, called) {
        this.name = name;
        this.data = data;
        this.called = called;
        this.document = railml.read(data);
    }

    /** @param {Element} it */
    place(it) {
        return ofByte(this.name, this.data, it.place);
    }

    /** @param {Element | null | undefined} it @param {string} text @returns {Note[]} */
    other(it, text) {
        return it ? [{ text, place: this.place(it) }] : [];
    }

    /** what to do with the file of a whole line: cut it, where `stations` has several files of it */
    cutting() {
        const network = new Network(this.document), count = network.fault() ? 0 : stationsOf(network, {}).stations.length;
        return count > 1 ? `Cut it: ${this.called} stations ${quoted(this.name)} STATIONS writes it in ${count} files, one for each `
            + "station or part of one" : "Export a part of it";
    }

    /** the line that mends the file */
    prepared() {
        return `${this.called} prepare ${quoted(this.name)} NEW.xml`;
    }
}

/**
 * What an element of a kind lacks, by its name in words.
 * @param {string} attribute @param {string} what
 * @returns {string}
 */
export function lackingOf(attribute, what) {
    return MISSING.get(attribute)?.(what) ?? "";
}

/**
 * The hand that was meant, as far as it can be seen; straight is spelled much like right.
 * @param {string} given @returns {string}
 */
function nearHand(given) {
    const found = near(given.toLowerCase(), ["left", "right", "straight"]);
    return found && found !== "straight" ? ` (did you mean ${found}?)` : "";
}

/** @param {Element} it @returns {string[]} the names of the elements around it */
function pathOf(it) {
    return it.parent ? [...pathOf(it.parent), it.parent.name] : [];
}

/** @type {Sentence} */
function noTracks(station) {
    const prefixed = station.document.elements.find((it) => it.name.endsWith(":track"));
    if (prefixed) {
        return `no track is found: elements as ${prefixed.name} have a prefix, and names are read without one. `
            + `${station.prepared()} takes it off`;
    }
    const elsewhere = station.document.elements.find((it) => it.name === "track");
    if (elsewhere) {
        const inside = pathOf(elsewhere).join(" / ");
        return `no track is found: this one is in ${inside}, and tracks are read in infrastructure / tracks`;
    }
    return "the infrastructure has no track. Was the track layout exported too?";
}

/** @type {Sentence} */
function tooMany(station) {
    const count = station.document.tracks().length;
    return `this is track 129 of ${count}, and a file may have 128. ${station.cutting()}`;
}

/** @param {Element} it @returns {string} an element in words, a connection with what it belongs to */
function ofOwner(it) {
    const said = railml.what(it);
    if (it.name === "connection" && it.parent) {
        return `the ${said} of ${railml.what(it.parent)}`;
    }
    return said.startsWith("the ") ? said : `the ${said}`;
}

/**
 * That an element lacks an attribute, and what to write.
 * @param {Element} it @param {string} attribute
 * @returns {string}
 */
export function lacks(it, attribute) {
    if (attribute === "course" && it.parent?.name === "crossing") {
        return `${ofOwner(it)} has no course. Write left or right: the hand to which this path leaves the crossing's own track`;
    }
    return lackingOf(attribute, ofOwner(it));
}

/** @type {Sentence} */
function missing(station, it, [attribute]) {
    if (!it) {
        return lackingOf(attribute, "this element");
    }
    const known = attribute === "absPos" ? railml.joinedMileage(railml.byId(station.document), it) : null;
    const said = lacks(it, attribute), more = moreLacking(station.document, it, attribute);
    if (known) {
        return `${said}. It is joined to ${railml.what(known.element)}, which is at ${known.mileage}: write `
            + `absPos="${known.mileage}"${more}. ${station.prepared()} writes those that the file itself tells`;
    }
    return more ? `${said}${more}: ${station.prepared()} lists them` : said;
}

/** @param {Document} document @param {Element} it @param {string} attribute @returns {string} how many further elements lack
 * it */
function moreLacking(document, it, attribute) {
    const more = railml.lacking(document).filter(({ element, name }) => name === attribute && element !== it).length;
    const kind = { absPos: "begin", id: "element", pos: "element" }[attribute] ?? "connection";
    return more === 1 ? `. ${more} more ${kind} has none` : more ? `. ${more} more ${kind}s have none` : "";
}

/** @type {Sentence} */
export function wrongId(station, it) {
    if (!it?.id) {
        return "this id is empty. Give the element an id of its own";
    }
    const size = new TextEncoder().encode(it.id).length;
    return size > 64 ? `this id has ${size} bytes, and 64 are read. Write a shorter one`
        : "this id has a blank or a control sign in it. Leave it out, here and where the id is named";
}

/** @type {Sentence} */
export function repeatedId(station, it, [id]) {
    return `the id ${id} is that of an earlier element too. Give one of the two another id, here and where it is named`;
}

/** @type {Sentence} */
export function number(station, it, [id, attribute]) {
    const given = it?.attributes.get(attribute) ?? "", shown = `${attribute}="${given}" of ${id}`;
    const form = "Up to 9 digits, a point and up to 6 digits are read, as 1234.5";
    if (/^[+-]?[1-9]\d{0,2},\d{3}$/.test(given)) {
        return `${shown} isn't written as metres are read. ${form}. A comma before three digits may part thousands or decimals: `
            + `write it without. Where other numbers of the file have commas that can't part thousands ${station.prepared()} does so`;
    }
    if (/[,eE]/.test(given) || /\..{7}/s.test(given)) {
        return `${shown} isn't written as metres are read. ${form}. ${station.prepared()} writes it so`;
    }
    return `${shown} is no number of metres. ${form}`;
}

/** @type {Sentence} */
function unknownRef(station, it, [id]) {
    if (!it) {
        return `the connection ${id} refers to no connection that is read`;
    }
    const more = railml.dangling(station.document).length - 1;
    const count = more === 1 ? "does 1 connection" : `do ${more} connections`;
    return leadsNowhere(it, knownOf(station.document), more > 0 ? `; so ${count} more, which ${station.prepared()} lists` : "");
}

/** @typedef {object} Known what a ref may mean
 * @property {string[]} connections ids of those that aren't joined yet
 * @property {Map<string, Element>} owners what has connections, by its id
 * @property {Map<string, string[]>} backs which connections refer to an id */

/**
 * What a ref may mean.
 * @param {Document} document
 * @returns {Known}
 */
export function knownOf(document) {
    const tracks = document.tracks(), owners = [...tracks, ...tracks.flatMap(railml.placesOf)];
    const known = railml.byId(document), refOf = (/** @type {string} */ id) => known.get(id)?.attributes.get("ref") ?? "";
    /** @type {Map<string, string[]>} */
    const backs = new Map();
    known.forEach((_, id) => listUnder(backs, refOf(id), id));
    return { connections: [...known.keys()].filter((id) => refOf(refOf(id)) !== id), backs,
        owners: new Map(owners.map((it) => [it.id, it])) };
}

/**
 * That a connection refers to none, how many more do, and which of the known may be meant or what to write in its place.
 * @param {Element} it @param {Known} known @param {string} [more]
 * @returns {string}
 */
export function leadsNowhere(it, known, more = "") {
    const given = it.attributes.get("ref") ?? "", owner = known.owners.get(given);
    if (owner) {
        return `the connection ${it.id} refers to ${railml.what(owner)} itself, and not to its connection${more}. `
            + `${connectionOf(owner, it)}`;
    }
    const said = `the connection ${it.id} refers to ${given || "nothing"}, and no connection that is read has this id${more}`;
    return `${said}. ${otherThan(given, it, known)}`;
}

/** @param {Element} owner @param {Element} it @returns {string} the connection of a switch, an end or a track that a ref
 * means */
function connectionOf(owner, it) {
    const spots = owner.name === "track" ? railml.ENDS.flatMap((name) => railml.endOf(owner, name) ?? []) : [owner];
    const listed = spots.flatMap((spot) => spot.named("connection"));
    const names = [it.id, it.parent?.id, it.above("track")?.id];
    const back = listed.filter((other) => names.includes(other.attributes.get("ref") ?? ""));
    const [meant] = back.length === 1 ? back : listed;
    if (back.length === 1 || listed.length === 1) {
        return `Write its id, ref="${meant.id}"`;
    }
    return listed.length ? `Write the id of that which is meant: ${listed.map((other) => other.id).join(" or ")}`
        : `Give ${railml.what(owner)} a connection too, with ref="${it.id}", and write its id here`;
}

/** @param {string} given @param {Element} it @param {Known} known @returns {string} what may be meant, or what to write */
function otherThan(given, it, known) {
    const owner = railml.isOfPoint(it) ? it.parent : null;
    if (owner && owner.named("connection").length > (owner.name === "crossing" ? 2 : 1)) {
        return `Besides, ${owner.name === "crossing" ? kindOfCrossing(owner) : kindOfSwitch(owner)}`;
    }
    const back = known.backs.get(it.id) ?? [];
    if (back.length === 1) {
        return `Did you mean ${back[0]}, which refers to it?`;
    }
    const meant = near(given, known.connections.filter((id) => id !== it.id), 0.8);
    const lost = `${meant ? `Did you mean ${meant}? If not: was` : "Was"} its track left out of the export?`;
    return owner ? `${lost} Give ${owner.name} ${owner.id} a short track there, whose other end has an <openEnd id=".."/>`
        : `${lost} Where the line goes on, write <openEnd id=".."/> in place of the connection`;
}

/** @type {Sentence} */
function notMutual(station, it, [one, other]) {
    const known = railml.byId(station.document);
    const refOf = (/** @type {string} */ id) => known.get(id)?.attributes.get("ref") ?? "";
    const back = refOf(other), said = `the connection ${one} refers to ${other}, and ${other} refers to ${back}. Two joined `
        + "connections name each other";
    if (refOf(back) !== other) {
        return `${said}. To which of the two is ${other} joined on the plan of the station? If to ${one}, write `
            + `ref="${one}" at ${other}; if to ${back}, write ref="${other}" at ${back}, and at ${one} the id of the `
            + "connection that it is joined to";
    }
    const meant = [...known.keys()].filter((id) => id !== other && refOf(id) === one);
    return `${said}, and so do ${other} and ${back}: ${one} is the odd one. ` + (meant.length === 1
        ? `Did you mean ref="${meant[0]}", which refers to it?` : "Write the id of the connection that it is joined to");
}

/** @type {Sentence} */
function selfRef(station, it, [id]) {
    return `the connection ${id} refers to itself. Write the id of the one that it is joined to`;
}

/** @type {Sentence} */
function endKind(station, it, [id]) {
    if (!it) {
        return `${id} doesn't have the elements that it needs`;
    }
    return ({ track: kindOfTrack, switch: kindOfSwitch, crossing: kindOfCrossing }[it.name] ?? kindOfEnd)(it);
}

/** @param {Element} it @returns {string} */
function kindOfTrack(it) {
    const layouts = it.named("trackTopology");
    if (layouts.length !== 1) {
        return `track ${it.id} has ${layouts.length} trackTopology, and one is read. `
            + (layouts.length ? "Leave the others out" : "Was its layout exported?");
    }
    const counts = railml.ENDS.map((name) => `${layouts[0].named(name).length} ${name}`);
    return `track ${it.id} has ${counts.join(" and ")}, and a track has one of each`;
}

/** @param {Element} it @returns {string} */
function kindOfEnd(it) {
    const having = it.named(...railml.ENDINGS).map((child) => child.name);
    if (!having.length) {
        return `${railml.what(it)} says nothing of how the track ends. Write a connection where it is joined, `
            + "<openEnd id=\"..\"/> where the line goes on, or <bufferStop id=\"..\"/>";
    }
    return `${railml.what(it)} has ${having.join(" and ")}, and one of them is read. Leave the others out`;
}

/** @param {Element} it @returns {string} */
function kindOfSwitch(it) {
    const count = it.named("connection").length;
    if (!count) {
        return `the switch ${it.id} has no connection, so its branch leads nowhere. Write the connection to the branching `
            + "track";
    }
    const legs = it.named("connection"), straight = legs.find((leg) => leg.attributes.get("course") === "straight");
    const branch = legs.find((leg) => leg !== straight), track = it.above("track");
    const way = straight?.attributes.get("orientation");
    if (count === 2 && straight && branch?.attributes.get("orientation") === way && track) {
        const [name, side] = way === "incoming" ? ["trackBegin", "behind it"] : ["trackEnd", "before it"];
        const end = railml.endOf(track, name), apart = end && railml.position(it).minus(railml.position(end)).absolute();
        if (!end || end.named("connection").length || !apart || apart.compare(METRE) > 0) {
            return severalLegs(it);
        }
        return `the switch ${it.id} has both its legs as connections, and only the branch ${branch?.id} is one: its track goes `
            + `on through the switch. Move the connection ${straight.id} into ${railml.what(end)}, in place of what is `
            + `there, and the switch half a metre ${side}, in pos and absPos, past no other`;
    }
    return severalLegs(it);
}

/** @param {Element} it @returns {string} */
function severalLegs(it) {
    return `the switch ${it.id} has ${it.named("connection").length} connections, and a switch has one. A three-way switch is `
        + "written as two switches at two positions, as half a metre apart";
}

/** @param {Element} connection @returns {Element | null} the crossing that it is joined to, where it is one on another track */
function partnerOf(connection) {
    const tracks = connection.above("track")?.parent?.named("track") ?? [];
    const joined = tracks.flatMap(railml.points).find((it) => it.name === "crossing" && it !== connection.parent
        && it.named("connection").some((other) => other.id === connection.attributes.get("ref")));
    const [here, there] = [connection.parent, joined].map((it) => it && railml.mileage(it));
    return joined && here && there && here.minus(there).absolute().compare(METRE) <= 0 ? joined : null;
}

/** @param {Element} it @returns {string} */
function kindOfCrossing(it) {
    const ways = it.named("connection").map((child) => child.attributes.get("orientation"));
    if (ways.length === 2) {
        return `both connections of the crossing ${it.id} are ${ways[0]}. One path has an incoming connection and an outgoing `
            + "one";
    }
    const [only] = it.named("connection"), other = ways.length === 1 && only ? partnerOf(only) : null;
    if (other) {
        const track = other.above("track")?.id ?? "";
        return `the crossings ${it.id} and ${other.id} are one place on two tracks that both run through, and a crossing is `
            + `written once. Cut track ${track} in two there, join its parts to an incoming and an outgoing connection of `
            + `${it.id}, and leave out ${other.id}`;
    }
    const slips = ways.length > 2 ? ". The further paths of slips aren't read: leave them out" : "";
    return `the crossing ${it.id} has ${ways.length} connections, and it needs two, one incoming and one outgoing${slips}`;
}

/**
 * That a course isn't read, and what to write.
 * @param {Element} it @param {string} name
 * @returns {string}
 */
export function wrongCourse(it, name) {
    const given = it.attributes.get("course") ?? "", isPath = it.parent?.name === "crossing";
    if (given === "straight" && !isPath) {
        return `the branch ${name} goes straight, so the track itself turns off, and nothing says to which hand. Write `
            + "trackContinueCourse=\"left\" or \"right\" at the switch";
    }
    const which = isPath ? "this path leaves the crossing's own track" : "the branch turns off, seen from the points";
    return `course="${given}" of ${name} isn't left or right${nearHand(given)}. Write one of them: the hand to which ${which}`;
}

/** @type {Sentence} */
function course(station, it, [id]) {
    return it ? wrongCourse(it, id) + moreOf(station, it, railml.hasNoHand, "a course")
        : `the course of ${id} isn't left or right. Write one of them`;
}

/**
 * That an orientation isn't read, and what to write.
 * @param {Element} it @param {string} name
 * @returns {string}
 */
export function wrongOrientation(it, name) {
    return `orientation="${it.attributes.get("orientation") ?? ""}" of ${name} isn't read. ${WAYS}`;
}

/** @type {Sentence} */
function orientation(station, it, [id]) {
    return it ? wrongOrientation(it, id) + moreOf(station, it, railml.hasNoWay, "an orientation")
        : `the orientation of ${id} isn't read. Write outgoing or incoming`;
}

/**
 * How many further connections have such an attribute that isn't read.
 * @param {Station} station @param {Element} it @param {(it: Element) => boolean} isWrong @param {string} attribute
 * @returns {string}
 */
function moreOf(station, it, isWrong, attribute) {
    const more = railml.connections(station.document).filter((other) => other !== it && isWrong(other)).length;
    const having = more === 1 ? "1 more connection has" : `${more} more connections have`;
    return more ? `. ${having} ${attribute} that isn't read: ${station.prepared()} lists them` : "";
}

/** @type {Sentence} */
export function outsideTrack(station, it, [id]) {
    const track = it?.above("track");
    const [begin, end] = track ? railml.ENDS.map((name) => railml.endOf(track, name)) : [];
    if (!it || !begin || !end) {
        return `pos of ${id} lies outside its track`;
    }
    const [low, high] = [begin, end].map((at) => at.attributes.get("pos"));
    if (it.name === "trackEnd") {
        return `pos="${high}" of the end ${id} is less than that of the track's begin, ${low}. A track's positions rise from `
            + "its begin to its end";
    }
    const said = `pos="${it.attributes.get("pos")}" of ${id} lies outside its track, which goes from ${low} to ${high}`;
    const pos = railml.position(it), isBehind = pos.compare(railml.position(end)) > 0;
    const apart = isBehind ? pos.minus(railml.position(end)) : railml.position(begin).minus(pos);
    if (apart.compare(DECIMETRE) > 0) {
        return said;
    }
    const edge = isBehind ? end : begin, room = track ? roomAt(track, it, edge) : ZERO;
    if (room.isZero()) {
        return `${said}: by ${apart} m, as by rounding. Write a pos inside, so that it lies between the same places as on the `
            + "ground, and move absPos as far";
    }
    const inside = isBehind ? railml.position(end).minus(room) : railml.position(begin).plus(room);
    const way = room.equals(HALF_METRE) ? "half a metre inside" : "half-way to the next place";
    return `${said}: by ${apart} m, as by rounding. Write pos="${inside}", ${way}, and move absPos as far where it is written`;
}

/**
 * How far from its track's end a place may be written that lies outside it, past no other.
 * @param {Element} track @param {Element} it @param {Element} end
 * @returns {Decimal} 0 where another place is at the end or outside too
 */
export function roomAt(track, it, end) {
    const from = railml.position(end), isBegin = end.name === "trackBegin";
    const others = railml.placesOf(track).filter((other) => other !== it && other !== end)
        .map((other) => (isBegin ? railml.position(other).minus(from) : from.minus(railml.position(other))));
    const near = others.reduce((least, other) => (other.compare(least) < 0 ? other : least), METRE);
    return near.compare(METRE) === 0 ? HALF_METRE
        : near.compare(ZERO) <= 0 ? ZERO : Decimal.of(String(Math.floor(near.toNumber() * HALF * 1000) / 1000)) ?? ZERO;
}

/** @type {Map<string, Sentence>} what is said of each fault */
export const TOPOLOGY = new Map([["NoTracks", noTracks], ["TooMany", tooMany], ["Missing", missing], ["Id", wrongId],
    ["RepeatedId", repeatedId], ["Number", number], ["UnknownRef", unknownRef], ["NotMutual", notMutual], ["SelfRef", selfRef],
    ["EndKind", endKind], ["Course", course], ["Orientation", orientation], ["OutsideTrack", outsideTrack]]);

/**
 * The other place, where two are meant.
 * @param {Station} station @param {string} fault @param {Element | null} it @param {string[]} named @param {Element[]} among
 * the elements whose ids must differ
 * @returns {Note[]}
 */
export function also(station, fault, it, named, among) {
    if (fault === "RepeatedId") {
        return station.other(among.find((other) => other.id === named[0] && other !== it), `${named[0]} is here first`);
    }
    if (fault === "NotMutual") {
        return station.other(railml.byId(station.document).get(named[1]), `${named[1]} is here`);
    }
    const track = it?.above("track");
    return fault === "OutsideTrack" && track ? station.other(railml.endOf(track, "trackBegin"), "the track begins here") : [];
}

/**
 * What is said of a fault of the element whose tag begins at a byte.
 * @param {Station} station @param {string} fault @param {number} place @param {string[]} named
 * @returns {Note[]}
 */
export function notes(station, fault, place, named) {
    const { document } = station;
    const it = fault !== "NoTracks" ? document.at(place)
        : document.elements.find((other) => /(^|:)(track|infrastructure)$/.test(other.name)) ?? null;
    const text = /** @type {Sentence} */ (TOPOLOGY.get(fault))(station, it, named);
    return [{ text, place: ofByte(station.name, station.data, it?.place ?? place) },
        ...also(station, fault, it, named, railml.withIds(document))];
}
