/**
 * One station's part of a line as a railML file of its own. What leads on to another station ends in an open end: at the border
 * of two tracks where one is near, else within the piece, all cut tracks of a side at one mileage where they can. All else
 * stays as it was.
 */
import { endOf } from "../railml.js";
import { isPoint, mileageOf, positionOf } from "./network.js";
import { kilometre } from "./grouping.js";
import { elementText, escaped, tagText } from "./writing.js";

/** @typedef {import("../railml.js").Element} Element */
/** @typedef {import("./network.js").Network} Network */
/** @typedef {import("./network.js").Piece} Piece */
/** @typedef {import("./grouping.js").Station} Station */
/** @typedef {{near: Element, side: "one" | "other"}} Cut the node that stays, and the piece's side that goes */

const METRE = 1e6;
/** from a station up to this length pieces stay whole, so that no cut is beside a switch */
const BESIDE = 50 * METRE;
/** a border of two tracks within this length is where a track ends */
const NEAR_BORDER = 3000 * METRE;
/** how far out a piece is cut, where it has twice that */
const OUT = 500 * METRE;

/**
 * @param {number} value in micrometres
 */
export function metresText(value) {
    const text = (Math.abs(value) / METRE).toFixed(6).replace(/\.?0+$/, "");
    return value < 0 && text !== "0" ? `-${text}` : text;
}

/**
 * Whether something of a track's topology is a list of objects, and neither an end nor the switches and crossings.
 * @param {Element} it
 */
function isList(it) {
    return !["trackBegin", "trackEnd", "connections"].includes(it.name);
}

/**
 * The mileage that an element has in the whole file, to be written, where it says none itself.
 * @param {Element} it
 * @returns {Map<string, string>}
 */
function ownMileage(it) {
    const mileage = it.attributes.has("absPos") ? undefined : mileageOf(it);
    return new Map(mileage === undefined ? [] : [["absPos", metresText(mileage)]]);
}

/**
 * Lists of objects, each with those that lie between two positions, and in a track's first part with those that say no position.
 * @param {Network} network
 * @param {Element[]} lists
 * @param {number} low
 * @param {number} high
 * @param {boolean} isFirst
 */
function listTexts({ objects }, lists, low, high, isFirst) {
    return lists.flatMap((list) => {
        const kept = objects.between(list, low, high, isFirst);
        const texts = kept.map((it) => elementText(it, it.name === "signal" && it.attributes.has("pos") ? ownMileage(it) : undefined));
        return kept.length ? [`<${list.name}>`, ...texts, `</${list.name}>`] : [];
    });
}

/** What of a network is in one station's file. */
export class Cutting {
    /**
     * @param {Network} network
     * @param {Station} station
     * @param {Map<Element, Station>} stationOf the station of each switch and crossing
     */
    constructor(network, station, stationOf) {
        this.network = network;
        this.station = station;
        this.stationOf = stationOf;
        this.inside = new Set(station.points);
        /** @type {Set<Piece>} */
        this.kept = new Set();
        /** @type {Map<Piece, Cut>} */
        this.cut = new Map();
        /** @type {Set<string>} */
        this.notes = new Set();
        /** @type {Set<string>} the titles of the stations to which tracks lead */
        this.leads = new Set();
        /** @type {Map<string, number>} */
        this.ids = new Map();
        /**
         * @type {Map<string, string[]>} what each track of the file was made of: a track's id, or those of two joined
         * connections
         */
        this.origins = new Map();
        this.choose();
        this.limits = { east: this.limit("east"), west: this.limit("west") };
    }

    /** chooses the pieces that stay whole, and those that are cut */
    choose() {
        for (const node of this.inside) {
            for (const start of this.network.beyond(node)) {
                const way = this.network.wayFrom(start), last = way.nodes[way.nodes.length - 1];
                if (this.inside.has(last) || this.network.kindOf(last) === "end") {
                    way.pieces.forEach((piece) => piece && this.kept.add(piece));
                } else if (start.piece) {
                    this.chooseOut(node, way);
                }
            }
        }
        this.kept.forEach((piece) => this.cut.delete(piece));
    }

    /**
     * Of a way to another station: short pieces stay, then one up to its border, or it is cut.
     * @param {Element} node
     * @param {import("./network.js").Way} way
     */
    chooseOut(node, way) {
        const pieces = /** @type {Piece[]} */ (way.pieces.filter((it) => it !== null));
        let at = 0;
        while (at + 1 < pieces.length && pieces[at].length <= BESIDE) {
            this.kept.add(pieces[at]);
            at++;
        }
        const piece = pieces[at], near = at === 0 ? node : way.nodes[at - 1];
        if (at + 1 < pieces.length && piece.length <= NEAR_BORDER) {
            this.kept.add(piece);
        } else {
            this.cut.set(piece, { near, side: this.network.nodeOf(piece.one) === near ? "other" : "one" });
        }
    }

    /**
     * A mileage at which all cut pieces of a side can end; nothing where there is none.
     * @param {"east" | "west"} side
     */
    limit(side) {
        let low = -Infinity, high = Infinity;
        for (const [piece, { side: away }] of this.cut) {
            const near = mileageOf(away === "other" ? piece.one : piece.other), far = mileageOf(piece[away]);
            if (near !== undefined && far !== undefined && near !== far && far > near === (side === "east")) {
                low = Math.max(low, Math.min(near, far));
                high = Math.min(high, Math.max(near, far));
            }
        }
        if (low >= high || !Number.isFinite(low) || !Number.isFinite(high)) {
            return undefined;
        }
        const placed = [...this.cut].flatMap(([piece, cut]) => this.signalsOut(piece, cut, side));
        const near = Math.min((high - low) / 2, OUT), from = side === "east" ? low : high;
        const far = Math.max(near, ...placed.map((at) => Math.abs(at - from) + BESIDE));
        const out = far < high - low ? far : near;
        return Math.round(side === "east" ? from + out : from - out);
    }

    /**
     * The mileages of signals on a cut piece that are for trains of this station: those on the half that is next to it.
     * @param {Piece} piece
     * @param {Cut} cut
     * @param {"east" | "west"} side
     */
    signalsOut(piece, cut, side) {
        const near = mileageOf(cut.side === "other" ? piece.one : piece.other), far = mileageOf(piece[cut.side]);
        if (near === undefined || far === undefined || far > near !== (side === "east")) {
            return [];
        }
        const middle = (near + far) / 2, [low, high] = [Math.min(near, middle), Math.max(near, middle)];
        return this.network.objects.signalsBetween(piece.track, low, high);
    }

    /**
     * Position and mileage of the end of a cut piece: the mileage of its side where that lies within the piece, else the
     * middle.
     * @param {Piece} piece
     */
    endOfCut(piece) {
        const { side } = /** @type {Cut} */ (this.cut.get(piece)), near = side === "other" ? piece.one : piece.other, far = piece[side];
        const [from, to] = [positionOf(near), positionOf(far)], [begin, end] = [mileageOf(near), mileageOf(far)];
        if (begin === undefined || end === undefined || begin === end) {
            return { at: Math.round((from + to) / 2), mileage: begin };
        }
        const limit = this.limits[end > begin ? "east" : "west"];
        const isWithin = limit !== undefined && limit > Math.min(begin, end) && limit < Math.max(begin, end);
        const mileage = isWithin ? /** @type {number} */ (limit) : Math.round((begin + end) / 2);
        const least = Math.min(from, to) + 1, most = Math.max(from, to) - 1;
        const at = Math.round(from + ((to - from) * (mileage - begin)) / (end - begin));
        return { at: Math.max(least, Math.min(most, at)), mileage };
    }

    /**
     * Where a way leads: the title of the next station, or nothing.
     * @param {Element} node
     * @param {Piece} piece the piece by which the way leaves the node
     */
    destination(node, piece) {
        const start = this.network.beyond(node).find((it) => it.piece === piece);
        const way = start && this.network.wayFrom(start);
        return (way && this.stationOf.get(way.nodes[way.nodes.length - 1])?.title) ?? "";
    }

    /**
     * Whether a place is in the file: a switch or crossing of the station, or the end of a piece that isn't cut there.
     * @param {Element} place
     */
    isThere(place) {
        if (isPoint(place)) {
            return this.inside.has(place);
        }
        const track = place.above("track"), pieces = (track && this.network.tracks.get(track)?.pieces) ?? [];
        const piece = place.name === "trackBegin" ? pieces[0] : pieces[pieces.length - 1];
        const cut = piece && this.cut.get(piece);
        return piece !== undefined && (this.kept.has(piece) || (cut !== undefined && piece[cut.side] !== place));
    }

    /**
     * An id that isn't there yet: the one that is wanted, or with a number behind it.
     * @param {string} wanted
     * @returns {string}
     */
    freshId(wanted) {
        const count = (this.ids.get(wanted) ?? 0) + 1;
        this.ids.set(wanted, count);
        return count === 1 && !this.network.ids.has(wanted) ? wanted : this.freshId(`${wanted}.${count + 1}`);
    }

    /**
     * The id of a track of the file: its own, or with a number behind it where a further part of the track comes.
     * @param {Element} track
     */
    trackId(track) {
        const count = (this.ids.get(track.id) ?? 0) + 1;
        this.ids.set(track.id, count);
        return count === 1 ? track.id : this.freshId(`${track.id}.${count}`);
    }

    /** the tracks of the file, as texts, in the order of the whole file */
    tracks() {
        const pieces = [...this.kept, ...this.cut.keys()];
        pieces.sort((one, other) => one.track.place - other.track.place || one.at - other.at);
        /** @type {Piece[][]} neighbouring pieces of one track, up to a cut */
        const runs = [];
        for (const piece of pieces) {
            const run = runs[runs.length - 1], last = run?.[run.length - 1];
            const goesOn = last && last.track === piece.track && last.at + 1 === piece.at;
            if (goesOn && this.cut.get(last)?.side !== "other" && this.cut.get(piece)?.side !== "one") {
                run.push(piece);
            } else {
                runs.push([piece]);
            }
        }
        return [...runs.map((run) => this.trackText(run[0].track, run)), ...this.shortTracks()];
    }

    /**
     * @param {Element} track
     * @param {Piece[]} run neighbouring pieces of it
     */
    trackText(track, run) {
        const first = run[0], last = run[run.length - 1], id = this.trackId(track);
        this.origins.set(id, [track.id]);
        const inner = run.slice(1).map((piece) => elementText(piece.one, ownMileage(piece.one)));
        const begin = this.endText(track, "trackBegin", first, "one", id), end = this.endText(track, "trackEnd", last, "other", id);
        const connections = inner.length ? ["<connections>", ...inner, "</connections>"] : [];
        const low = this.reach(first, "one"), high = this.reach(last, "other"), attributes = new Map(track.attributes).set("id", id);
        const isFirst = id === track.id;
        const kept = (/** @type {Element[]} */ lists) => listTexts(this.network, lists, low, high, isFirst);
        const beside = track.named("trackTopology").flatMap((it) => kept(it.children.filter(isList)));
        const objects = track.named("trackElements", "ocsElements").flatMap((group) => {
            const lists = kept(group.children);
            return lists.length ? [`<${group.name}>`, ...lists, `</${group.name}>`] : [];
        });
        const topology = ["<trackTopology>", begin, end, ...connections, ...beside, "</trackTopology>"];
        return [`<track${tagText(attributes)}>`, ...topology, ...objects, "</track>"].join("\n");
    }

    /**
     * The position up to which a piece is in the file.
     * @param {Piece} piece
     * @param {"one" | "other"} side
     */
    reach(piece, side) {
        return this.cut.get(piece)?.side === side ? this.endOfCut(piece).at : positionOf(piece[side]);
    }

    /**
     * The begin or end of a track of the file.
     * @param {Element} track
     * @param {"trackBegin" | "trackEnd"} name
     * @param {Piece} piece
     * @param {"one" | "other"} side the piece's side that lies there
     * @param {string} id of the new track
     */
    endText(track, name, piece, side, id) {
        const cut = this.cut.get(piece), place = piece[side], called = track.attributes.get("name") || track.id;
        if (cut?.side === side) {
            const { at, mileage } = this.endOfCut(piece), to = this.destination(cut.near, piece);
            this.notes.add(`track ${called} is cut at km ${kilometre(mileage)}${to ? `, towards ${to}` : ""}`);
            const made = new Map([["id", this.freshId(`${id}.${name === "trackBegin" ? "begin" : "end"}`)], ["pos", metresText(at)]]);
            if (mileage !== undefined) {
                made.set("absPos", metresText(mileage));
            }
            return this.openText(name, made, to);
        }
        if (place.name !== name) {
            throw new Error(`${place.id} would be the end of a track`);
        }
        const other = this.network.joinedTo(place), dangling = place.named("connection").length > 0 && !other;
        if (!dangling && (!other || this.isThere(other))) {
            return elementText(place);
        }
        const to = other && !isPoint(other) ? this.destination(this.network.nodeOf(place), this.pieceOf(other)) : "";
        this.notes.add(dangling ? `the end ${place.id} refers to nothing in the file: it is open`
            : `track ${called} is open at its border at km ${kilometre(mileageOf(place))}${to ? `, towards ${to}` : ""}`);
        const attributes = new Map(place.attributes), mileage = mileageOf(place);
        if (!attributes.has("absPos") && mileage !== undefined) {
            attributes.set("absPos", metresText(mileage));
        }
        return this.openText(name, attributes, to);
    }

    /**
     * The piece at a track's end.
     * @param {Element} end
     */
    pieceOf(end) {
        const track = /** @type {Element} */ (end.above("track"));
        const { pieces } = /** @type {{pieces: Piece[]}} */ (this.network.tracks.get(track));
        return end.name === "trackBegin" ? pieces[0] : pieces[pieces.length - 1];
    }

    /**
     * An open end.
     * @param {string} name
     * @param {Map<string, string>} attributes
     * @param {string} to where it leads
     */
    openText(name, attributes, to) {
        const named = to ? new Map(attributes).set("name", `to ${to}`) : attributes;
        this.leadTo(to);
        const id = this.freshId(`${attributes.get("id") ?? name}.open`);
        return `<${name}${tagText(named)}><openEnd id="${escaped(id)}"/></${name}>`;
    }

    /** @param {string} title a station to which a track leads, or "" */
    leadTo(title) {
        if (title) {
            this.leads.add(title);
        }
    }

    /** short open tracks in place of joins to switches that are in other files */
    shortTracks() {
        const texts = [];
        for (const it of this.inside) {
            for (const connection of it.named("connection")) {
                const partner = this.network.partnerOf(connection), other = partner?.parent;
                if (partner && other && isPoint(other) && !this.inside.has(other)) {
                    texts.push(this.shortTrack(it, connection, partner, other));
                }
            }
        }
        return texts;
    }

    /**
     * @param {Element} it
     * @param {Element} connection
     * @param {Element} partner the connection of the other switch
     * @param {Element} other
     */
    shortTrack(it, connection, partner, other) {
        const at = mileageOf(it) ?? 0, far = mileageOf(other), track = it.above("track");
        const begin = track ? mileageOf(/** @type {Element} */ (endOf(track, "trackBegin"))) : undefined;
        const end = track ? mileageOf(/** @type {Element} */ (endOf(track, "trackEnd"))) : undefined;
        const isRising = begin === undefined || end === undefined || end >= begin;
        const leadsUp = (connection.attributes.get("orientation") === "outgoing") === isRising;
        const to = far !== undefined && far !== at ? Math.round(at + (far - at) / 2) : at + (leadsUp ? 1 : -1) * BESIDE;
        const title = this.stationOf.get(other)?.title ?? "", id = this.freshId(`${connection.id}.track`);
        this.leadTo(title);
        this.origins.set(id, [connection.id, partner.id]);
        this.notes.add(`the join ${connection.id} of ${it.id} with ${other.id} is a short open track`);
        const open = `<openEnd id="${escaped(this.freshId(`${id}.open`))}"/>`;
        const joined = `<connection id="${escaped(partner.id)}" ref="${escaped(connection.id)}"/>`;
        const [low, high] = [Math.min(at, to), Math.max(at, to)], [first, last] = to > at ? [joined, open] : [open, joined];
        return [
            `<track id="${escaped(id)}"${title ? ` name="${escaped(`to ${title}`)}"` : ""}>`, "<trackTopology>",
            `<trackBegin id="${escaped(`${id}.begin`)}" pos="0" absPos="${metresText(low)}">${first}</trackBegin>`,
            `<trackEnd id="${escaped(`${id}.end`)}" pos="${metresText(high - low)}" absPos="${metresText(high)}">${last}</trackEnd>`,
            "</trackTopology>", "</track>",
        ].join("\n");
    }

    /** the station's file */
    text() {
        const tracks = this.tracks(), { root } = this.network.document;
        const head = root?.name === "railml" ? tagText(root.attributes) : "";
        return [
            '<?xml version="1.0" encoding="UTF-8"?>', `<railml${head}>`, `<infrastructure id="station" name="${escaped(this.station.title)}">`,
            "<tracks>", ...tracks, "</tracks>", ...this.operationalPointTexts(tracks), "</infrastructure>", "</railml>", "",
        ].join("\n");
    }

    /**
     * The ids of operational points in the file's texts.
     * @param {string[]} texts
     */
    static named(texts) {
        return texts.flatMap((text) => [...text.matchAll(/ ocp(?:Station)?Ref="([^"]*)"/g)].map((it) => it[1]));
    }

    /**
     * The operational points that the file names.
     * @param {string[]} tracks
     */
    operationalPointTexts(tracks) {
        const named = new Set(Cutting.named(tracks)), found = [...named].flatMap((it) => this.network.operationalPoints.get(it) ?? []);
        return found.length ? ["<operationControlPoints>", ...found.map((it) => elementText(it)), "</operationControlPoints>"] : [];
    }
}
