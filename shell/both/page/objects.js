/**
 * The objects of a drawing by kilometre: nodes, pieces of track, signals and what else lies at tracks; what is said of each,
 * and
 * the list as CSV.
 */
import { Decimal } from "../decimal.js";
import { kilometres } from "../messages/law_words.js";
import { UNKNOWN } from "./pieces.js";
import { sectionsOf } from "./sections.js";
import { DIVERGING, STRAIGHT, edgeOf } from "./station.js";

/** @typedef {import("./drawing.js").Picture} Picture */
/** @typedef {import("./drawing.js").Scene} Scene */
/** @typedef {import("./pieces.js").Located} Located */
/** @typedef {import("./texts.js").Edge} Edge */
/** @typedef {import("./texts.js").Node} Node */
/** @typedef {import("./texts.js").Signal} Signal */
/** @typedef {[string, string, string]} Fact a term, what is said, and the key of an object to which it leads */
/** @typedef {object} Entry an object: its key, where it is, its name and id, its kind, and what a chosen one says
 * @property {string} key
 * @property {string} id
 * @property {string} name
 * @property {string} kind
 * @property {string} km
 * @property {{metres: Decimal, rank: number, number: number}} order
 * @property {Fact[]} facts
 * @property {string} track
 * @property {[number, number] | null} point where the program has it; nothing where a page finds its place
 * @property {string} side
 * @property {string} note what else the file says of it, in a few words */

const HEADER = ["km", "kind", "name", "id", "track", "column", "row", "side", "note"];
const NOT_DRAWN = "not drawn";
const SIGNALS_DRAW = "the command signals draws it";
const NONE = /** @type {Decimal} */ (Decimal.of("0"));

/** @type {(mileage: string | null) => Decimal} */
const metres = (mileage) => Decimal.of(mileage ?? "") ?? NONE;

/** @type {(mileage: string | null) => string} */
const kmOf = (mileage) => mileage && mileage !== "-" ? kilometres(mileage) : "";

/** @type {(headsEast: boolean | null) => string} */
const wayOf = (headsEast) => headsEast === null ? "a way that the file doesn't say"
    : `trains with ${headsEast ? "rising" : "falling"} kilometres`;

/** @type {(number: Decimal) => string} without zeros at its end */
const shortest = (number) => number.toString().replace(/(\.\d*?)0+$/, "$1").replace(/\.$/, "");

/** The entries of a scene, by kilometre. */
export class Objects {
    /** @param {Scene} scene @param {Picture | null} [picture] in which places were looked for */
    constructor(scene, picture = null) {
        this.scene = scene;
        this.picture = picture;
        this.station = scene.station;
        this.drawing = scene.drawing;
        /** @type {Entry[]} */
        this.entries = [...this.drawing.nodes.map((it) => this.#ofNode(it)),
            ...this.drawing.edges.map((it) => this.#ofEdge(it)),
            ...scene.signals.map((it) => this.#ofSignal(it)), ...this.#signalsOfFile(), ...scene.pieces.located.map((it) => this.#ofObject(it))];
        const sections = sectionsOf(scene);
        /** whether sections aren't known, as one of their borders has no known place */
        this.lacksSections = sections === null;
        this.entries.push(...(sections ?? []).map((it, at) => this.#ofSection(it, at + 1)));
        this.entries.sort((one, other) => one.order.metres.compare(other.order.metres) || byRank(one, other));
    }

    // ---- what is said of each

    /** @param {number} number @returns {string} a node in words: its label and kilometre */
    #at(number) {
        const { name, mileage } = this.drawing.nodes[number];
        return this.station.label(name) + (kmOf(mileage) ? `, km ${kmOf(mileage)}` : "");
    }

    /** @param {string} term @param {number} number @param {number} edge @returns {Fact} where an edge leads from a node */
    #leads(term, number, edge) {
        const one = this.drawing.edges[edge];
        const [side, far] = one.west === number ? ["east", one.east] : ["west", one.west];
        const track = one.track ? this.station.label(one.track) : `edge ${edge}`;
        return [term, `${edgeOf(side)}, by ${track} to ${this.#at(far)}`, this.scene.key("n", far)];
    }

    /** @param {Node} node @returns {Entry} */
    #ofNode({ number, name, mileage, point }) {
        const [known, legs] = [this.station.node(number), this.station.legs(number)];
        /** @type {Entry} */
        const entry = { key: this.scene.key("n", number), id: this.station.shown(name), name: this.station.name(name),
            kind: this.station.kind(number), km: kmOf(mileage), order: { metres: metres(mileage), rank: 0, number },
            facts: [], track: "", point, side: "", note: this.#noteOf(number) };
        if (known && legs) {
            entry.side = `${known.legs} ${known.side}`;
            entry.facts = [["legs", `on the ${edgeOf(known.legs)}; the diverging leg is on the ${known.side} side`, ""],
                this.#leads("trunk", number, legs.trunk), this.#leads(`${STRAIGHT} leg`, number, legs.straight),
                this.#leads(`${DIVERGING} leg`, number, legs.diverging)];
        } else {
            const met = this.drawing.edges.filter((it) => it.west === number || it.east === number);
            entry.facts = met.map((it) => this.#leads("line", number, it.number));
        }
        if (entry.note) entry.facts.push(["file", entry.note, ""]);
        return entry;
    }

    /**
     * @param {number} number
     * @returns {string} what the file says of a node: a slip, a normal position, where a line goes on
     */
    #noteOf(number) {
        const [sign, kind] = [this.station.signOf(number), this.station.kind(number)];
        const leads = this.station.leadsTo(this.drawing.nodes[number].name), normal = this.station.normalLeg(number);
        const other = this.station.file.points.get(this.station.node(number)?.name ?? "")?.normal ?? "";
        return [sign === kind ? "" : sign, leads && `to ${leads}`, normal ? `normal position ${normal}`
            : other && `normal position in the file: ${this.station.shown(other)}`].filter(Boolean).join(", ");
    }

    /** @param {Edge} edge @returns {string} */
    #length({ west, east }) {
        const [from, to] = [west, east].map((it) => this.drawing.nodes[it].mileage);
        return from && to ? `${shortest(metres(to).minus(metres(from)))} m` : "";
    }

    /** @param {Edge} edge @returns {Entry} */
    #ofEdge(edge) {
        const { station, scene } = this;
        const [track, from] = [edge.track || `edge ${edge.number}`, this.drawing.nodes[edge.west].mileage];
        const [type, length] = [station.file.tracks.get(track)?.type, this.#length(edge)];
        /** @type {Fact[]} */
        const facts = [["from", this.#at(edge.west), scene.key("n", edge.west)],
            ["to", this.#at(edge.east), scene.key("n", edge.east)]];
        if (length) facts.push(["length", length, ""]);
        if (type) facts.push(["type", station.shown(type), ""]);
        for (const signal of station.inOrder(edge.number, scene.signals)) {
            const km = this.#kmOfSignal(signal);
            facts.push(["signal",
                `${station.label(signal.name, true)}${km && `, km ${km}`}, for ${wayOf(station.headsEast(signal))}`,
                scene.key("s", signal.number)]);
        }
        return { key: scene.key("e", edge.number), id: station.shown(track), name: station.name(track), kind: "piece of track",
            km: kmOf(from), order: { metres: metres(from), rank: 1, number: edge.number }, facts, track: station.shown(track),
            point: edge.points[0], side: "", note: "" };
    }

    /** @param {Signal} signal @returns {string} */
    #kmOfSignal(signal) {
        const mileage = this.station.signalMileage(signal.name);
        return mileage ? kilometres(mileage.toString()) : "";
    }

    /** @param {Signal} signal @returns {Entry} */
    #ofSignal(signal) {
        const { station, scene } = this;
        const [east, edge] = [station.headsEast(signal), this.drawing.edges[signal.edge]];
        const track = edge.track || `edge ${edge.number}`;
        const place = station.signalMileage(signal.name) ?? metres(this.drawing.nodes[edge.west].mileage);
        const use = station.shown(station.signal(signal.name)?.use ?? "");
        return { key: scene.key("s", signal.number), id: station.shown(signal.name), name: station.signalName(signal.name),
            kind: station.signalKind(signal.name), km: this.#kmOfSignal(signal), order: { metres: place, rank: 2,
                number: signal.number },
            facts: [["for", wayOf(east), ""], ...use ? [/** @type {Fact} */ (["function", use, ""])] : [],
                ["on", `${station.label(track)}, from ${this.#at(edge.west)} to ${this.#at(edge.east)}`,
                scene.key("e", edge.number)]],
            track: station.shown(track), point: signal.point, side: east === null ? "" : east ? "east" : "west", note: use };
    }

    /** @returns {Entry[]} the signals of the file, where the answer has none: what the file says of them */
    #signalsOfFile() {
        const { station, scene } = this, listed = [...station.file.signals.values()].filter((it) => !it.isVirtual);
        return scene.signals.length ? [] : listed.map(({ id, track, direction, use }, number) => {
            const mileage = station.signalMileage(id);
            const words = [use, direction && `direction ${direction}`].filter(Boolean).map((it) => station.shown(it));
            /** @type {Fact[]} */
            const facts = [...words.map((it) => /** @type {Fact} */ (["file", it, ""])), [NOT_DRAWN, SIGNALS_DRAW, ""]];
            return { key: scene.key("s", number), id: station.shown(id), name: station.signalName(id),
                kind: station.signalKind(id), km: mileage ? kilometres(mileage.toString()) : "",
                order: { metres: mileage ?? NONE, rank: 2, number }, facts, track: station.shown(track), point: null, side: "",
                note: [...words, `${NOT_DRAWN}: ${SIGNALS_DRAW}`].join(", ") };
        });
    }

    /** @param {Located} located @returns {Entry} what lies at a track */
    #ofObject({ number, object, place, far, why }) {
        const { station, scene } = this, { id, name, kind, track, own, length, said, direction } = object;
        const [mileage, edge] = [place?.metres ?? own, place && this.drawing.edges[place.edge]];
        const lacks = why || (this.picture?.lacking.has(number) ? UNKNOWN.room : "");
        const words = [...said.map((it) => station.shown(it)), length ? `${shortest(length)} m long` : "",
            direction && `direction ${station.shown(direction)}`].filter(Boolean);
        const kmOfFar = far ? kilometres(far.metres.toString()) : "";
        /** @type {Fact[]} */
        const facts = [...words.map((it) => /** @type {Fact} */ (["file", it, ""])),
            ...kmOfFar ? [/** @type {Fact} */ (["to", `km ${kmOfFar}`, ""])] : [],
            ...edge ? [/** @type {Fact} */ (["on",
                `${station.label(track)}, from ${this.#at(edge.west)} to ${this.#at(edge.east)}`,
                scene.key("e", edge.number)])] : [],
            ...lacks ? [/** @type {Fact} */ ([NOT_DRAWN, lacks, ""])] : []];
        return { key: scene.key("o", number), id: station.shown(id), name: name.trim() && name !== id ? station.shown(name)
            : "", kind,
            km: mileage ? kilometres(mileage.toString()) : "", order: { metres: mileage ?? NONE, rank: 3, number }, facts,
            track: station.shown(track), point: null, side: "",
            note: [...words, kmOfFar && `to km ${kmOfFar}`, lacks && `${NOT_DRAWN}: ${lacks}`].filter(Boolean).join(", ") };
    }

    /** @param {import("./sections.js").Section} section @param {number} number from 1 @returns {Entry} */
    #ofSection({ borders, ends, edges, from }, number) {
        const { station, scene } = this, name = `section ${number}`;
        const bounds = borders.map(({ object: { id, name: own }, place }) =>
            `${station.shown(own.trim() || id)}${place ? `, km ${kilometres(place.metres.toString())}` : ""}`);
        const open = ends.map((it) => this.#at(it)), mileage = Decimal.of(String(from)) ?? NONE;
        /** @type {Fact[]} */
        const facts = [...bounds.map((it, at) => /** @type {Fact} */ (["border", it, scene.key("o", borders[at].number)])),
            ...open.map((it, at) => /** @type {Fact} */ (["end", it, scene.key("n", ends[at])])),
            ...edges.map((it) => /** @type {Fact} */ (["on", station.label(this.drawing.edges[it].track ?? `edge ${it}`),
                scene.key("e", it)]))];
        return { key: scene.key("d", number), id: "", name, kind: "track section", km: kilometres(mileage.toString()),
            order: { metres: mileage, rank: 4, number }, facts, track: "", point: null, side: "",
            note: [`from ${bounds.join("; from ")}`, ...open.map((it) => `to the end ${it}`)].join("; ") };
    }

    // ---- the whole

    /** @returns {[Entry, string][]} what the list has and the drawing hasn't, with why */
    notDrawn() {
        return this.entries.flatMap((entry) => {
            const why = entry.facts.find(([term]) => term === NOT_DRAWN)?.[1];
            return why ? [/** @type {[Entry, string]} */ ([entry, why])] : [];
        });
    }

    /** @returns {string} the entries as a table; its fields are those of the header */
    csv() {
        const rows = this.entries.map((it) => [it.km, it.kind, it.name, it.id, it.track, ...it.point?.map(String) ?? ["", ""],
            it.side, it.note].map(safe));
        return [HEADER, ...rows].map((row) => `${row.map(quoted).join(",")}\r\n`).join("");
    }

    /** @returns {Map<string, string>} for each object the part of a link that leads to it: its id, or its id with its kind
     * where another has that id */
    links() {
        const taken = new Set();
        return new Map([...this.entries].sort(byRank).map(({ key, id }) => {
            const link = taken.has(id) || !id ? `${key}:${id}` : id;
            taken.add(link);
            return [key, link];
        }));
    }
}

/** @type {(one: Entry, other: Entry) => number} */
function byRank(one, other) {
    return one.order.rank - other.order.rank || one.order.number - other.order.number;
}

/**
 * A cell that no table program takes for a formula.
 * @param {string} cell
 * @returns {string}
 */
export function safe(cell) {
    return /^[=+@\t\r]/.test(cell) || cell.startsWith("-") && !/^-*(?=\.?\d)\d*\.?\d*$/.test(cell) ? `'${cell}` : cell;
}

/** @type {(cell: string) => string} */
const quoted = (cell) => /[",\r\n]/.test(cell) ? `"${cell.replaceAll('"', '""')}"` : cell;
