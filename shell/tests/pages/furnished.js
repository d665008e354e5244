/**
 * Stations by chance with what lies at tracks: parallel tracks with crossovers, some counted against their kilometres; and for
 * each
 * object where it truly is.
 */
import { Scene } from "../../both/page/drawing.js";
import { readSheet } from "../../both/page/texts.js";
import { crossoversOf, sheetOf } from "./crowded.js";
import { stationOf } from "./runs.js";

/** @typedef {import("../../both/page/texts.js").Drawing} Drawing */
/** @typedef {import("../../both/page/texts.js").Signal} Signal */
/** @typedef {{scene: Scene, metres: Map<string, number>, edges: Map<string, number>}} Furnished the mileages of nodes, signals
 * and
 * objects by their keys, and the pieces of signals and objects */

/** @type {[string, string, string][]} group, list and element of each kind, with attributes */
const KINDS = [["ocsElements", "trainDetectionElements", 'trackCircuitBorder insulatedRail="both"'],
    ["ocsElements", "trainDetectionElements", 'trainDetector axleCounting="true"'],
    ["ocsElements", "derailers", 'derailer dir="up" derailSide="left"'], ["ocsElements", "derailers", "derailer"],
    ["trackElements", "levelCrossings", "levelCrossing"], ["trackTopology", "borders", "border"]];
const PLATFORM = /** @type {[string, string, string]} */ (["trackElements", "platformEdges", 'platformEdge dir="up"']);

/** @type {(seed: number) => (below: number) => number} whole numbers by chance, but always the same ones */
export function chance(seed) {
    let state = seed + 1;
    return (below) => {
        state = Number(BigInt(state) * 48271n % 0x7fffffffn);
        return state % below;
    };
}

/** @param {Drawing} drawing @param {Set<string>} turned the tracks whose pieces come from the east */
function renumbered(drawing, turned) {
    const of = (/** @type {string | null} */ track) => drawing.edges.filter((it) => it.track === track);
    const tracks = [...new Set(drawing.edges.map((it) => it.track))];
    drawing.edges = tracks.flatMap((track) => turned.has(track ?? "") ? of(track).reverse() : of(track));
    drawing.edges.forEach((it, at) => {
        it.number = at;
    });
}

/** @param {Drawing} drawing @returns {string} a graph of this drawing, in which all but ends are joints */
function graphOf({ nodes, edges }) {
    const count = (/** @type {number} */ number) => edges.filter((it) => it.west === number || it.east === number).length;
    return ["railgraph 1", `nodes ${nodes.length}`, ...nodes.map((it) =>
        `node ${it.number} ${it.name} ${count(it.number) > 1 ? "joint" : "end"} ${it.mileage}`),
        `edges ${edges.length}`, ...edges.map((it) => `edge ${it.number} ${it.track} ${it.west} ${it.east}`), ""].join("\n");
}

/** A station while it is furnished. */
class Furnishing {
    /** @param {Drawing} drawing @param {Set<string>} turned @param {(below: number) => number} some @param {number} most */
    constructor(drawing, turned, some, most) {
        this.drawing = drawing;
        this.turned = turned;
        this.some = some;
        this.most = most;
        this.count = 0;
        /** @type {Signal[]} */
        this.signals = [];
        /** @type {Map<string, number>} */
        this.metres = new Map(drawing.nodes.map((it) => [`n${it.number}`, Number(it.mileage)]));
        /** @type {Map<string, number>} */
        this.edges = new Map();
    }

    /** @param {number} node @returns {number} */
    mileage(node) {
        return Number(this.drawing.nodes[node].mileage);
    }

    /** @param {number} node @returns {string} */
    name(node) {
        return this.drawing.nodes[node].name;
    }

    /**
     * @param {number} node
     * @param {string} track
     * @param {string} name trackBegin or trackEnd
     * @param {number} pos
     * @returns {string}
     */
    ending(node, track, name, pos) {
        const isOwn = this.name(node).startsWith("E"), id = isOwn ? this.name(node) : `${track}.${name}`;
        const inner = isOwn ? `<openEnd id="${id}o"/>` : `<connection id="${id}c" ref="c.${this.name(node)}"/>`;
        return `<${name} id="${id}" pos="${pos}" absPos="${this.mileage(node)}">${inner}</${name}>`;
    }

    /** @param {number} node @param {number} pos @returns {string} */
    point(node, pos) {
        const connection = `<connection id="c.${this.name(node)}" ref="x" course="left" orientation="outgoing"/>`;
        return `<switch id="${this.name(node)}" pos="${pos}" absPos="${this.mileage(node)}">${connection}</switch>`;
    }

    /** @param {string} track @returns {string} */
    track(track) {
        const pieces = this.drawing.edges.filter((it) => it.track === track);
        const along = this.turned.has(track) ? [pieces[0].east, ...pieces.map((it) => it.west)]
            : [pieces[0].west, ...pieces.map((it) => it.east)];
        const [begin, end] = [along[0], along[along.length - 1]];
        const posOf = (/** @type {number} */ metres) => Math.abs(metres - this.mileage(begin));
        const points = along.slice(1, -1).map((it) => this.point(it, posOf(this.mileage(it))));
        const objects = pieces.flatMap((it) => this.objects(it, posOf));
        const signals = pieces.flatMap((it) => this.signalsOn(it, posOf));
        const lists = (/** @type {string} */ group) => objects.filter(([it]) => it === group)
            .map(([, list, text]) => `<${list}>${text}</${list}>`).join("");
        return [`<track id="${track}"><trackTopology>`, this.ending(begin, track, "trackBegin", 0),
            this.ending(end, track, "trackEnd", posOf(this.mileage(end))), `<connections>${points.join("")}</connections>`,
            lists("trackTopology"), `</trackTopology><trackElements>${lists("trackElements")}</trackElements>`,
            `<ocsElements>${lists("ocsElements")}<signals>${signals.join("")}</signals></ocsElements></track>`].join("");
    }

    /**
     * @param {import("../../both/page/texts.js").Edge} edge
     * @param {(metres: number) => number} posOf
     * @returns {[string, string, string][]}
     */
    objects(edge, posOf) {
        const [from, to] = [this.mileage(edge.west), this.mileage(edge.east)];
        if (to - from < 4) return [];
        return Array.from({ length: this.some(this.most + 1) }, () => {
            const isPlatform = this.some(6) === 0, [group, list, element] = isPlatform ? PLATFORM
                : KINDS[this.some(KINDS.length)];
            const length = isPlatform ? 1 + this.some(Math.max(1, Math.floor((to - from) / 3))) : 0,
                isTurned = this.turned.has(edge.track ?? "");
            const at = from + 1 + this.some(Math.floor(to - from) - 2 - length) + (isTurned ? length : 0);
            const number = this.count++, more = isPlatform ? ` length="${length}" side="${this.some(2) ? "left" : "right"}"`
                : "";
            const own = this.some(2) ? ` absPos="${at}"` : "";
            const name = this.some(2) ? ` name="O${number}"` : "";
            return /** @type {[string, string, string]} */ ([group, list,
                `<${element} id="o${number}" at="${at} ${edge.number}" pos="${posOf(at)}"${own}${more}${name}/>`]);
        });
    }

    /** @param {import("../../both/page/texts.js").Edge} edge @param {(metres: number) => number} posOf @returns {string[]} */
    signalsOn({ number, west, east, points: [[first, row], [last, other]] }, posOf) {
        const [from, to] = [this.mileage(west), this.mileage(east)], count = row === other ? Math.min(this.some(3),
            last - first - 1) : 0;
        const ats = Array.from({ length: count }, () => from + this.some(Math.max(1, Math.floor(to - from))))
            .sort((one, two) => one - two);
        return ats.map((at, along) => {
            const name = `S${this.signals.length}`;
            this.metres.set(`s${this.signals.length}`, at);
            this.edges.set(`s${this.signals.length}`, number);
            this.signals.push({ number: this.signals.length, name, edge: number, point: [first + 1 + along, row] });
            return `<signal id="${name}" pos="${posOf(at)}" absPos="${at}" dir="${this.some(2) ? "up" : "down"}"/>`;
        });
    }
}

/**
 * @param {number} seed
 * @param {{hasSignals?: boolean, most?: number}} how
 * @returns {Furnished}
 */
export function furnished(seed, { hasSignals = seed % 2 === 1, most = 4 } = {}) {
    const some = chance(seed), [rows, columns] = [2 + seed % 4, 5 + seed % 9];
    const crossovers = crossoversOf(seed, rows, columns).filter(() => some(3) > 0);
    const { drawing } = readSheet(sheetOf(rows, columns, crossovers, (it) => (it < 2 * rows ? `E${it}` : `W${it}`), (it) =>
        `t${it}`));
    if (!drawing) throw new Error("no drawing");
    const tracks = [...new Set(drawing.edges.map((it) => it.track ?? ""))], turned = new Set(tracks.filter(() =>
        some(3) === 0));
    renumbered(drawing, turned);
    const furnishing = new Furnishing(drawing, turned, some, most), listed = tracks.map((it) => furnishing.track(it)).join("");
    const station = stationOf(`<railml version="2.4"><infrastructure id="i"><tracks>${listed}</tracks></infrastructure>`
        + "</railml>", graphOf(drawing));
    const at = new Map([...listed.matchAll(/ id="o(\d+)" at="(\d+) (\d+)"/g)].map(([, id, metres, edge]) =>
        [`o${id}`, [Number(metres), Number(edge)]]));
    station.file.objects.forEach(({ id }, number) => {
        const [metres, edge] = at.get(id) ?? [];
        furnishing.metres.set(`o${number}`, metres ?? NaN);
        furnishing.edges.set(`o${number}`, edge ?? -1);
    });
    const scene = new Scene(drawing, station, { signals: hasSignals ? furnishing.signals : [], paper: "A1" });
    return { scene, metres: furnishing.metres, edges: furnishing.edges };
}
