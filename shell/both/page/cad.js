/**
 * A drawing as DXF, for CAD programs: layers for tracks, nodes, names, signals and what else lies at tracks, in millimetres of
 * the picture.
 *
 * It is the form of AutoCAD's release 12, which every such program reads: polylines, points with blocks, circles and texts.
 */
import { kilometres } from "../messages/law_words.js";
import { MM, Strip, heightAt, neighbours } from "./columns.js";
import { gapsOf } from "./gaps.js";
import { fixed } from "./numbers.js";
import { edgesBetween, isAbove, signOf } from "./objects_drawn.js";
import { SIZES } from "./places.js";
import { headSign, linesOf } from "./signs.js";

/** @typedef {import("./columns.js").Spot} Spot */
/** @typedef {import("./drawing.js").Picture} Picture */
/** @typedef {import("./drawing.js").Scene} Scene */
/** @typedef {import("./markup.js").Element} Element */
/** @typedef {import("./texts.js").Edge} Edge */
/** @typedef {[number, string | number]} Code a code of DXF and its value */

/** @type {[string, number][]} */
const LAYERS = [["TRACK", 7], ["MAIN", 7], ["NODE", 1], ["NAME", 3], ["SIGNAL", 5], ["OBJECT", 6], ["KILOMETRE", 8],
    ["GAP", 2]];
/** how large a sign of a gap is, as a letter of pictures, and how far around it there is no other, in millimetres */
const GAP = 12, AROUND = 2.4;
// how high a capital is, of a letter's size
const CAP = 0.716;
const MARGIN = 30;

/**
 * A text of a DXF: characters beyond ASCII by their numbers, and no line end.
 * @param {string} name
 * @returns {string}
 */
export function textOf(name) {
    return name.replace(/%/g, "%%").replace(/\^/g, "^ ").replace(/[^ -~]/g, (it) =>
        `\\U+${it.charCodeAt(0).toString(16).toUpperCase().padStart(4, "0")}`);
}

/** @type {(first: number, point: Spot) => Code[]} */
const place = (first, [x, y]) => [[first, fixed(x, 4)], [first + 10, fixed(y, 4)], [first + 20, "0.0"]];

/** The entities of a drawing. */
class Entities {
    /** @param {Scene} scene @param {Picture} picture whose columns it takes */
    constructor(scene, { columns, spots }) {
        this.scene = scene;
        this.columns = columns;
        this.spots = spots;
        this.strip = new Strip(0, columns.at.length - 1);
        /** @type {Code[]} */
        this.codes = [];
    }

    /** @param {Spot} point @returns {Spot} */
    #at([column, row]) {
        return [MARGIN + this.columns.x(column, this.strip) / MM, MARGIN + row * this.columns.row / MM];
    }

    /** @param {string} kind @param {string} layer @param {...Code} codes */
    #put(kind, layer, ...codes) {
        this.codes.push([0, kind], [8, layer], ...codes);
    }

    /** @param {string} layer @param {Spot[]} points */
    #line(layer, points) {
        this.#put("POLYLINE", layer, [66, 1], ...place(10, [0, 0]), [70, 0]);
        for (const point of points) this.#put("VERTEX", layer, ...place(10, point));
        this.#put("SEQEND", layer);
    }

    /** @param {string} layer @param {string} name @param {Spot} point @param {number} size */
    #text(layer, name, point, size) {
        this.#put("TEXT", layer, ...place(10, point), [40, fixed(size * CAP / MM, 4)], [1, textOf(name)], [72, 1],
            ...place(11, point));
    }

    putTracks() {
        const edges = this.scene.drawing.edges;
        for (const { track, points } of edges) {
            this.#line(this.scene.station.isMain(track) ? "MAIN" : "TRACK", points.map((it) => this.#at(it)));
        }
        const named = new Set();
        const longestFirst = [...edges].sort((one, other) => across(other.points) - across(one.points));
        for (const { track, points } of longestFirst) {
            if (track === null || named.has(track)) continue;
            named.add(track);
            const [[x, y], [u, v]] = longest(points).map((it) => this.#at(it));
            this.#text("NAME", this.scene.label(track, "track"), [(x + u) / 2, (y + v) / 2 + 1], SIZES.track);
        }
    }

    putNodes() {
        for (const node of this.scene.drawing.nodes) {
            const [x, y] = this.#at(node.point);
            this.#put("POINT", "NODE", ...place(10, [x, y]));
            this.#put("CIRCLE", "NODE", ...place(10, [x, y]), [40, "0.8"]);
            this.#text("NAME", this.scene.label(node.name, "node"), [x, y + 1.6], SIZES.node);
            if (node.mileage && node.mileage !== "-") this.#text("KILOMETRE", kilometres(node.mileage), [x, y - 3.6],
                SIZES.node);
        }
    }

    /**
     * @param {string} layer
     * @param {Element[]} parts
     * @param {Spot} point
     * @param {number} [turn] draws a sign, as pictures have it
     */
    #sign(layer, parts, [x, y], turn = 0) {
        const at = (/** @type {Spot} */ spot) => {
            const [across, up] = inMillimetres(spot, turn);
            return /** @type {Spot} */ ([x + across, y + up]);
        };
        for (const part of parts) {
            // what is filled in pictures has the same outline within, half as large
            for (const size of String(part.attributes.class).includes("full") ? [1, 0.5] : [1]) {
                if (part.tag === "circle") {
                    const [cx, cy, r] = ["cx", "cy", "r"].map((it) => Number(part.attributes[it] ?? 0));
                    this.#put("CIRCLE", layer, ...place(10, at([cx, cy])), [40, fixed(size * r / MM, 4)]);
                } else for (const line of linesOf(part)) this.#line(layer, line.map(([u, v]) => at([u * size, v * size])));
            }
        }
    }

    /** @param {Edge} edge @param {number} column @returns {{point: Spot, turn: number}} */
    #on(edge, column) {
        const x = this.#at([column, 0])[0], line = edge.points.map((it) => this.#at(it));
        const [[left, low], [right, high]] = neighbours(line).find(([[from], [to]]) => from <= x && x <= to) ?? [line[0],
            line[1]];
        return { point: [x, heightAt(x, line) ?? low], turn: -Math.atan2(high - low, right - left) };
    }

    putObjects() {
        const { pieces, drawing } = this.scene;
        for (const one of pieces.located) {
            const [column, far] = this.spots.get(one.number) ?? [];
            if (column === undefined || !one.place) continue;
            const { point: [x, y], turn } = this.#on(drawing.edges[one.place.edge], column);
            if (far !== undefined) {
                const run = edgesBetween(this.scene, one), [from, to] = [Math.min(column, far), Math.max(column, far)];
                const along = run.flatMap((edge) => columnsOver(drawing.edges[edge], from, to)
                    .map((it) => this.#on(drawing.edges[edge], it).point));
                const aside = 2 * (isAbove(one) ? 1 : -1);
                for (const up of [aside, aside * 1.5]) this.#line("OBJECT", along.map(([u, v]) => [u, v + up]));
            } else this.#sign("OBJECT", signOf(one).parts, [x, y], turn);
            const name = this.scene.label(String(one.number), "object");
            if (name) this.#text("NAME", name, [x, y + 3.2], SIZES.object);
            this.#text("KILOMETRE", kilometres(one.place.metres.toString()), [x, y - 4.6], SIZES.object);
        }
    }

    /** puts a question mark between two tracks of which nothing says which lies above, where no name or sign is */
    putGaps() {
        const { drawing, station } = this.scene, taken = this.places();
        for (const { at } of gapsOf(drawing, station)) {
            const spots = at.map((spot) => this.#at(spot)), isFree = (/** @type {Spot} */ [x, y]) =>
                !taken.some(([u, v]) => Math.abs(x - u) < AROUND && Math.abs(y - v) < AROUND);
            const [x, y] = spots.find(isFree) ?? spots[0];
            this.#text("GAP", "?", [x, y - GAP * CAP / MM / 2], GAP);
        }
    }

    /** @returns {Spot[]} where texts and points of signs are by now */
    places() {
        return this.codes.flatMap(([code, x], at) => (code === 11 || code === 10 ? [/** @type {Spot} */ ([Number(x), Number(this.codes[at + 1][1])])] : []));
    }

    putSignals() {
        for (const signal of this.scene.signals) {
            const [x, level] = this.#at(signal.point);
            const y = heightAt(x, this.scene.drawing.edges[signal.edge].points.map((it) => this.#at(it))) ?? level;
            const way = this.scene.station.headsEast(signal) === false ? -1 : 1;
            const side = this.scene.isLeft ? way : -way;
            this.#line("SIGNAL", [[x, y + 1.2 * side], [x, y + 3.6 * side]]);
            this.#line("SIGNAL", [[x, y + 2.4 * side], [x + 2 * way, y + 2.4 * side]]);
            this.#sign("SIGNAL", headSign(this.scene.station.signalKind(signal.name)), [x + 3 * way, y + 2.4 * side]);
            this.#text("NAME", this.scene.label(signal.name, "signal"), [x, y + (side > 0 ? 4.2 : -6.2)], SIZES.signal);
        }
    }
}

/** @type {(spot: Spot, turn: number) => Spot} a place of a sign in millimetres, where y rises, turned */
const inMillimetres = ([x, y], turn) => [(x * Math.cos(turn) - y * Math.sin(turn)) / MM, -(x * Math.sin(turn)
    + y * Math.cos(turn)) / MM];

/** @type {(points: Spot[]) => number} how many columns a line is over */
const across = (points) => points[points.length - 1][0] - points[0][0];

/** @type {(points: Spot[]) => [Spot, Spot]} the longest piece of a line */
const longest = (points) => neighbours(points).reduce((best, it) => across(it) > across(best) ? it : best);

/** @type {(edge: Edge, from: number, to: number) => number[]} the columns at which a part of a piece begins, turns and ends */
function columnsOver({ points }, from, to) {
    const [low, high] = [Math.max(from, points[0][0]), Math.min(to, points[points.length - 1][0])];
    return low > high ? [] : [low, ...points.map(([x]) => x).filter((x) => low < x && x < high), high];
}

/** @returns {Code[]} one line type and the layers */
function tables() {
    return [[0, "SECTION"], [2, "HEADER"], [9, "$ACADVER"], [1, "AC1009"], [9, "$INSUNITS"], [70, 4], [0, "ENDSEC"],
        [0, "SECTION"], [2, "TABLES"], [0, "TABLE"], [2, "LTYPE"], [70, 1], [0, "LTYPE"], [2, "CONTINUOUS"], [70, 0],
        [3, "Solid line"], [72, 65], [73, 0], [40, "0.0"], [0, "ENDTAB"], [0, "TABLE"], [2, "LAYER"], [70, LAYERS.length],
        ...LAYERS.flatMap(([name, colour]) => /** @type {Code[]} */ (
            [[0, "LAYER"], [2, name], [70, 0], [62, colour], [6, "CONTINUOUS"]])),
        [0, "ENDTAB"], [0, "ENDSEC"], [0, "SECTION"], [2, "ENTITIES"]];
}

/**
 * The whole text, with the codes of DXF and their values on lines of their own.
 * @param {Scene} scene
 * @param {Picture} picture
 * @returns {string}
 */
export function dxf(scene, picture) {
    const entities = new Entities(scene, picture);
    entities.putTracks();
    entities.putNodes();
    entities.putSignals();
    entities.putObjects();
    entities.putGaps();
    /** @type {Code[]} */
    const codes = [...tables(), ...entities.codes, [0, "ENDSEC"], [0, "EOF"]];
    return codes.map(([code, value]) => `${code}\r\n${value}\r\n`).join("");
}
