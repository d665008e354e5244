/**
 * One strip of a drawing: its lines, signs and names. What is around them is in frame.js.
 */
import { kilometres } from "../messages/law_words.js";
import { BEYOND, Columns, heightAt, neighbours } from "./columns.js";
import { Field, Line, Name, Sign, overlap } from "./field.js";
import { addFrame, putLimits } from "./frame.js";
import { putGaps } from "./gaps.js";
import { element } from "./markup.js";
import { fixed, shown } from "./numbers.js";
import * as places from "./places.js";
import { bounds, joined, lineAt, movedTo, textAt, viewOf } from "./shapes.js";
import * as signs from "./signs.js";
import { edgeOf } from "./station.js";
import { widthOf } from "./widths.js";

/** @typedef {import("./columns.js").Spot} Spot */
/** @typedef {import("./columns.js").Strip} Strip */
/** @typedef {import("./drawing.js").Scene} Scene */
/** @typedef {import("./field.js").Box} Box */
/** @typedef {import("./markup.js").Element} Element */
/** @typedef {import("./places.js").Level} Level */
/** @typedef {import("./places.js").Wish} Wish */
/** @typedef {import("./texts.js").Edge} Edge */
/** @typedef {import("./texts.js").Node} Node */
/** @typedef {import("./texts.js").Signal} Signal */

// how far around a node a pointer finds it
const REACH = 9;
const RINGED = ["broken", "party", "moved", "new", "gone"];
const WAYS = new Map([[null, "of a way that isn't known"], [true, "for trains with rising kilometres"],
    [false, "for trains with falling kilometres"]]);

/** @type {(pieces: Level[]) => Level[]} the longest first */
const longestFirst = (pieces) => [...pieces].sort((one, other) => (one[1] - one[2]) - (other[1] - other[2])
    || inOrder(one, other));

/** @type {(one: Level, other: Level) => number} */
const inOrder = (one, other) => one[0] - other[0] || one[1] - other[1] || one[2] - other[2];

/**
 * Level pieces, those that meet on one row as one.
 * @param {Level[]} pieces
 * @returns {Level[]}
 */
function wholeRuns(pieces) {
    /** @type {Level[]} */
    const found = [];
    for (const [y, left, right] of [...pieces].sort(inOrder)) {
        const last = found[found.length - 1];
        if (last && last[0] === y && last[2] >= left) last[2] = Math.max(right, last[2]);
        else found.push([y, left, right]);
    }
    return found;
}

/**
 * What marks a node beside its colour: a square, a circle, or a cross.
 * @param {string} mark
 * @returns {Element}
 */
export function ring(mark) {
    if (mark === "broken") return element("rect", { class: "ring", x: -8, y: -8, width: 16, height: 16 });
    if (mark === "gone") return element("path", { class: "ring", d: "M-7,-7 L7,7 M-7,7 L7,-7" });
    if (mark === "new") return element("path", { class: "ring", d: "M0,-9 L9,0 L0,9 L-9,0 z" });
    return element("circle", { class: "ring", r: 8 });
}

/** A strip of a drawing with its columns. */
export class StripPlan {
    /**
     * @param {Scene} scene
     * @param {Columns} columns
     * @param {Strip} strip
     * @param {Set<string>} named the tracks that an earlier strip names
     * @param {boolean} [isCrowded] where it is crowded a name that finds no place is left out
     */
    constructor(scene, columns, strip, named, isCrowded = false) {
        this.scene = scene;
        this.columns = columns;
        this.strip = strip;
        this.named = named;
        this.isCrowded = isCrowded;
        this.field = new Field(strip.isCutWest ? this.x(strip.low) + 3 : -Infinity, strip.isCutEast ? this.x(strip.high) - 3
            : Infinity);
        /** @type {{lines: Element[], things: Element[], frame: Element[], grid: Element[]}} */
        this.parts = { lines: [], things: [], frame: [], grid: [] };
        /** @type {Map<string, Name>} */
        this.names = new Map();
        /** @type {Map<string, string>} */
        this.leftOut = new Map();
        /** @type {number[]} the columns of signals that lie on something */
        this.clashes = [];
        /** @type {Wish[]} names that want a place */
        this.wishes = [];
        /** @type {Wish[]} names of objects, which have none where there is no room */
        this.objectWishes = [];
        /** @type {Name[]} those that have a place */
        this.objectNames = [];
        /** @type {[number, string][]} the kilometres of objects at which the axis has ticks, by where they are */
        this.objectTicks = [];
        /** @type {Box} */
        this.box = [0, 0, 0, 0];
    }

    // ---- places

    /** @param {number} column @returns {number} */
    x(column) {
        return this.columns.x(column, this.strip);
    }

    /** @param {Spot} point @returns {Spot} */
    at([column, row]) {
        return [this.x(column), -row * this.columns.row];
    }

    /** @param {number} x @returns {number} the column at a place, or the part of a way between two */
    columnAt(x) {
        const { first, last } = this.strip;
        let column = first;
        while (column < last && this.x(column + 1) <= x) column += 1;
        const from = this.x(column);
        if (x < from) return first - (from - x) / (2 * BEYOND);
        return column + (x - from) / (column < last ? this.x(column + 1) - from : 2 * BEYOND);
    }

    /** @param {number} column @returns {boolean} */
    has(column) {
        return this.strip.first <= column && column <= this.strip.last;
    }

    /**
     * The points of an edge's line within the strip.
     * @param {Edge} edge
     * @returns {Spot[]}
     */
    clipped(edge) {
        /** @type {Spot[]} */
        const found = [];
        const { low, high } = this.strip;
        for (const [[x, y], [u, v]] of neighbours(edge.points)) {
            if (u < low || x > high || u === x) continue;
            for (const column of [Math.max(x, low), Math.min(u, high)]) found.push([column, y
                + (v - y) * (column - x) / (u - x)]);
        }
        return found.filter(([x, y], at) => !at || found[at - 1][0] !== x || found[at - 1][1] !== y);
    }

    /**
     * The column, of the grid, at which a name's point is.
     * @param {Name} name
     * @returns {number}
     */
    columnOf(name) {
        let column = this.strip.last;
        while (column > this.strip.first && this.x(column) > name.anchor[0] + 0.01) column -= 1;
        return column;
    }

    // ---- lines

    /** @param {Edge} edge */
    #putEdge(edge) {
        const { drawing, station, marks, key } = this.scene;
        const placed = this.clipped(edge).map((it) => this.at(it));
        if (placed.length < 2) return;
        const [kind, isMain] = [marks.edges.get(edge.number) ?? "", station.isMain(edge.track)];
        for (const [start, end] of neighbours(placed)) {
            this.field.add(new Line(start, end, kind ? 2.2 : isMain ? 1.8 : 1, `edge ${edge.number}`));
        }
        const points = signs.spots(placed);
        const [west, east] = [edge.west, edge.east].map((it) => station.both(drawing.nodes[it].name));
        const track = edge.track ? station.both(edge.track) : `edge ${edge.number}`;
        this.parts.lines.push(element("g", { "data-key": key("e", edge.number) },
            element("title", {}, `${track}, from ${west} to ${east}`), element("polyline", { class: "hit", points }),
            element("polyline", { class: joined("edge", isMain ? "main" : "", kind), points })));
    }

    /**
     * In which direction each of the edges leaves the node.
     * @param {string} side
     * @param {number[]} edges
     * @returns {number[]}
     */
    #directions(side, edges) {
        return edges.map((number) => {
            const points = this.scene.drawing.edges[number].points.map((it) => this.at(it));
            const [[x, y], [u, v]] = side === "east" ? points : points.reverse();
            return Math.atan2(v - y, u - x);
        });
    }

    // ---- signs of nodes

    /**
     * The side of a node on which there is nothing, where one line alone ends at it.
     * @param {number} number
     * @returns {"left" | "right" | null}
     */
    #outside(number) {
        const met = this.scene.drawing.edges.filter((it) => it.west === number || it.east === number);
        return met.length === 1 ? (met[0].west === number ? "left" : "right") : null;
    }

    /** @param {Node} node @returns {string} */
    #saidOf(node) {
        const station = this.scene.station;
        const known = station.node(node.number);
        const legs = known?.legs ? `, legs on the ${edgeOf(known.legs)}, diverging to the ${known.side} side` : "";
        const km = node.mileage && node.mileage !== "-" ? `, km ${kilometres(node.mileage)}` : "";
        const [column, row] = node.point;
        const sign = station.signOf(node.number), leads = station.leadsTo(node.name) && `, to ${station.leadsTo(node.name)}`;
        const normal = station.normalLeg(node.number) && `, normally ${station.normalLeg(node.number)}`;
        return `${station.both(node.name)}: ${sign}${leads}${legs}${normal}${km}; column ${column}, row ${row}`;
    }

    /** @param {number} number @returns {number} */
    #slopeAt(number) {
        const edges = this.scene.drawing.edges;
        const one = edges.find((it) => it.west === number) ?? edges[0];
        return one ? this.#directions("east", [one.number])[0] : 0;
    }

    /** @param {Node} node @returns {signs.Drawn} */
    #signOf({ number }) {
        const station = this.scene.station;
        const [kind, known] = [station.signOf(number), station.node(number)];
        const legs = kind === "switch" && known ? this.#directions(known.legs, station.edgesAt(number, known.legs)) : [];
        const sign = signs.nodeSign(kind, this.#outside(number), legs, kind === "joint" ? this.#slopeAt(number) : 0);
        const normal = this.#normalSign(number);
        return normal ? { ...sign, parts: [...sign.parts, ...normal.parts], lines: [...sign.lines, ...normal.lines] } : sign;
    }

    /** @param {number} number @returns {signs.Drawn | null} the mark at the leg that is a switch's normal position */
    #normalSign(number) {
        const { station } = this.scene, [normal, legs] = [station.normalLeg(number), station.legs(number)];
        if (!normal || !legs) return null;
        const edges = normal === "straight" ? [legs.straight, legs.diverging] : [legs.diverging, legs.straight];
        const [leg, other] = this.#directions(station.node(number)?.legs ?? "", edges);
        return signs.normalSign(leg, other);
    }

    /** @param {Node} node @returns {Wish} */
    #putNode(node) {
        const [[x, y], side] = [this.at(node.point), this.#outside(node.number)];
        const mark = this.scene.marks.nodes.get(node.number) ?? "";
        const [sign, owner, isRinged] = [this.#signOf(node), `node ${node.number}`, RINGED.includes(mark)];
        const [aside, apart] = isRinged ? sign.half.map((it) => Math.max(9, it)) : sign.half;
        this.parts.things.push(element("g", { class: joined("sign node", mark), transform: movedTo([x, y]),
            "data-key": this.scene.key("n", node.number) }, element("title", {}, this.#saidOf(node)),
        element("circle", { class: "hit", r: REACH }), sign.parts, isRinged ? ring(mark) : null));
        this.field.add(new Sign([x - aside, y - apart, x + aside, y + apart], owner));
        for (const [[a, b], [c, d]] of sign.lines) this.field.add(new Line([x + a, y + b], [x + c, y + d], 0.6, owner));
        /** @type {Wish} */
        const wish = { owner, kind: "node", whole: this.scene.label(node.name, "node"), point: [x, y], half: [aside, apart],
            near: (text, size) => places.besideSign(wish, text, size, side ? [side] : []) };
        return wish;
    }

    // ---- signs of signals

    /** @param {Signal} signal @returns {Spot[]} the places through which a signal's line is drawn */
    #lineOf(signal) {
        return this.clipped(this.scene.drawing.edges[signal.edge]).map((it) => this.at(it));
    }

    /**
     * A signal's place on its line: where columns differ in width a line that rises or falls passes beside the grid's points.
     * @param {Signal} signal
     * @returns {Spot}
     */
    placeOf(signal) {
        const [x, y] = this.at(signal.point);
        return [x, heightAt(x, this.#lineOf(signal)) ?? y];
    }

    /**
     * The angle of the signal's line beside the signal, which lies west or east of its column.
     * @param {Signal} signal
     * @param {boolean} east
     * @returns {number}
     */
    #signalSlope(signal, east) {
        const x = this.x(signal.point[0]);
        const angles = neighbours(this.#lineOf(signal)).filter(([[left], [right]]) => left <= x && x <= right)
            .map(([[left, high], [right, low]]) => Math.atan2(low - high, right - left));
        return (east ? angles[angles.length - 1] : angles[0]) ?? 0;
    }

    /**
     * Notes the column of a signal that lies on another sign, or beside a level line on another line.
     * @param {number} column
     * @param {Box} box
     * @param {boolean} isLevel
     */
    seeClash(column, box, isLevel) {
        /** @type {Box} without the distance that names keep from lines */
        const shrunk = [box[0] + 2.6, box[1] + 2.6, box[2] - 2.6, box[3] - 2.6];
        const isHit = this.field.some(box, (it) => overlap(it.box, box, 0, 0)
            && (it instanceof Sign || isLevel && it instanceof Line && it.meets(shrunk)));
        if (isHit) this.clashes.push(column);
    }

    /** @param {Signal} signal @param {boolean | null} east @returns {string} */
    #saidOfSignal(signal, east) {
        const { station } = this.scene, mileage = station.signalMileage(signal.name);
        const km = mileage ? `, km ${kilometres(mileage.toString())}` : "", kind = station.signalKind(signal.name);
        return `${station.both(signal.name, true)}: ${kind} ${WAYS.get(east)}${km}; column ${signal.point[0]}`;
    }

    /**
     * A signal on its side of the track, turned as its line runs.
     * @param {Signal} signal
     * @returns {Wish}
     */
    #putSignal(signal) {
        const [[x, y], east] = [this.placeOf(signal), this.scene.station.headsEast(signal)];
        const { parts, corners } = signs.signalSign(east, this.scene.isLeft, this.scene.station.signalKind(signal.name));
        const turn = east === null ? 0 : this.#signalSlope(signal, east);
        this.parts.things.push(element("g", { class: "sign signal", transform: movedTo([x, y]),
            "data-key": this.scene.key("s", signal.number) }, element("title", {}, this.#saidOfSignal(signal, east)),
        element("g", { transform: turn && `rotate(${shown(turn * 180 / Math.PI)})` || null }, hitOf(corners), parts)));
        const [across, down] = [Math.cos(turn), Math.sin(turn)];
        const box = around(corners.map(([a, b]) => [x + a * across - b * down, y + a * down + b * across]));
        this.seeClash(signal.point[0], [box[0] + 0.5, box[1] + 0.5, box[2] - 0.5, box[3] - 0.5], !turn);
        const owner = `signal ${signal.number}`;
        this.field.add(new Sign(box, owner));
        const [left, top, right, bottom] = box;
        const first = [(top + bottom) / 2 > y ? "below" : "above", east ? "right" : "left", east ? "left" : "right"];
        /** @type {Wish} */
        const wish = { owner, kind: "signal", whole: this.scene.label(signal.name, "signal"), anchor: [x, y],
            point: [(left + right) / 2, (top + bottom) / 2], half: [(right - left) / 2, (bottom - top) / 2],
            near: (text, size) => places.besideSign(wish, text, size, first) };
        return wish;
    }

    // ---- names

    /** @returns {Wish[]} for each track a name along its longest level piece, or beside its slopes */
    #trackWishes() {
        /** @type {Map<string, [Spot, Spot][]>} */
        const tracks = new Map();
        for (const edge of this.scene.drawing.edges) {
            const pieces = neighbours(this.clipped(edge));
            if (edge.track !== null && pieces.length) tracks.set(edge.track, [...tracks.get(edge.track) ?? [], ...pieces]);
        }
        return [...tracks].map(([track, pieces]) => this.#trackWish(track, pieces));
    }

    /** @param {string} track @param {[Spot, Spot][]} pieces @returns {Wish} */
    #trackWish(track, pieces) {
        const own = pieces.filter(([one, other]) => one[1] === other[1])
            .map(([one, other]) => /** @type {Level} */ ([this.at(one)[1], this.at(one)[0], this.at(other)[0]]));
        const runs = wholeRuns(own).filter((run) => !own.some((it) => inOrder(it, run) === 0));
        const level = [...longestFirst(own), ...longestFirst(runs)];
        const slopes = pieces.filter(([one, other]) => one[1] !== other[1])
            .map(([one, other]) => /** @type {[Spot, Spot]} */ ([this.at(one), this.at(other)]));
        const [[y, left, right]] = level.length ? level : [[0, 0, 0]];
        const [[[a, b], [c, d]]] = slopes.length ? slopes : [[[0, 0], [0, 0]]];
        /** @type {Wish} */
        const wish = { owner: `track ${track}`, kind: "track", whole: this.scene.label(track, "track"), half: [1, 1],
            point: level.length ? [(left + right) / 2, y] : [(a + c) / 2, (b + d) / 2],
            near: (text, size) => {
                const hasRoom = level.length > 0 && right - left > widthOf(text, size) + 4;
                return [...places.along(wish, level, text, size), ...(hasRoom ? [] : places.beside(wish, slopes, text, size))];
            } };
        return wish;
    }

    /**
     * The mark of the node that a name is of.
     * @param {Wish} wish
     * @returns {string}
     */
    #markOf({ owner }) {
        return owner.startsWith("node ") ? this.scene.marks.nodes.get(Number(owner.slice(5))) ?? "" : "";
    }

    /** @param {Wish[]} wishes */
    #putNames(wishes) {
        /** @type {(wish: Wish) => boolean} */
        const mayLack = (wish) => wish.kind === "track" && (this.named.has(wish.owner) || this.strip.isCutEast);
        const first = new Set(wishes.filter((it) => this.isCrowded && !["", "other"].includes(this.#markOf(it))));
        for (const part of [[...first], wishes.filter((it) => !first.has(it))]) {
            const found = places.place(this.field, part, this.columns.row, { mayLack, isCrowded: this.isCrowded });
            for (const [owner, name] of found) this.names.set(owner, name);
        }
        for (const wish of wishes) {
            const name = this.names.get(wish.owner);
            if (name) this.parts.things.push(this.#nameOf(name, joined("name", wish.kind, this.#markOf(wish)),
                this.#keyOf(wish)));
            else this.leftOut.set(wish.owner, wish.whole);
        }
    }

    /** Writes the names of objects where there is room. */
    #putObjectNames() {
        const found = places.place(this.field, this.objectWishes, this.columns.row, { isCrowded: true });
        for (const wish of this.objectWishes) {
            const name = found.get(wish.owner), key = this.scene.key("o", Number(wish.owner.slice(7)));
            if (name) {
                this.objectNames.push(name);
                this.parts.things.push(this.#nameOf(name, "name object", key));
            } else this.leftOut.set(wish.owner, wish.whole);
        }
    }

    /** @param {Wish} wish @returns {string} the key of what a name is of; of a track that of its first edge */
    #keyOf({ kind, owner }) {
        const rest = owner.slice(kind.length + 1);
        const edge = this.scene.drawing.edges.find((it) => it.track === rest);
        return kind === "track" ? this.scene.key("e", edge?.number ?? 0) : this.scene.key(kind[0], Number(rest));
    }

    /**
     * A name, in a group at the point that it belongs to, so that it keeps its distance when the picture is enlarged.
     * @param {Name} name
     * @param {string} kind
     * @param {string} key
     * @returns {Element}
     */
    #nameOf(name, kind, key) {
        const [[u, v], [x, y]] = [name.anchor, places.foot(name)];
        /** @type {(spot: Spot) => Spot} */
        const apart = ([across, down]) => [across - u, down - v];
        return element("g", { class: "tag", transform: movedTo([u, v]), "data-key": key },
            name.text === name.whole ? null : element("title", {}, name.whole),
            name.leader ? lineAt("leader", apart(name.leader.start), apart(name.leader.end)) : null,
            textAt(name.text, apart([x, y]), name.size, kind, { isTurned: name.isTurned, more: { "data-name": name.owner } }));
    }

    // ---- the whole

    /** Finds a place for lines and signs; the names that these want wait for theirs. */
    laySigns() {
        const { drawing, marks, signals } = this.scene;
        putLimits(this);
        const isMarked = marks.edges;
        for (const edge of drawing.edges.filter((it) => !isMarked.has(it.number))) this.#putEdge(edge);
        for (const edge of drawing.edges.filter((it) => isMarked.has(it.number))) this.#putEdge(edge);
        this.wishes = [...drawing.nodes.filter((it) => this.has(it.point[0])).map((it) => this.#putNode(it)),
            ...signals.filter((it) => this.has(it.point[0])).map((it) => this.#putSignal(it))];
        putGaps(this);
    }

    /** @returns {Box} the box around all that has a place */
    bounds() {
        return bounds([...this.field.all].map((it) => it.box), [0, 0, 30, 30]);
    }

    /** Finds a place for lines and signs alone. */
    layBare() {
        this.laySigns();
        const [left, top, right, bottom] = this.bounds();
        this.box = [left - 6, top - 6, right + 6, bottom + 6];
    }

    /** Finds a place for all names and for what is around, where signs have theirs. */
    lay() {
        this.#putNames([...this.wishes, ...this.#trackWishes()]);
        this.#putObjectNames();
        addFrame(this);
        const [left, top, right, bottom] = this.bounds();
        this.box = [left - 18, top - 14, right + 8, bottom + 6];
    }

    /** @returns {Element} */
    svg() {
        const { grid, frame, lines, things } = this.parts;
        const [count, number] = [this.columns.strips.length, this.columns.strips.indexOf(this.strip) + 1];
        const part = count > 1 ? `, strip ${number} of ${count}` : "";
        return element("svg", { ...viewOf(this.box), class: "strip", role: "img",
            "aria-label": (this.scene.title || "the drawing") + part },
        element("g", { class: "grid" }, grid), element("g", { class: "frame" }, frame),
        element("g", { class: "lines" }, lines), element("g", { class: "things" }, things));
    }
}

/** @type {(corners: Spot[]) => Box} */
const around = (corners) => bounds(corners.map(([x, y]) => [x, y, x, y]));

/** @param {Spot[]} corners @returns {Element} where a pointer finds a signal */
export function hitOf(corners) {
    const [left, top, right, bottom] = around(corners);
    return element("rect", { class: "hit", x: shown(left), y: shown(top), width: shown(right - left),
        height: shown(bottom - top) });
}
