/**
 * A drawing as SVG: lines, signs, names, and an axis of kilometres below, in as many strips as the paper asks for.
 *
 * Kilometres rise from left to right. All texts of one class have letters of one height. A few layouts are tried, each with
 * wider columns where a name had no good place; the best is taken.
 */
import { ticksOf } from "./axis.js";
import { BESIDE_CUT, Columns, LEVEL, ROW, SLOPED, Strip, cut, lastColumn, lastRow, neighbours, positions, roomOn,
    slopedIntervals } from "./columns.js";
import { Element, element, flat } from "./markup.js";
import { byCharacters, shown } from "./numbers.js";
import { drawObjects, labelOf, objectDemands, signOf } from "./objects_drawn.js";
import { Pieces } from "./pieces.js";
import { LONGEST, NoPlace, SIZES } from "./places.js";
import { bounds, viewOf } from "./shapes.js";
import { StripPlan } from "./strip.js";
import { shortened, widthOf } from "./widths.js";

/** @typedef {import("./columns.js").Demand} Demand */
/** @typedef {import("./columns.js").Spot} Spot */
/** @typedef {import("./field.js").Box} Box */
/** @typedef {import("./places.js").Kind} Kind */
/** @typedef {import("./station.js").Station} Station */
/** @typedef {import("./texts.js").Drawing} Drawing */
/** @typedef {import("./texts.js").Signal} Signal */

const TRIES = 6;
const TALL = 1.35;
const WIDE = 3;
const FULL = 1.6;
// what a page needs above and below the rows: its heading, names at the outer rows, and the scale
const BESIDE_ROWS = 230;
// how close the columns and rows of a small picture are to those of others
const SMALL = 0.75;

/** What is marked, by number: parties of laws, and what moved, is new or gone; what each class means the style says. */
export class Marks {
    /** @param {Map<number, string>} [nodes] @param {Map<number, string>} [edges] */
    constructor(nodes = new Map(), edges = new Map()) {
        this.nodes = nodes;
        this.edges = edges;
        /** @type {Spot | null} the last column and row of a grid that is to be shown */
        this.limits = null;
    }
}

/** What is to be drawn, and how. */
export class Scene {
    /** @type {Map<number, string> | null} */
    #ticks = null;
    /** @type {Pieces | null} */
    #pieces = null;

    /**
     * @param {Drawing} drawing
     * @param {Station} station
     * @param {object} [how]
     * @param {Signal[]} [how.signals]
     * @param {Marks} [how.marks]
     * @param {boolean} [how.hasScale]
     * @param {boolean} [how.isLeft]
     * @param {string} [how.east] the edge at which east is, `left` or `right`; nothing where it isn't known
     * @param {string} [how.paper]
     * @param {number} [how.part] of the paper's width
     * @param {string} [how.title]
     * @param {(kind: string, number: number) => string} [how.key]
     */
    constructor(drawing, station, how = {}) {
        this.drawing = drawing;
        this.station = station;
        this.signals = how.signals ?? [];
        this.marks = how.marks ?? new Marks();
        this.hasScale = how.hasScale ?? true;
        this.isLeft = how.isLeft ?? false;
        this.east = how.east ?? "";
        this.paper = how.paper ?? "A3";
        this.part = how.part ?? 1;
        this.title = how.title ?? "";
        this.key = how.key ?? ((kind, number) => `${kind}${number}`);
    }

    /** @returns {Map<number, string>} the kilometres at which the axis has ticks, by their columns */
    get ticks() {
        return this.#ticks ??= ticksOf(this);
    }

    /** @returns {Pieces} the pieces of track on which objects lie */
    get pieces() {
        return this.#pieces ??= new Pieces(this.station, this.drawing, this.signals, this.hasScale);
    }

    /** @param {import("./pieces.js").Located} located @returns {ReturnType<typeof signOf>} the sign of an object on a track */
    trackSign(located) {
        return signOf(located);
    }

    /**
     * @param {string} id
     * @param {Kind} kind
     * @returns {string} what is written at a thing; at an end also where its line goes on
     */
    label(id, kind) {
        if (kind === "object") return labelOf(this, Number(id));
        const label = this.station.label(id, kind === "signal"), leads = kind === "node" ? this.station.leadsTo(id) : "";
        return leads && !label.includes(leads) ? `${label}, to ${leads}` : label;
    }

    /** @param {string} id @param {Kind} kind @returns {number} how wide the label is at most */
    labelWidth(id, kind) {
        const size = SIZES[kind];
        return widthOf(shortened(this.label(id, kind), size, LONGEST[kind]), size);
    }
}

/** The strips of a drawing, each an element; what was shortened in them or left out, and how well all of it is placed. */
export class Picture {
    /**
     * @param {StripPlan[]} plans
     * @param {Columns} columns
     * @param {{short?: [string, string][], leftOut?: string[], trouble?: number, objects?: import("./objects_drawn.js").Laid}}
     * how
     */
    constructor(plans, columns, { short = [], leftOut = [], trouble = 0, objects } = {}) {
        this.strips = plans.map((it) => it.svg());
        this.boxes = plans.map((it) => it.box);
        this.columns = columns;
        this.short = short;
        this.leftOut = leftOut;
        this.trouble = trouble;
        /** the columns at which objects lie, between whole ones, and those for which there is no room, by their numbers */
        this.spots = objects?.spots ?? new Map();
        this.lacking = objects?.lacking ?? new Set();
    }

    /** @returns {number} the width of the widest strip */
    width() {
        return Math.max(...this.boxes.map(([left, , right]) => right - left));
    }

    /**
     * Makes each strip so wide, with as much more room on the left as on the right.
     * @param {number} wide
     */
    widen(wide) {
        this.boxes.forEach(([left, top, right, bottom], at) => {
            const more = (wide - right + left) / 2;
            this.frame(at, [left - more, top, right + more, bottom]);
        });
    }

    /**
     * Gives a strip this frame.
     * @param {number} at
     * @param {Box} box
     */
    frame(at, box) {
        this.boxes[at] = box;
        Object.assign(this.strips[at].attributes, viewOf(box));
    }
}

/** @type {(one: [number, number], other: [number, number]) => number} */
const inOrder = (one, other) => one[0] - other[0] || one[1] - other[1];

/**
 * Things by their rows, each row in order.
 * @template K
 * @param {Iterable<[K, [number, number]]>} things each with its row, its column and its width
 * @returns {[number, number][][]}
 */
function rowsOf(things) {
    /** @type {Map<K, [number, number][]>} */
    const rows = new Map();
    for (const [row, thing] of things) rows.set(row, [...rows.get(row) ?? [], thing]);
    return [...rows.values()].map((it) => it.sort(inOrder));
}

/**
 * How far columns are to be from each other, for the names of what is on one row.
 * @param {Scene} scene
 * @returns {IterableIterator<Demand>}
 */
function* demands(scene) {
    const nodes = scene.drawing.nodes.map((it) => /** @type {[number, [number, number]]} */ (
        [it.point[1], [it.point[0], scene.labelWidth(it.name, "node") / 2]]));
    for (const row of rowsOf(nodes)) {
        for (const [[column, wide], [other, also]] of neighbours(row)) yield [column, other,
            Math.max(20, 0.62 * (wide + also) + 4)];
        for (const [[column, wide], [other, also]] of neighbours(row, 2)) yield [column, other, wide + also + 8];
    }
    const signals = scene.signals.map((it) => /** @type {[string, [number, number]]} */ (
        [`${it.point[1]} ${scene.station.headsEast(it)}`, [it.point[0], scene.labelWidth(it.name, "signal") / 2]]));
    for (const row of rowsOf(signals)) {
        for (const [[column, wide], [other, also]] of neighbours(row)) yield [column, other, Math.max(24, wide + also + 4)];
    }
    yield* trackDemands(scene);
    yield* objectDemands(scene);
}

/**
 * Room for each track's name along its longest level piece, up to some width.
 * @param {Scene} scene
 * @returns {IterableIterator<Demand>}
 */
function* trackDemands(scene) {
    /** @type {Map<string, [number, number]>} */
    const longest = new Map();
    for (const { track, points } of scene.drawing.edges) {
        for (const [[x, y], [u, v]] of neighbours(points)) {
            const [first, last] = track === null ? [0, 0] : longest.get(track) ?? [0, 0];
            if (y === v && track !== null && u - x > last - first) longest.set(track, [x, u]);
        }
    }
    for (const [track, [first, last]] of longest) {
        yield [first, last, Math.min(scene.labelWidth(track, "track"), 110) + 26];
    }
}

/**
 * What the names at the outer ends need on both sides.
 * @param {Scene} scene
 * @returns {Spot}
 */
function outerRoom(scene) {
    const last = lastColumn([scene.drawing]);
    /** @type {(column: number, least: number) => number} */
    const room = (column, least) => Math.max(least, ...scene.drawing.nodes.filter((it) => it.point[0] === column)
        .map((it) => scene.labelWidth(it.name, "node") + 34));
    return scene.hasScale ? [room(0, 84), room(last, 100)] : [room(0, 44), room(last, 44)];
}

/**
 * The columns that these scenes share, narrow where all is level, those that had trouble made wider, and all as wide as the
 * paper allows.
 * @param {Scene[]} scenes
 * @param {Map<number, number>} wider
 * @param {number} taller
 * @returns {Columns}
 */
export function layout(scenes, wider, taller) {
    const drawings = scenes.map((it) => it.drawing);
    const [wide, high] = roomOn(scenes[0].paper);
    const last = lastColumn(drawings);
    const each = drawings.map((it) => slopedIntervals(it, last));
    const sloped = Array.from({ length: last }, (_, at) => each.some((it) => it[at]));
    const steps = sloped.map((it, at) => (it ? SLOPED : LEVEL) * (wider.get(at) ?? 1));
    const at = positions(steps, scenes.flatMap((it) => [...demands(it)]));
    const sides = scenes.map(outerRoom);
    /** @type {Spot} */
    const outer = [Math.max(...sides.map(([west]) => west)), Math.max(...sides.map(([, east]) => east))];
    const room = wide * scenes[0].part;
    const grown = at[last] ? Math.max(1, Math.min(WIDE, (room - outer[0] - outer[1]) / at[last])) : 1;
    const each_ = (high - BESIDE_ROWS) / Math.max(1, ...drawings.map(lastRow));
    const columns = new Columns(at.map((x) => x * grown),
        Math.min(ROW * taller * Math.min(TALL, Math.max(1, grown * 0.8)), Math.max(ROW, each_)));
    columns.strips = cut(columns.at, sloped, room, outer);
    if (columns.strips.length > 1) columns.at = spread(columns, room, outer);
    return columns;
}

/**
 * The columns as wide as the widest strip allows.
 * @param {Columns} columns
 * @param {number} room
 * @param {Spot} outer
 * @returns {number[]}
 */
function spread(columns, room, outer) {
    const grown = columns.strips.map((strip) => {
        const wide = columns.at[strip.last] - columns.at[strip.first];
        const sides = (strip.isCutWest ? BESIDE_CUT : outer[0]) + (strip.isCutEast ? BESIDE_CUT : outer[1]);
        return wide ? (room - sides) / wide : FULL;
    });
    return columns.at.map((x) => x * Math.max(1, Math.min(FULL, ...grown)));
}

/**
 * The picture with these columns, and at which columns a name was placed badly; where it is crowded names may be left out.
 * @param {Scene} scene
 * @param {Columns} columns
 * @param {boolean} [isCrowded]
 * @returns {{picture: Picture, worst: number[]}}
 */
export function drawn(scene, columns, isCrowded = false) {
    /** @type {Set<string>} */
    const named = new Set();
    const plans = columns.strips.map((strip) => new StripPlan(scene, columns, strip, named, isCrowded));
    for (const plan of plans) plan.laySigns();
    const objects = drawObjects(scene, plans);
    for (const plan of plans) {
        plan.lay();
        for (const owner of plan.names.keys()) named.add(owner);
    }
    const lacking = scene.drawing.edges.find((it) => it.track !== null && !named.has(`track ${it.track}`));
    if (lacking && !isCrowded) throw new NoPlace(`track ${lacking.track}`);
    const names = plans.flatMap((plan) => [...plan.names.values()].map((name) => ({ plan, name })));
    const clashes = [...plans.flatMap((plan) => plan.clashes), ...objects.worst];
    const leftOut = new Map(plans.flatMap((plan) => [...plan.leftOut]).filter(([owner]) => !named.has(owner)));
    const written = [...names.map(({ name }) => name), ...plans.flatMap((plan) => plan.objectNames)];
    const short = new Map(written.filter((name) => name.text !== name.whole)
        .map((name) => [`${name.text}\n${name.whole}`, /** @type {[string, string]} */ ([name.text, name.whole])]));
    const trouble = names.reduce((sum, { name }) => sum + name.trouble(), 12 * (plans.length - 1) + 20 * clashes.length);
    const picture = new Picture(plans, columns, { trouble, objects, leftOut: [...leftOut.values()].sort(byCharacters),
        short: [...short.values()].sort((one, other) => byCharacters(one[0], other[0]) || byCharacters(one[1], other[1])) });
    const worst = names.filter(({ name }) => name.trouble()).map(({ plan, name }) => plan.columnOf(name));
    return { picture, worst: [...worst, ...clashes] };
}

/**
 * The picture of a drawing: the first in which all names are placed well, or else the best.
 * @param {Scene} scene
 * @returns {Picture}
 */
export function draw(scene) {
    return drawAlike([scene])[0];
}

/**
 * What is made; null where a name has no place.
 * @template T
 * @param {() => T} make
 * @returns {T | null}
 */
function ifPlaced(make) {
    try {
        return make();
    } catch (error) {
        if (error instanceof NoPlace) return null;
        throw error;
    }
}

/** @type {(pictures: Picture[]) => number} */
const troubleOf = (pictures) => pictures.reduce((sum, it) => sum + it.trouble, 0);

/**
 * The pictures of drawings, with the same columns, rows and frames, so that one can be laid over another.
 * @param {Scene[]} scenes
 * @returns {Picture[]}
 */
export function drawAlike(scenes) {
    /** @type {Picture[] | null} */
    let best = null;
    /** @type {Map<number, number>} */
    const wider = new Map();
    let taller = 1;
    const last = lastColumn(scenes.map((it) => it.drawing));
    for (let attempt = 0; attempt < TRIES; attempt += 1) {
        const found = ifPlaced(() => {
            const columns = layout(scenes, wider, taller);
            return scenes.map((it) => drawn(it, columns));
        });
        const pictures = found?.map((it) => it.picture);
        if (pictures && (!best || troubleOf(pictures) < troubleOf(best))) best = pictures;
        const worst = found ? found.flatMap((it) => it.worst) : Array.from({ length: last }, (_, at) => at);
        if (!worst.length) break;
        for (const at of new Set(worst.flatMap((it) => [it - 1, it]))) wider.set(at, (wider.get(at) ?? 1) * 1.3);
        taller *= 1.06;
    }
    const chosen = best ?? lastTries(scenes, wider);
    chosen[0].strips.forEach((_, at) => {
        const box = bounds(chosen.map((it) => it.boxes[at]));
        for (const picture of chosen) picture.frame(at, box);
    });
    return chosen;
}

/**
 * Much wider and taller layouts, for names that found no place; where that doesn't help either some names are left out.
 * @param {Scene[]} scenes
 * @param {Map<number, number>} wider
 * @returns {Picture[]}
 */
function lastTries(scenes, wider) {
    for (const factor of [2, 4, 8]) {
        const found = ifPlaced(() => {
            const columns = layout(scenes, new Map([...wider].map(([at, wide]) => [at, factor * wide])), factor);
            return scenes.map((it) => drawn(it, columns).picture);
        });
        if (found) return found;
    }
    return crowded(scenes);
}

/**
 * The pictures without the names that find no place near by.
 * @param {Scene[]} scenes
 * @returns {Picture[]}
 */
export function crowded(scenes) {
    const columns = layout(scenes, new Map(), 1);
    return scenes.map((it) => drawn(it, columns, true).picture);
}

/**
 * A picture to be seen beside others: in one strip, without names and scale, and with columns and rows close together.
 * @param {Scene} scene
 * @returns {Picture}
 */
export function small(scene) {
    const last = lastColumn([scene.drawing]);
    const steps = slopedIntervals(scene.drawing, last).map((it) => SMALL * (it ? SLOPED : LEVEL));
    const columns = new Columns(positions(steps, []), SMALL * ROW, [new Strip(0, last)]);
    const plan = new StripPlan(scene, columns, columns.strips[0], new Set());
    plan.layBare();
    return new Picture([plan], columns);
}

/**
 * An element without the broad lines that are there for pointers.
 * @param {Element} one
 * @returns {Element}
 */
function withoutHits(one) {
    const kept = flat(one.children).filter((it) => !(it instanceof Element) || it.attributes.class !== "hit");
    return element(one.tag, one.attributes, kept.map((it) => it instanceof Element ? withoutHits(it) : it));
}

/**
 * The strips as one SVG, with a style of its own, on white; its colours are those on paper.
 * @param {Picture} picture
 * @param {string} style
 * @param {string} title
 * @returns {Element}
 */
export function alone(picture, style, title) {
    let top = 0;
    const parts = picture.strips.map((strip, at) => {
        const [left, upper, right, lower] = picture.boxes[at];
        const inner = flat(strip.children).filter((it) => it instanceof Element && it.attributes.class !== "grid");
        const part = element("svg", { x: 0, y: shown(top), width: shown(right - left), height: shown(lower - upper),
            viewBox: strip.attributes.viewBox }, inner.map((it) => it instanceof Element ? withoutHits(it) : it));
        top += lower - upper + 12;
        return part;
    });
    const [width, height] = [shown(picture.width()), shown(top)];
    return element("svg", { xmlns: "http://www.w3.org/2000/svg", viewBox: `0 0 ${width} ${height}`, width, height },
        element("title", {}, title), element("style", {}, style.replace(/var\(--[a-z]+, ([^)]*)\)/g, "$1")),
        element("rect", { width, height, fill: "#fff" }), parts);
}
