/**
 * What lies at tracks, drawn: a sign on its piece of track or a bar beside it, its name where there is room, and its kilometre
 * at
 * the axis where that is true of all that is over it.
 */
import { kilometres } from "../messages/law_words.js";
import { heightAt, neighbours } from "./columns.js";
import { Line, Sign } from "./field.js";
import { element } from "./markup.js";
import { shown } from "./numbers.js";
import * as places from "./places.js";
import { bounds, movedTo } from "./shapes.js";
import * as signs from "./signs.js";
import { between, boxAt, itemsOf, knownColumns, placeObjects } from "./spots.js";

/** @typedef {import("./columns.js").Demand} Demand */
/** @typedef {import("./columns.js").Spot} Spot */
/** @typedef {import("./drawing.js").Scene} Scene */
/** @typedef {import("./field.js").Box} Box */
/** @typedef {import("./pieces.js").Located} Located */
/** @typedef {import("./places.js").Wish} Wish */
/** @typedef {import("./spots.js").Slot} Slot */
/** @typedef {import("./strip.js").StripPlan} StripPlan */
/** @typedef {object} Laid where objects lie
 * @property {Map<number, number[]>} spots by their numbers the columns, between whole ones; of a bar those of both its ends
 * @property {Set<number>} lacking those for which there is no room
 * @property {number[]} worst the columns where room lacks */

/** how far a bar is from its track's middle, near and behind the room of signals, and how thick it is */
const ASIDE = [6.5, 15.5];
const THICK = 3.5;
/** what objects between two columns ask for at most, and beside a node and a column of another kilometre */
const MOST = 260;
const BESIDE_NODE = 16;
const BESIDE_COLUMN = 9;
/** how far two ticks of the axis are apart, and what is over a tick */
const TICKS_APART = 13;
const OVER = 7;

/**
 * The sign of an object on a track. The side to which a derailer derails is known where it is for trains that run as its track
 * does.
 * @param {Located} located
 * @returns {ReturnType<typeof signs.trackSign>}
 */
export function signOf(located) {
    const { object: { side }, place } = located, kind = kindOfSign(located);
    return signs.trackSign(kind, kind === "derailer" && place ? !place.isTurned : null, side === "left");
}

/** @param {Located} located @returns {string} the kind of its sign, as a legend has it */
export function kindOfSign({ object: { sign, direction, side } }) {
    return sign === "derailer" && !(direction === "up" && ["left", "right"].includes(side)) ? "derailer both" : sign;
}

/** @param {Scene} scene @param {number} number @returns {string} the name of an object; nothing where it has none */
export function labelOf({ station, pieces }, number) {
    const { id, name } = pieces.located[number].object;
    return station.labels === "name" ? station.shown(name.trim()) : station.shown(id);
}

/**
 * How far columns are to be from each other, for the objects between them.
 * @param {Scene} scene
 * @returns {IterableIterator<Demand>}
 */
export function* objectDemands(scene) {
    for (const [number, items] of itemsOf(scene)) {
        const edge = scene.drawing.edges[number], columns = knownColumns(scene, edge);
        const ends = [edge.west, edge.east].map((it) => scene.drawing.nodes[it].point[0]);
        /** @type {Map<string, {pair: [number, number], wide: number}>} */
        const gaps = new Map();
        for (const item of items) {
            const [{ column: low }, { column: high }] = between(item, columns), key = `${low} ${high}`;
            const beside = [low, high].reduce((sum, it) => sum + (ends.includes(it) ? BESIDE_NODE : BESIDE_COLUMN), 0);
            const gap = gaps.get(key) ?? { pair: [low, high], wide: beside };
            gap.wide += 2.4 * item.half[0] + 2;
            gaps.set(key, gap);
        }
        for (const { pair: [low, high], wide } of gaps.values()) yield [low, high, Math.min(wide, MOST)];
    }
}

/** @param {Scene} scene @param {Located} located @returns {string} */
function saidOf({ station }, { object: { id, name, kind, said }, place, far }) {
    const called = name.trim() && name !== id ? `${station.shown(name)} (${station.shown(id)})` : station.shown(id);
    const km = place ? `, km ${kilometres(place.metres.toString())}${far ? ` to ${kilometres(far.metres.toString())}` : ""}`
        : "";
    return `${called}: ${kind}${km}${said.length ? `; ${said.map((it) => station.shown(it)).join(", ")}` : ""}`;
}

/**
 * The sign of an object at its place.
 * @param {Scene} scene
 * @param {Located} located
 * @param {Slot} slot
 */
function putSign(scene, located, { plan, at, turn }) {
    const { parts, half } = signOf(located), [along, aside] = half;
    plan.parts.things.push(element("g", { class: "sign object", transform: movedTo(at), "data-key": scene.key("o",
        located.number) },
        element("title", {}, saidOf(scene, located)),
        element("g", { transform: Math.abs(turn) > 1e-6 ? `rotate(${shown(turn * 180 / Math.PI)})` : null },
            hitAround([-Math.max(5, along), -aside, Math.max(5, along), aside]), parts)));
    const box = boxAt(at, half, turn);
    plan.field.add(new Sign(box, `object ${located.number}`));
    wishName(scene, located, plan, box, at);
}

/** @param {Box} box @returns {import("./markup.js").Element} where a pointer finds a sign */
function hitAround([left, top, right, bottom]) {
    return element("rect", { class: "hit", x: shown(left), y: shown(top), width: shown(right - left),
        height: shown(bottom - top) });
}

/** @param {Scene} scene @param {Located} located @param {StripPlan} plan @param {Box} box @param {Spot} anchor */
function wishName(scene, { number }, plan, [left, top, right, bottom], anchor) {
    const whole = scene.label(String(number), "object");
    if (!whole) return;
    /** @type {Wish} */
    const wish = { owner: `object ${number}`, kind: "object", whole, anchor, point: [(left + right) / 2, (top + bottom) / 2],
        half: [(right - left) / 2, (bottom - top) / 2], near: (text, size) => places.besideSign(wish, text, size) };
    plan.objectWishes.push(wish);
}

// ---- bars

/**
 * The places of a bar's track in a strip, from one slot to the other.
 * @param {Scene} scene
 * @param {StripPlan} plan
 * @param {number[]} edges from west to east
 * @param {[Slot, Slot]} ends the west one and the east one
 * @param {StripPlan[]} plans
 * @returns {Spot[]}
 */
function alongTrack(scene, plan, edges, [west, east], plans) {
    const [at, first, last] = [plan, west.plan, east.plan].map((it) => plans.indexOf(it));
    if (at < first || at > last) return [];
    const from = at === first ? west.at[0] : -Infinity, to = at === last ? east.at[0] : Infinity;
    return edges.flatMap((number) => {
        const line = plan.clipped(scene.drawing.edges[number]).map((it) => plan.at(it));
        if (line.length < 2 || line[line.length - 1][0] < from || line[0][0] > to) return [];
        const low = Math.max(from, line[0][0]), high = Math.min(to, line[line.length - 1][0]);
        return [low, ...line.map(([x]) => x).filter((x) => low < x && x < high), high].map((x) =>
            /** @type {Spot} */ ([x, heightAt(x, line) ?? line[0][1]]));
    });
}

/** @type {(outline: Spot[]) => Box[]} the boxes around a bar's pieces */
const boxesOf = (outline) => neighbours(outline.slice(0, outline.length / 2)).map(([one, other], at) => {
    const [far, also] = [outline[outline.length - 1 - at], outline[outline.length - 2 - at]];
    return bounds([one, other, far, also].map(([x, y]) => /** @type {Box} */ ([x, y, x, y])));
});

/**
 * A bar beside its track, if there is room for it in all strips.
 * @param {Scene} scene
 * @param {Located} located
 * @param {StripPlan[]} plans
 * @param {[Slot, Slot]} ends that of its place and that of its other end
 * @returns {boolean}
 */
function putBar(scene, located, plans, ends) {
    const { number } = located, [west, east] = located.place?.isTurned ? [ends[1], ends[0]] : ends;
    const run = edgesBetween(scene, located);
    const own = run.map((it) => `edge ${it}`);
    const parts = plans.map((plan) => ({ plan, points: alongTrack(scene, plan, run, [west, east], plans) }))
        .filter(({ points }) => points.length > 1);
    const isFree = (/** @type {number} */ aside) => parts.every(({ plan, points }) =>
        boxesOf(signs.barSign(points, aside, THICK).outline).every((box) =>
            !plan.field.some(box, (it) => !(it instanceof Line && own.includes(it.owner)) && it.meets(box))));
    const aside = ASIDE.map((it) => isAbove(located) ? -it : it).find(isFree);
    if (aside === undefined || !parts.length) return false;
    for (const { plan, points } of parts) {
        const origin = plan === ends[0].plan ? ends[0].at : points[0];
        const near = points.map(([x, y]) => /** @type {Spot} */ ([x - origin[0], y - origin[1]]));
        plan.parts.things.push(element("g", { class: "sign object", transform: movedTo(origin), "data-key": scene.key("o",
            number) },
            element("title", {}, saidOf(scene, located)), signs.barSign(near, aside, THICK).parts));
        const boxes = boxesOf(signs.barSign(points, aside, THICK).outline);
        for (const box of boxes) plan.field.add(new Sign(box, `object ${number}`));
        if (plan === parts[0].plan) wishName(scene, located, plan, bounds(boxes), [points[0][0], points[0][1] + aside]);
    }
    return true;
}

/** @param {Located} located @returns {boolean} whether a bar is above its track */
export function isAbove({ object, place }) {
    return (object.side === "left") !== (place?.isTurned ?? false);
}

/** @param {Scene} scene @param {Located} located @returns {number[]} the pieces of a long object from west to east */
export function edgesBetween(scene, { object, place, far }) {
    const edges = scene.station.pieces(object.track), [one, other] = [place, far].map((it) => edges.indexOf(it?.edge ?? -1));
    const run = edges.slice(Math.min(one, other), Math.max(one, other) + 1);
    return place?.isTurned ? run.reverse() : run;
}

// ---- the whole

/**
 * Draws all objects of a scene, in strips whose lines and other signs have their places.
 * @param {Scene} scene
 * @param {StripPlan[]} plans
 * @returns {Laid}
 */
export function drawObjects(scene, plans) {
    /** @type {Map<string, Slot>} */
    const slots = new Map();
    const { located } = scene.pieces;
    placeObjects(scene, plans, (_, found) => {
        for (const [key, slot] of found) {
            slots.set(key, slot);
            const one = located[Number(key.slice(1))];
            if (!one.object.isLong) putSign(scene, one, slot);
        }
    });
    /** @type {Laid} */
    const laid = { spots: new Map(), lacking: new Set(), worst: [] };
    for (const one of located.filter((it) => it.place)) {
        const [slot, far] = [slots.get(`o${one.number}`), slots.get(`f${one.number}`)];
        const isLaid = slot && (!one.object.isLong || far && putBar(scene, one, plans, [slot, far]));
        if (slot && isLaid) laid.spots.set(one.number, [slot, ...far ? [far] : []].map((it) => it.column));
        else laid.lacking.add(one.number);
        if (!slot) laid.worst.push(scene.drawing.nodes[scene.drawing.edges[one.place?.edge ?? 0].east].point[0]);
    }
    setTicks(scene, plans, laid, slots);
    return laid;
}

/** @typedef {{strip: number, x: number, km: string, metres: number}} Over what is over the axis, with its kilometre */

/**
 * Gives objects ticks at the axis: where there is room, and nothing says another kilometre there or lies on the wrong side.
 * @param {Scene} scene
 * @param {StripPlan[]} plans
 * @param {Laid} laid
 * @param {Map<string, Slot>} slots
 */
function setTicks(scene, plans, laid, slots) {
    const { drawing, signals, station, pieces } = scene;
    const over = (/** @type {number} */ column, /** @type {string | null | undefined} */ mileage) =>
        plans.flatMap((plan, strip) =>
        plan.has(column) && /\d/.test(mileage ?? "") ? [{ strip, x: plan.x(column), km: kilometres(mileage ?? ""),
            metres: Number(mileage) }] : []);
    /** @type {Over[]} */
    const objects = [...slots].filter(([key]) => laid.spots.has(Number(key.slice(1)))).map(([key, { plan, at }]) => {
        const one = pieces.located[Number(key.slice(1))], metres = (key.startsWith("o") ? one.place
            : one.far)?.metres.toString() ?? "";
        return { strip: plans.indexOf(plan), x: at[0], km: kilometres(metres), metres: Number(metres) };
    }).sort((one, other) => one.strip - other.strip || one.x - other.x);
    const all = [...objects, ...drawing.nodes.flatMap((it) => over(it.point[0], it.mileage)),
        ...signals.flatMap((it) => over(it.point[0], station.signalMileage(it.name)?.toString()))];
    const taken = plans.map((plan) => [...scene.ticks.keys()].filter((it) => plan.has(it)).map((it) => plan.x(it)));
    for (const one of objects) {
        const isTrue = all.every((it) => it.strip === one.strip && Math.abs(it.x - one.x) < OVER ? it.km === one.km
            : (it.strip - one.strip || it.x - one.x) < 0 ? it.metres <= one.metres : it.metres >= one.metres);
        if (!isTrue || taken[one.strip].some((x) => Math.abs(x - one.x) < TICKS_APART)) continue;
        taken[one.strip].push(one.x);
        plans[one.strip].objectTicks.push([one.x, one.km]);
    }
}
