/**
 * The axis of kilometres below a strip, and what it says of its direction.
 *
 * A column has a tick where all that is in it, nodes and signals, has one known kilometre. Where it has several a tick would
 * be wrong of some of them, so there is none: the list of objects, and what each sign says, have every kilometre. Law 2 keeps
 * nodes in the order of their kilometres, but a signal's column follows from its own piece of track alone. So signals without
 * a node have a tick only where nothing on the left has a greater kilometre, and nothing on the right a smaller one. So have
 * other objects, where there is room.
 */
import { kilometres } from "../messages/law_words.js";
import { Sign } from "./field.js";
import { element } from "./markup.js";
import { SMALL, lineAt, movedTo, textAt } from "./shapes.js";
import { ASCENT, heightOf, widthOf } from "./widths.js";

/** @typedef {import("./columns.js").Spot} Spot */
/** @typedef {import("./drawing.js").Scene} Scene */
/** @typedef {import("./strip.js").StripPlan} StripPlan */
/** @typedef {{column: number, km: string, metres: number, isNode: boolean}} Located a node or a signal; without a kilometre
 * where none is known */

/** @type {Map<string, [string, string]>} what is written at the left and at the right end, by the edge at which east is */
const ENDS = new Map([["", ["", "km rising ▸"]], ["right", ["◂ West", "East ▸"]], ["left", ["◂ East", "West ▸"]]]);

/** @type {(column: number, mileage: string, isNode: boolean) => Located} */
const located = (column, mileage, isNode) => ({ column, km: /\d/.test(mileage) ? kilometres(mileage) : "",
    metres: Number(mileage), isNode });

/** @param {Scene} scene @returns {Located[]} */
function objectsOf({ drawing, signals, station }) {
    return [...drawing.nodes.map(({ point, mileage }) => located(point[0], mileage ?? "", true)),
        ...signals.map(({ point, name }) => located(point[0], station.signalMileage(name)?.toString() ?? "", false))];
}

/**
 * Whether all others are on the side on which their mileages belong.
 * @param {Located} one
 * @param {Located[]} others
 * @returns {boolean}
 */
function isInOrder({ column, metres }, others) {
    return others.every((it) => !it.km || it.column === column
        || (it.column < column ? it.metres <= metres : it.metres >= metres));
}

/**
 * The columns with a tick, from the left, each with its kilometre.
 * @param {Scene} scene
 * @returns {Map<number, string>}
 */
export function ticksOf(scene) {
    const objects = objectsOf(scene);
    /** @type {Map<number, Located[]>} */
    const columns = new Map();
    for (const it of objects) columns.set(it.column, [...columns.get(it.column) ?? [], it]);
    const marked = [...columns.values()].filter(([first, ...more]) => first.km && more.every(({ km }) => km === first.km))
        .filter((all) => all.some((it) => it.isNode) || isInOrder(all[0], objects));
    return new Map(marked.map(([{ column, km }]) => /** @type {[number, string]} */ ([column, km]))
        .sort(([one], [other]) => one - other));
}

/**
 * What keeps its size at a point of the frame.
 * @param {StripPlan} plan
 * @param {Spot} point
 * @param {...import("./markup.js").Element} parts
 */
export function putTag(plan, point, ...parts) {
    plan.parts.frame.push(element("g", { class: "tag", transform: movedTo(point) }, parts));
}

/**
 * The axis with its ticks and its direction.
 * @param {StripPlan} plan
 * @param {number} top
 */
export function putAxis(plan, top) {
    const [y, left, right] = [top + 22, plan.x(plan.strip.low), plan.x(plan.strip.high)];
    plan.parts.frame.push(lineAt("axis", [left, y], [right, y]));
    const ticks = [...plan.scene.ticks].filter(([column]) => plan.has(column));
    for (const [column, km] of ticks) putTick(plan, [plan.x(column), y], km);
    for (const [x, km] of plan.objectTicks) putTick(plan, [x, y], km);
    const [first, last] = /** @type {[string, string]} */ (ENDS.get(plan.scene.east));
    if (!plan.strip.isCutWest && first) putWord(plan, first, -20 - widthOf(first, SMALL), 4, [left, y]);
    if (!plan.strip.isCutEast) putWord(plan, last, 20, 4, [right, y]);
    if (!plan.strip.isCutWest && ticks.length) putWord(plan, "km", -20 - widthOf("km", SMALL), 24, [left, y]);
}

/** @param {StripPlan} plan @param {Spot} point @param {string} km */
function putTick(plan, [x, y], km) {
    const left = -heightOf(SMALL) / 2;
    const wide = widthOf(km, SMALL);
    plan.field.add(new Sign([x + left, y + 8, x - left, y + 8 + wide], "scale"));
    putTag(plan, [x, y], lineAt("tick", [0, 0], [0, 5]),
        textAt(km, [left + SMALL * ASCENT, 8 + wide], SMALL, "km", { isTurned: true }));
}

/**
 * A word beside an end of the axis.
 * @param {StripPlan} plan
 * @param {string} text
 * @param {number} aside
 * @param {number} below
 * @param {Spot} point
 */
function putWord(plan, text, aside, below, [x, y]) {
    putTag(plan, [x, y], textAt(text, [aside, below], SMALL, "compass"));
    plan.field.add(new Sign([x + aside, y + below - 12, x + aside + widthOf(text, SMALL), y + below + 4], "scale"));
}
