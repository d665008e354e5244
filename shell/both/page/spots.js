/**
 * Where objects lie in a picture: each on its own piece of track, between its neighbours there, and over no kilometre of the
 * axis
 * that isn't its own.
 *
 * A piece has places a pixel apart, strip after strip. An object wants to be where its kilometre is between those around it. It
 * keeps the order of its piece, away from signs and other lines. Of all choices of places the one with the least distances
 * is taken; where there isn't room for all, an object has no place.
 */
import { heightAt, neighbours } from "./columns.js";
import { Line } from "./field.js";

/** @typedef {import("./columns.js").Spot} Spot */
/** @typedef {import("./drawing.js").Scene} Scene */
/** @typedef {import("./pieces.js").Located} Located */
/** @typedef {import("./pieces.js").Place} Place */
/** @typedef {import("./strip.js").StripPlan} StripPlan */
/** @typedef {import("./texts.js").Edge} Edge */
/** @typedef {object} Item what wants a place on a piece
 * @property {string} key
 * @property {Located} one
 * @property {Place} place
 * @property {number} metres
 * @property {Spot} half how far its sign reaches along the track and aside; nothing of an end of a bar */
/** @typedef {{column: number, metres: number, isOwn: boolean, isTick: boolean}} Known a column with a kilometre: of a node or
 * signal
 * of the piece itself, of a tick of the axis, or of a node elsewhere */
/** @typedef {{plan: StripPlan, at: Spot, turn: number, column: number, index: number}} Slot a place that a sign may have */
/** @typedef {Map<string, Slot>} Found the places by the keys of items */

/** how close a sign comes to a column whose kilometre isn't its own, and to an end of a strip */
const BESIDE = 7;
const APART = 2;
const LACKS = 1e7;
const WRONG_SIDE = 1e4;

/** @type {(place: Place) => number} */
const metresOf = ({ metres }) => metres.toNumber();

/**
 * What wants a place, by the numbers of pieces, each list from west to east.
 * @param {Scene} scene
 * @returns {Map<number, Item[]>}
 */
export function itemsOf(scene) {
    /** @type {Map<number, Item[]>} */
    const found = new Map();
    for (const one of scene.pieces.located) {
        /** @type {[string, Place | null][]} */
        const ends = [[`o${one.number}`, one.place], [`f${one.number}`, one.far]];
        for (const [key, place] of ends) {
            if (!place) continue;
            const half = one.object.isLong ? /** @type {Spot} */ ([0.5, 0]) : scene.trackSign(one).half;
            found.set(place.edge, [...found.get(place.edge) ?? [], { key, one, place, metres: metresOf(place), half }]);
        }
    }
    for (const items of found.values()) {
        items.sort((one, other) => one.place.east.compare(other.place.east) || one.metres - other.metres
            || one.one.number - other.one.number);
    }
    return found;
}

/**
 * The columns over a piece whose kilometres are known, from the left: its own nodes and signals, ticks of the axis, and the
 * nodes
 * of other pieces, between which objects of all pieces get places that agree.
 * @param {Scene} scene
 * @param {Edge} edge
 * @returns {Known[]}
 */
export function knownColumns(scene, edge) {
    const { nodes } = scene.drawing, [west, east] = [nodes[edge.west], nodes[edge.east]];
    /** @type {Known[]} */
    const own = [west, east].map((it) => ({ column: it.point[0], metres: Number(it.mileage), isOwn: true, isTick: false }));
    for (const signal of scene.signals.filter((it) => it.edge === edge.number)) {
        own.push({ column: signal.point[0], metres: scene.station.signalMileage(signal.name)?.toNumber() ?? NaN, isOwn: true,
            isTick: false });
    }
    const isOver = (/** @type {number} */ column) => west.point[0] <= column && column <= east.point[0];
    const ticks = [...scene.ticks].filter(([column]) => isOver(column))
        .map(([column, km]) => ({ column, metres: 1000 * Number(km), isOwn: false, isTick: true }));
    const others = nodes.filter(({ point: [column] }) => isOver(column) && !scene.ticks.has(column))
        .map(({ point: [column], mileage }) => ({ column, metres: Number(mileage), isOwn: false, isTick: false }));
    return [...own, ...ticks, ...others].filter((it) => Number.isFinite(it.metres))
        .sort((one, other) => one.column - other.column || one.metres - other.metres);
}

/** @type {(one: number, other: number) => boolean} whether two mileages are written as one kilometre */
const areSame = (one, other) => Math.abs(one - other) < 1e-6;

/**
 * Between which two known columns an item belongs: the last that isn't beyond it, and the first beyond it.
 * @param {Item} item
 * @param {Known[]} columns
 * @returns {[Known, Known]}
 */
export function between(item, columns) {
    const own = columns.filter((it) => it.isOwn), isBefore = (/** @type {Known} */ it) => it.metres <= item.metres
        || areSame(it.metres, item.metres);
    const low = [...columns].reverse().find(isBefore) ?? own[0];
    return [low, columns.find((it) => it.column > low.column && !isBefore(it)) ?? own[own.length - 1]];
}

/** One piece of track in all strips. */
class Piece {
    /** @param {Scene} scene @param {Edge} edge @param {StripPlan[]} plans */
    constructor(scene, edge, plans) {
        this.scene = scene;
        this.edge = edge;
        this.columns = knownColumns(scene, edge);
        /** @type {Slot[]} */
        this.slots = [];
        /** @type {Map<StripPlan, number>} where each strip's places begin among all */
        this.begins = new Map();
        let index = 0;
        for (const plan of plans) {
            const line = plan.clipped(edge).map((it) => plan.at(it));
            if (line.length < 2) continue;
            const [left, right] = [Math.max(line[0][0], plan.field.left + BESIDE), Math.min(line[line.length - 1][0],
                plan.field.right - BESIDE)];
            this.begins.set(plan, index - Math.ceil(left));
            for (let x = Math.ceil(left); x <= right; x += 1) {
                this.slots.push({ plan, at: [x, heightAt(x, line) ?? line[0][1]], turn: turnAt(x, line),
                    column: plan.columnAt(x), index });
                index += 1;
            }
            index += 4 * BESIDE;
        }
    }

    /** @param {number} column @returns {number} where a column is among all places, as far as it can be there */
    #indexOf(column) {
        const plans = [...this.begins.keys()], plan = plans.find((it) => it.has(column))
            ?? plans.find((it) => column < it.strip.first) ?? plans[plans.length - 1];
        return plan ? (this.begins.get(plan) ?? 0) + plan.x(Math.max(plan.strip.low, Math.min(plan.strip.high, column))) : 0;
    }

    /**
     * @param {Item} item
     * @returns {(slot: Slot) => number} how well an item lies at a place; infinite where it can't be there
     */
    costs(item) {
        const own = this.columns.filter((it) => it.isOwn), ticks = this.columns.filter((it) => it.isTick && !areSame(it.metres,
            item.metres));
        const [west, east] = [own.filter((it) => it.metres < item.metres && !areSame(it.metres, item.metres)),
            own.filter((it) => it.metres > item.metres && !areSame(it.metres, item.metres))];
        const low = Math.max(-Infinity, ...west.map((it) => this.#indexOf(it.column))), high = Math.min(Infinity,
            ...east.map((it) => this.#indexOf(it.column)));
        const marks = ticks.map((it) => ({ index: this.#indexOf(it.column), isWest: it.metres < item.metres }));
        const [one, other] = between(item, this.columns), [from, to] = [one, other].map((it) => this.#indexOf(it.column));
        const part = other.metres > one.metres ? (item.metres - one.metres) / (other.metres - one.metres) : 0;
        const wanted = from + Math.max(0, Math.min(1, part)) * (to - from);
        return ({ index }) => {
            if (index <= low || index >= high || marks.some((it) => Math.abs(it.index - index) < BESIDE)) return Infinity;
            const wrong = marks.filter((it) => it.isWest !== it.index < index).length;
            return Math.abs(index - wanted) + WRONG_SIDE * wrong;
        };
    }

    /** @param {Item} item @param {Slot} slot @returns {boolean} whether its sign meets nothing there but its own line */
    isFree({ half }, { plan, at, turn }) {
        if (!half[1]) return true;
        const box = boxAt(at, half, turn), owner = `edge ${this.edge.number}`;
        return !plan.field.some(box, (it) => !(it instanceof Line && it.owner === owner) && it.meets(box));
    }

    /**
     * The places of items in their order, with the least costs.
     * @param {Item[]} items
     * @returns {Found}
     */
    place(items) {
        const count = (this.slots[this.slots.length - 1]?.index ?? 0) + 2 * BESIDE;
        /** @type {{costs: Float64Array, chosen: (Slot | null)[]}[]} */
        const steps = [];
        let before = new Float64Array(count);
        for (const item of items) {
            const costOf = this.costs(item), costs = before.map((it) => it + LACKS);
            /** @type {(Slot | null)[]} */
            const chosen = new Array(count).fill(null);
            for (const slot of this.slots) {
                const wide = reach(item, slot), [from, to] = [Math.max(0, slot.index - wide), Math.min(count - 1, slot.index
                    + wide)];
                const cost = before[from] + costOf(slot);
                if (cost >= costs[to] || !this.isFree(item, slot)) continue;
                costs[to] = cost;
                chosen[to] = slot;
            }
            for (let at = 1; at < count; at += 1) {
                if (costs[at - 1] >= costs[at]) continue;
                costs[at] = costs[at - 1];
                chosen[at] = chosen[at - 1];
            }
            steps.push({ costs, chosen });
            before = costs;
        }
        return this.#chosen(items, steps, count - 1);
    }

    /** @param {Item[]} items @param {{chosen: (Slot | null)[]}[]} steps @param {number} last @returns {Found} */
    #chosen(items, steps, last) {
        /** @type {Found} */
        const found = new Map();
        let end = last;
        for (let at = items.length - 1; at >= 0; at -= 1) {
            const slot = steps[at].chosen[end];
            if (!slot) continue;
            found.set(items[at].key, slot);
            end = Math.max(0, slot.index - reach(items[at], slot));
        }
        return found;
    }
}

/**
 * @type {(item: Item, slot: Slot) => number} how far a sign reaches from its middle to the east and west, with what keeps it
 * apart
 */
function reach({ half }, { at, turn }) {
    return Math.ceil(boxAt(at, half, turn)[2] - at[0] + APART / 2);
}

/** @type {(x: number, line: Spot[]) => number} the angle of a line at a place */
function turnAt(x, line) {
    const [[left, high], [right, low]] = neighbours(line).find(([[from], [to]]) => from <= x && x <= to) ?? [line[0], line[1]];
    return Math.atan2(low - high, right - left);
}

/**
 * The box around a sign that is turned as its line runs.
 * @param {Spot} at
 * @param {Spot} half
 * @param {number} turn
 * @returns {import("./field.js").Box}
 */
export function boxAt([x, y], [along, aside], turn) {
    const [across, down] = [Math.abs(Math.cos(turn)), Math.abs(Math.sin(turn))];
    const [wide, high] = [along * across + aside * down, along * down + aside * across];
    return [x - wide, y - high, x + wide, y + high];
}

/**
 * The places of all objects of a scene.
 * @param {Scene} scene
 * @param {StripPlan[]} plans
 * @param {(edge: number, found: Found) => void} put what is done with those of a piece, before the next one's
 */
export function placeObjects(scene, plans, put) {
    for (const [edge, items] of itemsOf(scene)) {
        put(edge, new Piece(scene, scene.drawing.edges[edge], plans).place(items));
    }
}
