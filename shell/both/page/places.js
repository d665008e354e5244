/**
 * Where names are written: beside what they name, on no line, no sign and no other name.
 *
 * Each name has places around its sign, or those along its track. Where lines and other names leave none free, a neighbour
 * makes room, the name is turned, lies farther off on a thin line, or is shortened. All names of one class have letters of one
 * height.
 */
import { Line, Name, mayCross } from "./field.js";
import { fixed } from "./numbers.js";
import { ASCENT, heightOf, shortened, widthOf } from "./widths.js";

/** @typedef {import("./field.js").Box} Box */
/** @typedef {import("./field.js").Field} Field */
/** @typedef {import("./columns.js").Spot} Spot */
/** @typedef {"node" | "track" | "signal" | "object"} Kind */
/** @typedef {[number, number, number]} Level a level piece: its height, and where it begins and ends */
/** @typedef {object} Wish a name that wants a place: its places near by, and the point from which a thin line would lead
 * @property {string} owner
 * @property {Kind} kind
 * @property {string} whole
 * @property {Spot} point
 * @property {(text: string, size: number) => Name[]} near
 * @property {Spot} half how far its sign reaches aside and apart
 * @property {Spot} [anchor] */

export const SIZES = { node: 11.5, track: 10.5, signal: 10.5, object: 10 };
export const LONGEST = { node: 150, track: 190, signal: 120, object: 90 };
const GAP = 1.4;
// the directions of thin lines
const DIRECTIONS = Array.from({ length: 24 }, (_, step) => {
    const angle = 2 * Math.PI * step / 24;
    const [across, up] = [Math.cos(angle), Math.sin(angle)];
    return { across, up, side: Number(fixed(across, 3)), end: Number(fixed(up, 3)) };
});

/** A name has no place in a picture of this width and height. */
export class NoPlace extends Error {}

/**
 * @param {number} first
 * @param {number} end
 * @param {number} step
 * @returns {number[]}
 */
function range(first, end, step) {
    return Array.from({ length: Math.ceil((end - first) / step) }, (_, at) => first + at * step);
}

/** @type {(text: string, size: number) => Spot} the width and height of a text */
const extent = (text, size) => [widthOf(text, size), heightOf(size)];

/**
 * A wish's text with the left and the upper side of its box.
 * @param {Wish} wish
 * @param {string} text
 * @param {number} size
 * @param {Spot} corner
 * @param {{isTurned?: boolean, leader?: Line, anchor?: Spot}} how
 * @returns {Name}
 */
function nameAt(wish, text, size, [left, top], { isTurned = false, leader, anchor } = {}) {
    const [along, across] = extent(text, size);
    const [width, height] = isTurned ? [across, along] : [along, across];
    return new Name(wish, text, size, [left, top, left + width, top + height], isTurned, leader,
        anchor ?? wish.anchor ?? wish.point);
}

/**
 * Where the name's text begins: the left end of its base line, before it is turned.
 * @param {Name} name
 * @returns {Spot}
 */
export function foot({ box: [left, top, , bottom], size, isTurned }) {
    return isTurned ? [left + size * ASCENT, bottom] : [left, top + size * ASCENT];
}

/**
 * The corners of boxes of this size around a sign: above, below, at the corners, and on both sides, there also farther off,
 * where two lines that cross make room.
 * @param {Wish} wish
 * @param {number} width
 * @param {number} height
 * @returns {Map<string, Spot>}
 */
function around({ point: [x, y], half: [aside, apart] }, width, height) {
    const [over, under, level] = [y - apart - GAP - height, y + apart + GAP, y - height / 2];
    return new Map([["above", [x - width / 2, over]], ["below", [x - width / 2, under]],
        ["above left", [x - 2 - width, over]], ["above right", [x + 2, over]],
        ["below left", [x - 2 - width, under]], ["below right", [x + 2, under]],
        ["left", [x - aside - 4 - width, level]], ["right", [x + aside + 4, level]],
        ["far left", [x - aside - 11 - width, level]], ["far right", [x + aside + 11, level]]]);
}

/**
 * The places around a sign that a text may have, those that are preferred first.
 * @param {Wish} wish
 * @param {string} text
 * @param {number} size
 * @param {string[]} [first]
 * @returns {Name[]}
 */
export function besideSign(wish, text, size, first = []) {
    const places = around(wish, ...extent(text, size));
    const order = new Set([...first, ...places.keys()]);
    return [...order].map((it) => nameAt(wish, text, size, /** @type {Spot} */ (places.get(it))));
}

/**
 * A text that is turned, above and below its point.
 * @param {Wish} wish
 * @param {string} text
 * @param {number} size
 * @returns {Name[]}
 */
function upright(wish, text, size) {
    const [width, height] = extent(text, size);
    return [...around(wish, height, width).values()].slice(0, 6).map((it) => nameAt(wish, text, size, it, { isTurned: true }));
}

/**
 * A text above and below level pieces, from the middle of each to its ends.
 * @param {Wish} wish
 * @param {Level[]} pieces
 * @param {string} text
 * @param {number} size
 * @returns {Name[]}
 */
export function along(wish, pieces, text, size) {
    const [width, height] = extent(text, size);
    return pieces.flatMap(([y, left, right]) => {
        const room = right - left - width;
        if (room < 4) return [];
        const steps = Math.floor(room / 2 / 7);
        const shifts = Array.from({ length: 2 * steps + 1 }, (_, at) => Math.ceil(at / 2) * (at % 2 ? -7 : 7));
        return shifts.flatMap((shift) => {
            const middle = (left + right) / 2 + shift;
            return [y - 3.4 - height, y + 3.4].map((top) =>
                nameAt(wish, text, size, [middle - width / 2, top], { anchor: [middle, y] }));
        });
    });
}

/**
 * A text on both sides of a sloping piece, at its middle and nearer to its ends.
 * @param {Wish} wish
 * @param {[Spot, Spot][]} slopes
 * @param {string} text
 * @param {number} size
 * @returns {Name[]}
 */
export function beside(wish, slopes, text, size) {
    const [width, height] = extent(text, size);
    return slopes.flatMap(([[x, y], [u, v]]) => [0.5, 0.36, 0.64, 0.22, 0.78].flatMap((part) => {
        const [across, down] = [x + part * (u - x), y + part * (v - y)];
        const aside = (height / 2 + 2.4) * Math.abs((u - x) / (v - y)) + 3.5;
        return [across + aside, across - aside - width].map((left) =>
            nameAt(wish, text, size, [left, down - height / 2], { anchor: [across, down] }));
    }));
}

/**
 * A text farther off, with a thin line from its point; the best such places by their distance and the lines that are crossed.
 * @param {Wish} wish
 * @param {Field} field
 * @param {string} text
 * @param {number} size
 * @param {number[]} radii
 * @returns {Name[]}
 */
function led(wish, field, text, size, radii) {
    /** @type {{cost: number, name: Name}[]} */
    const found = [];
    let first = 0;
    for (const radius of radii) {
        for (const direction of DIRECTIONS) {
            const one = ledTo(wish, field, text, size, radius, direction);
            if (!one) continue;
            first ||= radius;
            found.push(one);
        }
        if (found.length && radius > first + 30) break;
    }
    return found.sort((one, other) => one.cost - other.cost).map((it) => it.name);
}

/**
 * A text at a distance from its point, in a direction, if that place is free, and its cost.
 * @param {Wish} wish
 * @param {Field} field
 * @param {string} text
 * @param {number} size
 * @param {number} radius
 * @param {{across: number, up: number, side: number, end: number}} direction
 * @returns {{cost: number, name: Name} | null}
 */
function ledTo(wish, field, text, size, radius, { across, up, side, end }) {
    const [width, height] = extent(text, size);
    const [[x, y], own] = [wish.point, Math.max(...wish.half)];
    const left = x + radius * across - width / 2 + width / 2 * side;
    const top = y - radius * up - height / 2 - height / 2 * end;
    /** @type {Box} */
    const box = [left, top, left + width, top + height];
    const [u, v] = [Math.min(Math.max(x, box[0]), box[2]), Math.min(Math.max(y, box[1]), box[3])];
    const far = Math.sqrt((x - u) ** 2 + (y - v) ** 2);
    if (far <= own + 2 || field.isHit(box)) return null;
    /** @type {(way: number) => Spot} */
    const at = (way) => [x + (u - x) * way / far, y + (v - y) * way / far];
    const leader = new Line(at(own - 0.5), at(far - 1.5), 0.3, wish.owner);
    const met = field.metBy(leader);
    if (!met.every((thing) => mayCross(leader, thing))) return null;
    return { cost: far + 14 * met.length + (Math.abs(across) < 0.2 ? 5 : 0),
        name: nameAt(wish, text, size, [left, top], { leader }) };
}

/**
 * What is tried where nothing near by is free, one after another.
 * @param {Wish} wish
 * @param {Field} field
 * @param {number} step the height of a row
 * @returns {IterableIterator<Name>}
 */
function* farther(wish, field, step) {
    const size = SIZES[wish.kind];
    const text = shortened(wish.whole, size, LONGEST[wish.kind]);
    if (wish.kind !== "track" && widthOf(text, size) < 1.6 * step) yield* upright(wish, text, size);
    yield* led(wish, field, text, size, range(14, 100, 9));
    for (const part of [0.75, 0.5, 0.35]) {
        const short = shortened(wish.whole, size, part * widthOf(text, size));
        yield* wish.near(short, size);
        yield* led(wish, field, short, size, range(14, 80, 9));
    }
    yield* led(wish, field, text, size, range(100, 1500, 21));
}

/**
 * The first that is free, or nothing.
 * @param {Field} field
 * @param {Iterable<Name>} names
 * @returns {Name | undefined}
 */
function firstFree(field, names) {
    for (const name of names) if (field.isFree(name)) return name;
    return undefined;
}

/**
 * Sets a name where one other is, if that one has another free place.
 * @param {Field} field
 * @param {Map<string, Name>} names
 * @param {Map<string, Name[]>} choices
 * @param {Name} name
 * @returns {boolean}
 */
function makeRoom(field, names, choices, name) {
    const [other, more] = field.hits(name.box);
    if (!(other instanceof Name) || more || field.left > name.box[0] || field.right < name.box[2]) return false;
    field.remove(other);
    field.add(name);
    const free = firstFree(field, choices.get(other.owner) ?? []);
    if (free) {
        field.add(free);
        names.set(other.owner, free);
        names.set(name.owner, name);
        return true;
    }
    field.remove(name);
    field.add(other);
    return false;
}

/**
 * A place for each name, by what it names; those with the fewest free places choose first. Where it is crowded a name without a
 * place near by has none.
 * @param {Field} field
 * @param {Wish[]} wishes
 * @param {number} step the height of a row
 * @param {{mayLack?: (wish: Wish) => boolean, isCrowded?: boolean}} how
 * @returns {Map<string, Name>}
 */
export function place(field, wishes, step, { mayLack = () => false, isCrowded = false } = {}) {
    /** @type {Map<string, Name>} */
    const names = new Map();
    const choices = new Map(wishes.map((wish) => {
        const size = SIZES[wish.kind];
        const near = wish.near(shortened(wish.whole, size, LONGEST[wish.kind]), size);
        return [wish.owner, near.filter((it) => field.isFree(it))];
    }));
    /** @type {(wish: Wish) => Name[]} */
    const choicesOf = (wish) => choices.get(wish.owner) ?? [];
    const waiting = [...wishes].sort((one, other) => choicesOf(one).length - choicesOf(other).length).filter((wish) => {
        const free = firstFree(field, choicesOf(wish));
        if (!free) return !choicesOf(wish).some((name) => makeRoom(field, names, choices, name));
        names.set(wish.owner, free);
        field.add(free);
        return false;
    });
    for (const wish of waiting) {
        const found = isCrowded ? undefined : firstFree(field, farther(wish, field, step));
        if (found) {
            names.set(wish.owner, found);
            field.add(found);
        } else if (!isCrowded && !mayLack(wish)) throw new NoPlace(wish.whole);
    }
    return names;
}

