/**
 * The lines, signs and names of a picture by where they are, to see what meets what.
 */

/** @typedef {import("./columns.js").Spot} Spot */
/** @typedef {[number, number, number, number]} Box its left, upper, right and lower side */
/** @typedef {Line | Sign | Name} Thing */

const CELL = 64;
const BESIDE = 3;
const CLOSE = 4;

/** @type {(one: Box, other: Box, across: number, down: number) => boolean} */
export const overlap = (one, other, across, down) => one[0] - across < other[2] && other[0] - across < one[2]
    && one[1] - down < other[3] && other[1] - down < one[3];

/** @type {(x: number, y: number) => number} the number of a square */
const squareAt = (x, y) => x * 0x100000 + y;

/** A piece of a line. */
export class Line {
    /** @param {Spot} start @param {Spot} end @param {number} [half] half its width @param {string} [owner] */
    constructor(start, end, half = 1.2, owner = "") {
        this.start = start;
        this.end = end;
        this.half = half;
        this.owner = owner;
        const [[x, y], [u, v]] = [start, end];
        /** @type {Box} */
        this.box = [Math.min(x, u) - half, Math.min(y, v) - half, Math.max(x, u) + half, Math.max(y, v) + half];
    }

    /** @param {Box} box @returns {boolean} */
    meets(box) {
        const reach = this.half + 1.2;
        const [[x, y], [u, v]] = [this.start, this.end];
        const [across, down, shift] = [u - x, v - y, (v - y) * x - (u - x) * y];
        const [up, under] = [across * (box[1] - reach), across * (box[3] + reach)];
        const [west, east] = [shift - down * (box[0] - reach), shift - down * (box[2] + reach)];
        const [one, two, three, four] = [up + west, under + west, up + east, under + east];
        return Math.min(one, two, three, four) <= 0 && Math.max(one, two, three, four) >= 0;
    }
}

/** What a box holds: a node's sign, a signal. */
export class Sign {
    /** @param {Box} box @param {string} owner */
    constructor(box, owner) {
        this.box = box;
        this.owner = owner;
    }

    /** @param {Box} box @returns {boolean} */
    meets(box) {
        return overlap(this.box, box, 0.5, 0.5);
    }
}

/** A text with its place; `whole` is the name where the text is shortened. */
export class Name {
    /**
     * @param {{owner: string, whole: string}} wish
     * @param {string} text
     * @param {number} size
     * @param {Box} box
     * @param {boolean} isTurned
     * @param {Line | undefined} leader a thin line to its point
     * @param {Spot} anchor its point
     */
    constructor({ owner, whole }, text, size, box, isTurned, leader, anchor) {
        this.owner = owner;
        this.whole = whole;
        this.text = text;
        this.size = size;
        this.box = box;
        this.isTurned = isTurned;
        this.leader = leader;
        this.anchor = anchor;
    }

    /** @param {Box} box @returns {boolean} */
    meets(box) {
        return overlap(this.box, box, BESIDE, 0.6);
    }

    /** @returns {number} how much is lost against the name in full beside its point */
    trouble() {
        const [[x, y], [u, v]] = this.leader ? [this.leader.start, this.leader.end] : [[0, 0], [0, 0]];
        const led = this.leader ? 4 + Math.floor(Math.hypot(x - u, y - v) / 60) : 0;
        return led + (this.isTurned ? 2 : 0) + (this.text === this.whole ? 0 : 3);
    }
}

/** The picture's things by the squares that they are in, between two limits. */
export class Field {
    /** @param {number} [left] @param {number} [right] */
    constructor(left = -Infinity, right = Infinity) {
        this.left = left;
        this.right = right;
        /** @type {Map<number, Thing[]>} */
        this.squares = new Map();
        /** @type {Set<Thing>} */
        this.all = new Set();
    }

    /** @param {Box} box @returns {number[]} */
    #squaresOf(box) {
        const found = [];
        for (let x = Math.floor(box[0] / CELL); x <= Math.floor(box[2] / CELL); x += 1) {
            for (let y = Math.floor(box[1] / CELL); y <= Math.floor(box[3] / CELL); y += 1) found.push(squareAt(x, y));
        }
        return found;
    }

    /** @param {Thing} thing */
    add(thing) {
        this.all.add(thing);
        for (const square of this.#squaresOf(thing.box)) {
            const there = this.squares.get(square);
            if (there) there.push(thing);
            else this.squares.set(square, [thing]);
        }
        if (thing instanceof Name && thing.leader) this.add(thing.leader);
    }

    /** @param {Thing} thing */
    remove(thing) {
        this.all.delete(thing);
        for (const square of this.#squaresOf(thing.box)) {
            this.squares.set(square, (this.squares.get(square) ?? []).filter((it) => it !== thing));
        }
        if (thing instanceof Name && thing.leader) this.remove(thing.leader);
    }

    /**
     * Whether a thing that is close to a box passes a test; what is in several squares is asked so often.
     * @param {Box} box
     * @param {(thing: Thing) => boolean} test
     * @returns {boolean}
     */
    some(box, test) {
        const [left, top, right, bottom] = [box[0] - CLOSE, box[1] - CLOSE, box[2] + CLOSE, box[3] + CLOSE];
        const [east, south] = [Math.floor(right / CELL), Math.floor(bottom / CELL)];
        for (let x = Math.floor(left / CELL); x <= east; x += 1) {
            for (let y = Math.floor(top / CELL); y <= south; y += 1) {
                const there = this.squares.get(squareAt(x, y));
                if (there?.some(({ box: one }, at) =>
                    one[0] < right && left < one[2] && one[1] < bottom && top < one[3] && test(there[at]))) return true;
            }
        }
        return false;
    }

    /** @param {Box} box @param {(thing: Thing) => boolean} test @returns {Thing[]} what is close to a box and passes a test */
    #found(box, test) {
        /** @type {Set<Thing>} */
        const found = new Set();
        this.some(box, (thing) => {
            if (test(thing)) found.add(thing);
            return false;
        });
        return [...found];
    }

    /** @param {Box} box @returns {boolean} whether a box meets anything, or reaches beyond a limit */
    isHit(box) {
        return box[0] < this.left || box[2] > this.right || this.some(box, (thing) => thing.meets(box));
    }

    /** @param {Box} box @returns {Thing[]} what a box meets */
    hits(box) {
        return this.#found(box, (thing) => thing.meets(box));
    }

    /** @param {Line} line @returns {Thing[]} what a thin line meets */
    metBy(line) {
        return this.#found(line.box, (thing) => thing instanceof Line ? crosses(thing, line) : line.meets(thing.box));
    }

    /** @param {Name} name @returns {boolean} */
    isFree(name) {
        const leader = name.leader;
        return !this.isHit(name.box) && (!leader || this.metBy(leader).every((thing) => mayCross(leader, thing)));
    }
}

/**
 * Whether a thin line may cross a thing: a line, its own sign, and one that lies where its own does.
 * @param {Line} leader
 * @param {Thing} thing
 * @returns {boolean}
 */
export function mayCross(leader, thing) {
    if (thing instanceof Line || thing.owner === leader.owner) return true;
    const [[x, y], box] = [leader.start, thing.box];
    return thing instanceof Sign && box[0] - 1 <= x && x <= box[2] + 1 && box[1] - 1 <= y && y <= box[3] + 1;
}

/** @param {Line} one @param {Line} other @returns {boolean} */
function crosses(one, other) {
    /** @type {(a: Spot, b: Spot, c: Spot) => number} */
    const side = (a, b, c) => (b[0] - a[0]) * (c[1] - a[1]) - (b[1] - a[1]) * (c[0] - a[0]);
    return side(one.start, one.end, other.start) * side(one.start, one.end, other.end) < 0
        && side(other.start, other.end, one.start) * side(other.start, other.end, one.end) < 0;
}
