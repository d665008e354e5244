/**
 * Where the grid's columns lie on paper: narrow where all is level, as wide as names ask for, and cut into strips where a
 * drawing is wider than the paper.
 */
/** @typedef {import("./texts.js").Drawing} Drawing */
/** @typedef {[number, number]} Spot a place in a picture */
/** @typedef {[number, number, number]} Demand over two columns: the least distance between them */

export const MM = 96 / 25.4;
/** @type {Map<string, Spot>} how wide and how high each paper is, in millimetres */
export const PAPERS = new Map([["A4", [297, 210]], ["A3", [420, 297]], ["A2", [594, 420]], ["A1", [841, 594]]]);
export const EDGE = 10;
export const LEVEL = 16;
export const SLOPED = 38;
export const ROW = 44;
/** how far a line goes on beyond the last column before a cut */
export const BEYOND = 30;
export const BESIDE_CUT = BEYOND + 26;

/**
 * How wide and how high a picture may be on a paper, in the units of pictures, which are pixels of 1/96 inch.
 * @param {string} paper
 * @returns {Spot}
 */
export function roomOn(paper) {
    const [wide, high] = /** @type {Spot} */ (PAPERS.get(paper));
    return [(wide - 2 * EDGE) * MM, (high - 2 * EDGE) * MM];
}

/** A part of a drawing from one column to another, and whether it is cut off from others there. */
export class Strip {
    /** @param {number} first @param {number} last @param {boolean} [isCutWest] @param {boolean} [isCutEast] */
    constructor(first, last, isCutWest = false, isCutEast = false) {
        this.first = first;
        this.last = last;
        this.isCutWest = isCutWest;
        this.isCutEast = isCutEast;
        this.low = first - (isCutWest ? 0.5 : 0);
        this.high = last + (isCutEast ? 0.5 : 0);
    }
}

/** The place of each column, and the height of a row. */
export class Columns {
    /** @param {number[]} at @param {number} row @param {Strip[]} [strips] */
    constructor(at, row, strips = []) {
        this.at = at;
        this.row = row;
        this.strips = strips;
    }

    /**
     * The place of a column, or of a place between columns, in a strip.
     * @param {number} column
     * @param {Strip} strip
     * @returns {number}
     */
    x(column, strip) {
        const left = this.at[strip.first];
        if (column < strip.first) return -2 * BEYOND * (strip.first - column);
        if (column > strip.last) return this.at[strip.last] - left + 2 * BEYOND * (column - strip.last);
        const whole = Math.min(Math.floor(column), this.at.length - 1);
        const part = column - whole;
        const step = part ? this.at[whole + 1] - this.at[whole] : 0;
        return this.at[whole] + part * step - left;
    }
}

/**
 * Each two neighbours of a list.
 * @template T
 * @param {readonly T[]} list
 * @param {number} [far] how far one is behind the other
 * @returns {[T, T][]}
 */
export function neighbours(list, far = 1) {
    return list.slice(far).map((it, at) => [list[at], it]);
}

/**
 * How high a line through these places is at another one; nothing where it doesn't reach so far.
 * @param {number} x
 * @param {Spot[]} placed
 * @returns {number | null}
 */
export function heightAt(x, placed) {
    for (const [[left, one], [right, other]] of neighbours(placed)) {
        if (left <= x && x <= right && left < right) return one + (other - one) * (x - left) / (right - left);
    }
    return null;
}

/** @param {Drawing} drawing @returns {[number, number][]} all points that a drawing has */
export function allPoints(drawing) {
    return [...drawing.nodes.map((it) => it.point), ...drawing.edges.flatMap((it) => it.points)];
}

/** @param {Drawing[]} drawings @returns {number} */
export function lastColumn(drawings) {
    return Math.max(0, ...drawings.flatMap(allPoints).map(([x]) => x));
}

/** @param {Drawing} drawing @returns {number} */
export function lastRow(drawing) {
    return Math.max(0, ...allPoints(drawing).map(([, y]) => y));
}

/**
 * For each two columns side by side whether a line rises or falls between them.
 * @param {Drawing} drawing
 * @param {number} last
 * @returns {boolean[]}
 */
export function slopedIntervals(drawing, last) {
    const found = new Array(last).fill(false);
    for (const edge of drawing.edges) {
        for (const [[x, y], [u, v]] of neighbours(edge.points)) if (y !== v) found.fill(true, Math.min(x, u), Math.max(x, u));
    }
    return found;
}

/**
 * The place of each column: as far from the one before as its step, and as far from others as is demanded.
 * @param {number[]} steps
 * @param {Iterable<Demand>} demands
 * @returns {number[]}
 */
export function positions(steps, demands) {
    /** @type {[number, number][][]} */
    const ending = [];
    for (const [first, last, far] of demands) if (first < last) (ending[last] ??= []).push([first, far]);
    const at = [0];
    steps.forEach((step, before) => {
        const far = (ending[before + 1] ?? []).map(([first, wide]) => at[first] + wide);
        at.push(Math.max(at[before] + step, ...far));
    });
    return at;
}

/**
 * The fewest strips of which each has room, cut where all is level, of about one width.
 * @param {number[]} at
 * @param {boolean[]} sloped
 * @param {number} room
 * @param {Spot} outer what is needed beside the first and the last column
 * @returns {Strip[]}
 */
export function cut(at, sloped, room, outer) {
    const last = at.length - 1;
    for (let count = 1; count <= last; count += 1) {
        const found = bestCuts(at, sloped, room, outer, count);
        if (found) return neighbours([-1, ...found, last]).map(([one, other]) =>
            new Strip(one + 1, other, one >= 0, other < last));
    }
    return [new Strip(0, last)];
}

/**
 * Behind which columns so many strips are cut; none where one of them would be too wide.
 * @param {number[]} at
 * @param {boolean[]} sloped
 * @param {number} room
 * @param {Spot} outer
 * @param {number} count
 * @returns {number[] | null}
 */
function bestCuts(at, sloped, room, outer, count) {
    const last = at.length - 1;
    const mean = at[last] / count;
    /** @type {Map<number, {cost: number, cuts: number[]}>} */
    let best = new Map([[-1, { cost: 0, cuts: [] }]]);
    for (let number = 0; number < count; number += 1) {
        /** @type {typeof best} */
        const further = new Map();
        for (const [before, { cost, cuts }] of best) {
            const left = before >= 0 ? BESIDE_CUT : outer[0];
            for (let end = number === count - 1 ? last : before + 1; end < last + (number === count - 1 ? 1 : 0); end += 1) {
                const width = at[end] - at[before + 1];
                if (end <= before || width + left + (end < last ? BESIDE_CUT : outer[1]) > room) continue;
                const total = cost + ((width - mean) / mean) ** 2 + (end < last && sloped[end] ? 0.4 : 0);
                const known = further.get(end);
                if (!known || total < known.cost) further.set(end, { cost: total, cuts: [...cuts, end] });
            }
        }
        best = further;
    }
    return best.get(last)?.cuts.slice(0, -1) ?? null;
}
