/**
 * Which tracks lie beside each other on one stretch of the line without anything that says which of them lies above. What lies
 * above what is said by switches and crossings, and follows from there on: of three pieces side by side the order of the outer
 * two follows from the middle one, and what passes a node above lies above all that meets there.
 */

/** @typedef {{track: string, west: string | number, east: string | number, from: number, to: number}} Piece a piece of track,
 * or a join between switches: its track's or connection's id, its nodes, and their mileages in metres */

/** so many pieces the program takes; of more nothing is said */
const MOST_PIECES = 160;

/** Pieces of a station, and what is known of which of them lies above which. */
class Sides {
    /** @param {Piece[]} pieces @param {[number, number][]} above */
    constructor(pieces, above) {
        this.pieces = pieces;
        /** @type {Set<number>[]} of each piece those that lie below it */
        this.below = pieces.map(() => new Set());
        /** @type {[number, number][]} */
        this.next = [];
        /** @type {number[][]} of each piece those that are beside it */
        this.beside = pieces.map((one, at) => pieces.flatMap((other, number) =>
            (number !== at && overlap(one, other) ? [number] : [])));
        above.forEach(([upper, lower]) => this.add(upper, lower));
        for (let pair = this.next.pop(); pair; pair = this.next.pop()) {
            this.follow(...pair);
        }
    }

    /** @param {number} upper @param {number} lower */
    add(upper, lower) {
        if (upper !== lower && !this.below[upper].has(lower) && overlap(this.pieces[upper], this.pieces[lower])) {
            this.below[upper].add(lower);
            this.next.push([upper, lower]);
        }
    }

    /** @param {number} upper @param {number} lower adds all that follows of it */
    follow(upper, lower) {
        this.beside[upper].filter((it) => this.below[it].has(upper)).forEach((it) => this.add(it, lower));
        this.beside[lower].filter((it) => this.below[lower].has(it)).forEach((it) => this.add(upper, it));
        this.around(upper, lower).forEach((it) => this.add(it, lower));
        this.around(lower, upper).forEach((it) => this.add(upper, it));
    }

    /** @param {number} piece @param {number} other @returns {number[]} what meets a piece at its ends that lie within another
     */
    around(piece, other) {
        const { west, east, from, to } = this.pieces[piece], span = this.pieces[other];
        const nodes = [...from > span.from ? [west] : [], ...to < span.to ? [east] : []];
        return this.pieces.flatMap((it, at) => (nodes.includes(it.west) || nodes.includes(it.east) ? [at] : []));
    }
}

/** @param {Piece} one @param {Piece} other @returns {boolean} whether both have more than one mileage in common */
function overlap(one, other) {
    return Math.max(one.from, other.from) < Math.min(one.to, other.to);
}

/** @param {Piece[]} pieces @returns {number[]} of each the first piece of those that it is joined to, over others too */
function groupsOf(pieces) {
    /** @type {Map<string | number, number>} */
    const first = new Map();
    const groups = pieces.map((_, at) => at), rootOf = (/** @type {number} */ at) => {
        while (groups[at] !== at) {
            at = groups[at];
        }
        return at;
    };
    pieces.forEach(({ west, east }, at) => [west, east].forEach((node) => {
        groups[rootOf(at)] = rootOf(first.get(node) ?? at);
        first.set(node, at);
    }));
    return groups.map((_, at) => rootOf(at));
}

/**
 * Pieces that lie beside each other, and of which nothing says which lies above.
 * @param {Piece[]} pieces @param {[number, number][]} above what the switches and crossings say: of each pair the first lies
 * above
 * @returns {[number, number][][]} of each two tracks the pairs of their pieces by number, the lower number first
 */
export function orderless(pieces, above) {
    if (pieces.length > MOST_PIECES) {
        return [];
    }
    const { below, beside } = new Sides(pieces, above);
    /** @type {Map<string, [number, number][] | null>} by their tracks; null where something is said of them */
    const found = new Map();
    beside.forEach((others, one) => others.filter((other) => one < other).forEach((other) => {
        const tracks = JSON.stringify([pieces[one].track, pieces[other].track].sort()), known = found.get(tracks);
        const isSaid = below[one].has(other) || below[other].has(one) || pieces[one].track === pieces[other].track;
        found.set(tracks, isSaid || known === null ? null : [...known ?? [], [one, other]]);
    }));
    return [...found.values()].flatMap((it) => (it ? [it] : []));
}

/**
 * Pieces of tracks that are joined, over others too, and of which nothing says which lies above: one pair of two tracks.
 * @param {Piece[]} pieces @param {[number, number][]} above
 * @returns {[number, number][]} the pieces by number, that which is listed first before the other
 */
export function unrelatedOf(pieces, above) {
    const groups = groupsOf(pieces);
    return orderless(pieces, above).flatMap((pairs) => pairs.filter(([one, other]) => groups[one] === groups[other]).slice(0, 1));
}
