/** Lists by their keys, looking in lists that are in order without going through them, and things of which that with the least number is taken. */

/**
 * The first number of a list from which on something holds.
 * @param {number} count how many things the list has
 * @param {(at: number) => boolean} holds of no number, or of one and of all behind it
 * @returns {number} `count` where it holds of none
 */
export function firstAt(count, holds) {
    let low = 0, high = count;
    while (low < high) {
        const middle = (low + high) >> 1;
        if (holds(middle)) {
            high = middle;
        } else {
            low = middle + 1;
        }
    }
    return low;
}

/**
 * The part of a list in order that lies between two values, these included.
 * @template T
 * @param {T[]} ordered @param {(it: T) => number} valueOf @param {number} low @param {number} high
 * @returns {T[]}
 */
export function stretch(ordered, valueOf, low, high) {
    const from = firstAt(ordered.length, (at) => valueOf(ordered[at]) >= low);
    return ordered.slice(from, firstAt(ordered.length, (at) => valueOf(ordered[at]) > high));
}

/**
 * Puts a value behind those of a key.
 * @template K
 * @template V
 * @param {Map<K, V[]>} lists
 * @param {K} key
 * @param {V} value
 */
export function listUnder(lists, key, value) {
    const known = lists.get(key);
    known ? known.push(value) : lists.set(key, [value]);
}

/**
 * Things by a number, of which that with the least is taken each time, in steps that grow with the logarithm of how many there are.
 * @template T
 */
export class Least {
    constructor() {
        /** @type {{by: number, it: T}[]} none has a greater number than the two below it */
        this.heap = [];
    }

    /** @param {number} by @param {T} it */
    add(by, it) {
        const { heap } = this;
        let at = heap.push({ by, it }) - 1;
        while (at > 0 && heap[(at - 1) >> 1].by > heap[at].by) {
            const up = (at - 1) >> 1;
            [heap[up], heap[at]] = [heap[at], heap[up]];
            at = up;
        }
    }

    /** @returns {{by: number, it: T} | undefined} nothing where there is none */
    take() {
        const { heap } = this, first = heap[0], last = heap.pop();
        if (!last || heap.length === 0) {
            return first;
        }
        heap[0] = last;
        for (let at = 0; ;) {
            let least = at;
            for (const below of [2 * at + 1, 2 * at + 2]) {
                least = below < heap.length && heap[below].by < heap[least].by ? below : least;
            }
            if (least === at) {
                return first;
            }
            [heap[least], heap[at]] = [heap[at], heap[least]];
            at = least;
        }
    }
}
