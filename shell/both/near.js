/** Which of some words is nearly a given one: how many signs two words have in common, in the same order and in long pieces. */

/**
 * How many signs two words have in common: those of the longest common piece, and of what is left before it and behind it.
 * @param {string[]} one @param {string[]} other
 * @returns {number}
 */
function common(one, other) {
    let length = 0, ended = 0, otherEnded = 0;
    let before = new Array(other.length + 1).fill(0);
    for (let at = 1; at <= one.length; at++) {
        const row = new Array(other.length + 1).fill(0);
        for (let otherAt = 1; otherAt <= other.length; otherAt++) {
            row[otherAt] = one[at - 1] === other[otherAt - 1] ? before[otherAt - 1] + 1 : 0;
            if (row[otherAt] > length) {
                [length, ended, otherEnded] = [row[otherAt], at, otherAt];
            }
        }
        before = row;
    }
    return length && length + common(one.slice(0, ended - length), other.slice(0, otherEnded - length))
        + common(one.slice(ended), other.slice(otherEnded));
}

/**
 * The nearest of some words; "" where none is as near as is asked for. Likeness goes from 0 to 1, for the same word.
 * @param {string} word @param {Iterable<string>} among @param {number} [likeness]
 * @returns {string}
 */
export function near(word, among, likeness = 0.6) {
    const wanted = [...word];
    let best = "", most = likeness;
    for (const other of among) {
        const signs = [...other], all = signs.length + wanted.length;
        if (all && 2 * Math.min(signs.length, wanted.length) / all < most) {
            continue;
        }
        const found = all ? 2 * common(signs, wanted) / all : 1;
        if (found > most || found === most && other > best) {
            [best, most] = [other, found];
        }
    }
    return best;
}
