/**
 * What prepare would make of a file, where it is offered and not asked for, as on the desk, with what it is to be judged by.
 */
import { mended, withMark } from "../prepare.js";
import { toJudge } from "./judge.js";

/** @typedef {import("./judge.js").Kept} Kept */
/** @typedef {{data: Uint8Array, unfit: string, changes: string[], guesses: string[], doubts: string[], kept: Kept | null}}
 * Offered what prepare makes of a file, and what it is to be judged by */

/**
 * @param {string} name @param {Uint8Array} bytes @param {string} called
 * @returns {Offered}
 */
export function offeredOf(name, bytes, called) {
    const it = mended(name, bytes, called), { data, unfit, changes, guesses, doubts } = it;
    return { data: changes.length ? withMark(data) : data, unfit, changes, guesses, doubts, kept: changes.length ? toJudge(it) : null };
}
