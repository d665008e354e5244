/** What a kind of file is, what is done to its text, and a station that many kinds are of. */
import { Ground } from "./ground.js";
import { written } from "./writer.js";

/** @typedef {import("./ground.js").Truth} Truth */
/** @typedef {import("./writer.js").Style} Style */
/** @typedef {object} Kind a file, the truth beside it, and what is to come of it
 * @property {string} name
 * @property {string} about
 * @property {Uint8Array} data
 * @property {Truth} truth
 * @property {"drawn" | "refused"} today what the program answers to the file itself
 * @property {"drawn" | "refused"} after what comes of it by prepare
 * @property {string[]} asked further words of prepare
 * @property {string} odd a track whose kilometres are otherwise than those of the line
 * @property {RegExp | null} says what has to be said of it where it is drawn as it is */
/** @typedef {Partial<Pick<Kind, "today" | "after" | "asked" | "odd" | "says">> & {truth?: Truth}} More */

/**
 * @param {string} name @param {string} about @param {Ground} ground @param {Partial<Style>} [style] @param {More} [more]
 * @returns {Kind}
 */
export function kind(name, about, ground, style = {}, more = {}) {
    const today = more.today ?? "drawn";
    return { name, about, data: written(ground, style), truth: more.truth ?? ground.truth(), today, after: more.after ?? "drawn",
        asked: more.asked ?? [], odd: more.odd ?? "", says: more.says ?? null };
}

/** @param {string} pattern @param {string} text @param {string} [flags] @returns {(text: string) => string} */
export function replacing(pattern, text, flags = "") {
    return (whole) => whole.replace(new RegExp(pattern, flags), text);
}

/** @param {string} text @returns {string} with rail: before the name of each element */
export function prefixed(text) {
    return text.replace(/<(\/?)(?!\?|!|\/|dc:)/g, "<$1rail:").replace(" xmlns=", " xmlns:rail=");
}

export const ONE_KM = ["--one-km"];
/** @type {More} */
export const BY_ONE_KM = { today: "refused", asked: ONE_KM };

/**
 * Two main tracks with crossovers, a loop south of them and a stub at it.
 * @param {{idOf?: (kind: string, number: number, hint: string) => string, isTurned?: boolean, title?: string, at?: number}} more
 */
export function loopStation({ idOf, isTurned = false, title = "Bahnhof", at = 12000 } = {}) {
    const ground = new Ground(title, idOf), one = ground.track("1", at, at + 1400, 0);
    const two = ground.track("2", at, at + 1400, -4.5, { isTurned });
    ground.crossover(one, at + 150, two, at + 230);
    ground.crossover(two, at + 1170, one, at + 1250);
    const three = ground.track("3", 0, 0, -9);
    ground.switch(two, at + 330, three, "east", "W3");
    ground.switch(two, at + 1080, three, "west", "W4");
    const four = ground.track("4", 0, at + 780, -13.5, { east: "bufferStop" });
    ground.switch(three, at + 480, four, "east", "W7");
    return { ground, one, two, three, four };
}
