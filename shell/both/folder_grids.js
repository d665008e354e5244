/** How a station of a folder is drawn: on which grids, one after the other, and what is noted of the last run. */
import { OPTIONS } from "./words.js";

/** a page carries hinted lines that have no more signs than this, packed */
export const MOST_HINTS = 2 << 20;

/**
 * The value of an option that is a number.
 * @param {string[]} options @param {string} word
 * @returns {number}
 */
function numberOf(options, word) {
    const at = options.indexOf(word);
    return Number(at < 0 ? OPTIONS.get(word)?.usual : options[at + 1]);
}

/**
 * The grids that are tried, each larger than the one before; those that are too narrow for the longest chain of pieces are
 * left out, but not all.
 * @param {string[]} options @param {number} chain
 * @returns {[number, number][]}
 */
export function grids(options, chain) {
    const [width, height, least] = ["--width", "--height", "--least"].map((word) => numberOf(options, word));
    const wide = OPTIONS.get("--width")?.high ?? width, high = OPTIONS.get("--height")?.high ?? height;
    /** @type {[number, number][]} */
    const all = [[width, height], [wide, height], [wide, high]];
    const listed = all.filter((it, at) => all.findIndex((other) => String(other) === String(it)) === at);
    const left = listed.filter((it) => chain * least <= it[0]);
    return left.length ? left : listed.slice(0, 1);
}

/**
 * @param {string[]} lines @param {string} word @returns {string[]} what is behind the word in the first line that begins so
 */
function fieldsOf(lines, word) {
    return lines.find((line) => line.startsWith(`${word} `))?.split(" ").slice(1) ?? [];
}

/**
 * Notes in a station's record how its drawing ended.
 * @param {import("./folder_record.js").FolderRecord} record
 * @param {number} status
 * @param {string[]} lines what the program printed
 * @param {[number, number]} grid the grid that was tried last
 * @param {string[]} options those that were asked for, each with its value
 * @returns {boolean} whether there is a sheet
 */
export function note(record, status, lines, grid, options) {
    const hasSheet = lines[0] === "railplan 2";
    Object.assign(record, { status, end: lines.at(-1) ?? "", grid,
        isLarger: grid[0] !== numberOf(options, "--width") || grid[1] !== numberOf(options, "--height") });
    if (hasSheet) {
        record.order = fieldsOf(lines, "order");
        record.values = fieldsOf(lines, "values").map(Number);
    }
    return hasSheet;
}
