/** What a sheet's own points measure, by the definitions of docs/trust/definitions.md: the values that its line `values` is to have. */
import { NoPage, VALUES, readSheet } from "./page/texts.js";

/** @typedef {import("./page/texts.js").Drawing} Drawing */

/**
 * The height, bends, diagonal and width of a drawing: the greatest row and column of all points, the points of lines that
 * aren't ends, and the rows that all lines climb or fall. Rule: `values_of` of crates/plan_core/specs/Values.antt.
 * @param {Drawing} drawing
 * @returns {number[]} in the order of a line `values`
 */
export function valuesOf({ nodes, edges }) {
    const all = [...nodes.map((it) => it.point), ...edges.flatMap((it) => it.points)];
    const greatest = (/** @type {number} */ part) => Math.max(0, ...all.map((point) => point[part]));
    const bends = edges.reduce((sum, { points }) => sum + Math.max(0, points.length - 2), 0);
    const diagonal = edges.reduce((sum, { points }) => sum
        + points.slice(1).reduce((rows, [, y], at) => rows + Math.abs(y - points[at][1]), 0), 0);
    return [greatest(1), bends, diagonal, greatest(0)];
}

/**
 * The line `values` that the points of a sheet ask for; "" where they can't be read.
 * @param {string} text the sheet
 * @returns {string}
 */
export function valuesLine(text) {
    const lines = text.split("\n"), at = lines.findIndex((it) => it.startsWith("values"));
    try {
        const zeros = VALUES.map(() => 0).join(" ");
        const { drawing } = readSheet([...lines.slice(0, at), `values ${zeros}`, "end conflicts 0", ""].join("\n"));
        return drawing ? `values ${valuesOf(drawing).join(" ")}` : "";
    } catch (error) {
        if (error instanceof NoPage) {
            return "";
        }
        throw error;
    }
}
