/**
 * Gaps of a drawing: where two tracks lie beside each other, one next to the other, and nothing says which of them lies above.
 * The drawing has them in some order, and a sign between them says that it might be the other.
 */
import { orderless } from "../unrelated.js";
import { heightAt } from "./columns.js";
import { Sign } from "./field.js";
import { element } from "./markup.js";
import { movedTo } from "./shapes.js";
import * as signs from "./signs.js";

/** @typedef {import("./columns.js").Spot} Spot */
/** @typedef {import("./field.js").Box} Box */
/** @typedef {import("./station.js").Station} Station */
/** @typedef {import("./strip.js").StripPlan} StripPlan */
/** @typedef {import("./texts.js").Drawing} Drawing */
/** @typedef {{edges: [number, number], at: Spot[]}} Gap two edges, and the places between them, in columns and rows */

/** how far a sign reaches from its middle */
const HALF = 7;

/** @param {Drawing} drawing @param {number} one @param {number} other @returns {Spot[]} the places between two edges where no
 * other edge is, from the middle of their columns on */
function between(drawing, one, other) {
    const [points, others] = [one, other].map((it) => drawing.edges[it].points);
    const from = Math.max(points[0][0], others[0][0]), to = Math.min(points[points.length - 1][0], others[others.length - 1][0]);
    const columns = Array.from({ length: Math.max(0, to - from) }, (_, at) => from + at + 0.5);
    return columns.sort((a, b) => Math.abs(2 * a - from - to) - Math.abs(2 * b - from - to)).flatMap((column) => {
        const rows = drawing.edges.flatMap((it) => heightAt(column, it.points) ?? []);
        const [low, high] = [points, others].map((it) => heightAt(column, it) ?? 0).sort((a, b) => a - b);
        return rows.some((it) => it > low && it < high) ? [] : [/** @type {Spot} */ ([column, (low + high) / 2])];
    });
}

/**
 * The gaps of a drawing whose graph is known, one of each two tracks.
 * @param {Drawing} drawing @param {Station} station
 * @returns {Gap[]}
 */
export function gapsOf(drawing, { graph }) {
    if (!graph || graph.edges.length !== drawing.edges.length) return [];
    const metres = (/** @type {number} */ node) => Number(graph.nodes[node].mileage);
    const pieces = graph.edges.map(({ track, west, east }) => ({ track, west, east, from: metres(west), to: metres(east) }));
    const above = [...graph.above].map((it) => /** @type {[number, number]} */ (it.split(" ").map(Number)));
    return orderless(pieces, above).flatMap((pairs) => {
        const found = pairs.map((edges) => ({ edges, at: between(drawing, ...edges) })).filter((it) => it.at.length);
        return found.slice(0, 1);
    });
}

/** @param {StripPlan} plan adds the signs of the gaps of its strip, where there is room */
export function putGaps(plan) {
    const { drawing, station } = plan.scene, { low, high } = plan.strip;
    gapsOf(drawing, station).forEach(({ edges, at }, number) => {
        const boxes = at.filter(([column]) => low <= column && column < high).map((spot) => {
            const [x, y] = plan.at(spot);
            return /** @type {Box} */ ([x - HALF, y - HALF, x + HALF, y + HALF]);
        });
        const box = boxes.find((it) => !plan.field.some(it, (other) => other.meets(it)));
        if (!box) return;
        const tracks = edges.map((it) => station.both(drawing.edges[it].track ?? `edge ${it}`));
        plan.field.add(new Sign(box, `gap ${number}`));
        plan.parts.things.push(element("g", { class: "sign gap", transform: movedTo([box[0] + HALF, box[1] + HALF]) },
            element("title", {}, `nothing says whether ${tracks[1]} lies above or below ${tracks[0]}`), signs.gapSign()));
    });
}
