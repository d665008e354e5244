/**
 * What is around a strip: the axis, the match lines at which it is cut off, a grid's limits, and the grid itself.
 */
import { putAxis, putTag } from "./axis.js";
import { allPoints, lastRow } from "./columns.js";
import { Line, Sign } from "./field.js";
import { element } from "./markup.js";
import { shown } from "./numbers.js";
import { SMALL, lineAt, textAt } from "./shapes.js";
import { widthOf } from "./widths.js";

/** @typedef {import("./columns.js").Spot} Spot */
/** @typedef {import("./field.js").Box} Box */
/** @typedef {import("./markup.js").Element} Element */
/** @typedef {import("./strip.js").StripPlan} StripPlan */

/**
 * Adds what is around a strip to its parts.
 * @param {StripPlan} plan
 */
export function addFrame(plan) {
    const [, top, , bottom] = plan.bounds();
    putMatchLines(plan, top, bottom);
    if (plan.scene.hasScale) putAxis(plan, bottom);
    putGrid(plan, plan.bounds());
}

/**
 * Where the strip is cut off: the same letter is at the strip that goes on there.
 * @param {StripPlan} plan
 * @param {number} top
 * @param {number} bottom
 */
function putMatchLines(plan, top, bottom) {
    const number = plan.columns.strips.indexOf(plan.strip);
    /** @type {(at: number, letter: number) => void} */
    const put = (at, letter) => {
        const x = plan.x(at);
        const text = String.fromCharCode(65 + letter % 26).repeat(Math.floor(letter / 26) + 1);
        plan.parts.frame.push(lineAt("match", [x, top - 8], [x, bottom + 8]));
        putTag(plan, [x, top - 12], textAt(text, [-widthOf(text, SMALL) / 2, 0], SMALL, "match"));
        plan.field.add(new Sign([x - 6, top - 24, x + 6, bottom + 8], "match"));
    };
    if (plan.strip.isCutWest) put(plan.strip.low, number - 1);
    if (plan.strip.isCutEast) put(plan.strip.high, number);
}

/**
 * The grid's last column and row, where a law's parties lie beyond them.
 * @param {StripPlan} plan
 */
export function putLimits(plan) {
    const { marks, drawing } = plan.scene;
    if (!marks.limits) return;
    const [width, height] = marks.limits;
    const right = Math.max(...allPoints(drawing).map(([x]) => x));
    const top = lastRow(drawing);
    /** @type {(start: Spot, end: Spot, said: string) => void} */
    const put = (start, end, said) => {
        plan.parts.frame.push(lineAt("limit", start, end).add(element("title", {}, said)));
        plan.field.add(new Line(start, end, 0.6));
    };
    if (right > width && plan.strip.low <= width && width <= plan.strip.high) {
        put([plan.x(width), 14], [plan.x(width), plan.at([0, top])[1] - 14], "the grid's last column");
    }
    if (top > height) {
        const y = plan.at([0, height])[1];
        put([-14, y], [plan.x(plan.strip.high) + 14, y], "the grid's last row");
    }
}

/**
 * The columns and rows, which are shown where they are asked for.
 * @param {StripPlan} plan
 * @param {Box} box
 */
function putGrid(plan, [left, top, right, bottom]) {
    /** @type {(line: Element, number: number, x: number, y: number) => void} */
    const put = (line, number, x, y) => {
        plan.parts.grid.push(line, element("text", { x: shown(x), y: shown(y), "font-size": 10 }, String(number)));
    };
    for (let column = plan.strip.first; column <= plan.strip.last; column += 1) {
        const x = plan.x(column);
        put(lineAt("", [x, top], [x, bottom]), column, x + 2, top - 3);
    }
    for (let row = 0; row <= lastRow(plan.scene.drawing); row += 1) {
        const y = -row * plan.columns.row;
        put(lineAt("", [left, y], [right, y]), row, left - 14, y + 3);
    }
}
