/**
 * The pairs of values that no other pair is as good as, as a plot; each point leads to its drawing.
 */
import { Field, Line, Sign } from "./field.js";
import { element } from "./markup.js";
import { shown } from "./numbers.js";
import * as places from "./places.js";
import { SMALL, bounds, lineAt, textAt, viewOf } from "./shapes.js";
import { spots } from "./signs.js";
import { neighbours } from "./columns.js";
import { widthOf } from "./widths.js";

/** @typedef {import("./columns.js").Spot} Spot */
/** @typedef {import("./markup.js").Element} Element */
/** @typedef {import("./texts.js").Point} Point */

const SIDE = [460, 300];
const STEPS = [1, 2, 5, 10, 20, 50, 100, 200, 500, 1000, 2000, 5000];

/**
 * Numbers from below the least to the most, at most fourteen of them, and the one behind them.
 * @param {number[]} numbers
 * @returns {{ticks: number[], end: number}}
 */
function ticksOf(numbers) {
    const [least, most] = [Math.min(...numbers), Math.max(...numbers)];
    const step = STEPS.find((it) => (most - least) / it <= 12) ?? most - least;
    const first = Math.max(0, least - least % step - step);
    const count = Math.ceil((most + step - first) / step);
    return { ticks: Array.from({ length: count }, (_, at) => first + at * step), end: first + count * step };
}

/** The points with the steps that part what some lawful drawing has from what none has. */
class Plot {
    /** @param {Point[]} pairs @param {[string, string]} criteria */
    constructor(pairs, criteria) {
        this.pairs = pairs;
        this.criteria = criteria;
        const axes = [0, 1].map((axis) => ticksOf(pairs.map((it) => it[axis])));
        this.along = axes[0].ticks;
        this.up = axes[1].ticks;
        this.first = axes.map((it) => it.ticks[0]);
        this.last = /** @type {Point} */ (axes.map((it) => it.end));
        this.unit = [0, 1].map((axis) => SIDE[axis] / (this.last[axis] - this.first[axis]));
        this.field = new Field();
        /** @type {Element[]} */
        this.parts = [];
    }

    /** @param {Point} pair @returns {Spot} */
    at([one, other]) {
        return [(one - this.first[0]) * this.unit[0], -(other - this.first[1]) * this.unit[1]];
    }

    putSteps() {
        const [right, top] = this.at(this.last);
        /** @type {Spot[]} */
        const steps = [[this.at(this.pairs[0])[0], top]];
        for (const pair of this.pairs) {
            const [x, y] = this.at(pair);
            steps.push([x, steps[steps.length - 1][1]], [x, y]);
        }
        steps.push([right, steps[steps.length - 1][1]]);
        for (const [start, end] of neighbours(steps)) this.field.add(new Line(start, end, 0.8));
        const points = steps.filter(([x, y], at) => steps.findIndex(([u, v]) => u === x && v === y) === at);
        this.parts.push(element("polygon", { class: "attained", points: spots([...points, [right, top]]) }),
            element("polyline", { class: "steps", points: spots(points) }));
    }

    /** Both axes with their numbers and what they measure. */
    putAxes() {
        const [right, top] = this.at(this.last);
        this.parts.push(element("polyline", { class: "steps", points: spots([[0, top], [0, 0], [right, 0]]) }));
        this.field.add(new Line([0, top], [0, 0], 0.8));
        this.field.add(new Line([0, 0], [right, 0], 0.8));
        for (const number of this.along) {
            const [x, wide] = [this.at([number, this.first[1]])[0], widthOf(String(number), SMALL)];
            this.parts.push(lineAt("tick", [x, 0], [x, 5]), textAt(String(number), [x - wide / 2, 18], SMALL, "km"));
            this.field.add(new Sign([x - wide / 2, 1, x + wide / 2, 22], "axis"));
        }
        for (const number of this.up) {
            const [y, wide] = [this.at([this.first[0], number])[1], widthOf(String(number), SMALL)];
            this.parts.push(lineAt("tick", [-5, y], [0, y]), textAt(String(number), [-9 - wide, y + 4], SMALL, "km"));
            this.field.add(new Sign([-9 - wide, y - 6, -1, y + 6], "axis"));
        }
        const [one, other] = this.criteria.map((it) => widthOf(it, 13));
        this.parts.push(textAt(this.criteria[0], [right - one, 38], 13, "criterion"),
            textAt(this.criteria[1], [-38, top + other], 13, "criterion", { isTurned: true }));
        this.field.add(new Sign([right - one, 26, right, 42], "axis"));
        this.field.add(new Sign([-52, top, -34, top + other], "axis"));
    }

    /** @param {Point} pair @param {number} number @param {string | undefined} link @returns {places.Wish} */
    #putPoint(pair, number, link) {
        const [x, y] = this.at(pair);
        const dot = element("circle", { class: "pair", "data-pair": number, cx: shown(x), cy: shown(y), r: 5 });
        const said = `the drawing with ${this.criteria[0]} ${pair[0]}, ${this.criteria[1]} ${pair[1]}`;
        this.parts.push(link ? element("a", { href: `#${link}`, "aria-label": said }, element("title", {}, said), dot) : dot);
        this.field.add(new Sign([x - 5, y - 5, x + 5, y + 5], `node ${number}`));
        /** @type {places.Wish} */
        const wish = { owner: `node ${number}`, kind: "node", whole: pair.join(", "), point: [x, y], half: [3.8, 3.8],
            near: (text, size) => places.besideSign(wish, text, size, ["above right", "below left"]) };
        return wish;
    }

    /** @param {Map<string, string>} links */
    putPoints(links) {
        const wishes = this.pairs.map((pair, number) => this.#putPoint(pair, number, links.get(String(pair))));
        for (const [owner, name] of places.place(this.field, wishes, 60)) {
            if (name.leader) this.parts.push(lineAt("leader", name.leader.start, name.leader.end));
            const how = { isTurned: name.isTurned, more: { "data-name": owner } };
            this.parts.push(textAt(name.text, places.foot(name), name.size, "name", how));
        }
    }
}

/**
 * The pairs as points; `links` says where the drawing of a pair is.
 * @param {Point[]} pairs
 * @param {[string, string]} criteria
 * @param {Map<string, string>} links by the pair as `1,2`
 * @returns {Element}
 */
export function plot(pairs, criteria, links) {
    const one = new Plot(pairs, criteria);
    one.putSteps();
    one.putAxes();
    one.putPoints(links);
    const [left, top, right, bottom] = bounds([...one.field.all].map((it) => it.box));
    return element("svg", { ...viewOf([left - 8, top - 8, right + 8, bottom + 8]), class: "plot",
        "aria-label": `the best pairs of ${criteria[0]} and ${criteria[1]}` }, one.parts);
}
