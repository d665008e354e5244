/**
 * The signs of nodes, signals and what lies at tracks, each drawn around its own point.
 */
import { element } from "./markup.js";
import { shown } from "./numbers.js";
import { SIGNALS } from "./station.js";

/** @typedef {import("./columns.js").Spot} Spot */
/** @typedef {import("./markup.js").Element} Element */
/** @typedef {{parts: Element[], half: Spot, lines: [Spot, Spot][]}} Drawn what is drawn, how far it reaches aside and apart,
 * and lines that names keep away from */

const WEDGE = 16;
const HEAD = 4;

/** what each sign means, in the order of a legend */
export const MEANINGS = new Map([["switch", "switch: the wedge is at its toe"], ["joint", "joint of two tracks"],
    ["crossing", "crossing"], ["single slip", "crossing with a single slip, whose ways aren't drawn"],
    ["double slip", "crossing with a double slip, whose ways aren't drawn"],
    ["normal", "line beside a leg: the file has the switch lie so normally"],
    ["open end", "open end"], ["line goes on", "end, the line goes on"], ["buffer stop", "buffer stop"],
    ["end", "end of which the file says no more"], ["node", "node of which no kind is known"],
    ["signal", "signal, beside the track on its side, with its foot at the rear"],
    ...[...SIGNALS.values()].map((it) => /** @type {[string, string]} */ ([it, it])),
    ["signal both", "signal of which the file doesn't say for which way"],
    ["insulated joint", "insulated joint or other border of track circuits"],
    ["axle counter", "axle counter or other train detector"],
        ["derailer", "derailer: the arrow leads ahead, to the side to which it derails"],
    ["derailer both", "derailer of which the side or the way isn't known"],
    ["platform", "platform, beside its track"], ["level crossing", "level crossing"], ["border", "border"],
    ["gap", "nothing says which of the two tracks beside it lies above"], ["main", "main track"], ["track", "other track"]]);

/** @type {(parts: Element[], half: Spot, lines?: [Spot, Spot][]) => Drawn} */
const sign = (parts, half, lines = []) => ({ parts, half, lines });

/** @type {(kind: string, way: string) => Element} */
const path = (kind, way) => element("path", { class: kind, d: way });

/**
 * The points of a line, as SVG has them.
 * @param {Spot[]} points
 * @returns {string}
 */
export function spots(points) {
    return points.map(([x, y]) => `${shown(x)},${shown(y)}`).join(" ");
}

/** @param {number} radius @returns {Element} */
function dot(radius) {
    return element("circle", { r: radius });
}

/** @param {number} angle @param {number} far @returns {Spot} */
function towards(angle, far) {
    return [far * Math.cos(angle), far * Math.sin(angle)];
}

/**
 * A filled wedge from the toe along both legs.
 * @param {number[]} legs
 * @returns {Drawn}
 */
function switchSign(legs) {
    /** @type {Spot[]} */
    const [toe, one, other] = [[0, 0], towards(legs[0], WEDGE), towards(legs[1], WEDGE)];
    return sign([element("polygon", { class: "wedge", points: spots([toe, one, other]) }), dot(2.2)], [3.8, 3.8],
        [[toe, one], [one, other], [other, toe]]);
}

/**
 * An end of a kind; its free side is `left` or `right`.
 * @param {string} kind
 * @param {string} side
 * @returns {Drawn}
 */
export function endSign(kind, side) {
    const out = side === "left" ? -1 : 1;
    if (kind === "buffer stop") return sign([path("stop", `M${-5 * out},-6 H0 V6 H${-5 * out}`)], [6, 7]);
    if (kind === "open end") return sign([path("open", `M${-3 * out},-5.5 L${3 * out},0 L${-3 * out},5.5`)], [4.5, 6.5]);
    if (kind === "line goes on") return sign([path("on", `M${-2 * out},-5.5 L${5 * out},0 L${-2 * out},5.5 z`)], [6, 6.5]);
    return sign([path("stop", "M0,-4 V4")], [3, 5]);
}

/**
 * The sign of a node of a kind: its free side, its legs' directions, and its line's slope.
 * @param {string} kind
 * @param {string | null} side
 * @param {number[]} legs
 * @param {number} slope
 * @returns {Drawn}
 */
export function nodeSign(kind, side, legs, slope) {
    if (kind === "switch" && legs.length === 2 && Math.abs(legs[0] - legs[1]) > 0.05) return switchSign(legs);
    if (kind === "joint") {
        const [x, y] = towards(slope + Math.PI / 2, 6);
        return sign([path("stop", `M${shown(-x)},${shown(-y)} L${shown(x)},${shown(y)}`)], [4, 7]);
    }
    if (kind === "crossing" || kind.endsWith(" slip")) return sign([path("diamond", "M-5,0 L0,-5 L5,0 L0,5 z"),
        ...slips(kind)], [6, 6]);
    if (side && ["buffer stop", "open end", "line goes on", "end"].includes(kind)) return endSign(kind, side);
    return sign([dot(3)], [3.8, 3.8]);
}

/** @param {string} kind @returns {Element[]} what fills a crossing that has slips: its half or all of it */
function slips(kind) {
    return kind === "double slip" ? [path("slip", "M-5,0 L0,-5 L5,0 L0,5 z")] : kind === "single slip"
        ? [path("slip", "M-5,0 L5,0 L0,5 z")] : [];
}

/**
 * A line beside a leg, on the side away from the other one, and how far names keep away.
 * @param {number} leg its direction
 * @param {number} other the direction of the other leg
 * @returns {Drawn}
 */
export function normalSign(leg, other) {
    const away = Math.sin(leg - other) > 0 ? 1 : -1;
    const [across, down] = towards(leg + away * Math.PI / 2, 4.4);
    const [from, to] = [5, 15].map((far) => towards(leg, far)).map(([x, y]) => /** @type {Spot} */ ([x + across, y + down]));
    return sign([path("normal", `M${spots([from])} L${spots([to])}`)], [0, 0], [[from, to]]);
}

/**
 * The head of a signal by its kind: a circle, filled for main ones; distant ones have a square on its corner, filled where they
 * are
 * main ones too and with a dot where they repeat; shunting ones have a square.
 * @param {string} kind
 * @param {number} x
 * @param {number} y
 * @returns {Element[]}
 */
function head(kind, x, y) {
    const [left, right, up, down] = [x - 4.6, x + 4.6, y - 4.6, y + 4.6].map(shown);
    const corner = (/** @type {string} */ name) =>
        path(name, `M${left},${shown(y)} L${shown(x)},${up} L${right},${shown(y)} L${shown(x)},${down} z`);
    const round = (/** @type {string} */ name, /** @type {number} */ r) => element("circle", { class: name, cx: x, cy: y, r });
    if (kind === "distant signal") return [corner("head")];
    if (kind === "combined signal") return [corner("head full")];
    if (kind === "repeater signal") return [corner("head"), round("head full", 1)];
    if (kind === "shunting signal") {
        return [path("head",
            `M${shown(x - 3.4)},${shown(y - 3.4)} H${shown(x + 3.4)} V${shown(y + 3.4)} H${shown(x - 3.4)} z`)];
    }
    return [round(kind === "main signal" ? "head full" : "head", HEAD)];
}

/** @param {string} kind @returns {Element[]} a signal's head alone, about its own middle */
export const headSign = (kind) => head(kind, 0, 0);

/**
 * The lines of a part of a sign that is no circle.
 * @param {Element} part
 * @returns {Spot[][]}
 */
export function linesOf({ attributes: { d, points } }) {
    if (typeof points === "string") {
        const outline = points.split(" ").map((it) => /** @type {Spot} */ (it.split(",").map(Number)));
        return [[...outline, outline[0]]];
    }
    /** @type {Spot[][]} */
    const found = [];
    for (const [, word, inner] of String(d).matchAll(/([MLHVz])([^A-Za-z]*)/g)) {
        const numbers = (inner.match(/-?[\d.]+/g) ?? []).map(Number), line = found[found.length - 1] ?? [],
            last = line[line.length - 1] ?? [0, 0];
        if (word === "M") found.push([/** @type {Spot} */ (numbers)]);
        else line.push(word === "z" ? line[0] : word === "H" ? [numbers[0], last[1]] : word === "V" ? [last[0], numbers[0]]
            : /** @type {Spot} */ (numbers));
    }
    return found;
}

/**
 * A foot, a mast and a head beside the track, on the right or left of the trains that it is for, or else upright on it; and the
 * corners of its room.
 * @param {boolean | null} headsEast
 * @param {boolean} isLeft
 * @param {string} [kind]
 * @returns {{parts: Element[], corners: Spot[]}}
 */
export function signalSign(headsEast, isLeft, kind = "signal") {
    if (headsEast === null) {
        return { parts: [path("mast", "M-4,-4 H4 M0,-4 V-9"), ...head(kind, 0, -13)],
            corners: [[-4.8, -17.8], [4.8, -17.8], [4.8, -3], [-4.8, -3]] };
    }
    const way = headsEast ? 1 : -1;
    const hand = isLeft ? -way : way;
    return { parts: [path("mast", `M0,${5 * hand} V${13 * hand} M0,${9 * hand} H${7 * way}`), ...head(kind, 11 * way,
        9 * hand)],
        corners: [[-way, 4 * hand], [15.8 * way, 4 * hand], [15.8 * way, 13.8 * hand], [-way, 13.8 * hand]] };
}

// ---- what lies at tracks

/** @type {{parts: () => Element[], half: Spot}} */
const CROSS = { parts: () => [path("across", "M-3.6,-3.6 L3.6,3.6 M-3.6,3.6 L3.6,-3.6")], half: [4.6, 4.6] };
/** @type {Map<string, {parts: () => Element[], half: Spot}>} signs on a track, and how far they reach along it and aside */
const ON_TRACKS = new Map([
    ["insulated joint", { parts: () => [path("across", "M0,-5 V5 M-2.4,-5 H2.4 M-2.4,5 H2.4")], half: [3.2, 5.8] }],
    ["axle counter", { parts: () => [path("across", "M-1.7,-4.5 V4.5 M1.7,-4.5 V4.5")], half: [2.8, 5.2] }],
    ["level crossing", { parts: () =>
        [path("across", "M-3.4,-7 V7 M3.4,-7 V7 M-3.4,-7 L-5.2,-8.8 M3.4,-7 L5.2,-8.8 M-3.4,7 L-5.2,8.8 M3.4,7 L5.2,8.8")],
        half: [6, 9.6] }],
    ["border", { parts: () => [path("across limits", "M0,-9 V9")], half: [1.2, 9.4] }],
    ["derailer both", CROSS],
]);

/**
 * The sign of what lies on a track, and its half: how far it reaches along the track and aside. A derailer's arrow leads ahead
 * of trains to the side to which they are derailed.
 * @param {string} kind
 * @param {boolean | null} headsEast whether trains that it is for run east
 * @param {boolean} isLeft whether it derails to their left
 * @returns {{parts: Element[], half: Spot}}
 */
export function trackSign(kind, headsEast = null, isLeft = false) {
    if (kind !== "derailer" || headsEast === null) {
        const { parts, half } = ON_TRACKS.get(kind) ?? CROSS;
        return { parts: parts(), half };
    }
    const way = headsEast ? 1 : -1, hand = isLeft ? -way : way;
    const tip = `M${4 * way},${8 * hand} L${-1.4 * way},${6.6 * hand} L${2.6 * way},${3 * hand} z`;
    return { parts: [path("across", `M${-4 * way},0 L${1.4 * way},${5.4 * hand}`), path("tip", tip)], half: [4.8, 8.6] };
}

/**
 * A bar beside a track, along these places of it.
 * @param {Spot[]} points places of the track, about the sign's own point
 * @param {number} aside from the track to the bar's near side; less than 0 above
 * @param {number} thick
 * @returns {{parts: Element[], outline: Spot[]}}
 */
export function barSign(points, aside, thick) {
    const far = aside + Math.sign(aside) * thick;
    /** @type {Spot[]} */
    const outline = [...points.map(([x, y]) => /** @type {Spot} */ ([x, y + aside])),
        ...[...points].reverse().map(([x, y]) => /** @type {Spot} */ ([x, y + far]))];
    return { parts: [element("polygon", { class: "bar", points: spots(outline) })], outline };
}

/** @returns {Element[]} a question mark between two tracks of which nothing says which lies above */
export function gapSign() {
    return [path("question", "M-3,-3 A3,3 0 1 1 1,-0.2 Q0,0.4 0,2.4"), element("circle", { cx: 0, cy: 5, r: 1 })];
}

/**
 * The parts of a sign on a piece of line, as the legend shows them.
 * @param {string} kind
 * @param {boolean} isLeft
 * @returns {Element[]}
 */
function sampleParts(kind, isLeft) {
    const line = path("edge", "M2,12 H42");
    /** @type {(x: number, side: string | null, legs: number[], own?: string) => Element} */
    const node = (x, side, legs, own = kind) =>
        element("g", { class: "sign", transform: `translate(${x},12)` }, nodeSign(own, side, legs, 0).parts);
    if (kind === "gap") return [path("edge", "M2,2 H42"), path("edge", "M2,22 H42"),
        element("g", { class: "sign gap", transform: "translate(22,12)" }, gapSign())];
    if (kind === "main" || kind === "track") return [path(kind === "main" ? "edge main" : "edge", "M2,12 H42")];
    if (kind === "platform") return [line, element("g", { transform: "translate(0,12)" }, barSign([[8, 0], [36, 0]], 6.5, 3.5)
        .parts)];
    if (kind === "derailer" || ON_TRACKS.has(kind)) {
        return [line, element("g", { class: "object", transform: "translate(22,12)" }, trackSign(kind, kind === "derailer"
            ? true : null).parts)];
    }
    if (kind.includes("signal")) {
        const { parts } = signalSign(kind === "signal both" ? null : true, isLeft, kind);
        return [line, element("g", { class: "signal", transform: "translate(16,12)" }, parts)];
    }
    if (kind === "switch") return [line, path("edge", "M16,12 L30,1"), node(16, null, [0, -0.67])];
    if (kind === "normal") {
        return [line, path("edge", "M16,12 L30,1"), node(16, null, [0, -0.67], "switch"),
            element("g", { transform: "translate(16,12)" }, normalSign(0, -0.67).parts)];
    }
    if (kind === "crossing" || kind.endsWith(" slip")) return [line, path("edge", "M11,21 L33,3"), node(22, null, [])];
    if (["open end", "buffer stop", "line goes on", "end"].includes(kind)) return [path("edge", "M2,12 H32"),
        node(32, "right", [])];
    return [line, node(22, null, [])];
}

/**
 * A sign as it is shown in the legend.
 * @param {string} kind
 * @param {boolean} isLeft
 * @returns {Element}
 */
export function sample(kind, isLeft) {
    const about = { viewBox: "0 -6 44 36", width: 44, height: 36, class: "sample", "aria-hidden": "true" };
    return element("svg", about, sampleParts(kind, isLeft));
}
