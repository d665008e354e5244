/** What a strip's element shows, measured: where texts, lines and signs lie. It shares nothing with what draws. */
import { Element, flat } from "../../both/page/markup.js";
import { ASCENT, DESCENT, widthOf } from "../../both/page/widths.js";

/** @typedef {[number, number]} Spot */
/** @typedef {[number, number, number, number]} Box */
/** @typedef {[Spot, Spot]} Piece */
/** @typedef {{text: string, box: Box, owner: string, title: string, size: number, classes: string[]}} Written */
/** @typedef {import("../../both/page/page.js").Page} Page */
/** @typedef {import("../../both/page/texts.js").Drawing} Drawing */
/** @typedef {import("../../both/page/texts.js").Signal} Signal */
/** @typedef {number[]} Matrix */

const LINES = ["edge", "leader", "limit", "axis", "tick", "match", "steps"];

/** @type {(one: Matrix, other: Matrix) => Matrix} */
const times = ([a, b, c, d, e, f], [g, h, i, j, k, m]) =>
    [a * g + c * h, b * g + d * h, a * i + c * j, b * i + d * j, a * k + c * m + e, b * k + d * m + f];

/** @param {string} text @returns {Matrix} */
function matrixOf(text) {
    let found = [1, 0, 0, 1, 0, 0];
    for (const [, word, inner] of text.matchAll(/(\w+)\(([^)]*)\)/g)) {
        const [one, two = 0, three = 0] = inner.trim().split(/[ ,]+/).map(Number);
        if (word === "translate") found = times(found, [1, 0, 0, 1, one, two]);
        else {
            const [across, down] = [Math.cos(one * Math.PI / 180), Math.sin(one * Math.PI / 180)];
            found = times(times(found, [1, 0, 0, 1, two, three]), [across, down, -down, across, 0, 0]);
            found = times(found, [1, 0, 0, 1, -two, -three]);
        }
    }
    return found;
}

/** @type {(matrix: Matrix, spot: Spot) => Spot} */
const moved = ([a, b, c, d, e, f], [x, y]) => [a * x + c * y + e, b * x + d * y + f];

/** @param {Spot[]} spots @returns {Box} */
export function around(spots) {
    const [xs, ys] = [spots.map(([x]) => x), spots.map(([, y]) => y)];
    return [Math.min(...xs), Math.min(...ys), Math.max(...xs), Math.max(...ys)];
}

/** @param {string} text @returns {Spot[]} the corners of a path of straight lines */
export function pathSpots(text) {
    let [x, y] = [0, 0];
    return [...text.matchAll(/([MLHV])([^A-Za-z]*)/g)].map(([, word, inner]) => {
        const numbers = (inner.match(/-?[\d.]+/g) ?? []).map(Number);
        if (word === "H") [x] = numbers;
        else if (word === "V") [y] = numbers;
        else [x, y] = numbers;
        return [x, y];
    });
}

/** @type {(one: Element, name: string) => string} */
export const given = (one, name) => String(one.attributes[name] ?? "");

/** @type {(one: Element) => string[]} */
export const classesOf = (one) => given(one, "class").split(" ").filter(Boolean);

/** @param {Element} one @returns {Spot[]} */
export function spotsOf(one) {
    /** @type {(name: string) => number} */
    const at = (name) => Number(given(one, name));
    switch (one.tag) {
        case "polyline": case "polygon":
            return given(one, "points").split(" ").map((it) => /** @type {Spot} */ (it.split(",").map(Number)));
        case "line": return [[at("x1"), at("y1")], [at("x2"), at("y2")]];
        case "circle": return [[at("cx") - at("r"), at("cy") - at("r")], [at("cx") + at("r"), at("cy") + at("r")]];
        case "rect": return [[at("x"), at("y")], [at("x") + at("width"), at("y") + at("height")]];
        default: return pathSpots(given(one, "d"));
    }
}

/** One strip. */
export class Drawn {
    /** @param {Element} strip */
    constructor(strip) {
        const [left, top, wide, high] = given(strip, "viewBox").split(" ").map(Number);
        /** @type {Box} */
        this.view = [left, top, left + wide, top + high];
        /** @type {Written[]} */
        this.texts = [];
        /** @type {{kind: string, piece: Piece}[]} */
        this.lines = [];
        /** @type {{key: string, box: Box}[]} */
        this.signs = [];
        /** @type {Map<string, Spot[][]>} */
        this.edges = new Map();
        /** @type {Map<string, Spot[]>} */
        this.places = new Map();
        /** @type {Map<string, Spot[]>} */
        this.wedges = new Map();
        /** @type {Map<number, number>} */
        this.columns = new Map();
        /** @type {Map<number, number>} */
        this.rows = new Map();
        /** @type {Map<string, Spot>} of each signal the point from which it is drawn, which is to be on its line */
        this.feet = new Map();
        this.walk(strip, [1, 0, 0, 1, 0, 0], "", false);
    }

    /** @param {Element} one @param {Matrix} outer @param {string} outerKey @param {boolean} isInSign */
    walk(one, outer, outerKey, isInSign) {
        const classes = classesOf(one);
        if (classes.includes("grid")) this.takeGrid(one);
        if (classes.includes("grid") || classes.includes("hit")) return;
        const [matrix, key] = [times(outer, matrixOf(given(one, "transform"))), given(one, "data-key") || outerKey];
        if (classes.includes("sign")) this.places.set(key, [...this.places.get(key) ?? [], moved(matrix, [0, 0])]);
        if (classes.includes("sign") && classes.includes("signal")) this.feet.set(key, moved(matrix, [0, 0]));
        const children = /** @type {Element[]} */ (flat(one.children).filter((it) => it instanceof Element));
        const title = children.find((it) => it.tag === "title")?.text() ?? "";
        for (const child of children) {
            if (child.tag === "text") this.texts.push(writtenAt(child, matrix, title));
            else if (child.tag === "g" || child.tag === "a") this.walk(child, matrix, key, isInSign
                || classes.includes("sign"));
            else this.takeShape(child, matrix, key, isInSign || classes.includes("sign"));
        }
    }

    /** @param {Element} one where columns and rows are: each line has its number behind it */
    takeGrid(one) {
        const parts = /** @type {Element[]} */ (flat(one.children));
        for (let at = 0; at < parts.length; at += 2) {
            const [[x, y], [u]] = spotsOf(parts[at]);
            if (x === u) this.columns.set(Number(parts[at + 1].text()), x);
            else this.rows.set(Number(parts[at + 1].text()), y);
        }
    }

    /** @param {Element} one @param {Matrix} matrix @param {string} key @param {boolean} isInSign */
    takeShape(one, matrix, key, isInSign) {
        const classes = classesOf(one);
        if (one.tag === "title" || classes.includes("hit")) return;
        const placed = spotsOf(one).map((it) => moved(matrix, it));
        const kind = LINES.find((it) => classes.includes(it));
        /** @type {(spots: Spot[]) => Piece[]} */
        const pieces = (spots) => spots.slice(1).map((it, at) => [spots[at], it]);
        if (classes.includes("wedge")) {
            this.lines.push(...pieces([...placed, placed[0]]).map((piece) => ({ kind: "wedge", piece })));
            this.wedges.set(key, placed);
        } else if (isInSign) this.signs.push({ key, box: around(placed) });
        else if (kind) {
            this.lines.push(...pieces(placed).map((piece) => ({ kind, piece })));
            if (kind === "edge") this.edges.set(key, [...this.edges.get(key) ?? [], placed]);
        }
    }
}

/** @param {Element} one @param {Matrix} matrix @param {string} title @returns {Written} */
function writtenAt(one, matrix, title) {
    const [x, y, size] = ["x", "y", "font-size"].map((it) => Number(given(one, it)));
    const [wide, own] = [widthOf(one.text(), size), times(matrix, matrixOf(given(one, "transform")))];
    /** @type {Spot[]} */
    const corners = [[x, y - size * ASCENT], [x + wide, y - size * ASCENT], [x, y + size * DESCENT],
        [x + wide, y + size * DESCENT]];
    return { text: one.text(), box: around(corners.map((it) => moved(own, it))), owner: given(one, "data-name"), title, size,
        classes: classesOf(one) };
}

// ---- what is wrong

/**
 * Whether a straight piece comes as near as this to a box: cut at the four sides, is anything left?
 * @param {Box} box
 * @param {Piece} piece
 * @param {number} [reach]
 * @returns {boolean}
 */
export function meets(box, [[x, y], [u, v]], reach = 1) {
    let [first, last] = [0, 1];
    for (const [at, step, least, most] of [[x, u - x, box[0] - reach, box[2] + reach],
        [y, v - y, box[1] - reach, box[3] + reach]]) {
        if (Math.abs(step) < 1e-9) {
            if (at < least || at > most) return false;
            continue;
        }
        const [one, other] = [(least - at) / step, (most - at) / step];
        [first, last] = [Math.max(first, Math.min(one, other)), Math.min(last, Math.max(one, other))];
    }
    return first <= last;
}

/** @type {(one: Box, other: Box) => boolean} */
const overlap = (one, other) => one[0] < other[2] && other[0] < one[2] && one[1] < other[3] && other[1] < one[3];

/** @type {(box: Box, view: Box, reach?: number) => boolean} */
const isInside = (box, view, reach = 0) =>
    view[0] - reach <= box[0] && view[1] - reach <= box[1] && box[2] <= view[2] + reach && box[3] <= view[3] + reach;

/** @param {Drawn} drawn @returns {string[]} names that lie on a line, a sign or another text, or are cut off */
function faultsOfNames(drawn) {
    return drawn.texts.flatMap((one, at) => [
        ...drawn.lines.some(({ piece }) => meets(one.box, piece)) ? [`${one.text} lies on a line`] : [],
        ...drawn.signs.some(({ box }) => overlap(one.box, box)) ? [`${one.text} lies on a sign`] : [],
        ...isInside(one.box, drawn.view) ? [] : [`${one.text} is cut off`],
        ...drawn.texts.slice(at + 1).filter((it) => overlap(one.box, it.box)).map((it) => `${one.text} lies on ${it.text}`)]);
}

/**
 * @type {(drawn: Drawn, key: string, box: Box) => boolean} whether what lies at a track meets another line than that on which
 * it is
 */
function isOnOther(drawn, key, box) {
    const spots = drawn.places.get(key) ?? [], isOwn = (/** @type {Piece} */ piece) => spots.some((it) => meets([...it, ...it],
        piece, 0.2));
    return box[3] - box[1] < 20 && drawn.lines.some(({ kind, piece }) => kind === "edge" && meets(box, piece, -0.3)
        && !isOwn(piece));
}

/** @param {Drawn} drawn @returns {string[]} signals and objects that lie on a line, a sign or another one */
function faultsOfSigns(drawn) {
    return drawn.signs.flatMap(({ key, box }) => {
        /** @type {Box} */
        const small = [box[0] + 0.5, box[1] + 0.5, box[2] - 0.5, box[3] - 0.5];
        const isOnLine = drawn.lines.some(({ kind, piece }) => kind === "edge" && meets(box, piece, -0.3));
        const others = drawn.signs.filter((it) => it.key !== key && overlap(small, it.box)).map((it) =>
            `${key} lies on ${it.key}`);
        return [...key.startsWith("s") ? [...isOnLine ? [`${key} lies on a line`] : [], ...others] : [],
            ...key.startsWith("o") ? [...isOnOther(drawn, key, box) ? [`${key} lies on another line`] : [], ...others] : [],
            ...isInside(box, drawn.view, 0.5) ? [] : [`${key} is cut off`]];
    });
}

/** @param {Drawn[]} strips @param {Signal[]} signals @returns {string[]} signals that aren't on their lines */
export function faultsOfFeet(strips, signals) {
    return signals.flatMap(({ number, edge }) => strips.flatMap((drawn) => {
        const [foot, lines] = [drawn.feet.get(`s${number}`), drawn.edges.get(`e${edge}`) ?? []];
        const isOn = foot && lines.some((line) => line.slice(1).some((it, at) =>
            meets([...foot, ...foot], [line[at], it], 0.1)));
        return foot && !isOn ? [`signal ${number} lies beside its line`] : [];
    }));
}

/** @param {string[]} listed @returns {Map<string, number>} */
function counted(listed) {
    const found = new Map();
    for (const it of listed) found.set(it, (found.get(it) ?? 0) + 1);
    return found;
}

/**
 * Nodes, signals and names that aren't there once, tracks without a name, edges that aren't there, and signals beside their
 * lines.
 * @param {Drawn[]} strips
 * @param {Drawing} drawing
 * @param {Signal[]} [signals]
 * @returns {string[]}
 */
export function faultsOfDrawing(strips, drawing, signals = []) {
    const names = counted(strips.flatMap((it) => it.texts.map(({ owner }) => owner)));
    const signs = counted(strips.flatMap((it) => [...new Set([...it.signs.map(({ key }) => key), ...it.edges.keys()])]));
    const owners = [...drawing.nodes.map((it) => `node ${it.number}`), ...signals.map((it) => `signal ${it.number}`)];
    const keys = [...drawing.nodes.map((it) => `n${it.number}`), ...signals.map((it) => `s${it.number}`)];
    const tracks = [...new Set(drawing.edges.flatMap((it) => it.track === null ? [] : [`track ${it.track}`]))];
    return [...faultsOfFeet(strips, signals),
        ...owners.filter((it) => names.get(it) !== 1).map((it) => `the name of ${it} is there ${names.get(it) ?? 0} times`),
        ...tracks.filter((it) => !((names.get(it) ?? 0) >= 1 && (names.get(it) ?? 0) <= strips.length))
            .map((it) => `the name of ${it} is there ${names.get(it) ?? 0} times`),
        ...keys.filter((it) => signs.get(it) !== 1).map((it) => `the sign of ${it} is there ${signs.get(it) ?? 0} times`),
        ...drawing.edges.filter((it) => !signs.get(`e${it.number}`)).map((it) => `edge ${it.number} isn't there`)];
}

/** @param {Page} page @returns {Drawn[][]} the strips of each of its pictures */
export function picturesOf(page) {
    return page.pictures.map((picture) => picture.strips.map((it) => new Drawn(it)));
}

/** @param {Page} page @returns {string[]} */
export function faultsOfPage(page) {
    return picturesOf(page).flat().flatMap((drawn) => [...faultsOfNames(drawn), ...faultsOfSigns(drawn)]);
}
