/**
 * The track sections of a station: what is connected without a joint or detector between. Tracks that meet at a switch or a
 * crossing are connected. Where one of these has no known place, no section is known.
 */

/** @typedef {import("./drawing.js").Scene} Scene */
/** @typedef {import("./pieces.js").Located} Located */
/** @typedef {object} Section
 * @property {Located[]} borders from west to east
 * @property {number[]} ends the nodes at which it ends without a border
 * @property {number[]} edges the pieces of track that it has at least a part of
 * @property {number} from its least mileage */

/** @type {(edge: number, at: number) => string} a part of a piece, from its west end on */
const partOf = (edge, at) => `${edge} ${at}`;

/** @template T @param {T[]} list @returns {T[]} */
const unique = (list) => [...new Set(list)];

/** The parts of pieces between borders, and which of them are connected. */
class Parts {
    /** @param {Scene["drawing"]} drawing @param {Located[]} borders */
    constructor(drawing, borders) {
        this.drawing = drawing;
        /** the borders of each piece from west to east */
        this.on = drawing.edges.map(({ number }) => borders.filter((it) => it.place?.edge === number).sort((one, other) =>
            Number(one.place && other.place && one.place.east.compare(other.place.east)) || one.number - other.number));
        /** @type {Map<string, string>} for parts another one that is known to be connected */
        this.other = new Map();
        for (const { number } of drawing.nodes) this.#connect(this.at(number));
    }

    /** @param {number} node @returns {string[]} the parts that meet at a node */
    at(node) {
        return this.drawing.edges.flatMap(({ number, west, east }) => [...west === node ? [partOf(number, 0)] : [],
            ...east === node ? [partOf(number, this.on[number].length)] : []]);
    }

    /** @param {string} part @returns {string} what all connected parts have in common */
    root(part) {
        let it = part;
        for (let next = this.other.get(it); next !== undefined; next = this.other.get(it)) it = next;
        return it;
    }

    /** @param {string[]} parts */
    #connect(parts) {
        for (const part of parts.slice(1)) {
            const [one, other] = [this.root(parts[0]), this.root(part)];
            if (one !== other) this.other.set(other, one);
        }
    }
}

/**
 * The sections that have a border, from west to east; null where a border's place isn't known.
 * @param {Scene} scene
 * @returns {Section[] | null}
 */
export function sectionsOf({ drawing, pieces }) {
    const borders = pieces.located.filter((it) => it.object.parts);
    if (borders.some((it) => !it.place)) return null;
    const parts = new Parts(drawing, borders);
    /** @type {Map<string, Section>} */
    const found = new Map();
    const at = (/** @type {string} */ part, /** @type {number} */ metres) => {
        const root = parts.root(part), section = found.get(root) ?? { borders: [], ends: [], edges: [], from: metres };
        section.from = Math.min(section.from, metres);
        found.set(root, section);
        return section;
    };
    parts.on.forEach((listed, edge) => listed.forEach((one, before) => {
        const metres = one.place?.metres.toNumber() ?? 0;
        for (const part of [before, before + 1]) at(partOf(edge, part), metres).borders.push(one);
    }));
    for (const { number, mileage } of drawing.nodes) {
        const met = parts.at(number);
        for (const part of met) at(part, Number(mileage)).ends.push(...met.length === 1 ? [number] : []);
    }
    parts.on.forEach((listed, edge) => {
        for (let part = 0; part <= listed.length; part += 1) at(partOf(edge, part), Infinity).edges.push(edge);
    });
    return [...found.values()].filter((it) => it.borders.length).sort((one, other) => one.from - other.from)
        .map((it) => ({ ...it, borders: unique(it.borders), edges: unique(it.edges) }));
}
