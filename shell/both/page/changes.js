/**
 * What changed between two drawings of a station: nodes that moved, are new or gone, and what their files say otherwise.
 *
 * Nodes are matched by their ids, pieces of track by the ids of their track and of their two nodes, whichever is on the left.
 * Where a node moved past others of its track, its track is cut into other pieces: that is said once, with the node.
 */
import { Decimal } from "../decimal.js";
import { kilometres } from "../messages/law_words.js";
import { Marks } from "./drawing.js";
import { element } from "./markup.js";
import { edgeOf } from "./station.js";

/** @typedef {import("./markup.js").Element} Element */
/** @typedef {import("./station.js").Station} Station */
/** @typedef {import("./texts.js").Drawing} Drawing */
/** @typedef {import("./texts.js").Edge} Edge */
/** @typedef {import("./texts.js").Node} Node */

/** @type {(node: Node) => string} */
const at = ({ point: [column, row] }) => `column ${column}, row ${row}`;

/** @type {(edge: Edge, drawing: Drawing) => [string, string, string]} */
const namesOf = (edge, { nodes }) => [edge.track ?? "", nodes[edge.west].name, nodes[edge.east].name];

/** @param {Edge} edge @param {Drawing} drawing @returns {string} what a piece has in common with the same one elsewhere */
function sameness(edge, drawing) {
    const [track, ...ends] = namesOf(edge, drawing);
    return [track, ...ends.sort()].join(" ");
}

/**
 * The names of the nodes of each track from left to right, of tracks that have a name and are drawn in one line.
 * @param {Drawing} drawing
 * @returns {Map<string, string[]>}
 */
function nodesAlong({ nodes, edges }) {
    /** @type {Map<string, Edge[]>} */
    const tracks = new Map();
    for (const edge of edges) if (edge.track) tracks.set(edge.track, [...tracks.get(edge.track) ?? [], edge]);
    const lines = [...tracks].map(([track, pieces]) => /** @type {[string, Edge[]]} */ (
        [track, pieces.sort((one, other) => one.points[0][0] - other.points[0][0])]));
    return new Map(lines.filter(([, pieces]) => pieces.every((it, at) => !at || pieces[at - 1].east === it.west))
        .map(([track, pieces]) => [track, [pieces[0].west, ...pieces.map((it) => it.east)].map((it) => nodes[it].name)]));
}

/** @type {(along: string[], name: string) => [string | undefined, string | undefined]} its neighbours along a track */
function besideOf(along, name) {
    const at = along.indexOf(name);
    return [along[at - 1], along[at + 1]];
}

/** @param {Edge} edge @param {Drawing} drawing @returns {Decimal | null} in metres, where both mileages are known */
function lengthOf({ west, east }, { nodes }) {
    const [from, to] = [west, east].map((it) => Decimal.of(nodes[it].mileage ?? ""));
    return from && to ? to.minus(from).absolute() : null;
}

/** @type {(length: Decimal) => string} without its sign, and without zeros at its end */
const metresOf = (length) => length.absolute().toString().replace(/(\.\d*?)0+$/, "$1").replace(/\.$/, "");

/** @type {(kind: string, node: import("./texts.js").GraphNode) => string} a switch with its legs */
const kindOf = (kind, { legs, side }) => legs ? `${kind} with legs on the ${edgeOf(legs)}, the ${side} one diverging` : kind;

/** @type {(one: string | null, other: string | null) => boolean} */
const areOther = (one, other) => one !== null && other !== null && one !== other;

/** @type {(drawing: Drawing) => Map<string, Edge>} */
const edgesOf = (drawing) => new Map(drawing.edges.map((it) => [sameness(it, drawing), it]));

/** @type {(drawing: Drawing) => Map<string, Node>} */
const nodesOf = (drawing) => new Map(drawing.nodes.map((it) => [it.name, it]));

/** @type {(edge: Edge, drawing: Drawing, station: Station) => string} */
function piece(edge, drawing, station) {
    const [track, west, east] = namesOf(edge, drawing);
    return `${station.both(track)}, from ${station.label(west)} to ${station.label(east)}`;
}

/** @type {(key: string, text: string) => Element} */
const item = (key, text) => element("li", { "data-key": key },
    element("label", {}, element("input", { type: "checkbox" }), element("span", {}, text)));

export class Changes {
    /** @param {Drawing} old @param {Drawing} now @param {Station} former the station of the old drawing @param {Station}
     * station */
    constructor(old, now, former, station) {
        this.old = old;
        this.now = now;
        this.former = former;
        this.station = station;
        /** @type {Set<number>} the pieces whose length is said */
        this.saidOf = new Set();
        this.oldNodes = nodesOf(old);
        this.nodes = nodesOf(now);
        this.oldEdges = edgesOf(old);
        this.edges = edgesOf(now);
        this.newNodes = now.nodes.filter((it) => !this.oldNodes.has(it.name));
        this.goneNodes = old.nodes.filter((it) => !this.nodes.has(it.name));
        /** @type {Map<string, {track: string, was: string[], is: string[]}>} nodes that moved past others, and these tracks */
        this.passed = this.#passed();
        const cut = new Set([...this.passed.values()].map((it) => it.track));
        const isOwn = (/** @type {Edge} */ { track }) => track === null || !cut.has(track);
        this.newEdges = [...this.edges].filter(([name, it]) => !this.oldEdges.has(name) && isOwn(it)).map(([, edge]) => edge);
        this.goneEdges = [...this.oldEdges].filter(([name, it]) => !this.edges.has(name) && isOwn(it)).map(([, edge]) => edge);
        this.moved = this.#kept().filter(([was, is]) => was.point[0] !== is.point[0] || was.point[1] !== is.point[1]);
    }

    /**
     * The nodes whose kilometre changed and whose neighbours along a track are others now, of tracks that have the same nodes.
     * @returns {Map<string, {track: string, was: string[], is: string[]}>} by their names, the track from left to right
     */
    #passed() {
        const [before, now] = [nodesAlong(this.old), nodesAlong(this.now)];
        const found = new Map();
        for (const [track, is] of now) {
            const was = before.get(track) ?? [];
            if ([...was].sort().join(" ") !== [...is].sort().join(" ")) continue;
            for (const name of is.filter((it) => String(besideOf(was, it)) !== String(besideOf(is, it)))) {
                const [one, other] = [this.oldNodes, this.nodes].map((it) => it.get(name)?.mileage ?? null);
                if (areOther(one, other)) found.set(name, { track, was, is });
            }
        }
        return found;
    }

    /** @returns {[Node, Node][]} the nodes that both drawings have, as they were and as they are */
    #kept() {
        return this.now.nodes.flatMap((it) => {
            const was = this.oldNodes.get(it.name);
            return was ? [/** @type {[Node, Node]} */ ([was, it])] : [];
        });
    }

    /** @returns {Marks} */
    newMarks() {
        const nodes = [...this.newNodes.map((it) => ({ it, mark: "new" })),
            ...this.moved.map(([, it]) => ({ it, mark: "moved" }))];
        return new Marks(new Map(nodes.map(({ it, mark }) => [it.number, mark])),
            new Map(this.newEdges.map((it) => [it.number, "new"])));
    }

    /** @returns {Marks} */
    oldMarks() {
        const nodes = [...this.goneNodes.map((it) => ({ it, mark: "gone" })),
            ...this.moved.map(([it]) => ({ it, mark: "moved" }))];
        return new Marks(new Map(nodes.map(({ it, mark }) => [it.number, mark])),
            new Map(this.goneEdges.map((it) => [it.number, "gone"])));
    }

    /**
     * The key of a thing of the former drawing: that of the same thing now, or one of its own.
     * @param {string} kind
     * @param {number} number
     * @returns {string}
     */
    oldKey(kind, number) {
        if (kind === "o") return this.#oldObject(number);
        const same = kind === "n" ? this.nodes.get(this.old.nodes[number].name)
            : this.edges.get(sameness(this.old.edges[number], this.old));
        return same ? `${kind}${same.number}` : `gone-${kind}${number}`;
    }

    /** @param {number} number @returns {string} the key of what lies at a track of the old drawing: that of the same id now */
    #oldObject(number) {
        const { id } = this.former.file.objects[number], now = this.station.file.objects.findIndex((it) => it.id === id);
        return id && now >= 0 ? `o${now}` : `gone-o${number}`;
    }

    /** @returns {Element[]} each change, to be ticked off; it leads to what is meant */
    items() {
        const { former, station } = this;
        return [
            ...this.#kept().flatMap(([was, is]) => this.#ofMoved(was, is)),
            ...this.newNodes.map((it) => item(`n${it.number}`, `new node: ${station.both(it.name)}, ${at(it)}`)),
            ...this.goneNodes.map((it) => item(`gone-n${it.number}`,
                `gone node: ${former.both(it.name)}, it was at ${at(it)}`)),
            ...this.#kept().flatMap(([was, is]) => this.#ofFacts(was, is)),
            ...this.newEdges.map((it) => item(`e${it.number}`, `new piece of track: ${piece(it, this.now, station)}`)),
            ...this.goneEdges.map((it) => item(`gone-e${it.number}`, `gone piece of track: ${piece(it, this.old, former)}`)),
        ];
    }

    /** @param {Node} was @param {Node} is @returns {Element[]} how it moved, in the drawing and along its track */
    #ofMoved(was, is) {
        const passed = this.passed.get(is.name);
        const ways = this.moved.some(([, it]) => it === is) ? [`from ${at(was)} to ${at(is)}`] : [];
        if (passed) {
            ways.push(`along ${this.station.both(passed.track)} from ${this.#between(passed.was, is.name)} to `
                + this.#between(passed.is, is.name));
        }
        return ways.length ? [item(`n${is.number}`, `moved: ${this.station.both(is.name)}, ${ways.join(", ")}`)] : [];
    }

    /** @param {string[]} along @param {string} name @returns {string} where a node is along a track */
    #between(along, name) {
        const [before, behind] = besideOf(along, name).map((it) => it === undefined ? "" : this.station.label(it));
        return before && behind ? `between ${before} and ${behind}` : before ? `behind ${before}` : `before ${behind}`;
    }

    /**
     * The pieces at a node that are longer or shorter now; each is said once, with the first of its nodes that has another
     * kilometre.
     * @param {Node} node
     * @returns {string}
     */
    #lengths({ number }) {
        return this.now.edges.filter((it) => it.west === number || it.east === number).map((edge) => {
            const same = this.oldEdges.get(sameness(edge, this.now));
            const [one, other] = [same && lengthOf(same, this.old), lengthOf(edge, this.now)];
            const more = one && other?.minus(one);
            if (!more || more.isZero() || this.saidOf.has(edge.number)) return "";
            this.saidOf.add(edge.number);
            return `; ${piece(edge, this.now, this.station)}, is ${metresOf(more)} m ${more.isNegative ? "shorter" : "longer"}`;
        }).join("");
    }

    /** @param {Node} was @param {Node} is @returns {Element[]} its kilometre, kind and sides, where they are others now */
    #ofFacts(was, is) {
        const [one, other] = [this.former.node(was.number), this.station.node(is.number)];
        if (!one || !other) return [];
        const name = this.station.both(is.name);
        const kinds = [kindOf(this.former.kind(was.number), one), kindOf(this.station.kind(is.number), other)];
        const changes = [];
        if (one.mileage !== other.mileage) {
            changes.push(`another kilometre: ${name}, from ${kilometres(one.mileage)} to ${kilometres(other.mileage)}`
                + this.#lengths(is));
        }
        if (kinds[0] !== kinds[1]) changes.push(`another kind: ${name}, from ${kinds[0]} to ${kinds[1]}`);
        return changes.map((it) => item(`n${is.number}`, it));
    }
}
