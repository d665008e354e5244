/**
 * What a page knows of a station: kinds, sides and what is above what from the program's graph, names from the railML file.
 *
 * Without a graph it knows no kinds, and without a file no names: then the page has less to say.
 */
import { mileageOf } from "../infrastructure.js";
import { Letters } from "./letters.js";

/** @typedef {import("../decimal.js").Decimal} Decimal */
/** @typedef {import("../infrastructure.js").Infrastructure} Infrastructure */
/** @typedef {import("../infrastructure.js").SignalInFile} SignalInFile */
/** @typedef {import("./texts.js").Graph} Graph */
/** @typedef {import("./texts.js").GraphNode} GraphNode */
/** @typedef {import("./texts.js").Signal} Signal */
/** @typedef {{trunk: number, straight: number, diverging: number}} Legs the edges of a switch */
/** @typedef {{one: number, other: number, position: string}} Way a way through a node, from one edge to another, and how the
 * node's switch lies for it */

/** @type {"straight"} */
export const STRAIGHT = "straight";
/** @type {"diverging"} */
export const DIVERGING = "diverging";
/** what the kinds of signals are called, by the types that files give them */
export const SIGNALS = new Map(["main", "distant", "combined", "repeater", "shunting"].map((it) => [it, `${it} signal`]));
/** @type {Map<string, string>} slips, by the types that files give to crossings */
const SLIPS = new Map([["doubleSwitchCrossing", "double slip"], ["simpleSwitchCrossing", "single slip"],
    ["singleSwitchCrossing", "single slip"]]);

/** @type {(side: string) => string} where in a drawing is what the program calls east, since kilometres rise to it, or west */
export const edgeOf = (side) => side === "east" ? "right" : "left";

/**
 * Those that are there more than once.
 * @param {string[]} names
 * @returns {Set<string>}
 */
function twice(names) {
    /** @type {[Set<string>, Set<string>]} */
    const [seen, found] = [new Set(), new Set()];
    for (const name of names.map((it) => it.trim())) (seen.has(name) ? found : seen).add(name);
    return found;
}

export class Station {
    /** @param {Graph | null} graph @param {Infrastructure} file @param {string} [labels] */
    constructor(graph, file, labels = "name") {
        this.graph = graph;
        this.file = file;
        this.labels = labels;
        this.letters = new Letters(this.#texts());
        this.repeated = this.#namesOfTwo();
        this.repeatedBySignals = twice([...file.signals.values()].map((it) => it.name));
    }

    // ---- names

    /** @returns {Set<string>} all that may be shown */
    #texts() {
        const { names, tracks, signals, objects } = this.file;
        const found = [...names.keys(), ...names.values(), ...tracks.keys(), ...signals.keys(),
            ...objects.flatMap((it) => [it.id, it.name])];
        found.push(...[...signals.values()].map((it) => it.name));
        if (this.graph) found.push(...this.graph.nodes.map((it) => it.name), ...this.graph.edges.map((it) => it.track));
        return new Set(found);
    }

    /** @returns {Set<string>} the names that two tracks or two nodes have: they tell nothing apart */
    #namesOfTwo() {
        const { names, tracks } = this.file;
        const nodes = this.graph ? this.graph.nodes.map((it) => it.name) : [...names.keys()].filter((it) => !tracks.has(it));
        /** @type {(ids: string[]) => string[]} */
        const named = (ids) => ids.flatMap((it) => names.get(it) ?? []);
        return new Set([...twice(named([...tracks.keys()])), ...twice(named(nodes))]);
    }

    /**
     * Whether a thing's name is written at it: where names are asked for, and no two tracks, nodes or signals have it.
     * @param {string} name
     * @param {string} id
     * @param {boolean} isSignal
     * @returns {boolean}
     */
    #isLabel(name, id, isSignal) {
        if (this.labels !== "name" || name === "") return false;
        if (isSignal) return !this.repeatedBySignals.has((this.file.signals.get(id)?.name ?? "").trim());
        return !this.repeated.has((this.file.names.get(id) ?? "").trim());
    }

    /** @param {string} text @returns {string} */
    shown(text) {
        return this.letters.shown(text);
    }

    /**
     * The name that the file has for an id, or nothing.
     * @param {string} id
     * @returns {string}
     */
    name(id) {
        const name = this.file.names.get(id) ?? this.file.signals.get(id)?.name ?? "";
        return name.trim() && name !== id ? this.shown(name) : "";
    }

    /** @param {string} id @returns {string} */
    signalName(id) {
        const name = this.file.signals.get(id)?.name ?? "";
        return name.trim() && name !== id ? this.shown(name) : "";
    }

    /**
     * What is written at a thing: its name, or else its id.
     * @param {string} id
     * @param {boolean} [isSignal]
     * @returns {string}
     */
    label(id, isSignal = false) {
        const name = isSignal ? this.signalName(id) : this.name(id);
        return this.#isLabel(name, id, isSignal) ? name : this.shown(id);
    }

    /**
     * The label, and behind it what it isn't of name and id.
     * @param {string} id
     * @param {boolean} [isSignal]
     * @returns {string}
     */
    both(id, isSignal = false) {
        const name = isSignal ? this.signalName(id) : this.name(id);
        const own = this.shown(id);
        if (!name) return own;
        return this.#isLabel(name, id, isSignal) ? `${name} (${own})` : `${own} (${name})`;
    }

    /** @param {string} id @returns {string} the name of the operational point to which a line goes on at an end, or nothing */
    leadsTo(id) {
        const name = this.file.leads.get(id);
        return name ? this.shown(name) : "";
    }

    // ---- kinds and sides, from the graph

    /** @param {number} number @returns {GraphNode | null} */
    node(number) {
        return this.graph?.nodes[number] ?? null;
    }

    /**
     * The kind of a node; an end's is that of its element.
     * @param {number} number
     * @returns {string}
     */
    kind(number) {
        const node = this.node(number);
        if (!node) return "node";
        return node.kind === "end" ? this.file.ends.get(node.name) ?? "end" : node.kind;
    }

    /**
     * @param {number} number
     * @returns {string} what kind of sign a node has: a crossing's says whether the file has slips there
     */
    signOf(number) {
        const kind = this.kind(number);
        return kind === "crossing" ? SLIPS.get(this.file.points.get(this.node(number)?.name ?? "")?.type ?? "") ?? kind : kind;
    }

    /**
     * The leg of a switch that the file has as its normal position; nothing where it has none, or another word.
     * @param {number} number
     * @returns {"straight" | "diverging" | ""}
     */
    normalLeg(number) {
        const node = this.node(number), said = node?.kind === "switch" ? this.file.points.get(node.name) : undefined;
        if (!said?.normal) return "";
        const [isBranch, isTrack] = [said.course === said.normal, (said.goesOn || STRAIGHT) === said.normal];
        return isBranch === isTrack ? "" : isBranch ? DIVERGING : STRAIGHT;
    }

    /**
     * The edges that leave a node to a side, the upper one first.
     * @param {number} number
     * @param {string} side
     * @returns {number[]}
     */
    edgesAt(number, side) {
        const graph = this.graph;
        if (!graph) return [];
        const found = graph.edges.filter((it) => (side === "east" ? it.west : it.east) === number).map((it) => it.number);
        /** @type {(edge: number) => number} */
        const over = (edge) => found.filter((other) => graph.above.has(`${other} ${edge}`)).length;
        return found.sort((one, other) => over(one) - over(other));
    }

    /**
     * A switch's edges; none where the graph doesn't say which is which.
     * @param {number} number
     * @returns {Legs | null}
     */
    legs(number) {
        const node = this.node(number);
        if (node?.kind !== "switch") return null;
        const legs = this.edgesAt(number, node.legs);
        const trunk = this.edgesAt(number, node.legs === "east" ? "west" : "east");
        if (legs.length !== 2 || trunk.length !== 1) return null;
        const [diverging, straight] = node.side === "upper" ? legs : [legs[1], legs[0]];
        return { trunk: trunk[0], straight, diverging };
    }

    /**
     * The ways through a node: no train turns from one leg of a switch into the other.
     * @param {number} number
     * @returns {Way[]}
     */
    ways(number) {
        const kind = this.node(number)?.kind;
        const legs = this.legs(number);
        if (legs) {
            return [{ one: legs.trunk, other: legs.straight, position: STRAIGHT },
                { one: legs.trunk, other: legs.diverging, position: DIVERGING }];
        }
        const [west, east] = [this.edgesAt(number, "west"), this.edgesAt(number, "east")];
        if (kind === "joint" && west.length === 1 && east.length === 1) return [{ one: west[0], other: east[0], position: "" }];
        if (kind === "crossing" && west.length === 2 && east.length === 2) {
            return [{ one: west[1], other: east[0], position: "" }, { one: west[0], other: east[1], position: "" }];
        }
        return [];
    }

    // ---- tracks and signals

    /** @param {string | null} track @returns {boolean} */
    isMain(track) {
        return track !== null && this.file.tracks.get(track)?.type === "mainTrack";
    }

    /**
     * The edges of a track, from its begin to its end.
     * @param {string} track
     * @returns {number[]}
     */
    pieces(track) {
        return (this.graph?.edges ?? []).filter((it) => it.track === track).map((it) => it.number);
    }

    /**
     * The nodes of a track from its begin to its end; none where its begin isn't known.
     * @param {string} track
     * @returns {number[]}
     */
    nodesAlong(track) {
        const [known, pieces, graph] = [this.file.tracks.get(track), this.pieces(track), this.graph];
        if (!known || !pieces.length || !graph) return [];
        const begins = new Set([known.begin.id, this.file.owners.get(known.begin.ref) ?? ""]);
        const first = graph.edges[pieces[0]];
        const found = [first.west, first.east].filter((it) => begins.has(graph.nodes[it].name));
        if (found.length !== 1) return [];
        for (const number of pieces) {
            const { west, east } = graph.edges[number];
            const last = found[found.length - 1];
            if (last !== west && last !== east) return [];
            found.push(west === last ? east : west);
        }
        return found;
    }

    /** @param {string} id @returns {SignalInFile | null} */
    signal(id) {
        return this.file.signals.get(id) ?? null;
    }

    /** @param {string} id @returns {string} the kind of a signal, as its sign is called */
    signalKind(id) {
        return SIGNALS.get(this.signal(id)?.type ?? "") ?? "signal";
    }

    /**
     * Whether trains that a signal is for run east; null where file and graph don't say so.
     * @param {Signal} signal
     * @returns {boolean | null}
     */
    headsEast(signal) {
        const known = this.signal(signal.name);
        if (!known || !this.graph || !["up", "down"].includes(known.direction)) return null;
        const [along, at] = [this.nodesAlong(known.track), this.pieces(known.track).indexOf(signal.edge)];
        if (at < 0 || !along.length) return null;
        return (this.graph.edges[signal.edge].west === along[at]) === (known.direction === "up");
    }

    /** @param {string} id @returns {Decimal | null} */
    signalMileage(id) {
        const known = this.signal(id);
        const track = known && this.file.tracks.get(known.track);
        return known && track ? mileageOf(known, track.begin) : null;
    }

    /**
     * The signals of an edge from west to east, as they are drawn.
     * @param {number} edge
     * @param {Signal[]} signals
     * @returns {Signal[]}
     */
    inOrder(edge, signals) {
        return signals.filter((it) => it.edge === edge).sort((one, other) => one.point[0] - other.point[0]);
    }
}
