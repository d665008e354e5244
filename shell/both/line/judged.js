/**
 * Whether a station's file says of each switch and crossing what the whole file says: the side of its legs, which track and
 * which node lies above and below there and at the points, its mileage, and between which two each signal lies. The whole file
 * is read here; what the station's file says is the program's own track graph of it.
 */
import { MOST_BYTES } from "../file_kinds.js";
import { readGraph } from "../page/texts.js";
import { mileage, read } from "../railml.js";
import { Walked } from "../surroundings.js";
import { TrackGraph } from "../track_graph.js";

/** @typedef {import("../page/texts.js").Graph} Graph */
/** @typedef {Omit<import("./stations.js").StationFile, "listed">} StationFile */
/** @typedef {{track: string, node: string}} Leg a track, or a join's connection, and the node to which it leads */
/**
 * @typedef {{way: "east" | "west", upper: Leg, lower: Leg, toe: Leg | null, mileage: number}} Fork two tracks on one side of a
 *     node, the upper and the lower one; of a switch also what lies at its points; and the node's mileage
 */

/** @typedef {{forks: Map<string, Fork[]>, signals: Map<string, string>}} Whole of the whole file the forks, and between which two each
 * signal lies */

/** two mileages of one node are no further apart, in metres */
const SAME = 0.001;

/**
 * The forks of each switch and crossing of a file, by its id.
 * @param {import("../railml.js").Document} document
 * @returns {Map<string, Fork[]>}
 */
export function forksOfFile(document) {
    const graph = new TrackGraph(document);
    /** @type {Map<string, Fork[]>} */
    const found = new Map();
    const leg = (/** @type {number} */ number, /** @type {"east" | "west"} */ way) => {
        const { name, east, west } = graph.edges[number];
        return { track: name, node: (way === "east" ? east : west).id };
    };
    for (const { node, way, upper, lower } of graph.forks) {
        const back = way === "east" ? "west" : "east", points = graph.leaving[back].get(node.place) ?? [];
        const toe = points.length === 1 ? leg(points[0], back) : null, at = mileage(node)?.toNumber() ?? NaN;
        found.set(node.id, [...(found.get(node.id) ?? []), { way, upper: leg(upper, way), lower: leg(lower, way), toe, mileage: at }]);
    }
    return found;
}

/**
 * What of a whole file each of its parts is held against.
 * @param {import("../railml.js").Document} document
 * @returns {Whole}
 */
export function wholeOf(document) {
    return { forks: forksOfFile(document), signals: new Walked(document).signals() };
}

/**
 * The same by the program's track graph.
 * @param {Graph} graph
 * @returns {Map<string, Fork[]>}
 */
export function forksOfGraph(graph) {
    /** @type {Map<string, Fork[]>} */
    const found = new Map();
    const leg = (/** @type {import("../page/texts.js").GraphEdge} */ it, /** @type {"east" | "west"} */ way) =>
        ({ track: it.track, node: graph.nodes[way === "east" ? it.east : it.west].name });
    for (const { number, name, kind, mileage: at } of graph.nodes) {
        for (const way of kind === "switch" || kind === "crossing" ? /** @type {const} */ (["west", "east"]) : []) {
            const legs = graph.edges.filter((it) => (way === "east" ? it.west : it.east) === number);
            const back = graph.edges.filter((it) => (way === "east" ? it.east : it.west) === number);
            if (legs.length === 2) {
                const [upper, lower] = graph.above.has(`${legs[0].number} ${legs[1].number}`) ? legs : [legs[1], legs[0]];
                const toe = back.length === 1 ? leg(back[0], way === "east" ? "west" : "east") : null;
                found.set(name, [...(found.get(name) ?? []),
                    { way, upper: leg(upper, way), lower: leg(lower, way), toe, mileage: Number(at) }]);
            }
        }
    }
    return found;
}

/**
 * Whether a leg is the same: of the same track, to the same node, if that one is in the file.
 * @param {Leg | null} whole
 * @param {Leg | null} here
 * @param {StationFile} file
 * @param {Set<string>} inside
 */
function isSame(whole, here, file, inside) {
    if (!whole || !here) {
        return whole === here;
    }
    const origins = file.origins.get(here.track) ?? [here.track];
    return origins.includes(whole.track) && (!inside.has(whole.node) || whole.node === here.node);
}

/**
 * The first switch or crossing of a station's file that isn't as in the whole file; nothing where all are.
 * @param {Map<string, Fork[]>} whole the forks of the whole file
 * @param {StationFile} file
 * @param {Graph} graph the program's, of the station's file
 */
export function differing(whole, file, graph) {
    const here = forksOfGraph(graph), inside = new Set(file.points);
    return file.points.find((id) => {
        const wanted = whole.get(id) ?? [], found = here.get(id) ?? [];
        return wanted.length === 0 || wanted.length !== found.length || wanted.some((fork) => {
            const other = found.find((it) => it.way === fork.way);
            return !other || Math.abs(fork.mileage - other.mileage) > SAME
                || [fork.upper, fork.lower, fork.toe]
                    .some((leg, at) => !isSame(leg, [other.upper, other.lower, other.toe][at], file, inside));
        });
    });
}

/** @param {Uint8Array} bytes a station's file @returns {Map<string, string>} between which two each of its signals lies */
function signalsIn(bytes) {
    return new Walked(read(bytes)).signals();
}

/**
 * The first signal of a station's file that lies between other switches or crossings than in the whole file; nothing where all
 * lie as there.
 * @param {Map<string, string>} whole between which two each signal of the whole file lies
 * @param {StationFile} file
 * @param {Map<string, string>} [here] the same of the station's file
 */
export function elsewhere(whole, file, here = signalsIn(new TextEncoder().encode(file.text))) {
    const inside = new Set(file.points);
    return [...here].find(([id, ends]) => (whole.get(id) ?? "").split(" and ")
        .some((name) => inside.has(name) && !ends.split(" and ").includes(name)))?.[0];
}

/** @typedef {{status: number, text: string, signals: Map<string, string>, wasStopped: boolean}} Found what the program says of a station's
 * file, its track graph where it ends with 0; and between which two each signal lies */

/** @param {Uint8Array} bytes @returns {boolean} whether a station's file is longer than the program reads */
function isTooLong(bytes) {
    return bytes.length > (MOST_BYTES.get("railml") ?? 0);
}

/**
 * What is found in a station's file, by which it is held against the whole.
 * @param {import("../engine.js").Engine} engine
 * @param {string} name
 * @param {Uint8Array} bytes
 * @param {AbortSignal} [signal]
 * @returns {Promise<Found>}
 */
export async function foundIn(engine, name, bytes, signal) {
    if (isTooLong(bytes)) {
        return { status: 1, text: "", signals: new Map(), wasStopped: false };
    }
    const { output, status, wasStopped } = await engine.run({ words: ["graph", name], files: new Map([[name, bytes]]), signal });
    return { status, text: new TextDecoder().decode(output), signals: status || wasStopped ? new Map() : signalsIn(bytes), wasStopped };
}

/**
 * Why it isn't known that each switch, crossing and signal of a station's file is there as in the whole file.
 * @param {Whole} whole
 * @param {StationFile} file
 * @param {Uint8Array} bytes
 * @param {Found} found
 * @returns {string} "" where it is known
 */
export function whyOther(whole, file, bytes, { status, text, signals, wasStopped }) {
    if (status !== 0 || wasStopped) {
        return isTooLong(bytes) ? "it has more than 4 MiB" : `the program says of it: ${text.trim()}`;
    }
    const other = differing(whole.forks, file, readGraph(text)), lost = elsewhere(whole.signals, file, signals);
    return other !== undefined ? `it can't be shown that ${other} has the same legs, sides and mileage there`
        : lost !== undefined ? `signal ${lost} would be on another piece of track` : "";
}

/**
 * A station's file judged by the program's own track graph of it.
 * @param {import("../engine.js").Engine} engine
 * @param {Whole} whole
 * @param {StationFile} file
 * @param {AbortSignal} [signal]
 * @returns {Promise<{bytes: Uint8Array, reason: string, wasStopped: boolean}>} the file's bytes, and why it isn't known that each
 * switch and
 *     crossing is there as in the whole file; "" where it is known
 */
export async function judgedFile(engine, whole, file, signal) {
    const bytes = new TextEncoder().encode(file.text), found = await foundIn(engine, `${file.name}.xml`, bytes, signal);
    return { bytes, reason: whyOther(whole, file, bytes, found), wasStopped: found.wasStopped };
}
