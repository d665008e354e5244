/**
 * The path between two signals: pieces of track, and how each switch lies.
 */

/** @typedef {import("./whole.js").Known} Known */
/** @typedef {{edge: string, pieces: string[], nodes: [string, string][]}} Path its last piece, all its pieces, and the nodes
 * between them, each with how its switch lies */

/**
 * The pieces to which one leads at its east or west end.
 * @param {Known} known
 * @param {string} edge
 * @param {boolean} isEast
 * @returns {[string, string, string][]} each with the node between, and how its switch lies
 */
function steps(known, edge, isEast) {
    const node = known.edges.get(edge)?.[isEast ? 1 : 0] ?? "";
    return (known.ways.get(node) ?? []).filter(([one, other]) => one === edge || other === edge)
        .map(([one, other, position]) => [one === edge ? other : one, node, position]);
}

/**
 * @param {Known} known
 * @param {string} from
 * @param {string} to
 * @param {boolean} isEast which way the train runs
 * @returns {Path | null}
 */
function pathFrom(known, from, to, isEast) {
    const [start, column] = known.signals.get(from) ?? ["", 0];
    const [goal, other] = known.signals.get(to) ?? ["", 0];
    if (start === goal && (isEast ? other > column : other < column)) return { edge: start, pieces: [start], nodes: [] };
    const seen = new Set([start]);
    /** @type {Path[]} */
    const waiting = [{ edge: start, pieces: [start], nodes: [] }];
    for (const at of waiting) {
        for (const [edge, node, position] of steps(known, at.edge, isEast)) {
            if (seen.has(edge)) continue;
            seen.add(edge);
            /** @type {Path} */
            const next = { edge, pieces: [...at.pieces, edge], nodes: [...at.nodes, [node, position]] };
            if (edge === goal) return next;
            waiting.push(next);
        }
    }
    return null;
}

/**
 * The path that a train takes from one signal to another.
 * @param {Known} known
 * @param {string} from
 * @param {string} to
 * @returns {Path | null}
 */
export function pathBetween(known, from, to) {
    const way = known.signals.get(from)?.[2] ?? null;
    if (way !== null) return pathFrom(known, from, to, way);
    return pathFrom(known, from, to, true) ?? pathFrom(known, from, to, false);
}
