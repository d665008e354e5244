/**
 * What a railML 3 file says of each switch and crossing, read of itself alone, so that what is written of it can be judged:
 * what lies
 * around it, its mileage, and between which two each signal lies.
 */
import { HANDS, across, elementOf } from "./net.js";

/** @typedef {import("./net.js").End} End */
/** @typedef {import("./net.js").Net} Net */
/** @typedef {object} Known
 * @property {Map<string, string[][]>} around of each switch what lies at its points and by its legs from the left to the
 * right; of each
 * crossing what lies around it, by either of the ways in which its paths may cross
 * @property {Map<string, number>} given the mileages of switches, crossings and signals
 * @property {Map<string, string>} signals between which two each lies */

/** @param {End} end @returns {string} the id that an end has in what is written */
export function idOf(end) {
    return `${elementOf(end)}.${end.endsWith("0") ? "b" : "e"}`;
}

/** @param {string[]} clockwise @returns {string[]} begun with the least of two that are opposite each other */
function normal(clockwise) {
    const turned = [...clockwise.slice(2), ...clockwise.slice(0, 2)];
    return turned.join(" ") < clockwise.join(" ") ? turned : clockwise;
}

/**
 * @param {Net} net
 * @returns {Known}
 */
export function knownOf(net) {
    /** @type {Map<End, string>} */
    const at = new Map([...net.switches.flatMap(({ element, toe, legs }) => [toe, legs.left, legs.right]
        .map((end) => /** @type {const} */ ([end, element.id]))),
        ...net.crossings.flatMap(({ element, paths }) => paths.flat().map((end) => /** @type {const} */ ([end, element.id])))]);
    /** @param {End} from an end that one leaves along its element @returns {string} what comes next */
    const beyond = (from) => {
        let end = across(from);
        for (const seen = new Set(); !at.has(end) && !seen.has(end);) {
            seen.add(end);
            const [next] = net.joined.get(end) ?? [];
            if (next === undefined) {
                return idOf(end);
            }
            end = across(next);
        }
        return at.get(end) ?? idOf(end);
    };
    const around = new Map([...net.switches.map(({ element, toe, legs }) =>
        /** @type {[string, string[][]]} */ ([element.id, [[beyond(toe), ...HANDS.map((hand) => beyond(legs[hand]))]]])),
    ...net.crossings.map(({ element, paths: [[a, b], [c, d]] }) => /** @type {[string, string[][]]} */ ([element.id,
        [[a, c, b, d], [a, d, b, c]].map((ends) => normal(ends.map(beyond)))]))]);
    const places = [...net.switches.map(({ element, toe }) => /** @type {const} */ ([element.id, net.measures.get(toe)])),
        ...net.crossings.map(({ element, paths }) => /** @type {const} */ ([element.id, net.measures.get(paths[0][0])]))];
    const given = new Map(places.flatMap(([id, measure]) => (measure ? [[id, measure.toNumber()]] : [])));
    for (const { element, of, part } of net.signals) {
        const [from, to] = [0, 1].map((at) => net.measures.get(`${of} ${at}`)?.toNumber());
        if (from !== undefined && to !== undefined) {
            given.set(element.id, from + (to - from) * part);
        }
    }
    return { around, given,
        signals: new Map(net.signals.map(({ element, of }) => [element.id, [`${of} 0`, `${of} 1`].map(across).map(beyond).sort().join(" and ")])) };
}
