/**
 * To which hand the branches of switches lie by the producer's own schematic (infrastructureVisualizations). Whether its y
 * counts up or
 * down isn't known, so a file that is mirrored as a whole isn't seen by it.
 */
import * as railml from "../railml.js";

/** @typedef {import("../railml.js").Element} Element */
/** @typedef {import("../railml.js").Document} Document */
/** @typedef {import("./coordinates.js").Hands} Hands */
/** @typedef {[number, number]} Point */

/** the sine of the least angle between track and branch of which a hand is said */
const LEAST = 0.02;

/** @param {Element} it @returns {Element[]} itself and all below it */
function within(it) {
    return [it, ...it.children.flatMap(within)];
}

/** @param {Document} document @returns {Map<string, Point>} of the schematic that has the most places, each by the id of what
 * is there */
function pointsOf(document) {
    const all = document.stations().flatMap((it) => [...it.named("infrastructureVisualizations"), ...it.parent?.named(
        "infrastructureVisualizations") ?? []]).flatMap((it) => it.named("visualization"));
    const found = all.map((it) => new Map(within(it).filter((one) => one.attributes.has("ref")).flatMap((one) => {
        const [position] = one.named("position"), [x, y] = ["x", "y"].map((name) =>
            Number(position?.attributes.get(name) ?? NaN));
        return Number.isFinite(x) && Number.isFinite(y)
            ? [/** @type {[string, Point]} */ ([one.attributes.get("ref"), [x, y]])] : [];
    })));
    return found.sort((one, other) => other.size - one.size)[0] ?? new Map();
}

/** @param {Element[]} spots places of a track, away from a switch @param {Map<string, Point>} points @param {Point} here
 * @returns {Point | null} from here to the first of them that is elsewhere */
function towards(spots, points, here) {
    const there = spots.flatMap((it) => (points.has(it.id) ? [/** @type {Point} */ (points.get(it.id))] : [])).filter((it) =>
        it[0] !== here[0] || it[1] !== here[1])[0];
    return there ? [there[0] - here[0], there[1] - here[1]] : null;
}

/** @param {Element} track @returns {Element[]} */
function spotsOf(track) {
    return railml.placesOf(track).sort(railml.byPosition);
}

/**
 * The hands that a schematic says whose y counts up.
 * @param {Document} document
 * @returns {Hands}
 */
export function handsBySchematic(document) {
    const points = pointsOf(document), known = railml.byId(document), tracks = points.size ? document.tracks() : [];
    return new Map(tracks.flatMap((track) => railml.points(track).filter((it) => it.name === "switch").flatMap((it) => {
        const here = points.get(it.id), [leg] = it.named("connection"), end =
            known.get(leg?.attributes.get("ref") ?? "")?.parent;
        const branch = end && railml.ENDS.includes(end.name) ? end.above("track") : null;
        if (!here || !end || !branch) {
            return [];
        }
        const spots = spotsOf(track), at = spots.indexOf(it), isOut = leg.attributes.get("orientation") === "outgoing";
        const own = towards(isOut ? spots.slice(at + 1) : spots.slice(0, at).reverse(), points, here);
        const beside = towards(end.name === "trackBegin" ? spotsOf(branch) : spotsOf(branch).reverse(), points, here);
        const sine = own && beside ? (own[0] * beside[1] - own[1] * beside[0]) / (Math.hypot(...own) * Math.hypot(...beside))
            : 0;
        return Math.abs(sine) < LEAST ? [] : [/** @type {const} */ ([it, sine > 0 ? "left" : "right"])];
    })));
}
