/**
 * What lies at the tracks of a railML file beside its topology and its signals: joints, detectors, derailers, platforms, level
 * crossings and borders. The program passes over all of it, so all that is known of it is what the file says.
 */
import * as railml from "./railml.js";

/** @typedef {Map<string, string>} Given an element's attributes */
/** @typedef {import("./decimal.js").Decimal} Decimal */
/** @typedef {object} Kind what is made of an element
 * @property {(attributes: Given) => string} called what it is in words
 * @property {string} sign the sign that it has in a drawing
 * @property {boolean} [parts] whether it parts two track sections
 * @property {boolean} [isLong] whether it has a length along its track
 * @property {[string, string][]} said each attribute that is said of it, and how it is called */
/** @typedef {object} Trackside an object at a track, with what the file says of it
 * @property {string} id
 * @property {string} name
 * @property {string} kind in words
 * @property {string} sign
 * @property {boolean} parts
 * @property {boolean} isLong
 * @property {string} track the id of its track
 * @property {Decimal | null} pos
 * @property {Decimal | null} own its mileage, where it has one without an offset
 * @property {Decimal | null} length
 * @property {string} direction
 * @property {string} side
 * @property {string[]} said further attributes in words */

/** @type {(attributes: Given) => string} */
const joint = (attributes) => ["", "none"].includes(attributes.get("insulatedRail") ?? "") ? "track circuit border"
    : "insulated joint";

/** @type {(attributes: Given) => string} */
const detector = (attributes) => attributes.get("axleCounting") === "true" ? "axle counter" : "train detector";

/** @type {Map<string, Kind>} by the names of their elements */
export const KINDS = new Map(Object.entries(/** @type {Record<string, Kind>} */ ({
    trackCircuitBorder: { called: joint, sign: "insulated joint", parts: true, said: [["insulatedRail", "insulated rail"]] },
    trainDetector: { called: detector, sign: "axle counter", parts: true, said: [["medium", "medium"]] },
    derailer: { called: () => "derailer", sign: "derailer", said: [["derailSide", "derails to the"], ["code", "code"]] },
    platformEdge: { called: () => "platform edge", sign: "platform", isLong: true, said: [["side", "side"],
        ["height", "height"]] },
    levelCrossing: { called: () => "level crossing", sign: "level crossing", said: [["protection", "protection"]] },
    border: { called: () => "border", sign: "border", said: [["type", "of type"]] },
})));
const GROUPS = ["trackElements", "ocsElements"];
/** the groups of a track's topology in which there is more than topology */
const IN_TOPOLOGY = ["borders"];

/** @param {railml.Element} track @returns {railml.Element[]} the elements of these kinds at a track, in file order */
export function elementsAt(track) {
    const listed = [...track.named(...GROUPS).flatMap((it) => it.children),
        ...track.named("trackTopology").flatMap((it) => it.named(...IN_TOPOLOGY))];
    return listed.flatMap((it) => it.children).filter((it) => KINDS.has(it.name)).sort((one, other) => one.place - other.place);
}

/** @type {(attributes: Given) => boolean} whether its mileage is to be read with an offset */
const isOffset = (attributes) => !["", "0"].includes((attributes.get("absPosOffset") ?? "").trim());

/**
 * @param {string} name of its element
 * @param {string} track
 * @param {Given} attributes
 * @param {(name: string) => Decimal | null} number
 * @returns {Trackside}
 */
export function objectOf(name, track, attributes, number) {
    const kind = /** @type {Kind} */ (KINDS.get(name)), of = (/** @type {string} */ it) => attributes.get(it) ?? "";
    return { id: of("id"), name: of("name"), kind: kind.called(attributes), sign: kind.sign, parts: kind.parts ?? false,
        isLong: kind.isLong ?? false, track, pos: number("pos"), own: isOffset(attributes) ? null : number("absPos"),
        length: number("length"), direction: of("dir"), side: of(name === "derailer" ? "derailSide" : "side"),
        said: kind.said.filter(([it]) => of(it).trim()).map(([it, words]) => `${words} ${of(it).trim()}`) };
}
