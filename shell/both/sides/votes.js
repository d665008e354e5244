/**
 * What coordinates, the producer's own schematic and radii say of the hands in a file. Of coordinates and schematics no
 * switch alone is
 * believed: only where all of a file say one thing it is said.
 */
import { isWider } from "../mending/hands.js";
import * as railml from "../railml.js";
import { isIncoming } from "./confirmed.js";
import { handsByCoordinates } from "./coordinates.js";
import { handsBySchematic } from "./schematic.js";

/** @typedef {import("../railml.js").Element} Element */
/** @typedef {import("../railml.js").Document} Document */
/** @typedef {import("./coordinates.js").Hands} Hands */
/** @typedef {{good: string[], doubts: string[], isConfirmed: boolean}} Vote what agrees, what doesn't, and whether that
 * confirms that
 * outgoing and incoming switches are seen alike */

/** fewer hands are no vote */
const LEAST = 3;
/** that a file is wrong is said by so many, of which so many are incoming where the hands of these alone are wrong */
const LEAST_AGAINST = 4, LEAST_INCOMING = 2;
const OTHER = new Map([["left", "right"], ["right", "left"]]);
const ALONG = "this producer sees courses along the track, and not from the points. Compare an incoming switch with the "
    + "ground: where it "
    + "differs, prepare --hands along exchanges their hands";

/** @param {Element} point @returns {string | undefined} the hand to which its branch lies beside the leg that goes on, as the
 * file has it */
export function givenHand(point) {
    const course = point.named("connection")[0]?.attributes.get("course") ?? "", goesOn =
        point.attributes.get("trackContinueCourse") ?? "";
    return OTHER.has(course) ? course : course === "straight" ? OTHER.get(goesOn) : undefined;
}

/** @param {Hands} hands @returns {{incoming: boolean[], outgoing: boolean[]}} of each whether it agrees with the file */
function compared(hands) {
    const found = [...hands].flatMap(([it, hand]) => {
        const given = givenHand(it);
        return given ? [{ isIn: isIncoming(it), agrees: given === hand }] : [];
    });
    const of = (/** @type {boolean} */ isIn) => found.filter((it) => it.isIn === isIn).map((it) => it.agrees);
    return { incoming: of(true), outgoing: of(false) };
}

/** @param {boolean[]} incoming @param {boolean[]} outgoing @param {boolean} hasUp @returns {boolean} whether all incoming
 * ones disagree,
 * and all outgoing ones agree */
function areAlong(incoming, outgoing, hasUp) {
    const areOne = [incoming, outgoing].every((it) => new Set(it).size === 1);
    return areOne && incoming.length >= LEAST_INCOMING && incoming[0] !== outgoing[0] && (!hasUp || outgoing[0]);
}

/**
 * @param {string} by @param {Hands} hands @param {boolean} hasUp whether it is known where up is
 * @returns {Vote}
 */
function vote(by, hands, hasUp) {
    const { incoming, outgoing } = compared(hands), all = [...incoming, ...outgoing], count = all.length;
    const agreeing = all.filter(Boolean).length, isTurned = !hasUp && agreeing * 2 < count, agree = isTurned
        ? count - agreeing : agreeing;
    const areMany = count >= LEAST_AGAINST, none = { good: [], doubts: [], isConfirmed: false };
    if (agree === 0) {
        return { ...none, doubts: areMany ? [`by ${by} all ${count} switches disagree: the file may be mirrored, or the axes of its `
            + "coordinates exchanged"] : [] };
    }
    if (areAlong(incoming, outgoing, hasUp)) {
        return { ...none, doubts: areMany ? [`by ${by} all ${incoming.length} incoming switches disagree and all outgoing ones agree: `
            + ALONG] : [] };
    }
    return count < LEAST ? none : { ...none, good: [`by ${by} ${agree} of ${count} switches agree`],
        isConfirmed: agree === count && incoming.length > 0 && outgoing.length > 0 };
}

/** @param {Document} document @returns {Vote} of switches whose track and branch turn to one hand: the branch is the tighter
 * curve, or it
 * lies to the other hand */
function byRadii(document) {
    const curved = document.tracks().flatMap(railml.points).filter((it) => it.name === "switch").filter((it) => {
        const [leg] = it.named("connection"), radii = [it.attributes.get("trackContinueRadius"), leg?.attributes.get("radius")];
        return OTHER.has(leg?.attributes.get("course") ?? "")
            && leg?.attributes.get("course") === it.attributes.get("trackContinueCourse")
            && radii.every((text) => !(railml.metres(text)?.isZero() ?? true));
    });
    const wider = curved.filter(isWider).length, of = `${wider || curved.length} of ${curved.length} inside curved switches`;
    return { isConfirmed: false, good: curved.length && !wider ? [`by their radii ${of} agree`] : [], doubts: wider ? [`by their radii ${of} `
        + `${wider === 1 ? "disagrees" : "disagree"}: the branch is the wider of two curves to one hand, so it lies to the other. prepare `
        + "--hands radii exchanges such hands, and lists them"] : [] };
}

/**
 * All votes of a file.
 * @param {Document} document
 * @returns {Vote}
 */
export function votesOf(document) {
    const all = [vote("coordinates", handsByCoordinates(document), true),
        vote("the producer's own schematic", handsBySchematic(document), false), byRadii(document)];
    return { good: all.flatMap((it) => it.good), doubts: all.flatMap((it) => it.doubts), isConfirmed: all.some((it) =>
        it.isConfirmed) };
}
