/** Hands that a producer sees otherwise than they are read. They are changed only where somebody asks for it. */
import * as railml from "../railml.js";
import { Guess } from "./prepared.js";

/** @typedef {import("./prepared.js").Prepared} Prepared */
/** @typedef {import("../railml.js").Element} Element */
/** @typedef {import("../edits.js").Edit} Edit */

const OTHER = new Map([["left", "right"], ["right", "left"]]);
/** of two radii the greater is that of the wider curve, where it is greater by this part */
const PART = 1.1;

/** @param {railml.Document} document @returns {Element[]} */
export function switchesOf(document) {
    return document.tracks().flatMap(railml.points).filter((it) => it.name === "switch");
}

/** @param {Element} point @returns {{of: Element, name: string, hand: string} | null} what says the hand of a switch, and that hand */
function handOf(point) {
    const [connection] = point.named("connection"), isStraight = connection?.attributes.get("course") === "straight";
    const of = isStraight ? point : connection, name = isStraight ? "trackContinueCourse" : "course", hand = of?.attributes.get(name) ?? "";
    return of && OTHER.has(hand) ? { of, name, hand } : null;
}

/** @param {Prepared} it @param {Element} point @returns {Edit[]} that the hand of a switch is the other one */
function exchanging(it, point) {
    const found = handOf(point);
    if (!found) {
        return [];
    }
    it.isRebuilt = true;
    it.exchanged.add(point.id);
    return [it.edits.setting(found.of, found.name, OTHER.get(found.hand) ?? "")];
}

/** @param {Prepared} it refuses railML 3, whose branches are left and right by themselves */
function refuseRailml3(it) {
    if (it.known) {
        throw new Guess("railML 3 says itself which branch lies left (leftBranch, rightBranch), from wherever one sees it: leave --hands out");
    }
}

/** @param {Prepared} it exchanges the hands of incoming switches: the producer sees them along the track, and not from the points */
export function exchangeIncoming(it) {
    refuseRailml3(it);
    const incoming = switchesOf(it.document).filter((point) => point.named("connection")[0]?.attributes.get("orientation") === "incoming");
    it.replace(incoming.flatMap((point) => exchanging(it, point)));
    if (incoming.length) {
        it.changes.push(
            `the hands of ${incoming.length} incoming switches are exchanged, as they were seen along the track: ${incoming.map(
            (point) => point.id).join(", ")}`);
    }
}

/**
 * Whether track and branch of a switch turn to one hand, and the branch is the wider curve, so that it lies to the other hand.
 * @param {Element} point
 * @returns {boolean}
 */
export function isWider(point) {
    const [connection] = point.named("connection"), course = connection?.attributes.get("course") ?? "";
    const [own, branch] = [point.attributes.get("trackContinueRadius"), connection?.attributes.get("radius")]
        .map((text) => Math.abs(railml.metres(text)?.toNumber() ?? 0));
    return OTHER.has(course) && point.attributes.get("trackContinueCourse") === course && own > 0 && branch > own * PART;
}

/** @param {Prepared} it writes the hand that the radii say, where track and branch of a switch turn to one hand */
export function takeRadii(it) {
    refuseRailml3(it);
    it.replace(switchesOf(it.document).filter(isWider).flatMap((point) => {
        it.changed(point, `the hand of switch ${point.id} is exchanged: by its radii the branch is the wider curve of two to one hand, `
            + "so it lies to the other");
        return exchanging(it, point);
    }));
}
