/** What is said of the sides of a file: that the file confirms them, or what to compare with the ground. */
import * as railml from "../railml.js";
import { isIncoming, isOutgoing, Orders } from "./confirmed.js";
import { votesOf } from "./votes.js";

/** @typedef {import("../railml.js").Document} Document */
/** @typedef {import("../railml.js").Element} Element */
/** @typedef {{good: string[], doubts: string[]}} Said what confirms the sides, and what speaks against them or is open */

/** @param {Document} document @returns {{incoming: Element[], outgoing: Element[]}} */
function switchesOf(document) {
    const points = document.tracks().flatMap(railml.points);
    return { incoming: points.filter(isIncoming), outgoing: points.filter(isOutgoing) };
}

/** @param {Document} document @returns {string} what to compare with the ground; "" where no switch is incoming: then nothing
 * depends on
 * how a producer sees hands */
function comparing(document) {
    const { incoming: [coming], outgoing: [going] } = switchesOf(document);
    return !coming ? "" : going ? `compare two switches with the ground, ${going.id} (outgoing) and ${coming.id} (incoming)`
        : `compare a switch with the ground, ${coming.id} (incoming)`;
}

/**
 * What a file that is drawn says of its sides.
 * @param {Document} document
 * @returns {Said}
 */
export function sidesOf(document) {
    const { isRead, confirming: count } = new Orders(document), { good, doubts, isConfirmed } = votesOf(document), compared =
        comparing(document);
    const loops = count === 1 ? "1 loop or crossover confirms" : `${count} loops and crossovers confirm`;
    const isOpen = isRead && !count && !isConfirmed && !doubts.length && compared;
    return { good: [...count ? [`${loops} the sides: outgoing and incoming switches are seen alike`] : [], ...good],
        doubts: [...doubts, ...isOpen ? [`nothing in this file confirms the sides: ${compared}`] : []] };
}

/**
 * That a file which contradicts itself doesn't where the hands of all incoming switches are exchanged; "" where it does then
 * too.
 * @param {Document} document @param {string} prepared the line that mends the file
 * @returns {string}
 */
export function alongTheTrack(document, prepared) {
    const orders = new Orders(document), count = orders.incoming.length;
    if (!orders.contradicts || orders.contradictsExchanged) {
        return "";
    }
    const way = `${prepared} --hands along`, compared = comparing(document);
    const exchanged = `with the ${count === 1 ? "hand of the incoming switch" : `hands of all ${count} incoming switches`} exchanged nothing `
        + "contradicts";
    return orders.isOfOneHand
        ? `either one hand is wrong, or this producer sees courses along the track, and not from the points: ${exchanged} either. First `
            + `${compared}. Where only the incoming one differs, ${way} exchanges the hands of all incoming ones`
        : `${exchanged}, and no single hand does that: this producer sees courses along the track, and not from the points. First `
            + `${compared}. Where only the incoming one differs, ${way} writes them as they are read`;
}
