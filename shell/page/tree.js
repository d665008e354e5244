/**
 * A tree of elements as a browser's own. Text is always text, never markup.
 */
import { Element as Tree, flat, given, written } from "../both/page/markup.js";

const SVG = "http://www.w3.org/2000/svg";

/**
 * @param {Tree} tree
 * @param {boolean} [isDrawn] whether it is within a drawing
 * @returns {HTMLElement | SVGElement}
 */
export function built(tree, isDrawn = false) {
    const isSvg = isDrawn || tree.tag === "svg";
    const made = isSvg ? document.createElementNS(SVG, tree.tag) : document.createElement(tree.tag);
    for (const [name, text] of given(tree)) if (name !== "xmlns") made.setAttribute(name, text);
    made.append(...flat(tree.children).map((it) => it instanceof Tree ? built(it, isSvg) : written(it)));
    return /** @type {HTMLElement | SVGElement} */ (made);
}

/** @type {(what: string, from?: ParentNode) => HTMLElement | null} */
export const one = (what, from = document) => from.querySelector(what);

/**
 * @template {Element} [Found=HTMLElement]
 * @param {string} what
 * @param {ParentNode} [from]
 * @returns {Found[]}
 */
export function every(what, from = document) {
    return [.../** @type {NodeListOf<Found>} */ (from.querySelectorAll(what))];
}
