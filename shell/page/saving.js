/**
 * What a page saves: its drawing as SVG, and texts.
 */
import { every, one } from "./tree.js";

/** @typedef {import("./zoom.js").Strip} Strip */

const SVG = "http://www.w3.org/2000/svg";

/**
 * Saves a text as a file.
 * @param {string} name
 * @param {string} type
 * @param {string} content
 */
export function save(name, type, content) {
    const link = document.createElement("a");
    link.href = URL.createObjectURL(new Blob([content], { type }));
    link.download = name;
    link.click();
    setTimeout(() => URL.revokeObjectURL(link.href), 10000);
}

/** @param {Element} it @param {{[name: string]: string | number}} given */
function set(it, given) {
    for (const [name, value] of Object.entries(given)) it.setAttribute(name, String(value));
}

/**
 * A strip as it is on paper, without what is chosen and what is there for pointers alone.
 * @param {Strip} strip
 * @param {number} top
 * @returns {SVGSVGElement}
 */
function plain(strip, top) {
    const before = strip.view;
    strip.showAll();
    const part = /** @type {SVGSVGElement} */ (strip.svg.cloneNode(true));
    strip.show(before);
    for (const it of every("[class]", part)) it.classList.remove("over", "chosen", "related", "path", "lit");
    for (const it of every(".hit", part)) it.remove();
    set(part, { x: 0, y: top, width: strip.home[2], height: strip.home[3] });
    return part;
}

/**
 * The strips of the first figure, as one SVG with a style of its own.
 * @param {Strip[]} strips
 * @returns {string}
 */
export function svgText(strips) {
    const figure = strips[0].svg.closest("figure");
    const whole = document.createElementNS(SVG, "svg");
    const style = document.createElementNS(SVG, "style");
    style.textContent = (one("style.drawing")?.textContent ?? "").replace(/var\(--[a-z]+, ([^)]*)\)/g, "$1");
    whole.append(style);
    const ours = strips.filter((it) => it.svg.closest("figure") === figure);
    let top = 0;
    for (const strip of ours) {
        whole.append(plain(strip, top));
        top += strip.home[3];
    }
    const wide = Math.max(...ours.map((it) => it.home[2]));
    set(whole, { viewBox: `0 0 ${wide} ${top}`, width: wide, height: top });
    return new XMLSerializer().serializeToString(whole);
}
