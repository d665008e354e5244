/**
 * A page as one HTML file. It has the record of its run and a script that draws it. Without the script it shows what the
 * program drew, and says so.
 */
import { PAPERS } from "./columns.js";
import { block } from "./facts.js";
import { Element, document, element } from "./markup.js";
import { header, titleOf } from "./whole.js";
import { FONT } from "./widths.js";

/** @typedef {import("./markup.js").Child} Child */
/** @typedef {import("./page.js").Page} Page */
/** @typedef {object} Carried what a page carries to check itself: the program, packed as its data is, the script of its worker,
 * and hinted lines, packed too, or nothing
 * @property {string} program
 * @property {string} worker
 * @property {string} hints */
/** @typedef {object} Parts what a page is made of beside its run
 * @property {string} page the style of pages
 * @property {string} drawing the style of drawings, which goes with them when they are saved
 * @property {string} script
 * @property {string} data the record of the run, packed by gzip, in base64
 * @property {string} picture what the program drew, as SVG, or nothing
 * @property {Carried | null} carried what the page checks itself by
 * @property {(text: string) => string} hashOf what a browser is given to know a script or a style by */

const POINT = /<polyline points="([\d ,.-]*)"/g;
const TEXT = /<text x="([\d.-]+)" y="([\d.-]+)">([^<]*)<\/text>/g;
const VIEW = /viewBox="([\d .-]+)"/;
/** @type {[string, string][]} */
const ENTITIES = [["&lt;", "<"], ["&gt;", ">"], ["&quot;", '"'], ["&apos;", "'"], ["&amp;", "&"]];

/**
 * The styles of a page and of its drawings.
 * @param {{page: string, drawing: string}} styles
 * @param {string} paper
 * @returns {[string, string]}
 */
export function stylesOf({ page, drawing }, paper) {
    const size = PAPERS.get(paper);
    if (!size) throw new Error(`there is no paper ${paper}`);
    return [page.replaceAll("FONT", FONT).replaceAll("PAPER", `${size[0]}mm ${size[1]}mm`), drawing.replaceAll("FONT", FONT)];
}

/**
 * What the browser may do with the page: run this script, and the program in a worker where there is one, apply these styles,
 * and fetch nothing.
 * @param {string[]} styles
 * @param {string} script
 * @param {(text: string) => string} hashOf
 * @param {boolean} hasProgram
 * @returns {string}
 */
function policy(styles, script, hashOf, hasProgram) {
    const scripts = `${hashOf(script)}${hasProgram ? " 'wasm-unsafe-eval' blob:" : ""}`, workers = hasProgram ? "worker-src blob:; " : "";
    return `default-src 'none'; style-src ${styles.map(hashOf).join(" ")}; script-src ${scripts}; ${workers}`
        + "base-uri 'none'; form-action 'none'";
}

/**
 * A script that is data: no part of it ends the element.
 * @param {string} kind
 * @param {string} text
 */
function dataOf(kind, text) {
    const written = JSON.stringify(text).replaceAll("<", "\\u003c");
    return text ? element("script", { type: "application/json", class: kind }, written) : null;
}

/**
 * What the program drew, as elements.
 * @param {string} picture
 * @returns {Element | null}
 */
function drawnByProgram(picture) {
    const [, view] = VIEW.exec(picture) ?? [];
    if (!view) return null;
    const lines = [...picture.matchAll(POINT)].map(([, points]) => element("polyline", { class: "edge", points }));
    const texts = [...picture.matchAll(TEXT)].map(([, x, y, text]) => element("text", { x, y, "font-size": 10 },
        ENTITIES.reduce((found, [name, letter]) => found.replaceAll(name, letter), text)));
    const [, , width, height] = view.split(" ").map(Number);
    return element("svg", { viewBox: view, width: 2 * width, height: 2 * height, role: "img" }, lines, texts);
}

/**
 * What a browser shows that runs no script.
 * @param {Page} page
 * @param {string} picture
 * @returns {Child[]}
 */
function unread(page, picture) {
    const drawn = drawnByProgram(picture);
    const said = "This page draws itself by its script, which doesn't run here. "
        + (drawn ? "So it shows the picture that the program drew." : "So it shows what was found, without its pictures.");
    const sections = page.facts.map(([title, parts]) => element("section", {}, element("h2", {}, title), parts));
    return [header(page), element("p", { class: "unread" }, said),
        page.lead.length ? element("div", { class: "lead" }, page.lead) : null, drawn ? element("figure", {}, drawn) : null,
        sections.length ? element("div", { class: "facts" }, sections) : null,
        block(page.provenance, (text) => page.station.shown(text)),
        page.sheet ? element("details", {}, element("summary", {}, "The sheet, as a text"), element("pre", {}, page.sheet))
            : null];
}

/**
 * A page's text with hinted lines, by which it certifies itself; they are known only when the page is there.
 * @param {string} text
 * @param {string} hints packed as the page's data is
 * @returns {string}
 */
export function withHints(text, hints) {
    const at = text.lastIndexOf("<script>");
    return at < 0 ? text : `${text.slice(0, at)}${dataOf("hints", hints) ?? ""}${text.slice(at)}`;
}

/**
 * The page as one HTML text.
 * @param {Page} page
 * @param {string} paper
 * @param {Parts} parts
 * @returns {string}
 */
export function pageText(page, paper, { script, data, picture, carried, hashOf, ...texts }) {
    const styles = stylesOf(texts, paper);
    return document(element("html", { lang: "en" }, element("head", {}, element("meta", { charset: "utf-8" }),
        element("meta", { "http-equiv": "Content-Security-Policy", content: policy(styles, script, hashOf, Boolean(carried?.program)) }),
        element("meta", { name: "viewport", content: "width=device-width, initial-scale=1" }),
        element("title", {}, `${titleOf(page)}: ${page.subject}`), element("style", {}, styles[0]),
        element("style", { class: "drawing" }, styles[1])),
    element("body", {}, unread(page, picture), dataOf("data", data), dataOf("program", carried?.program ?? ""),
        dataOf("worker", carried?.worker ?? ""), dataOf("hints", carried?.hints ?? ""), element("script", {}, script))));
}
