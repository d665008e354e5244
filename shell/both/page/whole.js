/**
 * The parts of a page as elements: its heading, figures, facts, the list of objects, and what works with the script.
 */
import { badgeOfBuild, block } from "./facts.js";
import { dxfOf } from "./kinds.js";
import { element } from "./markup.js";
import { MEANINGS, sample } from "./signs.js";
import { edgeOf } from "./station.js";

/** @typedef {import("./markup.js").Child} Child */
/** @typedef {import("./markup.js").Element} Element */
/** @typedef {import("./objects.js").Entry} Entry */
/** @typedef {import("./objects.js").Objects} Objects */
/** @typedef {import("./page.js").Figure} Figure */
/** @typedef {import("./page.js").Page} Page */

// ---- the list

/** @param {Entry} entry @param {string} link @returns {Element} */
function row(entry, link) {
    const to = entry.kind === "piece of track" ? entry.facts.find(([term]) => term === "to") : undefined;
    const [legs, upper] = entry.side.split(" ");
    const side = upper ? `, legs ${edgeOf(legs)}, ${upper} diverges` : legs && `, km ${legs === "east" ? "rising" : "falling"}`;
    const said = to ? `piece to ${to[1].split(", km ", 1)[0]}` : [entry.kind + side, entry.note].filter(Boolean).join(", ");
    return element("tr", { "data-key": entry.key, id: link, tabindex: -1 }, element("td", { class: "number" }, entry.km),
        element("td", {}, element("bdi", {}, entry.name)), element("td", {}, element("bdi", {}, entry.id)),
            element("td", {}, said));
}

/** @param {Objects} objects @param {Element[]} changes @returns {Element} */
function objectList(objects, changes) {
    const links = objects.links();
    const path = objects.scene.signals.length ? " Two signals, one after the other, show the path between them." : "";
    return element("aside", { class: "list", "aria-label": "objects by kilometre" },
        element("div", { class: "said", "aria-live": "polite" },
            element("p", { class: "screen" }, `Choose a row or a sign.${path}`)),
        changes.length ? [element("h2", {}, "Changes, to be ticked off"), element("ul", { class: "changes" }, changes)] : null,
        element("h2", {}, "Objects by kilometre"),
        element("table", {}, element("thead", {}, element("tr", {}, element("th", { class: "number" }, "km"),
            element("th", {}, "name"),
            element("th", {}, "id"), element("th", {}, "what"))),
        element("tbody", {}, objects.entries.map((it) => row(it, links.get(it.key) ?? "")))));
}

// ---- the parts

/** @param {Page} page @returns {Element | null} */
function legend({ signs, isLeft }) {
    const items = [...signs].map((kind) => element("li", {}, sample(kind, isLeft), MEANINGS.get(kind)));
    return items.length ? element("ul", { class: "legend", "aria-label": "legend" }, items) : null;
}

/** @param {Figure} one @returns {Element} */
function figure({ parts, caption, title, id, kind }) {
    return element("figure", { class: kind || null, id: id || null, "aria-label": title || null },
        parts.map((part) => element("div", { class: "canvas" }, part)), element("figcaption", {}, caption));
}

/** @param {Page} page @returns {Element[]} the figures; panels, and two versions of a station, lie side by side */
function figures(page) {
    const groups = ["panel", "version"];
    const beside = groups.flatMap((kind) => {
        const found = page.figures.filter((it) => it.kind === kind).map(figure);
        return found.length ? [element("div", { class: `${kind}s` }, found)] : [];
    });
    return [...page.figures.filter((it) => !groups.includes(it.kind ?? "")).map(figure), ...beside];
}

/** @param {Page} page @returns {Element | null} what works with the script alone; without it this isn't shown */
function tools(page) {
    if (!page.objects) return null;
    const buttons = [["in", "+", "nearer (+)"], ["out", "−", "farther (−)"], ["home", "whole", "the whole drawing (0)"],
        ["grid", "grid", "the grid's columns and rows (g)"], ["svg", "SVG", "save the drawing as SVG"],
        ["dxf", "DXF", "save the drawing for a CAD program"], ["csv", "CSV", "save the list of objects"],
        ...page.sheet ? [["sheet", "sheet", "save the sheet"]] : []];
    return element("div", { class: "tools" }, element("label", {}, "find ", element("input", { type: "search", class: "find",
        placeholder: "name, id, km or kind ( / )" })),
    buttons.map(([word, text, why]) => element("button", { type: "button", "data-do": word, title: why }, text)),
    element("small", {}, "/ find, n next, + − 0 zoom, arrows move, Esc lets go"));
}

/** @param {string} title @param {Child[][]} items @returns {Element | null} names that a picture lacks or has shortened */
function names(title, items) {
    if (!items.length) return null;
    return element("section", { class: "short" }, element("h2", {}, title),
        element("ul", {}, items.map((it) => element("li", {}, it))));
}

/** @type {(text: string) => Element} */
const bdi = (text) => element("bdi", {}, text);

/** @param {Page} page @returns {Element} */
function left(page) {
    const sections = page.facts.map(([title, parts]) => element("section", {}, element("h2", {}, title), parts));
    return element("div", { class: "left" }, figures(page), legend(page),
        sections.length ? element("div", { class: "facts" }, sections) : null,
        block(page.provenance, (text) => page.station.shown(text)),
        names("Names that are shortened above", [...page.short.values()].map(([short, whole]) =>
            [bdi(short), " ", element("b", {}, bdi(whole))])),
        names("Names that have no room above", [...page.leftOut].map((it) => [bdi(it)])),
        names("Track sections", page.objects?.lacksSections
            ? [["They aren't listed, as a joint or detector has no known place."]] : []),
        names("Objects that aren't drawn", page.objects?.notDrawn().map(([entry, why]) =>
            [`${entry.kind} `, bdi(entry.name || entry.id), entry.km && `, km ${entry.km}`, `: ${why}`]) ?? []),
        page.sheet ? element("details", {}, element("summary", {}, "The sheet, as a text"), element("pre", {}, page.sheet))
            : null);
}

/** @type {(page: Page) => string} what a page is called */
export const titleOf = ({ station, provenance }) => station.shown(provenance.title);

/** @param {Page} page @returns {Element} its heading */
export function header(page) {
    const [kind, text] = page.badge;
    const { build } = page.provenance;
    return element("header", {}, element("h1", {}, bdi(titleOf(page))), element("span", {}, page.subject),
        element("div", { class: "badges" }, text ? element("span", { class: `badge ${kind}` }, text) : null,
            element("span", { class: `badge ${build.state}` }, badgeOfBuild(build))),
        element("p", { class: "checked", role: "status" }));
}

/** @param {Page} page @returns {Element[]} what is in the body of a page */
export function bodyOf(page) {
    const lead = page.lead.length ? [element("div", { class: "lead" }, page.lead)] : [];
    const bar = tools(page);
    return [header(page), ...lead, ...bar ? [bar] : [], element("main", { class: page.objects ? "work" : null }, left(page),
        page.objects ? objectList(page.objects, page.changes) : null)];
}

// ---- what the script knows

/** @typedef {[string, string, string]} KnownWay from one piece to another, and how the switch lies */
/** @typedef {object} Known the objects, the ways through nodes, and the texts to be saved
 * @property {Map<string, Entry & {link: string}>} objects by their keys, as all that follows
 * @property {Map<string, [string, string]>} edges the nodes of each piece of track
 * @property {Map<string, KnownWay[]>} ways through each node
 * @property {Map<string, [string, number, boolean | null]>} signals the piece of each, its column, and whether it heads east
 * @property {string} name of the files that are saved
 * @property {{csv: () => string, dxf: () => string, sheet: () => string}} save */

/**
 * What a page's script knows of it; nothing where there is no drawing.
 * @param {Page} page
 * @returns {Known | null}
 */
export function knownOf(page) {
    const { objects, scene, station } = page;
    if (!objects || !scene) return null;
    const [{ key, drawing, signals }, links] = [scene, objects.links()];
    const [first] = page.provenance.files;
    return {
        objects: new Map(objects.entries.map((it) => [it.key, { ...it, link: links.get(it.key) ?? "" }])),
        edges: new Map(drawing.edges.map((it) => [key("e", it.number), [key("n", it.west), key("n", it.east)]])),
        ways: new Map(drawing.nodes.filter((it) => station.node(it.number)).map((it) =>
            [key("n", it.number), station.ways(it.number)
            .map((way) => /** @type {KnownWay} */ ([key("e", way.one), key("e", way.other), way.position]))])),
        signals: new Map(signals.map((it) => [key("s", it.number), [key("e", it.edge), it.point[0], station.headsEast(it)]])),
        name: first ? first[1].name.slice(first[1].name.lastIndexOf("/") + 1).replace(/\.xml$/, "") : "station",
        save: { csv: () => objects.csv(), dxf: () => dxfOf(page), sheet: () => page.sheet },
    };
}
