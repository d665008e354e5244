/**
 * The operational points of a railML file: which one is the station's own, and to which ones its lines go on.
 *
 * The station's own is the one to which what lies at its tracks refers: cross sections, platforms, signals, switches. Where
 * these refer to none, it is the only one that no line goes on to. Where they refer to several, none is known to be it.
 */

/** @typedef {import("./railml.js").Document} Document */
/** @typedef {import("./railml.js").Element} Element */

const REFERENCES = ["ocpRef", "ocpStationRef"];
/** what ends a track where a line goes on to an operational point */
const LEADS = "macroscopicNode";

/** @param {Document} document @returns {Map<string, Element>} the operational points by their ids */
function pointsOf(document) {
    const listed = document.stations().flatMap((it) => it.named("operationControlPoints")).flatMap((it) => it.named("ocp"));
    return new Map(listed.map((it) => [it.id, it]));
}

/** @param {Element} it @param {string} name @returns {string} */
const of = (it, name) => (it.attributes.get(name) ?? "").trim();

/** @type {(point: Element) => string} its name, or its code where it has none */
const nameOf = (point) => of(point, "name") || of(point, "code");

/** @param {Document} document @returns {Element[]} all that is in tracks, however deep */
function inTracks(document) {
    const found = document.tracks();
    for (const it of found) for (const child of it.children) found.push(child);
    return found;
}

/** @param {Document} document @returns {Element | undefined} the station's own operational point, if it has a name */
function ownPoint(document) {
    const points = pointsOf(document), listed = inTracks(document);
    const referred = (/** @type {boolean} */ isLead) => new Set(listed.filter((it) => (it.name === LEADS) === isLead)
        .flatMap((it) => REFERENCES.map((name) => of(it, name))).filter((it) => points.has(it)));
    const own = referred(false), leads = referred(true);
    const found = own.size ? [...own] : [...points.keys()].filter((it) => !leads.has(it));
    const point = found.length === 1 ? points.get(found[0]) : undefined;
    return point && nameOf(point) ? point : undefined;
}

/**
 * The name of the station's own operational point, with its code in brackets; "" where none is known to be it.
 * @param {Document} document
 * @returns {string}
 */
export function stationPoint(document) {
    const point = ownPoint(document);
    if (!point) return "";
    const code = of(point, "code");
    return code && code !== nameOf(point) ? `${nameOf(point)} (${code})` : nameOf(point);
}

/**
 * @param {Document} document
 * @returns {Map<Element, Element>} the operational points by the elements that end tracks where lines go on
 */
function neighbours(document) {
    const points = pointsOf(document);
    const ends = inTracks(document).filter((it) => it.name === LEADS);
    return new Map(ends.flatMap((it) => {
        const point = points.get(of(it, "ocpRef"));
        return point && nameOf(point) ? [/** @type {[Element, Element]} */ ([it, point])] : [];
    }));
}

/** @param {Document} document @returns {Map<Element, string>} where lines go on, by the elements that end tracks there */
export function neighbourNames(document) {
    return new Map([...neighbours(document)].map(([it, point]) => [it, nameOf(point)]));
}

/** @param {Document} document @returns {Set<Element>} the operational points that a page names */
export function namedPoints(document) {
    const own = ownPoint(document);
    return new Set([...own ? [own] : [], ...neighbours(document).values()]);
}
