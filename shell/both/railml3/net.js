/**
 * The infrastructure of a railML 3 file: net elements, how their ends are joined, and what lies at them. Names are read
 * without their
 * prefix. Of several levels the most detailed one is read. What isn't clear is listed, and nothing is guessed.
 */
import { Decimal, ZERO } from "../decimal.js";

/** @typedef {import("../railml.js").Element} Element */
/** @typedef {import("../railml.js").Document} Document */
/** @typedef {"left" | "right"} Hand */
/** @typedef {string} End an end of a net element: the element's id, a blank, and 0 for its begin or 1 for its end */
/** @typedef {{element: Element, toe: End, legs: Record<Hand, End>}} Switch the end at which its points are, and those of its
 * legs */
/** @typedef {{element: Element, paths: [End, End][]}} Crossing the ends of each path */
/** @typedef {{element: Element, of: string, part: number, dir: string}} Signal on which net element, how far along it from 0
 * to 1, and up
 * where it is for those who go from its begin to its end */

export const HANDS = /** @type {Hand[]} */ (["left", "right"]);
const KILOMETRE = 1000n;
/** what is no ordinary switch: two tracks cross there */
const SLIP = /crossing/i;

/** @param {Element} it @returns {string} its name without a prefix */
function local(it) {
    return it.name.slice(it.name.lastIndexOf(":") + 1);
}

/** @param {Document} document @returns {boolean} */
export function isRailml3(document) {
    return document.root !== null && local(document.root) === "railML";
}

/** @param {Element | null | undefined} it @param {...string} names of elements in one another @returns {Element[]} */
export function under(it, ...names) {
    return names.reduce((found, name) => found.flatMap((one) => one.children).filter((one) => local(one) === name), it ? [it]
        : []);
}

/** @param {Element} it @returns {string} */
export function nameOf(it) {
    return under(it, "name").map((one) => one.attributes.get("name") ?? "").find(Boolean) ?? it.attributes.get("name") ?? "";
}

/** @param {Element} it @returns {string} a thing in words */
export function whatOf(it) {
    return `${local(it).replace(/IS$/, "")} ${nameOf(it) || it.id}`.replace("netElement", "net element");
}

/** @param {End} end @returns {End} the other end of the same net element */
export function across(end) {
    return end.slice(0, -1) + (end.endsWith("0") ? "1" : "0");
}

/** @param {End} end @returns {string} the net element's id */
export function elementOf(end) {
    return end.slice(0, -2);
}

/** @param {End} end @returns {string} the end in words */
export function endInWords(end) {
    return `the ${end.endsWith("0") ? "begin" : "end"} of net element ${elementOf(end)}`;
}

/** A file's net. */
export class Net {
    /** @param {Document} document */
    constructor(document) {
        const [infrastructure] = under(document.root, "infrastructure"), [topology] = under(infrastructure, "topology");
        this.document = document;
        this.functional = under(infrastructure, "functionalInfrastructure")[0];
        this.infrastructure = infrastructure;
        /** @type {{at: Element, said: string}[]} what isn't clear */
        this.unclear = [];
        /** @type {Element[]} signals that aren't on a net element that is read */
        this.lost = [];
        this.elements = this.detailed(topology);
        /** @type {Map<string, [End, End]>} */
        this.relations = new Map();
        /** @type {Map<End, Set<End>>} the ends to which one can go on from an end, and those that only lie there too */
        this.joined = new Map();
        /** @type {Map<End, Set<End>>} */
        this.beside = new Map();
        under(topology, "netRelations", "netRelation").forEach((it) => this.addRelation(it));
        this.systems = new Map(under(document.root, "common", "positioning", "linearPositioningSystems",
            "linearPositioningSystem")
            .map((it) => [it.id, it.attributes.get("units") ?? "m"]));
        /** @type {Map<End, Decimal>} in metres */
        this.measures = new Map();
        this.addMeasures();
        this.switches = under(this.functional, "switchesIS", "switchIS").flatMap((it) => this.switchOf(it));
        this.crossings = under(this.functional, "crossings", "crossing").flatMap((it) => this.crossingOf(it));
        this.buffers = new Set(under(this.functional, "bufferStops", "bufferStop").flatMap((it) => this.openEndOf(it)));
        this.signals = under(this.functional, "signalsIS", "signalIS").flatMap((it) => this.signalOf(it));
        this.holdJoins();
    }

    /** @param {Element} at @param {string} said */
    doubt(at, said) {
        this.unclear.push({ at, said });
    }

    /** @param {Element | undefined} topology @returns {Map<string, Element>} the net elements of the most detailed level */
    detailed(topology) {
        const levels = under(topology, "networks", "network", "level").filter((it) =>
            it.attributes.get("descriptionLevel") === "Micro");
        const micro = new Set(levels.flatMap((it) => under(it, "networkResource")).map((it) => it.attributes.get("ref")));
        const all = under(topology, "netElements", "netElement");
        return new Map(all.filter((it) => (micro.size ? micro.has(it.id)
            : !it.children.some((one) => local(one).startsWith("elementCollection")))).map((it) => [it.id, it]));
    }

    /** @param {Element} it */
    addRelation(it) {
        const ends = ["A", "B"].map((word) => {
            const ref = under(it, `element${word}`)[0]?.attributes.get("ref") ?? "", at = Number(it.attributes.get(`positionOn${word}`));
            return { isHere: this.elements.has(ref), isEnd: at === 0 || at === 1, end: `${ref} ${at}` };
        });
        const [one, other] = ends.map(({ end }) => end);
        if (!ends.every(({ isHere }) => isHere)) {
            return;
        }
        if (!ends.every(({ isEnd }) => isEnd)) {
            this.doubt(it, `net relation ${it.id} doesn't join ends of net elements`);
            return;
        }
        const isPassed = (it.attributes.get("navigability") ?? "Both") !== "None", map = isPassed ? this.joined : this.beside;
        for (const [from, to] of [[one, other], [other, one]]) {
            map.set(from, new Set([...map.get(from) ?? [], to]));
        }
        if (isPassed) {
            this.relations.set(it.id, [one, other]);
        }
    }

    // ---- mileages

    /** notes the measures of ends, those of the system that most have; an end without one has that of an end that is joined
     * to it */
    addMeasures() {
        const found = [...this.elements.values()].flatMap((it) => under(it, "associatedPositioningSystem",
            "intrinsicCoordinate")
            .flatMap((one) => under(one, "linearCoordinate").map((coordinate) => ({ end: `${it.id} ${Number(one.attributes.get("intrinsicCoord"))}`,
                system: coordinate.attributes.get("positioningSystemRef") ?? "", measure: this.metresOf(coordinate) }))));
        const counts = new Map();
        found.forEach(({ system }) => counts.set(system, (counts.get(system) ?? 0) + 1));
        const [most] = [...counts].sort(([, one], [, other]) => other - one).map(([system]) => system);
        found.filter(({ system }) => system === most).forEach(({ end, measure }) => measure && this.measures.set(end, measure));
        const known = [...this.measures.keys()];
        for (const end of known) {
            const measure = /** @type {Decimal} */ (this.measures.get(end));
            for (const other of [...this.joined.get(end) ?? [], ...this.beside.get(end) ?? []]) {
                if (!this.measures.has(other)) {
                    this.measures.set(other, measure);
                    known.push(other);
                }
            }
        }
    }

    /** @param {Element} coordinate @returns {Decimal | null} its measure in metres */
    metresOf(coordinate) {
        const measure = Decimal.of(coordinate.attributes.get("measure") ?? "");
        const unit = this.systems.get(coordinate.attributes.get("positioningSystemRef") ?? "");
        return measure && unit === "km" ? new Decimal(measure.isNegative, measure.digits * KILOMETRE, measure.scale) : measure;
    }

    /** @param {string} id @returns {Decimal} the length of a net element; 0 where it isn't known */
    lengthOf(id) {
        const own = Decimal.of(this.elements.get(id)?.attributes.get("length") ?? "");
        const [begun, ended] = [0, 1].map((at) => this.measures.get(`${id} ${at}`));
        return own && !own.isZero() ? own.absolute() : begun && ended ? ended.minus(begun).absolute() : ZERO;
    }

    // ---- what lies at ends

    /** @param {Element} it @returns {Switch[]} */
    switchOf(it) {
        const pairs = HANDS.map((hand) => {
            const refs = under(it, `${hand}Branch`).map((one) => one.attributes.get("netRelationRef") ?? "");
            return refs.length === 1 ? this.relations.get(refs[0]) : undefined;
        });
        const [left, right] = pairs, toe = left?.filter((end) => right?.includes(end)) ?? [];
        if (SLIP.test(it.attributes.get("type") ?? "")) {
            this.doubt(it, `${whatOf(it)} is a ${it.attributes.get("type")}: where its slips lead can't be drawn`);
        } else if (!left || !right || toe.length !== 1) {
            this.doubt(it, `${whatOf(it)} has no leftBranch and rightBranch whose net relations begin at one end`);
        } else {
            const [one, other] = [left, right].map((pair) => pair[0] === toe[0] ? pair[1] : pair[0]);
            return [{ element: it, toe: toe[0], legs: { left: one, right: other } }];
        }
        return [];
    }

    /** @param {Element} it @returns {Crossing[]} */
    crossingOf(it) {
        const spot = this.spotOf(it), start = spot && `${spot.of} ${Math.round(spot.part)}`;
        const ends = new Set(start ? [start] : []);
        for (const end of ends) {
            [...this.joined.get(end) ?? [], ...this.beside.get(end) ?? []].forEach((one) => ends.add(one));
        }
        const all = [...ends], paths = all.flatMap((end) => [...this.joined.get(end) ?? []].filter((other) => end < other)
            .map((other) => /** @type {[End, End]} */ ([end, other])));
        if (all.length !== 4 || paths.length !== 2 || new Set(paths.flat()).size !== 4) {
            this.doubt(it, `${whatOf(it)} isn't where two paths of two net elements each cross`);
            return [];
        }
        return [{ element: it, paths }];
    }

    /** @param {Element} it @returns {{of: string, part: number, spot: Element} | null} where it is said to be */
    spotOf(it) {
        const spot = under(it, "spotLocation").find((one) => this.elements.has(one.attributes.get("netElementRef") ?? ""));
        const of = spot?.attributes.get("netElementRef") ?? "", length = this.lengthOf(of).toNumber();
        const [part, pos] = ["intrinsicCoord", "pos"].map((name) => Decimal.of(spot?.attributes.get(name) ?? "")?.toNumber());
        const at = part ?? (pos !== undefined && length ? pos / length : undefined);
        return spot && at !== undefined ? { of, part: Math.min(1, Math.max(0, at)), spot } : null;
    }

    /**
     * Where an operational point lies: at a spot, or in the middle of each net element of its area.
     * @param {Element} it
     * @returns {{of: string, part: number}[]}
     */
    spotsOf(it) {
        const spot = this.spotOf(it), parts = under(it, "areaLocation", "associatedNetElement");
        const area = parts.map((one) => one.attributes.get("netElementRef") ?? "");
        return spot ? [spot] : area.filter((of) => this.elements.has(of)).map((of) => ({ of, part: 0.5 }));
    }

    /** @param {Element} it a buffer stop @returns {End[]} the end at which it is */
    openEndOf(it) {
        const spot = this.spotOf(it);
        return spot ? [`${spot.of} ${Math.round(spot.part)}`] : [];
    }

    /** @param {Element} it @returns {Signal[]} */
    signalOf(it) {
        const found = this.spotOf(it), way = found?.spot.attributes.get("applicationDirection") ?? "";
        if (!found) {
            this.lost.push(it);
        }
        return found ? [{ element: it, of: found.of, part: found.part, dir: { normal: "up", reverse: "down" }[way] ?? "" }]
            : [];
    }

    /** notes ends at which more than two are joined, and nothing says which lies left; and ends of which two things are said */
    holdJoins() {
        const used = [...this.switches.flatMap(({ toe, legs }) => [toe, legs.left, legs.right]),
            ...this.crossings.flatMap(({ paths }) => paths.flat())], known = new Set(used);
        for (const [end, others] of this.joined) {
            const at = /** @type {Element} */ (this.elements.get(elementOf(end)));
            if (!known.has(end) && others.size > 1) {
                this.doubt(at, `at ${endInWords(end)} ${others.size} net elements go on, and no switch says which lies left`);
            }
        }
        for (const end of [...this.beside.keys()].filter((one) => !known.has(one))) {
            this.doubt(/** @type {Element} */ (this.elements.get(elementOf(end))), `at ${endInWords(end)} lie net elements to which one can't `
                + "go on, and no switch or crossing is there");
        }
        const seen = new Set(), twice = used.find((end) => seen.has(end) || !seen.add(end));
        if (twice) {
            this.doubt(/** @type {Element} */ (this.elements.get(elementOf(twice))), `${endInWords(twice)} is said to be at two switches or crossings`);
        }
    }
}
