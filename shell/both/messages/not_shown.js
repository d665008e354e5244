/** What a file has that the drawing of an answer doesn't show, for standard error and for pages. */
import { Decimal, ZERO } from "../decimal.js";
import { namedPoints } from "../operational_points.js";
import * as railml from "../railml.js";
import { KINDS } from "../trackside.js";
import { TrackGraph } from "../track_graph.js";
import { gridOf } from "./advice.js";
import { doubtsOf } from "./doubts.js";
import { kilometres } from "./law_words.js";

/** @typedef {import("../railml.js").Document} Document */
/** @typedef {import("../railml.js").Element} Element */
/** @typedef {import("../words.js").Line} Line */

const SLIPS = new Map([["doubleSwitchCrossing", "a double slip"], ["simpleSwitchCrossing", "a single slip"]]);
const PLAIN = "simpleCrossing";
/** from how many signals on one piece of track on it is said why each edge takes so many columns */
const MANY_SIGNALS = 4;
/** two mileages of one place that are further apart are no matter of measuring, in metres */
const FAR = new Decimal(false, 50n, 0);
const PASSED_GROUPS = ["trackElements", "ocsElements"];
/** what of a track's topology is read; its other groups, as mileageChanges, are passed over */
const READ_GROUPS = ["trackBegin", "trackEnd", "connections"];
/** what a file has beside its infrastructure that says nothing of the station */
const ABOUT = ["metadata"];
/** what pages draw or list of what the program passes over */
const SHOWN = [...KINDS.keys()];
const READ = ["track", "trackTopology", "trackBegin", "trackEnd", "connections", "switch", "crossing", "connection"];

/** @template T @param {Iterable<T>} listed @returns {Map<T, number>} how often each is there, in the order of the first ones */
function counted(listed) {
    const found = new Map();
    for (const it of listed) {
        found.set(it, (found.get(it) ?? 0) + 1);
    }
    return found;
}

/** @param {Map<string, number>} kinds @returns {[string, number][]} by name */
function sorted(kinds) {
    return [...kinds].sort(([one], [other]) => (one < other ? -1 : 1));
}

/**
 * crossings that have slips, or are of a kind that isn't known
 * @param {Document} document @param {boolean} isPage @returns {string[]}
 */
function slips(document, isPage) {
    const said = isPage ? "its sign says so, and the ways over its slips aren't drawn"
        : "it is drawn as a crossing, without its slips";
    return document.tracks().flatMap(railml.points).filter((it) => it.name === "crossing").flatMap((it) => {
        const type = it.attributes.get("type") ?? PLAIN, slip = SLIPS.get(type);
        return slip ? [`${it.id} is ${slip} in the file; ${said}`]
            : type === PLAIN ? [] : [`${it.id} is a crossing of the type ${type}; it is drawn as a plain one, without slips if it has any`];
    });
}

/** @param {Document} document @returns {string[]} switches at which the file has the track turn off too, as at a Y switch */
function bentTracks(document) {
    const hands = ["left", "right"];
    return document.tracks().flatMap(railml.points).filter((it) => it.name === "switch").flatMap((it) => {
        const course = it.named("connection")[0]?.attributes.get("course") ?? "";
        const goesOn = it.attributes.get("trackContinueCourse") ?? "";
        return hands.includes(course) && hands.includes(goesOn)
            ? [`${it.id}: the file has the track go on to the ${goesOn}; it is drawn straight`] : [];
    });
}

/**
 * Where a track's end and what it is joined to have two mileages: the two that are furthest apart, and how many more differ.
 * @param {Document} document @returns {string[]}
 */
function twoMileages(document) {
    const graph = new TrackGraph(document);
    const ends = document.tracks().flatMap((track) => railml.ENDS.map((name) => railml.endOf(track, name)));
    const found = ends.flatMap((end) => {
        const node = end && graph.node(end), mileage = node && railml.mileage(node), own = end && railml.mileage(end);
        return mileage && own && !mileage.equals(own) ? [{ places: [node, end], apart: mileage.minus(own).absolute() }] : [];
    });
    if (!found.length) {
        return [];
    }
    const furthest = found.reduce((one, other) => (other.apart.compare(one.apart) > 0 ? other : one));
    const [drawn, other] = furthest.places.map(withKilometre);
    const more = found.length - 1, rest = more ? `. ${more} more ${more === 1 ? "is" : "are"} no further apart` : "";
    const isFar = furthest.apart.compare(FAR) > 0;
    return [`joined at two mileages: ${drawn} and ${other}; drawn at the first${rest}`
        + (isFar ? ". Unless a line begins there that has kilometres of its own, a "
            + "track may be counted wrongly, and its branches drawn on the wrong side" : "")];
}

/** @param {Element} it @returns {string} an element in words, with its mileage; that of -0 is 0 */
function withKilometre(it) {
    return `${railml.what(it)} (km ${kilometres(String(railml.mileage(it)?.plus(ZERO)))})`;
}

/** @param {Element} group @returns {Element[]} the elements that it lists, or itself where it lists none */
function listedIn(group) {
    return group.children.length ? group.children : [group];
}

/** @param {Document} document @returns {Element[]} what a file has beside tracks: what its infrastructures list, and its other
 * parts, as a timetable, as they are */
function besideTracks(document) {
    const { root } = document, stations = document.stations();
    const parts = root?.name === "railml" ? root.children.filter((it) => !stations.includes(it) && !ABOUT.includes(it.name)) : [];
    return [...stations.flatMap((it) => it.children).filter((it) => it.name !== "tracks").flatMap(listedIn), ...parts];
}

/** @param {Element} group @returns {Element[]} the elements of a group's lists */
function leaves(group) {
    return group.children.flatMap((listed) => listed.children);
}

/**
 * What a file has besides its tracks' topology, by kinds. Pages draw more than the program, or list what they can't draw, and
 * say why.
 * @param {Document} document @param {string} command @param {boolean} isPage
 * @returns {string[]}
 */
function passedOver(document, command, isPage) {
    const named = namedPoints(document);
    const kinds = counted([...besideTracks(document), ...document.tracks().flatMap((track) => [
        ...track.named(...PASSED_GROUPS).flatMap(leaves).filter((it) => it.name !== "signal" || command !== "signals"),
        ...track.named("trackTopology").flatMap((it) => it.children).filter((it) => !READ_GROUPS.includes(it.name))
            .flatMap(listedIn),
    ])].filter((it) => !isPage || !SHOWN.includes(it.name) && !named.has(it)).map((it) => it.name));
    const listed = sorted(kinds).map(([name, count]) => `${count} ${name}`).join(", ");
    return listed ? [`not drawn: ${listed}${kinds.has("signal") ? "; signals draws signals" : ""}`] : [];
}

/** @param {Document} document @param {string} command @returns {string[]} signals that aren't there, which pages leave out */
function virtual(document, command) {
    const isVirtual = (/** @type {Element} */ it) => ["true", "1"].includes((it.attributes.get("virtual") ?? "").trim());
    const count = document.tracks().flatMap(railml.signals).filter(isVirtual).length;
    return count && command === "signals" ? [`left out: ${count} virtual ${count === 1 ? "signal" : "signals"}`] : [];
}

/** @param {Document} document @param {string} command @returns {string[]} elements that would be read without their prefix */
function prefixed(document, command) {
    const read = command === "signals" ? [...READ, "signal"] : READ;
    const names = document.elements.map((it) => it.name).filter((it) => it.includes(":"));
    return sorted(counted(names.filter((it) => read.includes(it.slice(it.lastIndexOf(":") + 1))))).map(([name, count]) =>
        `${count} ${name} ${count === 1 ? "has" : "have"} a prefix, so ${count === 1 ? "it is" : "they are"} passed over`);
}

/** @param {Document} document @param {Line} line @param {string[]} said @returns {string[]} why each edge takes so many
 * columns */
function crowdedPiece(document, line, said) {
    const { least } = gridOf(line, said);
    if (line.command !== "signals" || least <= MANY_SIGNALS) {
        return [];
    }
    const fields = said.map((it) => it.split(" "));
    const of = (/** @type {string} */ front) => fields.filter((it) => it[0] === front);
    const [most] = [...counted(of("signal").map((it) => it[3]))].sort(([, one], [, other]) => other - one);
    let piece = "";
    if (most) {
        const [track, ...ends] = of("edge").find((it) => it[1] === most[0])?.slice(2, 5) ?? [];
        const [west, east] = ends.map((number) => of("node").find((it) => it[1] === number)?.[2]);
        piece = `${track} from ${west} to ${east}`;
    } else {
        piece = fullestPiece(document, least - 1) || "one piece of track";
    }
    return [`${piece} has ${least - 1} signals, so each edge takes ${least} columns`];
}

/**
 * The piece of track with so many signals, where the answer doesn't say where signals are.
 * @param {Document} document @param {number} count
 * @returns {string}
 */
function fullestPiece(document, count) {
    const graph = new TrackGraph(document);
    const pieces = document.tracks().flatMap((track) => {
        const spots = railml.placesOf(track).sort(railml.byPosition).slice(0, -1);
        const mileages = spots.map((it) => railml.mileage(it) ?? ZERO);
        const falls = spots.length > 1 && mileages[1].compare(mileages[0]) < 0;
        return spots.length ? railml.signals(track).map((signal) => {
            const at = railml.mileage(signal) ?? ZERO;
            const passed = mileages.slice(1).filter((it) => (falls ? it.compare(at) >= 0 : it.compare(at) <= 0)).length;
            return graph.behind.get(spots[passed].place);
        }) : [];
    });
    const fullest = [...counted(pieces)].find(([number, found]) => found === count && number !== undefined)?.[0];
    return fullest === undefined ? "" : graph.pieceInWords(fullest);
}

/**
 * All that a file has and a drawing doesn't show: the program's own one, or that of a page.
 * @param {Uint8Array} data @param {Line} line @param {string[]} said the answer's lines
 * @param {boolean} [isPage]
 * @returns {string[]}
 */
export function notShown(data, line, said, isPage = line.pages.has("--html")) {
    const document = railml.read(data);
    return [...slips(document, isPage), ...bentTracks(document), ...twoMileages(document), ...prefixed(document, line.command),
        ...passedOver(document, line.command, isPage), ...isPage ? virtual(document, line.command) : [],
        ...crowdedPiece(document, line, said), ...doubtsOf(document, line.command)];
}
