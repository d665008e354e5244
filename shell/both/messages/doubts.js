/** What a file leaves open or says twice, so that its drawing may be other than the station: for standard error and for
 * pages. */
import { betweenPlaces, mileageOf, spotsOf } from "../one_mileage.js";
import * as railml from "../railml.js";
import { Orders } from "../sides/confirmed.js";
import { sidesOf } from "../sides/said.js";
import { unrelatedOf } from "../unrelated.js";
import { offsetsOf } from "./offsets.js";

/** @typedef {import("../railml.js").Document} Document */
/** @typedef {import("../railml.js").Element} Element */

/** so many names are listed */
const SHOWN = 3;
/** two lengths of all tracks that are further apart aren't of one unit */
const FACTOR = 20;
/** what is said of a question that coordinates may answer */
const SURVEYED = ". The file has coordinates (geoCoord) there: they may say it, and aren't read for this";

/** @param {Element[]} places @returns {boolean} whether the file says of each where it lies on the map */
function isSurveyed(places) {
    return places.length > 0 && places.every((it) => it.named("geoCoord").length > 0);
}

/** @param {string[]} names @param {string} what @returns {string} the first of some names, and how many more there are */
function listed(names, what) {
    const more = names.length - SHOWN;
    return names.slice(0, SHOWN).join(", ") + (more > 0 ? ` and ${more} more ${what}` : "");
}

/** @param {Document} document @returns {string[]} signals that are taken as if their track's mileage rose, though it falls */
function unsaidSignals(document) {
    return document.tracks().flatMap((track) => {
        const [one = null, other = null] = spotsOf(track).filter((_, at, all) => !at || at === all.length - 1).map(mileageOf);
        const unsaid = railml.signals(track).filter((it) => !it.attributes.has("absPos"));
        if (one === null || other === null || other >= one || !unsaid.length) {
            return [];
        }
        const mileageAt = betweenPlaces(track), names = unsaid.map((it) => `absPos="${mileageAt(it) ?? ".."}" at ${railml.what(it)}`);
        const count = unsaid.length === 1 ? "1 signal has" : `${unsaid.length} signals have`;
        return [`the mileage of track ${track.id} falls, and ${count} no absPos: counted as if it rose, they may lie on `
            + `another piece. Write ${listed(names, "signals")}`];
    });
}

/** @param {Document} document @returns {Element[][]} the tracks in groups, each of those that are joined */
function groupsOf(document) {
    const known = railml.byId(document);
    /** @type {Map<Element, Element[]>} */
    const groups = new Map(document.tracks().map((track) => [track, [track]]));
    for (const connection of known.values()) {
        const here = connection.above("track"), there = known.get(connection.attributes.get("ref") ?? "")?.above("track");
        const one = here && groups.get(here), other = there && groups.get(there);
        if (one && other && one !== other) {
            one.push(...other);
            other.forEach((track) => groups.set(track, one));
        }
    }
    return [...new Set(groups.values())];
}

/** @param {Element[]} group @returns {[number, number]} from which mileage to which it goes */
function spanOf(group) {
    const mileages = group.flatMap(spotsOf).flatMap((it) => mileageOf(it) ?? []);
    return [Math.min(...mileages), Math.max(...mileages)];
}

/** @param {Document} document @returns {string[]} tracks beside others of which nothing says whether they lie above or below
 * them */
function unrelated(document) {
    const groups = groupsOf(document).sort((one, other) => other.length - one.length), [main, ...others] = groups;
    const spans = new Map(groups.map((group) => [group, spanOf(group)]));
    const beside = others.filter((group) => [...spans].some(([other, [begun, ended]]) => {
        const [west, east] = spans.get(group) ?? [0, 0];
        return other !== group && Math.max(west, begun) < Math.min(east, ended);
    }));
    if (!main || !beside.length) {
        return [];
    }
    const names = beside.map((group) => group[0].id);
    const isPlaced = [main, ...beside].every((group) => group.map(spotsOf).some(isSurveyed));
    const [word, lies] = names.length === 1 ? ["track", "it lies"] : ["tracks", "they lie"];
    return [`nothing joins ${word} ${listed(names, "parts")} to track ${main[0].id}, so nothing says whether ${lies} above or `
        + `below it${isPlaced ? SURVEYED : ""}`];
}

/** @param {Document} document @returns {string[]} tracks that are joined, and of which nothing says which lies above */
function unordered(document) {
    const orders = new Orders(document), { edges } = orders.graph;
    const pairs = unrelatedOf(edges.map(({ name, west, east }, at) => {
        const [from, to] = orders.spans[at];
        return { track: name, west: west.place, east: east.place, from, to };
    }), orders.above);
    if (!pairs.length) {
        return [];
    }
    const said = pairs.map(([one, other]) => `${edges[other].name} lies above or below track ${edges[one].name}`);
    const tracks = new Map(document.tracks().map((it) => [it.id, it])), spotsAt = (/** @type {number} */ at) => {
        const track = tracks.get(edges[at].name);
        return track ? spotsOf(track) : [];
    };
    const isPlaced = pairs.flat().every((at) => isSurveyed(spotsAt(at)));
    return [`nothing says whether track ${listed(said, "pairs of tracks").replace(/, /g, ", or track ")}`
        + (isPlaced ? SURVEYED : "")];
}

/** @param {Document} document @returns {string[]} ends that name one operational point, and that nothing joins */
function unjoinedEnds(document) {
    /** @type {Map<string, Element[]>} */
    const ends = new Map();
    for (const end of document.tracks().flatMap((track) => railml.ENDS.flatMap((name) => railml.endOf(track, name) ?? []))) {
        const point = end.named("macroscopicNode")[0]?.attributes.get("ocpRef");
        if (point) {
            ends.set(point, [...ends.get(point) ?? [], end]);
        }
    }
    const groups = groupsOf(document), groupOf = (/** @type {Element} */ it) =>
        groups.find((group) => group.includes(/** @type {Element} */ (it.above("track"))));
    // where one line ends and the other begins: tracks beside each other begin, or end, at one operational point too
    const shared = [...ends.values()].flatMap((all) => {
        const plain = all.filter((it) => !railml.points(/** @type {Element} */ (it.above("track"))).length);
        return plain.flatMap((one) => {
            const other = plain.find((it) => one.name === "trackEnd" && it.name === "trackBegin" && groupOf(it) !== groupOf(one)
                && mileageOf(it) === mileageOf(one));
            return other ? [[one, other]] : [];
        }).slice(0, 1);
    });
    if (!shared.length) {
        return [];
    }
    const [[one, other]] = shared, more = shared.length - 1;
    return [`${railml.what(one)} and ${railml.what(other)} name one operational point, and nothing joins them`
        + (more ? `; so at ${more} more` : "") + ": a file without their switches is no layout, and its tracks are drawn "
        + "apart"];
}

/** @param {Document} document @returns {string[]} tracks whose kilometres jump on their way, so that what lies behind the jump may be in
 * other columns than beside them */
function jumps(document) {
    const tracks = document.tracks();
    return tracks.length < 2 ? [] : tracks.flatMap((track) => {
        const [begin] = spotsOf(track), changes = railml.topology(track)?.named("mileageChanges").flatMap((it) => it.named("mileageChange"));
        const jump = begin && changes?.find((it) => railml.position(it).compare(railml.position(begin)) > 0);
        const behind = jump ? spotsOf(track).filter((it) => railml.byPosition(it, jump) >= 0).map(railml.what) : [];
        return behind.length ? [`the kilometres of track ${track.id} jump (mileageChange). Against other tracks these may be in another order `
            + `than on the ground: ${listed(behind, "places")}`] : [];
    });
}

/** @param {Document} document @returns {string[]} that mileages and positions aren't of one unit */
function units(document) {
    const spans = document.tracks().flatMap((track) => {
        const [begin, end] = railml.ENDS.map((name) => railml.endOf(track, name));
        const [one, other] = [begin, end].map((it) => railml.metres(it?.attributes.get("absPos")));
        return begin && end && one && other ? [[other.minus(one), railml.position(end).minus(railml.position(begin))]
            .map((it) => Math.abs(it.toNumber()))] : [];
    });
    const [mileages, lengths] = [0, 1].map((at) => spans.reduce((sum, it) => sum + it[at], 0)), part = mileages / lengths;
    if (!mileages || !lengths || part > 1 / FACTOR && part < FACTOR) {
        return [];
    }
    return [`by absPos all tracks together are ${Math.round(mileages * 1000) / 1000} m long, and by pos ${Math.round(lengths)} m. Both are read `
        + "as metres: is one of them in kilometres?"];
}

/**
 * All that a file leaves open or says twice.
 * @param {Document} document @param {string} command
 * @returns {string[]}
 */
export function doubtsOf(document, command) {
    const offsets = offsetsOf(document);
    return [...offsets ? [offsets] : [], ...command === "signals" ? unsaidSignals(document) : [], ...unrelated(document),
        ...unordered(document), ...unjoinedEnds(document), ...jumps(document), ...units(document), ...sidesOf(document).doubts];
}
