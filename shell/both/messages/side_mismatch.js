/**
 * Why the edges at a node don't lie on the sides where they must: a wrong orientation, a track whose kilometres contradict its
 * neighbours', or a triangle. Where the file fits more than one of these, all are named, and what only the ground can answer is
 * asked. What to write is said where no other single change has the file fit, or for an answer that leaves no other.
 */
import { changesOf, lengthOf, mileageOf, spotsOf } from "../one_mileage.js";
import * as railml from "../railml.js";

/** @typedef {import("../railml.js").Element} Element */
/** @typedef {import("../one_mileage.js").Layout} Layout */
/** @typedef {import("../one_mileage.js").Changes} Changes */

/** a track that joins two others and is no longer than this says little of where it leads, in metres */
const SHORT = 2;
/** so many further tracks are named */
const SHOWN = 3;

/** @param {number} metres @returns {string} a mileage as it is written in a file */
function written(metres) {
    return metres.toFixed(3).replace(/\.?0+$/, "").replace(/^-0$/, "0");
}

/** @param {string[]} names @param {string} word @returns {string} */
function listed(names, word) {
    return names.length > 1 ? `${names.slice(0, -1).join(", ")} ${word} ${names[names.length - 1]}` : names.join("");
}

/** @param {Layout} layout @param {Element} track @returns {string} what to write in absPos along a track */
function toWrite(layout, track) {
    const spots = layout.others(track);
    return `write ${spots.map((it) => `absPos="${written(layout.mileages.get(it) ?? 0)}" at ${railml.what(it)}`).join(", ")}`;
}

/** @param {Layout} layout @param {Element} track @returns {string} which way its own kilometres go, against its joins; "" where
 * they don't */
function wrongWay(layout, track) {
    const own = layout.ownWay(track), way = layout.ways.get(track), join = layout.joins.get(track);
    const spots = spotsOf(track), written = spots.filter((it) => it.attributes.has("absPos")).length;
    const by = join ? ` with ${railml.what(join.other)}` : "s", leads = `by its join${by} it ${way === 1 ? "rises" : "falls"} `
        + "from begin to end";
    if (own && own !== way) {
        return written > 1 ? `its mileage ${own === 1 ? "rises" : "falls"}, and ${leads}`
            : `${leads}, and as no absPos says so it is counted as if it rose`;
    }
    const given = spots.flatMap((it) => layout.given(it) ?? []), steps = given.slice(1).map((it, number) => it - given[number]);
    const isToAndFro = !own && steps.some((it) => it > 0) && steps.some((it) => it < 0);
    const counted = written < spots.length ? ", as it is counted up from its begin where no absPos is written" : "";
    return isToAndFro ? `its mileage rises and falls${counted}` : "";
}

/** @param {Layout} layout @param {Element} track @returns {string} why a track's own kilometres can't be */
function contradiction(layout, track) {
    const join = layout.joins.get(track), here = join && mileageOf(join.own), there = join && layout.mileages.get(join.other);
    const [before, behind] = layout.disorderOf(track).map(([it, metres]) => `${railml.what(it)}, at ${written(metres)} m,`);
    const inside = before ? `along it ${before} comes before ${behind.slice(0, -1)}` : "they differ from its length";
    return wrongWay(layout, track) || (join && here !== null && Math.abs(Number(here) - Number(there)) > 1
        ? `${railml.what(join.own)} is at ${written(Number(here))} m, and ${railml.what(join.other)}, to which it is joined, `
            + `at ${written(Number(there))} m`
        : inside);
}

/**
 * Which track's kilometres contradict those of its neighbours.
 * @param {Changes} changes
 * @returns {string} "" where it isn't known
 */
function oddTrack({ odd }) {
    const [[track, layout] = [], ...others] = odd, names = others.slice(0, SHOWN).map(([it]) => it.id);
    if (!track || !layout) {
        return "";
    }
    const more = others.length - names.length, rest = more ? [...names, `${more} more`] : names, s = rest.length > 1 ? "s" : "";
    const why = contradiction(layout, track);
    return others.some(([, other]) => other !== layout)
        ? `The kilometres of track ${track.id} contradict those of track${s} ${listed(rest, "or")}: ${why}. The file can't say `
            + "which are right"
        : `The kilometres of track ${track.id} contradict those of its neighbours: ${why}`
            + (rest.length ? `. So do those of track${s} ${listed(rest, "and")}` : "");
}

/**
 * That the kilometres of one track contradict the others, and what to write.
 * @param {Layout} layout @param {Element} track
 * @returns {string}
 */
function wrongKilometres(layout, track) {
    if (layout.ways.get(track) === -1 && layout.others(track).every((it) => !it.attributes.has("absPos"))) {
        return `Where no absPos is written the mileage of track ${track.id} is counted as if it rose, and by all that it is `
            + `joined to it falls from begin to end: ${toWrite(layout, track)}`;
    }
    return `The kilometres of track ${track.id} contradict those of its neighbours: ${contradiction(layout, track)}. One file `
        + `has one mileage: ${toWrite(layout, track)}`;
}

/**
 * That the kilometres of some tracks contradict one another, and what to write for each answer.
 * @param {Map<Element, Layout>} anew
 * @returns {string}
 */
function oneOfTracks(anew) {
    const [[track, layout], ...others] = anew, names = [...anew.keys()].map((it) => it.id);
    const answers = [...anew].map(([it, by]) => {
        const right = others.length > 1 ? "all but those" : `those of track ${names.find((id) => id !== it.id)}`;
        return `where ${right}${others.length > 1 ? ` of track ${it.id}` : ""} are right ${toWrite(by, it)}`;
    });
    return `The kilometres of track ${track.id} contradict those of track ${listed(names.slice(1), "or")}: `
        + `${contradiction(layout, track)}. One of them is wrong, and the file can't say which: see which way the kilometres `
        + `of each go on the ground. One file has one mileage: ${answers.join("; ")}`;
}

/** @param {Element} it @returns {string} the orientation that a switch's connection has not */
function otherWay(it) {
    return it.named("connection")[0]?.attributes.get("orientation") === "outgoing" ? "incoming" : "outgoing";
}

/** @param {Element} it @returns {string} what to write to turn a switch */
function turning(it) {
    const right = otherWay(it);
    return `orientation="${right}" in place of ${right === "outgoing" ? "incoming" : "outgoing"} at switch ${it.id}`;
}

/** @param {Layout} layout @param {Element} track @returns {Element[]} the places by which a track was reached, from it on */
function wayTo(layout, track) {
    const join = layout.joins.get(track), before = join?.other.above("track");
    return join && before ? [join.own, join.other, ...wayTo(layout, before)] : [];
}

/**
 * What leads back: the switches at which one would turn round on the ring that a join closes. A loop has two of them.
 * @param {Layout} layout @param {import("../one_mileage.js").Join} back
 * @returns {Element[]}
 */
function turnsOf(layout, { own, other }) {
    const [one, two] = [own, other].map((it) => [it, ...wayTo(layout, /** @type {Element} */ (it.above("track")))]);
    // what both ways have behind the track at which they meet is no part of the ring
    while (one.length > 1 && two.length > 1 && one.at(-1) === two.at(-1) && one.at(-2) === two.at(-2)) {
        one.splice(-2);
        two.splice(-2);
    }
    const ring = [...one].reverse().concat(two);
    /** @type {Element[]} */
    const found = [];
    ring.forEach((it, at) => {
        const next = ring[(at + 1) % ring.length];
        if (it.above("track") === next.above("track") && it !== next) {
            found.push(...turnedRound(it, next), ...turnedRound(next, it));
        }
    });
    return found;
}

/** @param {Element} it @param {Element} to another place of its track @returns {Element[]} the switch, where who comes from its
 * branch and goes on to the other place goes from leg to leg */
function turnedRound(it, to) {
    const isBehind = railml.position(to).compare(railml.position(it)) > 0;
    const isOut = it.named("connection")[0]?.attributes.get("orientation") === "outgoing";
    return it.name === "switch" && isOut === isBehind ? [it] : [];
}

/**
 * That a track leads back to where it comes from: first what that is as it is written, and then what else it may be.
 * @param {Changes} changes
 * @returns {string}
 */
function leadingBack({ plain, turned }) {
    const [{ own, other }] = plain.backs, track = own.above("track"), known = track && plain.joins.get(track)?.other;
    const said = `by ${railml.what(known ?? own)} track ${track?.id} leads one way, and by ${railml.what(known ? other : own)} `
        + "the other way";
    const turns = turnsOf(plain, plain.backs[0]).map((it) => it.id);
    const kind = turns.length === 1 ? `a turning loop (balloon) at switch ${turns[0]}`
        : turns.length === 3 ? `a triangle of the switches ${listed(turns, "and")}` : "a triangle or a turning loop (balloon)";
    const cut = `As it is written this is ${kind}: ${said}. Where it is so on the ground, it has no west and east: cut it. `
        + "Write <openEnd id=\"..\"/> in place of the connection at one joined end of a track in it, and give the switch there "
        + "a short track of its own";
    const switches = turned.filter((it) => it.name === "switch");
    if (turned.length === 1 && switches.length === 1) {
        return `${cut}. Where it isn't, one orientation is wrong, and one alone has all tracks and kilometres fit when it is `
            + `turned: write ${turning(turned[0])}`;
    }
    const points = turned.length ? listed(turned.map(railml.what), "or") : "each switch around it";
    return `${cut}. Where it isn't, an orientation is wrong: see whether the branch of ${points} leaves towards its track's `
        + "end, which is outgoing";
}

/**
 * For which answer from the ground a switch's orientation is wrong: where it alone has all fit when it is turned.
 * @param {Changes} changes @param {Element} it @param {Element} own @param {Element} branch
 * @returns {string} "" where it can't be that alone
 */
function wrongOrientation({ plain, turned }, it, own, branch) {
    const { graph } = plain, [before, after] = [graph.before, graph.behind].map((of) => graph.edges[of.get(it.place) ?? -1]);
    const rises = before?.east === it && after?.west === it, falls = before?.west === it && after?.east === it;
    const leg = graph.edges[graph.beyond(it.named("connection")[0]) ?? -1];
    if (!turned.includes(it) || !rises && !falls || !leg) {
        return "";
    }
    const isGreater = leg.west === it, far = isGreater ? leg.east : leg.west;
    return `Only where all kilometres are right is it the orientation of switch ${it.id}. Do the kilometres of track ${own.id} `
        + `${rises ? "rise" : "fall"} from its begin to its end on the ground, and does the branch, track ${branch.id}, lead `
        + `towards ${isGreater ? "greater" : "smaller"} kilometres of track ${own.id}, as ${railml.what(far)} at `
        + `${written(Number(mileageOf(far)))} m has it? Where both are so write ${turning(it)}`;
}

/**
 * Which track's kilometres are the odd ones at a switch, what to write where they alone are wrong, and only then when it is an
 * orientation.
 * @param {Changes} changes @param {Element} it @param {Element} own @param {Element} branch @param {string} prepared the line
 * that mends the file
 * @returns {string} "" where nothing of it is known
 */
function eitherOf(changes, it, own, branch, prepared) {
    const { anew, odd, turned } = changes, first = oddTrack(changes), orientation = wrongOrientation(changes, it, own, branch);
    const numbers = [...new Set([...odd.keys(), own, branch])].flatMap((track) => {
        const layout = anew.get(track);
        const alone = `where those of track ${track.id} alone are wrong, or of another line, `;
        return layout ? [alone + toWrite(layout, track)] : [];
    });
    const seen = numbers.length ? `See which way they go on the ground: ${numbers.join("; ")}` : "";
    const counting = first && !seen && !orientation ? `Where all orientations are right on the ground, ${prepared} --one-km `
        + "counts them anew by the tracks' lengths" : "";
    const none = turned.length || !first ? "" : "No orientation that is turned alone has all of them fit";
    return [first, seen, none, counting, orientation].filter(Boolean).join(". ");
}

/**
 * That two places are too near each other to say which lies where.
 * @param {Element} one @param {Element} other
 * @returns {string}
 */
function tooNear(one, other) {
    return `${railml.what(other)}, at ${written(Number(mileageOf(other)))} m, is near it, and the orientations have them the `
        + "other way round: look which of the two lies towards smaller kilometres, and write the smaller mileage there, and "
        + "half a metre between them";
}

/**
 * @param {Element} it @param {Map<string, Element>} known the connections by their ids
 * @returns {Element[]} the tracks that meet at a node, its own first
 */
function tracksAt(it, known) {
    const joined = it.named("connection").map((child) => known.get(child.attributes.get("ref") ?? "")?.parent?.above("track"));
    return [it.above("track"), ...joined].flatMap((track) => track ?? []);
}

/** @param {Element} track @param {Element} it @param {Map<string, Element>} known @returns {Element | undefined} the other
 * switch or crossing that a short track joins to one */
function beyondShort(track, it, known) {
    const ends = railml.ENDS.flatMap((name) => railml.endOf(track, name)?.named("connection") ?? []);
    const joined = ends.flatMap((end) => known.get(end.attributes.get("ref") ?? "")?.parent ?? []);
    return lengthOf(track) <= SHORT && joined.length === 2 && joined.includes(it) ? joined.find((other) => other !== it)
        : undefined;
}

/**
 * What is wrong at a node whose edges lie on wrong sides, and what to do; "" where it isn't known.
 * @param {import("../railml.js").Document} document @param {Element} it @param {string} prepared the line that mends the file
 * @returns {string}
 */
export function causeOf(document, it, prepared) {
    const known = railml.byId(document), [own, branch, ...more] = tracksAt(it, known);
    if (railml.ENDS.includes(it.name) && own === branch) {
        return `Track ${own.id} is joined to itself, and a ring has no west and east: cut it, and write two ends`;
    }
    const other = branch && beyondShort(branch, it, known);
    if (other && Math.abs(Number(mileageOf(other)) - Number(mileageOf(it))) <= SHORT) {
        return tooNear(it, other);
    }
    const changes = changesOf(document, own);
    if (!changes) {
        return "";
    }
    if (changes.plain.backs.length) {
        return leadingBack(changes);
    }
    const { anew, plain, turned } = changes, [only] = anew;
    const isTurned = turned.length > 0 || [...plain.ways].some(([track, way]) => plain.ownWay(track) === -way);
    if (anew.size === 1 && !isTurned) {
        return wrongKilometres(only[1], only[0]);
    }
    if (it.name === "switch" && (isTurned || !anew.size)) {
        return eitherOf(changes, it, own, branch, prepared);
    }
    if (it.name === "crossing" && isTurned) {
        const first = oddTrack(changes);
        const tracks = listed([own, branch, ...more].map((track) => track.id), "or");
        return `${first && `${first}. `}Either the incoming and the outgoing connection of crossing ${it.id} are exchanged, or `
            + `the kilometres of track ${tracks} are wrong, and the file can't say which: see on the plan of the station which `
            + "of the joined tracks leads towards greater kilometres";
    }
    return anew.size > 1 ? oneOfTracks(anew) : anew.size ? wrongKilometres(only[1], only[0]) : "";
}
