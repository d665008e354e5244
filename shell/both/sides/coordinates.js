/**
 * To which hand the branches of switches lie by a file's own coordinates (geoCoord). Between known places a track is taken to
 * lie
 * on circles through three of them: straight lines would have branches of curved tracks on wrong sides. A hand is only said
 * where
 * the branch is three times as far aside as the track's place is in doubt. A single hand may be false all the same: where
 * tracks
 * curve in other ways, or coordinates were measured roughly. So only all of a file together are a vote.
 */
import * as railml from "../railml.js";

/** @typedef {import("../railml.js").Element} Element */
/** @typedef {import("../railml.js").Document} Document */
/** @typedef {[number, number]} Point metres to the east and to the north */
/** @typedef {{pos: number, at: Point}} Known a place of a track */
/** @typedef {{at: Point, doubt: number}} Guessed where a track is, and by how many metres that may be off */
/** @typedef {Map<Element, "left" | "right">} Hands of switches, seen from their points */

const DEGREE = 111320;
/** between these a branch is compared with its track, in metres from the switch */
const NEAREST = 15, FURTHEST = 1500;
/** no track has a smaller radius, in metres */
const SMALLEST = 150;
/** a branch lies so far aside before its hand is said: in metres, and as often as the doubt */
const ASIDE = 1.5, TIMES = 3;
/** between these lie northings and eastings of UTM in Europe, in metres, and latitudes and longitudes there, in degrees */
const METRES = [[3.5e6, 8.5e6], [5e4, 1e6]], DEGREES = [[35, 72], [-25, 35]];

/** @param {Point} one @param {Point} other @returns {number} */
function distance(one, other) {
    return Math.hypot(other[0] - one[0], other[1] - one[1]);
}

/** @param {Element} it @returns {Point | null} the two numbers of its coordinate, as they are written */
function numbersOf(it) {
    const text = it.named("geoCoord")[0]?.attributes.get("coord"), found = text?.match(/[-+]?\d+(\.\d+)?/g)?.map(Number) ?? [];
    return found.length >= 2 ? [found[0], found[1]] : null;
}

/**
 * Where things lie, in metres. Which of two numbers is which is only known by their size: of degrees in Europe, and of UTM.
 * @param {Document} document
 * @returns {Map<Element, Point>} none where that isn't known
 */
function placesOf(document) {
    const found = document.elements.flatMap((it) => {
        const numbers = it.named("geoCoord").length ? numbersOf(it) : null;
        return numbers ? [{ it, numbers }] : [];
    });
    for (const [bounds, size] of /** @type {[number[][], number][]} */ ([[METRES, 1], [DEGREES, DEGREE]])) {
        for (const first of [0, 1]) {
            const isSo = found.every(({ numbers }) => [numbers[first], numbers[1 - first]]
                .every((number, at) => number > bounds[at][0] && number < bounds[at][1]));
            if (isSo) {
                const shrunk = size === 1 ? 1 : Math.cos(((found[0]?.numbers[first] ?? 0) / 180) * Math.PI);
                return new Map(found.map(({ it, numbers }) => [it, [numbers[1 - first] * size * shrunk,
                    numbers[first] * size]]));
            }
        }
    }
    return new Map();
}

/** @param {Element} it @returns {number} */
function positionOf(it) {
    return railml.position(it).toNumber();
}

/** @param {Element} track @returns {Element[]} all that is at a place of a track */
function placedOn(track) {
    const groups = track.named("trackElements", "ocsElements").flatMap((it) => it.children);
    const lists = railml.topology(track)?.named("crossSections", "geoMappings") ?? [];
    return [...railml.placesOf(track), ...[...groups, ...lists].flatMap((it) => it.children)]
        .filter((it) => railml.metres(it.attributes.get("pos")));
}

/**
 * Where a circle through three places is, by the length along it.
 * @param {Known[]} three @param {number} pos
 * @returns {Point | null} nothing where they aren't on one curve
 */
function onCircle([{ pos: p, at: a }, { pos: q, at: b }, { pos: r, at: c }], pos) {
    const twice = 2 * (a[0] * (b[1] - c[1]) + b[0] * (c[1] - a[1]) + c[0] * (a[1] - b[1])), ab = distance(a, b), bc =
        distance(b, c);
    if (ab < 1 || bc < 1) {
        return null;
    }
    if (Math.abs(twice) < 1e-6 * ab * bc * (ab + bc)) {
        const part = (pos - p) / (r - p);
        return [a[0] + part * (c[0] - a[0]), a[1] + part * (c[1] - a[1])];
    }
    const [na, nb, nc] = [a, b, c].map((it) => it[0] ** 2 + it[1] ** 2);
    const middle = /** @type {Point} */ ([(na * (b[1] - c[1]) + nb * (c[1] - a[1]) + nc * (a[1] - b[1])) / twice,
        (na * (c[0] - b[0]) + nb * (a[0] - c[0]) + nc * (b[0] - a[0])) / twice]);
    const radius = distance(middle, a), [wa, wb, wc] = [a, b, c].map((it) => Math.atan2(it[1] - middle[1], it[0] - middle[0]));
    const [one, two] = [wb - wa, wc - wb].map((it) => Math.atan2(Math.sin(it), Math.cos(it)));
    if (radius < SMALLEST || one * two <= 0) {
        return null;
    }
    const angle = wa + ((one + two) / (r - p)) * (pos - p);
    return [middle[0] + radius * Math.cos(angle), middle[1] + radius * Math.sin(angle)];
}

/** The known places of a track, by their positions. */
class Line {
    /** @param {Element} track @param {Map<Element, Point>} places */
    constructor(track, places) {
        /** @type {Known[]} */
        this.known = placedOn(track).flatMap((it) => {
            const at = places.get(it);
            return at ? [{ pos: positionOf(it), at }] : [];
        }).sort((one, other) => one.pos - other.pos).filter((it, at, all) => !at || it.pos > all[at - 1].pos);
    }

    /** @param {number} pos @returns {Point} on the straight line between the two nearest known places */
    straight(pos) {
        const at = Math.max(1, this.known.findIndex((it) => it.pos >= pos)), [one, other] = [this.known[at - 1],
            this.known[at]];
        const part = (pos - one.pos) / (other.pos - one.pos || 1);
        return [one.at[0] + part * (other.at[0] - one.at[0]), one.at[1] + part * (other.at[1] - one.at[1])];
    }

    /** @param {number} pos @returns {Guessed | null} by the circles through three known places around it; one circle alone
     * may be off
     * by half of what it bends */
    guess(pos) {
        const { known } = this, there = known.find((it) => Math.abs(it.pos - pos) < 0.01);
        if (there) {
            return { at: there.at, doubt: 0 };
        }
        const around = known.flatMap((_, at) => (at + 2 < known.length && known[at].pos < pos && pos < known[at + 2].pos
            ? [known.slice(at, at + 3)] : []));
        const found = around.flatMap((three) => {
            const point = onCircle(three, pos);
            return point ? [point] : [];
        });
        if (!found.length) {
            return null;
        }
        const doubt = found.length > 1 ? Math.max(...found.map((it) => distance(found[0], it))) : distance(found[0],
            this.straight(pos)) / 2;
        return { at: found[0], doubt };
    }
}

/**
 * How far left of its track a branch lies at a known place of it.
 * @param {Line} line @param {number} from the position of the switch @param {1 | -1} way to which its legs lead along the track
 * @param {number} length from the switch to that place @param {Point} place
 * @returns {number} in metres; 0 where it isn't clear
 */
function aside(line, from, way, length, place) {
    const here = line.guess(from), leg = line.guess(from + way * length);
    if (!here || !leg) {
        return 0;
    }
    const next = line.guess(from + way * length * 1.02), [back, ahead] = next ? [leg, next] : [here, leg];
    const [east, north] = [0, 1].map((at) => ahead.at[at] - back.at[at]), size = Math.hypot(east, north);
    const left = size < 0.2 ? 0 : (east * (place[1] - leg.at[1]) - north * (place[0] - leg.at[0])) / size;
    return Math.abs(left) > Math.max(ASIDE, TIMES * (leg.doubt + here.doubt)) ? left : 0;
}

/**
 * The hands that coordinates say, of those switches of which they say one.
 * @param {Document} document
 * @returns {Hands}
 */
export function handsByCoordinates(document) {
    const places = placesOf(document), known = railml.byId(document), tracks = places.size ? document.tracks() : [];
    const lines = new Map(tracks.map((track) => [track, new Line(track, places)]));
    return new Map(tracks.flatMap((track) => railml.points(track).filter((it) => it.name === "switch").flatMap((it) => {
        const [leg] = it.named("connection"), end = known.get(leg?.attributes.get("ref") ?? "")?.parent;
        const branch = end && railml.ENDS.includes(end.name) ? end.above("track") : null, line = lines.get(track);
        const beside = branch && lines.get(branch);
        if (!end || !line || !beside) {
            return [];
        }
        const way = leg.attributes.get("orientation") === "outgoing" ? 1 : -1;
        const lefts = beside.known.map(({ pos, at }) => ({ length: Math.abs(pos - positionOf(end)), at }))
            .filter(({ length }) => length >= NEAREST && length <= FURTHEST).sort((one, other) => one.length - other.length)
            .map(({ length, at }) => aside(line, positionOf(it), way, length, at));
        const first = lefts.find((left) => left);
        return first === undefined ? [] : [/** @type {const} */ ([it, first > 0 ? "left" : "right"])];
    })));
}
