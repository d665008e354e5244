/**
 * How often coordinates say a false hand, and how often a false vote comes of that: random tracks with transitions between
 * straights
 * and curves, with switches of which the file says the true hand, and the files of cases/real:
 *
 *     node shell/tests/many_curves.js [TRACKS [METRES]]
 *
 * METRES is by how much coordinates are measured wrongly at most. It ends with 1 where a file has a false vote.
 */
import { argv } from "node:process";
import { pathToFileURL } from "node:url";
import { habits } from "../../cases/real/habits.js";
import { kinds } from "../../cases/real/kinds.js";
import { read } from "../both/railml.js";
import { handsByCoordinates } from "../both/sides/coordinates.js";
import { givenHand, votesOf } from "../both/sides/votes.js";

/** @typedef {{east: number, north: number, heading: number}} Place */
/** @typedef {{hands: number, falseHands: number, votes: number, falseVotes: number}} Count */

const STEP = 1, LENGTH = 1500;

/** @param {number} seed @returns {() => number} numbers from 0 to 1, the same for each seed */
export function randomOf(seed) {
    let state = seed * 2654435761 % 2 ** 32 || 1;
    return () => {
        state = (Math.imul(state, 1664525) + 1013904223) >>> 0;
        return state / 2 ** 32;
    };
}

/** @param {() => number} random @returns {Place[]} a track, metre by metre: its curvature goes on evenly, or changes evenly */
function alignment(random) {
    /** @type {Place[]} */
    const places = [{ east: 0, north: 0, heading: random() * 2 * Math.PI }];
    let curvature = 0;
    while (places.length <= LENGTH) {
        const wanted = random() < 0.4 ? 0 : (random() < 0.5 ? 1 : -1) / (300 + 2700 * random()), transition = 40
            + 80 * random();
        const stretch = transition + 100 + 300 * random(), from = curvature;
        for (let at = 0; at < stretch && places.length <= LENGTH; at += STEP) {
            const { east, north, heading } = places[places.length - 1];
            curvature = at < transition ? from + (wanted - from) * (at / transition) : wanted;
            places.push({ east: east + STEP * Math.cos(heading), north: north + STEP * Math.sin(heading), heading: heading
                + STEP * curvature });
        }
    }
    return places;
}

/** @param {Place} place @param {number} left @returns {Place} */
function beside({ east, north, heading }, left) {
    return { east: east - left * Math.sin(heading), north: north + left * Math.cos(heading), heading };
}

/** A file of one track with branches, each with the hand that is true. */
class File {
    /** @param {number} seed @param {number} noise */
    constructor(seed, noise) {
        this.random = randomOf(seed);
        this.noise = noise;
        this.places = alignment(this.random);
        /** the part of places that have no coordinate: none in half of the files */
        this.silent = Math.max(0, this.random() - 0.5);
        /** @type {string[]} */
        this.branches = [];
    }

    /** @param {Place} place @returns {string} */
    coordinate(place) {
        if (this.random() < this.silent) {
            return "";
        }
        const [east, north] = [600000 + place.east, 5600000 + place.north].map((it) => it
            + (this.random() * 2 - 1) * this.noise);
        return `<geoCoord coord="${east.toFixed(3)} ${north.toFixed(3)}"/>`;
    }

    /** @param {string} name @param {string} id @param {number} pos @param {Place} place @param {string} inner */
    spot(name, id, pos, place, inner) {
        return `<${name} id="${id}" pos="${pos}" absPos="${pos}">${this.coordinate(place)}${inner}</${name}>`;
    }

    /** @param {number} number @param {number} at @returns {string} a switch at a place of the track, and its branch as a
     * track */
    switch(number, at) {
        const { random, places } = this, length = 80 + Math.floor(220 * random()), isOut = at + length < LENGTH
            && (at < length || random() < 0.5);
        const isLeft = random() < 0.5, way = isOut ? 1 : -1, aside = isLeft === isOut ? 1 : -1;
        const place = (/** @type {number} */ far) =>
            beside(places[at + way * far], aside * Math.min(4.5 + 10 * (random() < 0.3 ? 1 : 0), far ** 2 / 600));
        const end = this.spot(isOut ? "trackEnd" : "trackBegin", `e${number}`, isOut ? length : 0, place(length), "<openEnd/>");
        const joined = this.spot(isOut ? "trackBegin" : "trackEnd", `j${number}`, isOut ? 0 : length, places[at],
            `<connection id="d${number}" ref="c${number}"/>`);
        this.branches.push(`<track id="b${number}"><trackTopology>${isOut ? joined + end : end + joined}</trackTopology></track>`);
        return this.spot("switch", `w${number}`, at, places[at], `<connection id="c${number}" ref="d${number}" `
            + `orientation="${isOut ? "outgoing" : "incoming"}" course="${isLeft ? "left" : "right"}"/>`);
    }

    /** @returns {string} */
    text() {
        const { random, places } = this, count = 3 + Math.floor(6 * random());
        const switches = Array.from({ length: count }, (_, number) => this.switch(number, 150 + Math.floor(((number
            + random()) * 1200) / count)));
        const sections = Array.from({ length: Math.floor(5 * random()) }, (_, number) => Math.floor(1
            + (LENGTH - 2) * random())).sort((one, other) =>
            one - other).map((at, number) => this.spot("crossSection", `s${number}`, at, places[at], ""));
        return `<infrastructure><tracks><track id="m"><trackTopology>${this.spot("trackBegin", "mb", 0, places[0], "<openEnd/>")}`
            + `${this.spot("trackEnd", "me", LENGTH, places[LENGTH], "<openEnd/>")}<connections>${switches.join("")}</connections>`
            + `<crossSections>${sections.join("")}</crossSections></trackTopology></track>${this.branches.join("")}</tracks></infrastructure>`;
    }
}

/** @param {Uint8Array} data @param {Count} count counts the hands and the votes of a file whose hands are true */
function add(data, count) {
    const document = read(data), hands = handsByCoordinates(document), { good, doubts } = votesOf(document);
    count.hands += hands.size;
    count.falseHands += [...hands].filter(([it, hand]) => givenHand(it) !== hand).length;
    count.votes += Number([...good, ...doubts].some((it) => it.startsWith("by coordinates")));
    count.falseVotes += Number(doubts.some((it) => it.startsWith("by coordinates")));
}

/**
 * Random tracks with true hands.
 * @param {number} tracks @param {number} noise in metres
 * @returns {Count}
 */
export function ofCurves(tracks, noise) {
    const count = { hands: 0, falseHands: 0, votes: 0, falseVotes: 0 };
    for (let seed = 1; seed <= tracks; seed++) {
        add(new TextEncoder().encode(new File(seed, noise).text()), count);
    }
    return count;
}

/** @returns {Count} the files of cases/real whose hands and coordinates are true */
export function ofCases() {
    const count = { hands: 0, falseHands: 0, votes: 0, falseVotes: 0 };
    const true_ = [...kinds(), ...habits()].filter((it) => !/along|mirrored|unknown|no-course/.test(it.name));
    true_.forEach((it) => add(it.data, count));
    return count;
}

/** @param {string} what @param {Count} count */
function show(what, { hands, falseHands, votes, falseVotes }) {
    console.log(`${what}: ${hands} hands are said, ${falseHands} of them falsely; ${votes} files have a vote, ${falseVotes} a false one`);
}

if (import.meta.url === pathToFileURL(argv[1] ?? "").href) {
    const [, , tracks = "1000", noise = "0"] = argv, curves = ofCurves(Number(tracks), Number(noise)), cases = ofCases();
    show(`${tracks} random tracks, coordinates ${noise} m off`, curves);
    show("the files of cases/real", cases);
    process.exitCode = curves.falseVotes + cases.falseVotes ? 1 : 0;
}
