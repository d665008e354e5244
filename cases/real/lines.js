/** Kinds of files of whole lines and networks, as producers of railML 2 write them, each with what is so on the ground. */
import { Ground, Switch } from "./ground.js";
import { written } from "./writer.js";
import { written3 } from "./writer3.js";

/** @typedef {import("./ground.js").Track} Track */
/** @typedef {import("./ground.js").Side} Side */
/** @typedef {import("./ground.js").Way} Way */
/** @typedef {object} Line a file, and what is so on the ground
 * @property {string} name
 * @property {string} about
 * @property {Uint8Array} data
 * @property {number} tracks
 * @property {Map<string, {legs: Way, side: Side}>} switches of each where its legs lead, and on which side its branch lies
 * @property {number} stations how many there are
 * @property {number} undrawn so many of their files have no drawing on a grid of 40 by 8, as they have more tracks or points in a row
 * @property {boolean} mayLackSides whether the file itself counts a track so that a side is open */

const LATERAL = 4.5, STATION = 1400;

/**
 * One station at the main tracks: crossovers where there are two, a loop outside of each, and a stub at the last one.
 * @param {Ground} ground @param {Track[]} mains from the upper to the lower @param {number} at where it begins @param {number} number
 */
function addStation(ground, mains, at, number) {
    const upper = mains[0], lower = mains[mains.length - 1];
    if (mains.length > 1) {
        ground.crossover(upper, at + 50, lower, at + 130);
        ground.crossover(lower, at + STATION - 130, upper, at + STATION - 50);
    }
    const loop = ground.track(`${number}u`, 0, 0, upper.lateral + LATERAL);
    ground.switch(upper, at + 200, loop, "east", `${number}W1`);
    ground.switch(upper, at + STATION - 200, loop, "west", `${number}W2`);
    if (number % 2 || mains.length > 1) {
        const other = ground.track(`${number}l`, 0, 0, lower.lateral - LATERAL);
        ground.switch(lower, at + 250, other, "east", `${number}W3`);
        ground.switch(lower, at + STATION - 250, other, "west", `${number}W4`);
        const stub = ground.track(`${number}s`, 0, at + 900, other.lateral - LATERAL, { east: "bufferStop" });
        ground.switch(other, at + 500, stub, "east", `${number}W5`);
    }
}

/** @typedef {{mains: number, stations: number, gap?: number, isParted?: boolean, hasPoints?: boolean}} Shape how many main tracks and
 * stations, how far these lie apart; whether the main tracks are parted at the borders of stations; whether there are operational points */

/** @param {Shape} shape @returns {Ground} */
export function lineOf({ mains, stations, gap = 5000, isParted = false, hasPoints = true }) {
    const ground = new Ground("Strecke"), length = stations * gap + 2000;
    const borders = isParted ? Array.from({ length: stations }, (_, at) => [at * gap + 1500, at * gap + 1500 + STATION]).flat() : [];
    const bounds = [0, ...borders, length];
    const rows = Array.from({ length: mains }, (_, row) => {
        const parts = bounds.slice(1).map((to, at) => ground.track(`${row + 1}.${at}`, bounds[at], to, -LATERAL * row));
        parts.slice(1).forEach((it, at) => ground.joint(parts[at], it));
        return parts;
    });
    for (let number = 0; number < stations; number++) {
        const at = number * gap + 1500, here = rows.map((parts) => /** @type {Track} */ (parts.find((it) => it.from <= at && at < it.to)));
        addStation(ground, here, at, number);
        if (hasPoints) {
            ground.operationalPoint(`ocp_${number}`, `Ort ${number}`, at + STATION / 2, `O${number}`, here);
        }
    }
    return ground;
}

/** @param {Ground} ground @returns {Switch[]} */
function switchesOf(ground) {
    return ground.tracks.flatMap((track) => track.points).flatMap((it) => (it instanceof Switch ? [it] : []));
}

/** @typedef {Partial<import("./writer.js").Style>} Style */
/** @typedef {{undrawn?: number, mayLackSides?: boolean}} More */

/**
 * @param {string} name @param {string} about @param {Ground} ground @param {number} stations @param {Style} [style] @param {More} [more]
 * @returns {Line}
 */
function line(name, about, ground, stations, style = {}, more = {}) {
    return { name, about, data: written(ground, style), tracks: ground.tracks.length, stations, undrawn: more.undrawn ?? 0,
        mayLackSides: more.mayLackSides ?? false,
        switches: new Map(switchesOf(ground).map(({ id, legs, side }) => [id, { legs, side }])) };
}

/** @param {Ground} ground @param {"end" | "begin"} where @returns {Ground} */
function cut(ground, where) {
    ground.cutAtSwitches(where);
    return ground;
}

/** @returns {Ground} a double line whose second track is counted against the mileage */
function secondTurned() {
    const ground = lineOf({ mains: 2, stations: 15 });
    ground.tracks.filter((it) => it.name.startsWith("2.")).forEach((it) => { it.isTurned = true; });
    return ground;
}

/** @returns {Ground} a double line, and a branch with a mileage of its own, from a switch of its third station */
function network() {
    const ground = lineOf({ mains: 2, stations: 12 }), [upper] = ground.tracks, from = 2 * 5000 + 1500 + STATION + 400;
    const branch = ground.track("Ast", 0, from + 25000, 3 * LATERAL);
    ground.switch(upper, from, branch, "east", "WAst");
    for (let number = 20; number < 24; number++) {
        const at = from + 2000 + (number - 20) * 5000;
        addStation(ground, [branch], at, number);
        ground.operationalPoint(`ocp_${number}`, `Ast ${number}`, at + STATION / 2, `A${number}`, [branch]);
    }
    const ofBranch = new Set([branch.id, ...ground.tracks.filter((it) => /^2[0-3][uls]$/.test(it.name)).map((it) => it.id)]);
    ground.mileage = (track, at) => (ofBranch.has(track.id) ? at - from + 50000 : at);
    return ground;
}

/** @returns {Ground} tracks between operational points, without switches, whose ends name them */
function macroscopic() {
    const ground = new Ground("Grob");
    for (let number = 0; number < 19; number++) {
        const [west, east] = [number, number + 1].map((it) => ({ text: `<macroscopicNode id="{id}n" ocpRef="ocp_${it}"/>` }));
        ground.track(`${number}-${number + 1}`, number * 5000, (number + 1) * 5000, 0, { west, east });
    }
    for (let number = 0; number < 20; number++) {
        ground.operationalPoints.push({ id: `ocp_${number}`, name: `Ort ${number}`, at: number * 5000, code: `O${number}` });
    }
    return ground;
}

/** @returns {Ground} one station: 36 tracks side by side with ladders at both ends, then 42 loops along its first track: 154 switches */
function large() {
    const ground = new Ground("Rangierbahnhof"), first = ground.track("1", 0, 40000, 0);
    let before = first;
    for (let number = 2; number <= 36; number++) {
        const next = ground.track(String(number), 0, 0, -LATERAL * (number - 1));
        ground.switch(before, 500 + 30 * number, next, "east");
        ground.switch(before, 5000 - 30 * number, next, "west");
        before = next;
    }
    for (let number = 0; number < 42; number++) {
        const loop = ground.track(`${number}o`, 0, 0, number % 2 ? LATERAL : -LATERAL);
        ground.switch(first, 6000 + 800 * number, loop, "east");
        ground.switch(first, 6500 + 800 * number, loop, "west");
    }
    ground.operationalPoint("ocp_1", "Rangierbahnhof", 6000, "RB", [first]);
    switchesOf(ground).forEach((it) => { it.attributes = { ocpStationRef: "ocp_1" }; });
    return ground;
}

/** @returns {Line} a line as railML 3, its tracks cut at each switch, every second one counted against the mileage */
function railml3() {
    const ground = lineOf({ mains: 2, stations: 12 }), data = written3(ground);
    return { ...line("railml3", "two tracks, 12 stations, as railML 3", ground, 12), data };
}

/** @returns {Line[]} all kinds, in the order of their numbers */
export function lines() {
    return [
        line("single", "one track, 12 stations", lineOf({ mains: 1, stations: 12 }), 12),
        line("double", "two tracks, 20 stations", lineOf({ mains: 2, stations: 20 }), 20),
        line("double-parted", "two tracks, 60 stations, parted at borders, geoCoord",
            lineOf({ mains: 2, stations: 60, isParted: true }), 60, { coordinates: { first: "latitude", radius: 40000 } }),
        line("double-edges-end", "two tracks, 30 stations, a switch at its trunk's end", cut(lineOf({ mains: 2, stations: 30 }), "end"), 30),
        line("double-turned", "two tracks, 15 stations, the second track counted against", secondTurned(), 15),
        line("no-points", "one track, 10 stations, no operational point", lineOf({ mains: 1, stations: 10, hasPoints: false }), 10),
        line("suburban", "two tracks, 25 stations 2 km apart", lineOf({ mains: 2, stations: 25, gap: 2000 }), 25),
        line("begins", "one track, 40 stations, absPos at begins alone", lineOf({ mains: 1, stations: 40 }), 40, { mileages: "begins" }),
        line("open-begins", "two tracks, 18 stations, absPos at open begins alone", lineOf({ mains: 2, stations: 18 }), 18,
            { mileages: "open begins" }),
        line("network", "two tracks, and a branch with a mileage of its own", network(), 16, {}, { mayLackSides: true }),
        line("macroscopic", "19 tracks between 20 operational points, no switch", macroscopic(), 0),
        line("large-station", "one station of 154 switches", large(), 2, {}, { undrawn: 2 }),
        line("double-edges-begin", "two tracks, 60 stations, a switch at its leg's begin", cut(lineOf({ mains: 2, stations: 60 }), "begin"), 60),
        railml3(),
    ];
}
