/**
 * Many random stations, written as producers write them, with tracks turned or cut and with habits that the program refuses, then
 * mended by `prepare`; each file is held against what is so on the ground:
 *
 *     node shell/tests/many_stations.js PROGRAM [STATIONS [FIRST]]
 *
 * It says what came of them, and ends with 1 where a side changed, a switch is lost, or a point lies elsewhere.
 */
import { argv, exit } from "node:process";
import { Ground } from "../../cases/real/ground.js";
import { judged } from "../../cases/real/judged.js";
import { prefixed } from "../../cases/real/kind.js";
import { WARNINGS, graphOf, saidOfDrawn } from "../../cases/real/said.js";
import { written } from "../../cases/real/writer.js";
import { judge } from "../both/mending/judge.js";
import { mended } from "../both/prepare.js";
import { NativeEngine } from "../terminal/native_engine.js";
import { numbers } from "./random_line.js";

/** @typedef {(below: number) => number} Some a number below another */
/** @typedef {Partial<import("../../cases/real/writer.js").Style>} Style */
/** @typedef {import("../../cases/real/ground.js").Track} Track */

const LATERAL = 4.5;
const [, , program, stations = "10000", first = "1"] = argv;
if (!program) {
    console.error("node shell/tests/many_stations.js PROGRAM [STATIONS [FIRST]]");
    exit(2);
}
const engine = new NativeEngine(program), decoder = new TextDecoder();

/** @type {[string, (kind: string, number: number, hint: string) => string][]} how ids are made */
const IDS = [
    ["short", (kind, number, hint) => `${kind}_${hint || number}`], ["blanks", (kind, number) => `${kind} ${number}`],
    ["long", (kind, number) => `${"x".repeat(70)}${kind}${number}`],
];
/** @type {[string, (text: string) => string][]} what is done to a file's text */
const TEXTS = [
    ["as it is", (text) => text], ["prefix", prefixed], ["commas", (text) => text.replace(/(pos|absPos)="(\d+)\.(\d+)"/g, '$1="$2,$3"')],
    ["refs of tracks", (text) => text.replace(/ref="(tr_\d+)_c[be]"( orientation)/g, 'ref="$1"$2')],
    ["refs of ends", (text) => text.replace(/ref="(tr_\d+)_c([be])"( orientation)/g, 'ref="$1_$2"$3')],
    ["silent ends", (text) => text.replace(/<openEnd [^>]*\/>/g, "")],
    ["offsets", (text) => text.replace(/absPos="(\d+\.\d+)"/g, (_, at) => `absPos="${(Number(at) - 7).toFixed(3)}" absPosOffset="7"`)],
    ["refs outside", (text) => text.replace(/<openEnd id="([^"]*)"\/>/g, '<connection id="$1" ref="line_$1"/>')],
];
/** @type {[string, Style][]} how a file is encoded */
const ENCODED = [
    ["UTF-8", {}], ["nine decimals", { decimals: 9 }], ["a DOCTYPE", { doctype: "<!DOCTYPE railml [<!ELEMENT railml ANY>]>" }],
    ["ISO-8859-1", { head: '<?xml version="1.0" encoding="ISO-8859-1"?>', encoded: (text) => new Uint8Array(Buffer.from(text, "latin1")) }],
    ["UTF-16", { head: '<?xml version="1.0" encoding="UTF-16"?>', encoded: (text) => new Uint8Array(Buffer.from(`\ufeff${text}`, "utf16le")) }],
];
const MILEAGES = /** @type {const} */ (["all", "begins", "begins and ends", "open begins"]);

/**
 * One of a list; the first one half of the time.
 * @template T
 * @param {Some} some @param {readonly T[]} list
 * @returns {T}
 */
function pick(some, list) {
    return some(2) ? list[0] : list[some(list.length)];
}

/**
 * Two crossovers that cross one another: the second one's track is in two parts, which meet at a crossing of the first one's.
 * @param {Ground} ground @param {Track} upper @param {Track} lower @param {number} at
 */
function addScissors(ground, upper, lower, at) {
    const middle = (upper.lateral + lower.lateral) / 2, [falling] = ground.crossover(upper, at, lower, at + 60);
    const [west, east] = [middle - 1, middle + 1].map((lateral) => ground.track("x", at, at + 60, lateral, { type: "connectingTrack" }));
    ground.switch(lower, at, west, "east");
    ground.switch(upper, at + 60, east, "west");
    ground.crossing(/** @type {Track} */ (falling.branch), at + 30, west, east, "", true);
}

/** @param {Some} some @param {(kind: string, number: number, hint: string) => string} idOf @returns {Ground} a random station */
function station(some, idOf) {
    const ground = new Ground("Station", idOf), mains = 1 + some(4), begin = 1000 * (1 + some(30)), length = 2000 + 100 * some(20);
    const tracks = Array.from({ length: mains }, (_, at) =>
        ground.track(String(at + 1), begin, begin + length, -LATERAL * at, { west: some(3) ? "open" : "bufferStop" }));
    let lowest = tracks[mains - 1], at = begin + 50;
    for (let parts = 1 + some(5); parts > 0 && at < begin + length - 500; parts--) {
        const kind = some(5), number = some(Math.max(1, mains - 1)), [one, two] = [tracks[number], tracks[number + 1]];
        if (two && kind < 2) {
            ground.crossover(...(some(2) ? /** @type {const} */ ([one, at, two, at + 60]) : /** @type {const} */ ([two, at, one, at + 60])));
        } else if (two && kind === 2) {
            addScissors(ground, one, two, at);
        } else if (kind === 3) {
            const branch = ground.track("s", at, at + 300, lowest.lateral - LATERAL, { [some(2) ? "east" : "west"]: "bufferStop" });
            ground.switch(tracks[mains - 1], some(2) ? at : at + 300, branch, branch.ends.east === "bufferStop" ? "east" : "west");
            lowest = branch;
        } else {
            const branch = ground.track("l", 0, 0, lowest.lateral - LATERAL);
            ground.switch(tracks[mains - 1], at, branch, "east");
            ground.switch(tracks[mains - 1], at + 300, branch, "west");
            lowest = branch;
        }
        at += 320 + 10 * some(10);
    }
    return ground;
}

/**
 * @param {number} seed
 * @returns {{data: Uint8Array, ground: Ground, how: string, isOpen: boolean, areOffset: boolean}} a station's file, and how it is
 * written; whether it leaves open which way mileages rise, so that east may be west; and whether mileages have offsets
 */
function file(seed) {
    const some = numbers(seed * 2654435761 + 11), [ids, idOf] = pick(some, IDS), ground = station(some, idOf), isCut = !some(3);
    const turned = some(4);
    if (turned === 1) {
        ground.tracks.forEach((it) => { it.isTurned = !some(3); });
    }
    if (isCut) {
        ground.cutAtSwitches(some(2) ? "end" : "begin");
    }
    if (turned === 2) {
        ground.tracks.forEach((it) => { it.isTurned = true; });
    }
    const [text, changed] = pick(some, TEXTS), [encoding, style] = pick(some, ENCODED), mileages = pick(some, MILEAGES);
    return { data: written(ground, { ...style, mileages, changed, goesOn: !some(4) }), ground, areOffset: text === "offsets",
        isOpen: mileages !== "all" && ground.tracks.some((it) => it.isTurned),
        how: [ids, isCut ? "cut" : "whole", `turned ${turned}`, mileages, text, encoding].join(", ") };
}

const counted = { "drawn at once": 0, "drawn by prepare": 0, "lacking something": 0, "refused by the judge": 0, refused: 0,
    "otherwise, and said so": 0 };
/** @type {string[]} */
const wrong = [];

/**
 * Holds what is drawn of a file against the ground; where it isn't so, something has to be said of it.
 * @param {Uint8Array} data @param {string} what @param {() => string[]} differing
 */
async function hold(data, what, differing) {
    const [first] = differing();
    if (first === undefined) {
        return;
    }
    const said = await saidOfDrawn(engine, data);
    if (said.some((it) => WARNINGS.test(it))) {
        counted["otherwise, and said so"]++;
    } else {
        wrong.push(`${what}: ${first}`);
    }
}

/** @param {Uint8Array} data @returns {Promise<string | null>} what graph prints of it, or nothing where it has a fault */
async function graphText(data) {
    const ran = await graphOf(engine, data);
    return ran.status === 0 ? decoder.decode(ran.output) : null;
}

/** @param {number} seed @returns {Promise<keyof typeof counted>} what came of a station's file */
async function tried(seed) {
    const { data, ground, how, isOpen, areOffset } = file(seed), truth = ground.truth(), today = await graphText(data);
    const differing = (/** @type {string} */ text, /** @type {(id: string) => string} */ known, /** @type {boolean} */ canTell) => {
        const found = judged(text, truth, known, isOpen);
        return [...found.wrong, ...found.misordered, ...canTell ? found.elsewhere : []];
    };
    if (today !== null) {
        // the program reads no absPosOffset, which is said
        await hold(data, `${seed} as it is (${how})`, () => differing(today, (id) => id, !isOpen && !areOffset));
    }
    const it = mended("station.xml", data, "railplan");
    if (it.unfit || it.guesses.length) {
        return today === null ? "lacking something" : "drawn at once";
    }
    if ((await judge(engine, it))?.reason) {
        return "refused by the judge";
    }
    const after = await graphText(it.data);
    if (after !== null) {
        await hold(it.data, `${seed} mended (${how})`, () => differing(after, (id) => it.renamed.get(id) ?? id, !isOpen));
    }
    return today !== null ? "drawn at once" : after !== null ? "drawn by prepare" : "refused";
}

for (let seed = Number(first); seed < Number(first) + Number(stations); seed++) {
    counted[await tried(seed)]++;
}
wrong.slice(0, 20).forEach((it) => console.log(it));
console.log(`${stations} stations: ${Object.entries(counted).map(([what, count]) => `${count} ${what}`).join(", ")}; ${wrong.length} wrong`);
process.exitCode = wrong.length ? 1 : 0;
