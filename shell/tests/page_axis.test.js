/** The axis of kilometres: each tick is true of all that is in its column, and east is where it is said to be. */
import assert from "node:assert/strict";
import { test } from "node:test";
import { Scene, crowded } from "../both/page/drawing.js";
import { make } from "../both/page/kinds.js";
import { readSignals } from "../both/page/texts.js";
import { crossoversOf, crowdedSignals, crowdedStations, sheetOf } from "./pages/crowded.js";
import { Drawn, picturesOf } from "./pages/drawn.js";
import { madeSheets, sample, stationOf } from "./pages/runs.js";

const STATIONS = 500;

/** @type {(metres: number) => string} */
const written = (metres) => `${Math.floor(metres / 1000)}.${String(metres % 1000).padStart(3, "0")}`;

/** @type {(seed: number) => (below: number) => number} whole numbers by chance, but always the same ones */
function chance(seed) {
    let state = seed + 1;
    return (below) => {
        state = Number(BigInt(state) * 48271n % 0x7fffffffn);
        return state % below;
    };
}

/** @type {[string, string][]} */
const STORED = [...madeSheets(), ...crowdedStations(), ...crowdedSignals()]
    .filter(([, sheet]) => sheet.startsWith("railplan 2"));

/** @param {number} seed @returns {string} a stored sheet, or one of parallel tracks with crossovers by chance */
function sheetAt(seed) {
    if (seed < STORED.length) return STORED[seed][1];
    const [rows, columns] = [2 + seed % 4, 5 + seed % 9];
    return sheetOf(rows, columns, crossoversOf(seed, rows, columns), (it) => `W${it}`, (it) => `t${it}`);
}

/**
 * The scene of a sheet, with signals by chance behind those that it has; of some the file has no mileage.
 * @param {string} sheet
 * @param {number} seed
 * @returns {{scene: Scene, metres: Map<string, number | null>}} the mileages by the keys of nodes and signals
 */
function sceneOf(sheet, seed) {
    const some = chance(seed);
    const { sheet: { drawing }, signals } = readSignals(sheet);
    assert.ok(drawing);
    for (const edge of seed % 5 ? drawing.edges : []) {
        const [[first, row], [last]] = [edge.points[0], edge.points[edge.points.length - 1]];
        const count = Math.min(some(3), last - first - 1);
        for (let at = 1; at <= count; at += 1) {
            const number = signals.length;
            signals.push({ number, name: `S${number}`, edge: edge.number, point: [first + at, row] });
        }
    }
    const mileage = (/** @type {number} */ number) => Number(drawing.nodes[number].mileage);
    const metres = new Map(drawing.nodes.map((it) => [`n${it.number}`, /** @type {number | null} */ (mileage(it.number))]));
    const listed = signals.map(({ number, name, edge }) => {
        const [from, to] = [drawing.edges[edge].west, drawing.edges[edge].east].map(mileage);
        const at = some(7) ? from + some(Math.max(1, to - from)) : null;
        metres.set(`s${number}`, at);
        return `<signal id="${name}"${at === null ? "" : ` absPos="${at}"`}/>`;
    });
    const station = stationOf(`<railml version="2.4"><infrastructure id="i"><tracks><track id="t"><trackTopology>`
        + `<trackBegin id="b"/><trackEnd id="e"/></trackTopology><ocsElements><signals>${listed.join("")}</signals>`
        + `</ocsElements></track></tracks></infrastructure></railml>`);
    return { scene: new Scene(drawing, station, { signals, paper: "A1" }), metres };
}

/** @param {Drawn} strip @returns {{x: number, km: string}[]} the ticks of a strip with what is written at each */
function ticksIn(strip) {
    const texts = strip.texts.filter(({ classes }) => classes.includes("km"));
    const ticks = strip.lines.filter(({ kind }) => kind === "tick").map(({ piece: [[x]] }) => x);
    assert.equal(texts.length, ticks.length);
    const kmAt = (/** @type {number} */ x) => texts.filter(({ box }) => Math.abs((box[0] + box[2]) / 2 - x) < 2);
    return ticks.map((x) => ({ x, km: kmAt(x).map(({ text }) => text).join(" ") }));
}

/**
 * Ticks that aren't true of what is over them, that don't rise, or that lack.
 * @param {Drawn[]} strips
 * @param {Map<string, number | null>} metres
 * @returns {string[]}
 */
function faultsOfAxis(strips, metres) {
    const all = strips.flatMap(ticksIn).map(({ km }) => Number(km));
    return [...all.every((it, at) => !at || all[at - 1] <= it) ? [] : ["ticks don't rise"], ...strips.flatMap((strip) => {
        const ticks = ticksIn(strip);
        const places = [...strip.places].flatMap(([key, spots]) => spots.map(([x]) =>
            ({ key, x, km: known(metres.get(key)) })));
        const over = (/** @type {number} */ x) => places.filter((it) => Math.abs(it.x - x) < 1);
        const lacking = places.filter(({ key, x, km }) => key.startsWith("n") && over(x).every((it) => it.km === km)
            && !ticks.some((it) => it.km === km));
        return [...ticks.filter(({ x }) => !over(x).length).map(({ km }) => `nothing is over ${km}`),
            ...ticks.flatMap(({ x, km }) => over(x).filter((it) => it.km !== km).map(({ key }) => `${key} is over ${km}`)),
            ...lacking.map(({ key }) => `${key} lacks its tick`)];
    })];
}

/** @type {(metres: number | null | undefined) => string} */
const known = (metres) => metres === null || metres === undefined ? "" : written(metres);

test(`each tick is true of all nodes and signals over it, on ${STATIONS} stations`, () => {
    let [ofSignals, without] = [0, 0];
    for (let seed = 0; seed < STATIONS; seed += 1) {
        const { scene, metres } = sceneOf(sheetAt(seed), seed);
        const [picture] = crowded([scene]);
        assert.deepEqual(faultsOfAxis(picture.strips.map((it) => new Drawn(it)), metres), [], `station ${seed}`);
        const ofNodes = new Set(scene.drawing.nodes.map((it) => it.point[0]));
        ofSignals += [...scene.ticks.keys()].filter((it) => !ofNodes.has(it)).length;
        without += [...ofNodes].filter((it) => !scene.ticks.has(it)).length;
    }
    assert.ok(ofSignals > 100 && without > 100, `${ofSignals} ticks of signals alone, ${without} columns of nodes without one`);
});

test("a signal over a node of another kilometre takes its tick, and one with a column of its own has one", () => {
    const { scene } = sceneOf(["railplan 2", "grid 9 1 1", "order height bends diagonal width", "nodes 4",
        "node 0 a 0 0 0.000000", "node 1 b 6 0 600.000000", "node 2 c 2 1 200.000000", "node 3 d 5 1 500.000000", "edges 2",
        "edge 0 t 0 1 0 0 6 0", "edge 1 u 2 3 2 1 5 1", "values 1 0 0 6", "end best", "signals 0", ""].join("\n"), 0);
    const at = new Map([["S", "150"], ["T", "450"], ["U", "555.5"]]);
    scene.station.signalMileage = (id) => /** @type {never} */ ({ toString: () => at.get(id) });
    scene.signals.push(...[["S", 1], ["T", 2], ["U", 4]].map(([name, column], number) =>
        ({ number, name: String(name), edge: 0, point: /** @type {[number, number]} */ ([Number(column), 0]) })));
    assert.deepEqual([...scene.ticks], [[0, "0.000"], [1, "0.150"], [5, "0.500"], [6, "0.600"]]);
});

test("east is only where it is said to be", () => {
    const said = (/** @type {string} */ east) => {
        const settings = { paper: "A3", labels: "name", side: "right", east };
        const words = picturesOf(make(sample("signals", { settings })))[0].flatMap((it) => it.texts)
            .filter(({ text, classes }) => classes.includes("compass") && text !== "km");
        return words.sort((one, other) => one.box[0] - other.box[0]).map(({ text }) => text);
    };
    assert.deepEqual(said(""), ["km rising ▸"]);
    for (const east of ["rising", "right"]) assert.deepEqual(said(east), ["◂ West", "East ▸"], east);
    for (const east of ["falling", "left"]) assert.deepEqual(said(east), ["◂ East", "West ▸"], east);
});
