/** What a page knows of a station comes from the program's graph and, by the program's path, from the file. */
import assert from "node:assert/strict";
import { test } from "node:test";
import { read } from "../both/infrastructure.js";
import { readGraph, readSignals } from "../both/page/texts.js";
import { pageOf, sample, stationOf, stored } from "./pages/runs.js";

const EXAMPLE = stored("examples/station.xml");
const FORMER = `<former><trackTopology><trackBegin id="A1"><bufferStop id="x"/></trackBegin><connections><switch id="W3" name="wrong"
trackContinueCourse="right"><connection id="q" ref="r" course="right" orientation="outgoing"/></switch></connections>
</trackTopology>
<ocsElements><signals><signal id="S" pos="1" dir="up"/></signals></ocsElements></former>`;
const SCISSORS_GRAPH = `railgraph 1
nodes 9
node 0 pb end 0.000000
node 1 pe end 300.000000
node 2 a1 switch east upper 100.000000
node 3 b1 switch west upper 130.000000
node 4 qb end 0.000000
node 5 qe end 300.000000
node 6 a2 switch east lower 100.000000
node 7 b2 switch west lower 130.000000
node 8 k crossing 115.000000
edges 10
edge 0 p 0 2
edge 1 p 2 3
edge 2 p 3 1
edge 3 q 4 6
edge 4 q 6 7
edge 5 q 7 5
edge 6 x 2 8
edge 7 x 8 7
edge 8 cb1 8 3
edge 9 ca2 6 8
${["4 9", "4 6", "4 7", "4 8", "7 8", "8 1", "9 1", "9 6", "6 1", "7 1"].map((it) => `above ${it}\n`).join("")}`;

const example = (extra = "", labels = "name") =>
    stationOf(EXAMPLE.replace("</track>", `${extra}</track>`), stored("examples/station.graph"), labels);

test("skipped elements say nothing", () => {
    const [plain, former] = [example(), example(FORMER)];
    for (const station of [plain, former]) {
        assert.deepEqual([0, 1, 2, 3, 4, 5, 6, 7].map((it) => station.kind(it)),
            ["open end", "open end", "switch", "open end", "open end", "switch", "switch", "switch"]);
        assert.deepEqual([station.name("W3"), station.signal("S")], ["", null]);
    }
    assert.deepEqual(plain.legs(6), former.legs(6));
});

test("names have no prefix", () => {
    const xml = EXAMPLE.replace("<openEnd id=\"A1.open\"/>", "<x:bufferStop id=\"A1.open\"/>");
    assert.notEqual(xml, EXAMPLE);
    assert.equal(stationOf(xml).file.ends.get("A1"), undefined);
});

test("characters that no reader of XML takes", () => {
    const xml = stored("examples/one.xml").replace("<track ", "<track name=\"a\ufffe&#xFFFF;\x01\" ");
    const found = read(new TextEncoder().encode(xml));
    assert.deepEqual([found.trouble, [...found.names.values()][0]], ["", "a\ufffe\uffff\x01"]);
});

test("a file that is no XML says why", () => {
    assert.match(read(new TextEncoder().encode("<railml>\n<<")).trouble, /line 2/);
    assert.equal(read(Uint8Array.of(255)).trouble, "the file isn't UTF-8");
});

test("legs of the example", () => {
    const station = example();
    const found = [2, 5, 6, 7].map((it) => [station.graph?.nodes[it].name, ...Object.values(station.legs(it) ?? {})]);
    assert.deepEqual(found, [["W1", 0, 1, 7], ["W2", 3, 2, 7], ["W3", 3, 4, 6], ["W4", 5, 4, 6]]);
});

test("ways through a crossing and a switch", () => {
    const station = stationOf(stored("cases/stations/scissors.xml"), SCISSORS_GRAPH);
    const ways = (/** @type {number} */ it) => station.ways(it).map(({ one, other, position }) => [one, other, position]);
    assert.deepEqual([8, 2, 0].map(ways), [[[6, 7, ""], [9, 8, ""]], [[0, 1, "straight"], [0, 6, "diverging"]], []]);
});

test("the upper side is that of the graph", () => {
    const graph = stored("examples/station.graph").replace("W3 switch east upper", "W3 switch east lower");
    const legs = stationOf(EXAMPLE, graph).legs(6);
    assert.deepEqual([legs?.straight, legs?.diverging], [6, 4]);
});

test("directions and kilometres of signals", () => {
    const run = sample("signals");
    const station = run.station();
    const { signals } = readSignals(run.record.output);
    assert.deepEqual(Object.fromEntries(signals.map((it) => [it.name, station.headsEast(it)])),
        { A: true, N1: true, P1: false, F: false, Ls1: null, N2: true, P2: false });
    assert.deepEqual(Object.fromEntries(signals.map((it) => [it.name, String(station.signalMileage(it.name))])),
        { A: "40", N1: "450", P1: "150", F: "560", Ls1: "300", N2: "440", P2: "160" });
});

test("a track that runs west turns its signals", () => {
    const xml = stored("signals.xml");
    const turned = xml.replace('pos="0" absPos="0"', 'pos="0" absPos="600"').replace('pos="600" absPos="600"',
        'pos="600" absPos="0"');
    assert.notEqual(xml, turned);
    const station = stationOf(turned);
    station.graph = readGraph("railgraph 1\nnodes 2\nnode 0 mb end 600.000000\nnode 1 me end 0.000000\nedges 1\nedge 0 m 1 0\n");
    assert.equal(station.headsEast({ number: 0, name: "A", edge: 0, point: [1, 0] }), false);
    assert.equal(station.headsEast({ number: 0, name: "F", edge: 0, point: [1, 0] }), true);
});

test("signals before the topology", () => {
    const xml = stored("signals.xml");
    const [signals] = /<ocsElements>[^]*?<\/ocsElements>/.exec(xml) ?? [""];
    const moved = xml.replace(signals, "").replace("<trackTopology>", `${signals}<trackTopology>`);
    assert.notEqual(moved, xml);
    assert.equal(String(stationOf(moved).signalMileage("N1")), "450");
});

test("names first, and ids where they are asked for", () => {
    assert.deepEqual(["name", "id"].map((it) => example("", it).label("track3")), ["loop", "track3"]);
    assert.deepEqual(["name", "id"].map((it) => example("", it).both("track3")), ["loop (track3)", "track3 (loop)"]);
    assert.equal(example().label("W1"), "W1");
});

test("a name that two have is no label", () => {
    for (const [kind, one, other] of [["track", "track1", "track2"], ["switch", "W1", "W2"]]) {
        const named = [one, other].reduce((xml, id) =>
            xml.replace(new RegExp(`<${kind} ([^>]*?)id="${id}"( name="[^"]*")?`), `<${kind} $1id="${id}" name="same"`),
                EXAMPLE);
        assert.equal(named.split('name="same"').length, 3);
        const station = stationOf(named, stored("examples/station.graph"));
        assert.deepEqual([station.label(one), station.label(other), station.both(one)], [one, other, `${one} (same)`]);
        const changed = named.replace('name="same"', 'name="other"');
        assert.equal(stationOf(changed).label(one), "other");
    }
});

test("main tracks", () => {
    const station = stationOf(EXAMPLE.replace('id="track1"', 'id="track1" type="mainTrack"'));
    assert.deepEqual(["track1", "track2", null].map((it) => station.isMain(it)), [true, false, false]);
});

test("graphs of samples are read", () => {
    assert.equal(readGraph(stored("loop.graph")).nodes.length, 4);
    assert.ok(pageOf(["draw", "loop.xml"], stored("lawful.sheet")).objects);
});

test("a name that two signals have is no label", () => {
    const xml = ["N1", "N2"].reduce((text, id) => text.replace(`id="${id}"`, `id="${id}" name="N"`), stored("signals.xml"));
    const station = stationOf(xml, stored("signals.graph"));
    assert.deepEqual(["N1", "N2", "A"].map((it) => station.label(it, true)), ["N1", "N2", "home signal"]);
});
