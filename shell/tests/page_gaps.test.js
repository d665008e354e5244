/** A sign between two tracks of which nothing says which lies above. */
import assert from "node:assert/strict";
import { test } from "node:test";
import { nothing } from "../both/infrastructure.js";
import { dxf } from "../both/page/cad.js";
import { Scene, draw } from "../both/page/drawing.js";
import { gapsOf } from "../both/page/gaps.js";
import { MEANINGS, sample } from "../both/page/signs.js";
import { Station } from "../both/page/station.js";
import { readGraph, readSheet } from "../both/page/texts.js";

/** @typedef {import("../both/page/texts.js").Drawing} Drawing */

/** the program's graph of a track with two stubs, one from each end, beside each other, and its drawing of it */
const GRAPH = `railgraph 1
nodes 6
node 0 mb end 0.000000
node 1 me end 1000.000000
node 2 w switch east upper 300.000000
node 3 v switch west upper 800.000000
node 4 ae end 700.000000
node 5 bb end 500.000000
edges 5
edge 0 m 0 2
edge 1 m 2 3
edge 2 m 3 1
edge 3 a 2 4
edge 4 b 5 3
above 3 1
above 4 1
`;
const SHEET = `railplan 2
grid 10 4 1
order height bends diagonal width
nodes 6
node 0 mb 0 0 0.000000
node 1 me 6 0 1000.000000
node 2 w 1 0 300.000000
node 3 v 5 0 800.000000
node 4 ae 4 2 700.000000
node 5 bb 3 1 500.000000
edges 5
edge 0 m 0 2 0 0 1 0
edge 1 m 2 3 1 0 5 0
edge 2 m 3 1 5 0 6 0
edge 3 a 2 4 1 0 3 2 4 2
edge 4 b 5 3 3 1 4 1 5 0
values 2 2 3 6
end best
`;

/** @param {string} graph */
function made(graph) {
    const { drawing } = readSheet(SHEET), station = new Station(readGraph(graph), nothing());
    return { drawing: /** @type {Drawing} */ (drawing), station };
}

test("a gap is there where nothing says which of two tracks lies above, and not where it is said", () => {
    const { drawing, station } = made(GRAPH);
    assert.deepEqual(gapsOf(drawing, station), [{ edges: [3, 4], at: [[3.5, 1.5]] }]);
    const said = made(`${GRAPH}above 3 4\n`);
    assert.deepEqual(gapsOf(said.drawing, said.station), []);
    assert.deepEqual(gapsOf(drawing, new Station(null, nothing())), []);
});

test("a gap has a sign between its tracks that says so, and a meaning in the legend", () => {
    const { drawing, station } = made(GRAPH), signs = (/** @type {Station} */ of) => draw(new Scene(drawing, of)).strips.map(String).join("");
    const all = signs(station);
    assert.equal(all.match(/class="sign gap"/g)?.length, 1);
    assert.match(all, /<title>nothing says whether b lies above or below a<\/title>/);
    assert.doesNotMatch(signs(made(`${GRAPH}above 3 4\n`).station), /sign gap/);
    assert.match(MEANINGS.get("gap") ?? "", /^nothing says which/);
    assert.match(String(sample("gap", false)), /class="question"/);
});

test("a CAD drawing has the sign of a gap too, between its tracks, on a layer of its own", () => {
    /** @param {string} graph @returns {string[]} the texts of the layer, each with its place */
    const found = (graph) => {
        const { drawing, station } = made(graph), scene = new Scene(drawing, station);
        return [...dxf(scene, draw(scene)).matchAll(/0\r\nTEXT\r\n8\r\nGAP\r\n[^]*?\r\n1\r\n(.*)\r\n72\r\n1\r\n11\r\n(.*)\r\n21\r\n(.*)\r\n/g)]
            .map(([, text, x, y]) => `${text} ${Number(x) > 0} ${Number(y) > 0}`);
    };
    assert.deepEqual([found(GRAPH), found(`${GRAPH}above 3 4\n`)], [["? true true"], []]);
});

test("no gap is seen between tracks that have another between them", () => {
    const { drawing, station } = made(`${GRAPH}`), between = { ...drawing.edges[1], number: 5, points: [[3, 1.5], [4, 1.5]] };
    const more = /** @type {Drawing} */ (/** @type {unknown} */ ({ ...drawing, edges: [...drawing.edges, between] }));
    const graph = readGraph(GRAPH.replace("edges 5", "edges 6").replace("above 3 1", "edge 5 m 2 3\nabove 3 1"));
    assert.deepEqual(gapsOf(more, new Station(graph, nothing())).filter(({ edges }) => edges.join() === "3,4"), []);
    assert.equal(station.graph?.edges.length, drawing.edges.length);
});
