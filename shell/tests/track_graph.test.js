/** The track graph that explains: its edges and orders are those of the program. */
import assert from "node:assert/strict";
import { spawnSync } from "node:child_process";
import { readdirSync, readFileSync } from "node:fs";
import { test } from "node:test";
import { read } from "../both/railml.js";
import { TrackGraph } from "../both/track_graph.js";
import { hasProgram, printed, PROGRAM, TOP } from "./clone.js";

/** @param {Uint8Array} data @param {string} name @returns {boolean} holds a file's graph to the program's, where it has one */
function hold(data, name) {
    const fields = printed(data).map((it) => it.split(" "));
    if (fields[0]?.join(" ") !== "railgraph 1") {
        return false;
    }
    const nodes = fields.filter((it) => it[0] === "node"), edges = fields.filter((it) => it[0] === "edge");
    const graph = new TrackGraph(read(data));
    assert.deepEqual(graph.edges.map((it) => [it.name, it.west.id, it.east.id]),
        edges.map((it) => [it[2], nodes[Number(it[3])][2], nodes[Number(it[4])][2]]), name);
    const spans = edges.map((it) => [it[3], it[4]].map((at) => Number(nodes[Number(at)].at(-1))));
    const found = spans.flatMap(([west, east], one) => spans.flatMap(([begun, ended], other) =>
        one !== other && Math.max(west, begun) < Math.min(east, ended) && graph.origins(one, other).length
            ? [`${one} ${other}`] : []));
    assert.deepEqual(found.sort(), fields.filter((it) => it[0] === "above").map((it) => it.slice(1).join(" ")).sort(), name);
    return true;
}

test("stations of the cases", { skip: !hasProgram }, () => {
    const names = ["cases/stations", "examples"].flatMap((folder) => readdirSync(TOP
        + folder).map((name) => `${folder}/${name}`));
    const held = names.filter((name) => name.endsWith(".xml")).map((name) => hold(readFileSync(TOP + name), name));
    assert.ok(held.filter(Boolean).length > 20);
});

test("made stations", { skip: !hasProgram }, () => {
    for (let number = 0; number < 40000; number += 4001) {
        assert.ok(hold(spawnSync(PROGRAM, ["make", String(number)]).stdout, String(number)));
    }
});
