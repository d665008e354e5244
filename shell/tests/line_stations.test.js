/** Lines cut into stations: nothing is lost, no side changes, and a changed side is seen. */
import assert from "node:assert/strict";
import { test } from "node:test";
import { kinds } from "../../cases/real/kinds.js";
import { differing, elsewhere, forksOfFile } from "../both/line/judged.js";
import { mendedLine } from "../both/line/mended.js";
import { cutLine } from "../both/line/stations.js";
import { mileage, points, read } from "../both/railml.js";
import { Walked } from "../both/surroundings.js";
import { TrackGraph } from "../both/track_graph.js";
import { otherInFile } from "../both/mending/judge.js";
import { randomLine } from "./random_line.js";

const SEEDS = Array.from({ length: 60 }, (_, at) => at + 1);

/** @param {string} text */
const documentOf = (text) => read(new TextEncoder().encode(text));

/**
 * The track graph of a file as the program would give it, as far as sides go.
 * @param {string} text
 */
function graphOf(text) {
    const graph = new TrackGraph(documentOf(text)), places = [...new Set(graph.edges.flatMap((it) => [it.west, it.east]))];
    const above = new Set(graph.forks.map((it) => `${it.upper} ${it.lower}`));
    return /** @type {import("../both/page/texts.js").Graph} */ ({
        nodes: places.map((it, number) => ({ number, name: it.id, kind: it.name, mileage: String(mileage(it)), legs: "", side: "" })),
        edges: graph.edges.map((it, number) => ({ number, track: it.name, west: places.indexOf(it.west), east: places.indexOf(it.east) })),
        above,
    });
}

test("the reading of a whole line has each branch on its side", () => {
    for (const seed of SEEDS) {
        const { text, truth } = randomLine(seed), forks = forksOfFile(documentOf(text));
        for (const [id, { legs, side }] of truth) {
            const [fork] = forks.get(id) ?? [], isBranch = /^[XSL]/.test(fork[side].track);
            assert.deepEqual([fork.way, isBranch], [legs, true], `line ${seed}, ${id}`);
        }
    }
});

test("each switch of a line is in one file, with its legs and sides, and no reference leads out", () => {
    for (const seed of SEEDS) {
        const { text, truth } = randomLine(seed), document = documentOf(text), { files } = cutLine(document, {}),
            whole = forksOfFile(document);
        assert.deepEqual(files.flatMap((it) => it.points).sort(), [...truth.keys()].sort(), `line ${seed}`);
        for (const file of files) {
            assert.equal(differing(whole, file, graphOf(file.text)), undefined, `line ${seed}, ${file.name}`);
            const ids = new Set([...file.text.matchAll(/ id="([^"]*)"/g)].map((it) => it[1]));
            const refs = [...file.text.matchAll(/ ref="([^"]*)"/g)].map((it) => it[1]).filter((it) => !ids.has(it));
            assert.deepEqual(refs, [], `line ${seed}, ${file.name}`);
        }
    }
});

test("a side that was changed is seen, and a leg that leads elsewhere", () => {
    const { text } = randomLine(3), document = documentOf(text), whole = forksOfFile(document), [file] = cutLine(document, {}).files;
    const id = file.points[0], changed = file.text.replace(new RegExp(`(<switch id="${id}".*?course=")(left|right)`), (_, front, hand) =>
        front + (hand === "left" ? "right" : "left"));
    assert.notEqual(changed, file.text);
    assert.equal(differing(whole, file, graphOf(changed)), id);
    assert.notEqual(differing(whole, { ...file, origins: new Map() }, { ...graphOf(file.text), above: new Set() }), undefined);
    const graph = graphOf(file.text), number = graph.nodes.findIndex((it) => it.name === id), [fork] = whole.get(id) ?? [];
    const moved = graph.nodes.map((it) => (it.name === id ? { ...it, mileage: String(Number(it.mileage) + 1) } : it));
    assert.equal(differing(whole, file, { ...graph, nodes: moved }), id);
    const toe = graph.edges.find((it) => (fork.way === "east" ? it.east : it.west) === number);
    assert.equal(differing(whole, file, { ...graph, edges: graph.edges.map((it) => (it === toe ? { ...it, track: "other" } : it)) }), id);
});

test("a signal on another piece of track is seen", () => {
    const text = new TextDecoder().decode(kinds().find((it) => it.name === "numbered-ids-six-decimals")?.data), document = documentOf(text);
    const file = { name: "", title: "", text, points: document.tracks().flatMap(points).map((it) => it.id), origins: new Map(), notes: [] };
    const whole = new Walked(document).signals(), [id] = whole.keys(), pos = new RegExp(`(<signal id="${id}" pos=")[^"]*`);
    assert.equal(elsewhere(whole, file), undefined);
    assert.equal(elsewhere(whole, { ...file, text: text.replace(pos, "$11") }), id);
});

test("a stretch of kilometres, tracks by name, and what is in no file is said", () => {
    const { text, truth } = randomLine(5), document = documentOf(text);
    const part = cutLine(document, { range: { low: 0, high: 12e9 } });
    assert.ok(part.files[0].points.length > 0 && part.files[0].points.length < truth.size);
    assert.match(part.said.join("\n"), new RegExp(
        `1 file with ${part.files[0].points.length} of ${truth.size} switches and crossings; in no file: `));
    assert.deepEqual(cutLine(document, { tracks: ["nowhere"] }).said[0], "no track has the id or name nowhere");
    assert.deepEqual(cutLine(document, { range: { low: 0, high: 1 } }).files, []);
});

test("a station's title is its operational point's, its file's name has no sign of a path, and ends say where they lead", () => {
    const seed = SEEDS.find((it) => randomLine(it).text.includes("ocpStationRef")) ?? 0,
        { files } = cutLine(documentOf(randomLine(seed).text), {});
    assert.deepEqual(files.map((it) => it.title).slice(0, 2), ["Station <0>", "Station <1>"]);
    assert.deepEqual(files.map((it) => it.name).slice(0, 2), ["S_0", "S_1"]);
    assert.ok(files[0].text.includes('name="to Station &lt;1&gt;"'), files[0].text);
});

test("tracks that are cut at each switch are joined before a line is cut, and each switch is in one file", () => {
    for (const name of ["cut-at-switches-end", "cut-at-switches-begin"]) {
        const found = kinds().find((it) => it.name === name);
        assert.ok(found, kinds().map((it) => it.name).join(" "));
        const it = mendedLine("line.xml", found.data, "railplan"), document = read(it.data), { files, isWhole } = cutLine(document, { range: null });
        assert.ok(isWhole && it.changes.length > 0 && files.length > 0, name);
        assert.deepEqual(files.flatMap((file) => file.points).sort(), document.tracks().flatMap(points).map((point) => point.id).sort());
    }
});

test("a line is mended in its texts alone where a switch would be another one", () => {
    const found = kinds().find((it) => it.name === "cut-at-switches-end");
    const turned = new TextDecoder().decode(found?.data);
    const it = mendedLine("line.xml", new TextEncoder().encode(turned), "railplan");
    assert.equal(otherInFile(it), "");
    it.source = documentOf(turned.replace('course="left"', 'course="right"'));
    assert.notEqual(otherInFile(it), "");
});
