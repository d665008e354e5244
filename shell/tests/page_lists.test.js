/** The list of objects, its CSV, and the drawing as DXF. */
import assert from "node:assert/strict";
import { test } from "node:test";
import { textOf } from "../both/page/cad.js";
import { heightAt } from "../both/page/columns.js";
import { dxfOf, make } from "../both/page/kinds.js";
import { safe } from "../both/page/objects.js";
import { example, pageOf, sample, sloping } from "./pages/runs.js";

/** @typedef {import("../both/page/page.js").Page} Page */

/** @type {(page: Page, key: string) => import("../both/page/objects.js").Entry | undefined} */
const entry = (page, key) => page.objects?.entries.find((it) => it.key === key);

test("entries come by kilometre", () => {
    const entries = make(sample("signals")).objects?.entries ?? [];
    const metres = entries.map(({ order }) => order.metres.toNumber());
    assert.deepEqual(metres, [...metres].sort((one, other) => one - other));
    assert.deepEqual(entries.filter((it) => it.kind === "signal").map((it) => it.km),
        ["0.040", "0.150", "0.160", "0.300", "0.440", "0.450", "0.560"]);
});

test("a switch says its legs and the next nodes", () => {
    assert.deepEqual(entry(make(example()), "n6")?.facts, [["legs", "on the right; the diverging leg is on the upper side", ""],
        ["trunk", "left, by second main track to W2, km 12.4025", "n5"],
        ["straight leg", "right, by second main track to W4, km 13.090", "n7"],
        ["diverging leg", "right, by loop to W4, km 13.090", "n7"]]);
});

test("a piece says its length, and its signals in order", () => {
    const facts = entry(make(sample("signals")), "e1")?.facts ?? [];
    assert.deepEqual(facts[2], ["length", "400 m", ""]);
    assert.deepEqual(facts.filter(([term]) => term === "signal").map(([, text, key]) => [text, key]),
        [["P1, km 0.150, for trains with falling kilometres", "s2"], ["Ls1, km 0.300, for a way that the file doesn't say", "s4"],
            ["N1, km 0.450, for trains with rising kilometres", "s1"]]);
});

test("links are ids", () => {
    const links = make(example()).objects?.links() ?? new Map();
    assert.deepEqual([links.get("n6"), links.get("e6")], ["W3", "track3"]);
    assert.equal(new Set(links.values()).size, links.size);
});

test("the table has each object, and no cell is a formula", () => {
    const rows = make(example()).objects?.csv().split("\r\n") ?? [];
    assert.equal(rows.length, 1 + 16 + 1);
    assert.deepEqual([rows[0], rows.find((it) => it.includes(",W3,"))],
        ["km,kind,name,id,track,column,row,side,note", "12.520,switch,,W3,,3,1,east upper,"]);
    assert.deepEqual(["=1+1", "-5.500", "-x", "@a", "W1"].map(safe), ["'=1+1", "-5.500", "'-x", "'@a", "W1"]);
    assert.match(make(sample("signals", { files: new Map() })).objects?.csv() ?? "", /^km,/);
});

/** @type {(text: string) => [string, string][]} the codes of a DXF with their values */
function pairsOf(text) {
    const lines = text.split("\r\n");
    assert.equal(lines.pop(), "");
    assert.equal(lines.length % 2, 0);
    return Array.from({ length: lines.length / 2 }, (_, at) => [lines[2 * at], lines[2 * at + 1]]);
}

test("a DXF has its layers, and each thing once", () => {
    const pairs = pairsOf(dxfOf(make(sample("signals"))));
    const count = (/** @type {string} */ kind, /** @type {string} */ layer) =>
        pairs.filter(([code, value], at) => code === "0" && value === kind && pairs[at + 1][1] === layer).length;
    assert.deepEqual([count("POLYLINE", "TRACK"), count("POINT", "NODE"), count("CIRCLE", "SIGNAL"), count("TEXT", "NAME")],
        [4, 4, 7, 4 + 7 + 2]);
    assert.deepEqual(pairs[pairs.length - 1], ["0", "EOF"]);
});

test("in a DXF y rises and x runs east", () => {
    const pairs = pairsOf(dxfOf(make(example())));
    const points = pairs.flatMap(([code, value], at) => code === "0" && value === "POINT"
        ? [[Number(pairs[at + 2][1]), Number(pairs[at + 3][1])]] : []);
    assert.ok(points[0][0] < points[1][0] && points[0][1] < points[3][1]);
});

/** @param {[string, string][]} pairs @param {string} layer @returns {[number, number][][]} the points of each line of a layer
 * */
function linesOf(pairs, layer) {
    /** @type {[number, number][][]} */
    const found = [];
    pairs.forEach(([code, value], at) => {
        if (code !== "0" || pairs[at + 1]?.[1] !== layer) return;
        if (value === "POLYLINE") found.push([]);
        if (value === "VERTEX") found[found.length - 1].push([Number(pairs[at + 2][1]), Number(pairs[at + 3][1])]);
    });
    return found;
}

test("in a DXF signals on slopes are on their lines", () => {
    const pairs = pairsOf(dxfOf(make(sloping())));
    const [tracks, feet] = [linesOf(pairs, "TRACK"), linesOf(pairs, "SIGNAL").filter((_, at) => at % 2 === 0)];
    assert.deepEqual([tracks.length, feet.length], [4, 7]);
    for (const [[x, near], [, far]] of feet.slice(-2)) {
        assert.ok(Math.abs((heightAt(x, tracks[3]) ?? NaN) - (near - (far - near) / 2)) < 0.01);
    }
});

test("texts of a DXF are one line of ASCII", () => {
    assert.equal(textOf("Ä%轉\n"), "\\U+00C4%%\\U+8F49\\U+000A");
    const text = dxfOf(pageOf(["draw", "x.xml"], "railplan 2\ngrid 9 1 1\norder width\nnodes 2\nnode 0 Ä\u2028 0 0 -5.500000\n"
        + "node 1 b 3 0 9.000000\nedges 1\nedge 0 轉 0 1 0 0 3 0\nvalues 0 0 0 3\nend best\n"));
    assert.match(text, /^[\r\n -~]*$/);
    assert.ok(text.includes("-0.0055"));
});
