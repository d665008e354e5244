/** Each line of a page is that of the sheet: on examples, worked and made stations, strips, signals, and what explain and
 * redraw draw. */
import assert from "node:assert/strict";
import { test } from "node:test";
import { Changes } from "../both/page/changes.js";
import { make } from "../both/page/kinds.js";
import { readFront, readMoved, readSheet } from "../both/page/texts.js";
import { crowdedSignals, crowdedStations } from "./pages/crowded.js";
import { given, picturesOf } from "./pages/drawn.js";
import { cornersOf, faultsOfLegs, faultsOfLines, saidBy } from "./pages/lines.js";
import { madeSheets, pageOf, sample, stored } from "./pages/runs.js";

/** @typedef {import("../both/page/page.js").Page} Page */
/** @typedef {import("../both/page/run.js").Run} Run */
/** @typedef {import("./pages/lines.js").Said} Said */

const DRAW = ["draw", "no.xml"];
const settings = (/** @type {string} */ paper) => ({ settings: { paper, labels: "name", side: "right", east: "" } });

/**
 * Each picture is that of a text, and the legs of its switches are those of a graph.
 * @param {Page} page
 * @param {Said[]} said
 * @param {string[]} [graphs]
 */
function agrees(page, said, graphs = []) {
    const pictures = picturesOf(page);
    assert.equal(pictures.length, said.length);
    pictures.forEach((strips, at) => {
        assert.ok(said[at].edges.size);
        assert.deepEqual(faultsOfLines(strips, said[at]), []);
        if (graphs[at]) assert.deepEqual(faultsOfLegs(strips, said[at], graphs[at]), []);
    });
}

test("examples", () => {
    for (const [name, command, answer] of [["station", "draw", "sheet"], ["one", "draw", "sheet"], ["made", "draw", "sheet"],
        ["station_signals", "signals", "txt"]]) {
        const output = stored(`examples/${name}.${answer}`);
        for (const paper of ["A4", "A3"]) {
            const page = pageOf([command, `examples/${name}.xml`], output, settings(paper));
            agrees(page, [saidBy(output)], [stored(`examples/${name}.graph`)]);
        }
    }
});

test("worked and made stations", () => {
    const worked = [...stored("cases/draw/sheets.txt").matchAll(/^  railplan 2\n(?:  .*\n)+?  end \w.*\n/gm)]
        .map(([found]) => found.replace(/^  /gm, "")).filter((it) => it.includes("\nedge "));
    const sheets = [...worked, ...["before", "lawful", "low", "narrow"].map((it) => stored(`${it}.sheet`))];
    assert.ok(sheets.length > 6);
    for (const sheet of [...sheets, ...madeSheets().filter((_, at) => at % 24 === 0).map(([, it]) => it)]) {
        agrees(pageOf(DRAW, sheet), [saidBy(sheet)]);
    }
});

test("strips, broken where the paper ends, on level lines and on sloping ones", () => {
    const pages = ["crowded short 2 by 6", "crowded long 4 by 10", "crowded long 7 by 18"].map((name) => {
        const sheet = crowdedStations().get(name) ?? "";
        const page = pageOf(DRAW, sheet, settings("A4"));
        agrees(page, [saidBy(sheet)]);
        return page;
    });
    const counts = pages.map((it) => it.pictures[0].strips.length);
    assert.deepEqual([counts[0], Math.min(...counts.slice(1)) > 1], [1, true]);
    const [strips] = picturesOf(pages[2]);
    assert.ok([...strips[0].edges.keys()].some((key) => cornersOf(strips, key).some((it) => it.isCut)));
});

test("signals", () => {
    for (const output of [sample("signals").record.output, ...crowdedSignals().slice(0, 2).map(([, it]) => it)]) {
        assert.ok(saidBy(output).signals.size);
        agrees(pageOf(["signals", "no.xml"], output), [saidBy(output)]);
    }
});

test("explain and verify", () => {
    for (const name of ["explain", "explain_above", "explain_apart", "explain_beside"]) {
        const run = sample(name);
        agrees(make(run), run.record.output.split(/^without.*\n/m).slice(1).map(saidBy));
    }
    for (const name of ["verify_lawful", "verify_law_4"]) agrees(make(sample(name)), [saidBy(sample(name).text(1))]);
});

test("front", () => {
    const run = sample("front");
    const said = readFront(run.record.output).pairs.flatMap((it) => run.record.drawings.get(String(it)) ?? []);
    assert.ok(said.length);
    agrees(make(run), said.map(({ text }) => saidBy(text)));
});

/**
 * The former drawing of a run of redraw, by the keys that its page gives it.
 * @param {Run} run
 * @returns {Said}
 */
function former(run) {
    const said = saidBy(run.text(2));
    const [old, now] = [readSheet(run.text(2)).drawing, readMoved(run.record.output).drawing];
    assert.ok(old && now);
    const changes = new Changes(old, now, run.station(1), run.station());
    const key = (/** @type {string} */ it) => changes.oldKey(it[0], Number(it.slice(1)));
    return { nodes: new Map([...said.nodes].map(([it, cell]) => [key(it), cell])), signals: said.signals,
        ends: new Map([...said.ends].map(([it, [west, east]]) => [key(it), [key(west), key(east)]])),
        edges: new Map([...said.edges].map(([it, cells]) => [key(it), cells])) };
}

test("redraw", () => {
    for (const name of ["redraw", "redraw_station"]) {
        const run = sample(name);
        agrees(make(run), [former(run), saidBy(run.record.output)], ["", run.record.graphs[0] ?? ""]);
    }
});

test("versions lie over each other, so a node that didn't move isn't elsewhere", () => {
    const run = sample("redraw_station");
    const page = make(run);
    const [before, now] = page.pictures.map(({ strips }) =>
        strips.map((it) => ["viewBox", "width", "height"].map((name) => given(it, name))));
    assert.deepEqual(before, now);
    const [[old], [is]] = picturesOf(page);
    const [was, said] = [former(run), saidBy(run.record.output)];
    const same = [...was.nodes].filter(([key, cell]) => String(said.nodes.get(key)) === String(cell)).map(([key]) => key);
    assert.ok(same.length > 1);
    assert.deepEqual(same.map((it) => old.places.get(it)), same.map((it) => is.places.get(it)));
    const kept = [...was.edges].filter(([key, cells]) => String(said.edges.get(key)) === String(cells)).map(([key]) => key);
    assert.ok(kept.length);
    assert.deepEqual(kept.map((it) => old.edges.get(it)), kept.map((it) => is.edges.get(it)));
});

test("a moved line is seen, and a line that lacks", () => {
    const output = stored("examples/station.sheet");
    for (const key of saidBy(output).edges.keys()) {
        const page = pageOf(["draw", "examples/station.xml"], output);
        const group = [...page.pictures[0].strips[0].all()].find((it) => it.attributes["data-key"] === key);
        const line = [...group?.all() ?? []].find((it) => given(it, "class").split(" ").includes("edge"));
        assert.ok(line);
        const spots = given(line, "points").split(" ");
        const [x, y] = spots[1].split(",");
        line.attributes.points = [spots[0], `${Number(x) + 9},${y}`, ...spots.slice(2)].join(" ");
        assert.ok(faultsOfLines(picturesOf(page)[0], saidBy(output)).length, key);
    }
    const [strips] = picturesOf(pageOf(["draw", "examples/station.xml"], output));
    strips[0].edges.delete("e6");
    assert.deepEqual(faultsOfLines(strips, saidBy(output)), ["e6 has 0 points, and in the sheet 4"]);
});
