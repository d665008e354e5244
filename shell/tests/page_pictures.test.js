/** What signs, marks and strips say: directions, buffer stops, wedges, parties, rings, letters' heights, and what is cut. */
import assert from "node:assert/strict";
import { test } from "node:test";
import { Columns, MM, PAPERS, Strip, cut, roomOn } from "../both/page/columns.js";
import { Scene, alone, crowded, draw, layout } from "../both/page/drawing.js";
import { nothing } from "../both/infrastructure.js";
import { make } from "../both/page/kinds.js";
import { Element, flat } from "../both/page/markup.js";
import { Page } from "../both/page/page.js";
import * as signs from "../both/page/signs.js";
import { Station } from "../both/page/station.js";
import { StripPlan, ring } from "../both/page/strip.js";
import { readSheet, readSignals } from "../both/page/texts.js";
import { stylesIn } from "../terminal/bundle.js";
import { crossoversOf, crowdedStations, sheetOf } from "./pages/crowded.js";
import { Drawn, around, classesOf, faultsOfFeet, faultsOfPage, given, pathSpots, picturesOf, spotsOf } from "./pages/drawn.js";
import { TOP, example, pageOf, runOf, sample, sloping, stationOf, stored } from "./pages/runs.js";


// how high a capital is, of a letter's size
const CAP = 0.688;
const DRAW = ["draw", "no.xml"];
const settings = (/** @type {object} */ some) => ({ settings: { paper: "A3", labels: "name", side: "right", east: "", ...some } });

/** @param {Page} page @param {string} kind @param {number} [at] @returns {Element[]} the elements of a class */
function byClass(page, kind, at = 0) {
    return page.pictures[at].strips.flatMap((it) => [...it.all()]).filter((it) => classesOf(it).includes(kind));
}

/** @param {Page} page @param {string} key @param {number} [at] @returns {Element} */
function sign(page, key, at = 0) {
    const found = byClass(page, "sign", at).find((it) => it.attributes["data-key"] === key);
    assert.ok(found, key);
    return found;
}

/** @param {Element} one @param {(it: Element) => boolean} test @returns {Element} */
function within(one, test) {
    const found = [...one.all()].find(test);
    assert.ok(found);
    return found;
}

/** @param {Page} page @param {string} key @returns {[number, number]} where the head of a signal is from its point: east, and
 * up */
function headOf(page, key) {
    const head = within(sign(page, key), (it) => it.tag === "circle");
    return [Number(head.attributes.cx), -Number(head.attributes.cy)];
}

/** @type {(number: number) => number} -1, 0 or 1 */
const side = (number) => Math.sign(number) + 0;

test("the head of a signal is ahead, and on the right or where that is asked for on the left", () => {
    const heads = (/** @type {object} */ some) => ["s0", "s2", "s4"].map((it) =>
        headOf(make(sample("signals", settings(some))), it).map(side));
    assert.deepEqual(heads({}), [[1, -1], [-1, 1], [0, 1]]);
    assert.deepEqual(heads({ side: "left" }), [[1, 1], [-1, -1], [0, 1]]);
});

test("what a signal says", () => {
    assert.equal(sign(make(sample("signals")), "s0").text(),
        "home signal (A): signal for trains with rising kilometres, km 0.040; column 2");
});

test("a buffer stop opens to its track, and an open end points away", () => {
    const stop = within(sign(make(sample("signals")), "n1"), (it) => it.attributes.class === "stop");
    const xs = pathSpots(given(signs.endSign("buffer stop", "right").parts[0], "d")).map(([x]) => x);
    assert.deepEqual([Math.max(...xs), Math.min(...xs)], [0, -5]);
    assert.equal(Math.min(...pathSpots(given(stop, "d")).map(([x]) => x)), -5);
    for (const [where, tip] of /** @type {[string, number][]} */ ([["right", 3], ["left", -3]])) {
        assert.deepEqual(pathSpots(given(signs.endSign("open end", where).parts[0], "d"))[1], [tip, 0]);
    }
});

test("the wedge lies along both legs", () => {
    const page = make(example());
    const [spots, west] = ["n6", "n7"].map((key) => spotsOf(within(sign(page, key), (it) => it.tag === "polygon")));
    assert.deepEqual(spots[0], [0, 0]);
    const [one, other] = spots.slice(1).map(([x, y]) => Math.atan2(-y, x)).sort((a, b) => a - b);
    assert.ok(Math.abs(one) < 0.005 && other > 0.4);
    assert.ok(west.slice(1).every(([x]) => x < 0));
});

test("each kind has a sign of its own, and the legend has what is drawn", () => {
    const made = ["joint", "crossing", "open end", "line goes on", "buffer stop", "end", "node"]
        .flatMap((kind) => signs.nodeSign(kind, "right", [], 0).parts).map(String);
    assert.equal(made.length, new Set(made).size);
    assert.deepEqual([...make(sample("signals")).signs], ["switch", "open end", "buffer stop", "signal", "signal both"]);
});

test("a pointer finds a sign beside its thin lines", () => {
    const page = make(sample("signals"));
    const all = byClass(page, "sign");
    assert.deepEqual(new Set(all.map((it) => it.attributes.class)), new Set(["sign node", "sign signal"]));
    for (const one of all) {
        const [left, top, right, bottom] = around(spotsOf(within(one, (it) => it.attributes.class === "hit")));
        const [wide, high] = [right - left, bottom - top];
        assert.ok(Math.max(wide, high) >= 14 && Math.min(wide, high) >= 9);
    }
    assert.match(stylesIn(TOP).drawing, /\.sign \.hit \{[^}]*pointer-events: all/);
    assert.ok(!String(alone(page.pictures[0], "", "station")).includes("hit"));
});

test("what is broken and what is kept", () => {
    const page = make(sample("explain_above"));
    const classes = (/** @type {string} */ key) => [0, 1].map((at) => sign(page, key, at).attributes.class);
    assert.deepEqual(["n0", "n3", "n2"].map(classes), [["sign node broken", "sign node party"],
        ["sign node broken", "sign node party"],
        ["sign node other", "sign node other"]]);
    const edge = (/** @type {string} */ key, /** @type {number} */ at) =>
        within(byClass(page, "lines", at)[0], (it) => it.attributes["data-key"] === key);
    const line = (/** @type {Element} */ one) => within(one, (it) => classesOf(it).includes("edge")).attributes.class;
    assert.deepEqual([edge("e2", 0), edge("e2", 1), edge("e4", 0)].map(line), ["edge party", "edge broken", "edge other"]);
});

test("a verdict marks its party", () => {
    const page = make(sample("verify_law_4"));
    assert.deepEqual(["n2", "n1"].map((it) => sign(page, it).attributes.class), ["sign node broken", "sign node"]);
});

test("colours are those that the page names", () => {
    for (const [kind, colour] of [["broken", "red"], ["party", "blue"]]) {
        const [, name, hex, more] = new RegExp(`\\.edge\\.${kind} { stroke: var\\(--(\\w+), #(\\w+)\\)([^}]*)`).exec(stylesIn(TOP).drawing) ?? [];
        assert.deepEqual([name, more.includes("stroke-dasharray")], [kind, kind === "broken"]);
        assert.equal(parseInt(hex.slice(0, 2), 16) > parseInt(hex.slice(4), 16) ? "red" : "blue", colour);
    }
    const [, parts] = make(sample("explain")).facts.find(([title]) => title === "Colours") ?? ["", []];
    assert.match(parts.map((it) => it instanceof Element ? it.text() : "").join(" "), new RegExp("Red, broken lines and squares: what the drawing gives up. "
        + "Blue, solid lines and circles: what it keeps"));
});

test("rings differ in form", () => {
    const made = new Map(["broken", "party", "moved", "new", "gone"].map((it) => [it, ring(it)]));
    assert.deepEqual(["broken", "party"].map((it) => made.get(it)?.tag), ["rect", "circle"]);
    assert.equal(new Set(["moved", "new", "gone"].map((it) => String(made.get(it)))).size, 3);
});

test("moved nodes have rings", () => {
    const page = make(sample("redraw_station"));
    const [before, now] = [0, 1].map((at) => (/** @type {string} */ key) => classesOf(sign(page, key, at)).pop());
    assert.deepEqual(["n1", "n4", "n6", "n7", "n0"].map(now), ["moved", "moved", "new", "new", "node"]);
    assert.equal(before("n1"), "moved");
    const pieces = [0, 1].map((at) => new Map(/** @type {Element[]} */ (flat(byClass(page, "lines", at)[0].children))
        .map((it) => [it.attributes["data-key"], it.text().split(", from ")[1]])));
    assert.equal(pieces[0].get("gone-e3"), "W2 to B2");
    pieces[0].delete("gone-e3");
    for (const [key, said] of pieces[0]) assert.equal(pieces[1].get(key), said);
    const rings = ["n1", "n6", "n0"].map((key) => [...sign(page, key, 1).all()].filter((it) => it.attributes.class === "ring"));
    assert.deepEqual(rings.map((it) => it.map(({ tag }) => tag)), [["circle"], ["path"], []]);
});

test("no scale where mileages needn't rise", () => {
    assert.equal(byClass(make(sample("explain_above")), "axis").length, 0);
    assert.ok(byClass(make(sample("verify_law_4")), "axis").length);
});

/** @param {Drawn[]} strips @returns {Map<string, Set<number>>} the heights of letters by their class */
function sizesOf(strips) {
    const sizes = new Map();
    for (const { classes, size } of strips.flatMap((it) => it.texts)) {
        const kind = classes.slice(0, 2).join(" ");
        sizes.set(kind, (sizes.get(kind) ?? new Set()).add(size));
    }
    return sizes;
}

test("letters are high enough, and of one height a class", () => {
    for (const [name, sheet] of [...crowdedStations()].slice(0, 9)) {
        const sizes = sizesOf(picturesOf(pageOf(DRAW, sheet))[0]);
        assert.ok([...sizes.values()].every((it) => it.size === 1), name);
        assert.ok(Math.min(...[...sizes.values()].flatMap((it) => [...it])) * CAP / MM >= 1.8);
    }
});

test("letters of a class have one height on the whole page of a front", () => {
    const page = make(sample("front"));
    const sizes = sizesOf([new Drawn(page.figures[0].parts[0]), ...picturesOf(page).flat()]);
    assert.ok([...sizes.values()].every((it) => it.size === 1) && sizes.has("km"));
});

test("no strip is wider or higher than the paper", () => {
    const wide = sheetOf(7, 40, crossoversOf(3, 7, 40), (it) => `W${it}`, (it) => `t${it}`);
    const high = sheetOf(13, 12, crossoversOf(3, 13, 12), (it) => `W${it}`, (it) => `t${it}`);
    for (const paper of PAPERS.keys()) {
        const [picture, other] = [wide, high].map((it) => pageOf(DRAW, it, settings({ paper })).pictures[0]);
        assert.ok(picture.width() <= roomOn(paper)[0], paper);
        assert.equal(picture.strips.length > 1, ["A4", "A3"].includes(paper));
        assert.ok(Math.max(...other.boxes.map(([, top, , bottom]) => bottom - top)) <= roomOn(paper)[1], paper);
    }
});

test("strips go on where they are cut", () => {
    const page = pageOf(DRAW, crowdedStations().get("crowded long 7 by 18") ?? "");
    const [strips] = picturesOf(page);
    const letters = strips.map((it) => it.texts.filter(({ classes }) => classes.includes("match")).map(({ text }) => text));
    assert.deepEqual([letters[0], letters[letters.length - 1]], [["A"], [String.fromCharCode(63 + strips.length)]]);
    assert.equal(new Set(page.pictures[0].strips.map((it) => it.attributes.width)).size, 1);
    const xs = (/** @type {Drawn} */ it) => it.lines.filter(({ kind }) => kind === "match").map(({ piece: [[x]] }) => x);
    const at = (/** @type {Drawn} */ it, /** @type {number} */ end, /** @type {number} */ x) =>
        new Set([...it.edges.values()].flat()
        .map((line) => line[end < 0 ? line.length - 1 : 0]).filter((spot) => Math.abs(spot[0] - x) < 0.1).map(([, y]) =>
            y.toFixed(1)));
    const cuts = at(strips[0], -1, Math.max(...xs(strips[0])));
    assert.ok(cuts.size);
    assert.deepEqual(cuts, at(strips[1], 0, Math.min(...xs(strips[1]))));
});

test("level columns are squeezed", () => {
    const { drawing } = readSheet("railplan 2\ngrid 64 1 1\norder width\nnodes 4\nnode 0 a 0 0 0.000000\nnode 1 b 30 0 9.000000\n"
        + "node 2 c 0 1 0.000000\nnode 3 d 30 1 9.000000\nedges 2\nedge 0 s 0 1 0 0 30 0\nedge 1 t 2 3 0 1 30 1\nvalues 1 0 0 30\n"
        + "end best\n");
    assert.ok(drawing);
    const { at } = draw(new Scene(drawing, new Station(null, nothing()), { paper: "A4" })).columns;
    assert.ok(Math.max(...at.slice(1).map((x, before) => x - at[before])) < 40);
});

test("cuts are level and widths fit", () => {
    const at = Array.from({ length: 41 }, (_, column) => 20 * column);
    const sloped = Array.from({ length: 40 }, (_, column) => column % 5 !== 0);
    const found = cut(at, sloped, 300, [40, 40]);
    assert.deepEqual([found[0].first, found[found.length - 1].last], [0, 40]);
    assert.ok(found.slice(0, -1).every((it) => !sloped[it.last]));
    assert.ok(found.every((it) => at[it.last] - at[it.first] + 80 <= 310));
    assert.deepEqual(found.slice(1).map((it) => it.first), found.slice(0, -1).map((it) => it.last + 1));
});

test("main tracks are wider", () => {
    const xml = stored("examples/station.xml").replace('id="track1"', 'id="track1" type="mainTrack"');
    const page = make(example({ files: new Map([["examples/station.xml", xml]]) }));
    const classes = byClass(page, "edge").map((it) => it.attributes.class);
    assert.deepEqual([classes.filter((it) => it === "edge main").length, classes.filter((it) => it === "edge").length], [2, 6]);
    assert.deepEqual([...page.signs], ["switch", "open end", "main", "track"]);
});

test("a place beyond a cut", () => {
    const strip = new Strip(1, 2, true, false);
    assert.deepEqual([0.5, 1, 1.5, 2].map((it) => new Columns([0, 10, 40], 44).x(it, strip)), [-30, 0, 15, 30]);
});

test("signals on slopes are on their lines where columns differ in width", () => {
    const page = make(sloping());
    const [strips] = picturesOf(page);
    const [foot, [line]] = [strips[0].feet.get("s6") ?? [0, 0], strips[0].edges.get("e3") ?? [[]]];
    assert.ok(foot[0] > line[0][0]);
    assert.ok(Math.abs(foot[0] - (line[0][0] + line[1][0]) / 2) > 9, "the columns are of one width");
    assert.deepEqual(faultsOfFeet(strips, page.scene?.signals ?? []), []);
    assert.equal(strips[0].feet.size, page.scene?.signals.length);
});

test("signals on signs and lines are noted", () => {
    const run = sample("signals");
    const { sheet: { drawing }, signals } = readSignals(run.record.output);
    assert.ok(drawing);
    const scene = run.scene(drawing, run.station(), { signals });
    const columns = layout([scene], new Map(), 1);
    const plan = new StripPlan(scene, columns, columns.strips[0], new Set());
    plan.laySigns();
    assert.deepEqual(plan.clashes, []);
    const [x, y] = plan.at(signals[0].point);
    plan.seeClash(7, [x, y + 5, x + 15, y + 13], true);
    plan.seeClash(7, [x, y - 4, x + 15, y + 3.5], true);
    assert.deepEqual(plan.clashes, [7, 7]);
});

/** @type {(page: Page) => Map<string, string>} the texts of a page by what they are of */
const named = (page) => new Map(picturesOf(page)[0].flatMap((it) => it.texts).filter((it) => it.owner).map((it) =>
    [it.owner, it.text]));

test("names that look alike differ in what is seen", () => {
    const page = pageOf(DRAW,
        "railplan 2\ngrid 9 1 1\norder width\nnodes 2\nnode 0 W1 0 0 0.000000\nnode 1 W1\u200b 3 0 9.000000\nedges 1\n"
        + "edge 0 \u202e2W 0 1 0 0 3 0\nvalues 0 0 0 3\nend best\n");
    assert.deepEqual([...named(page).values()].sort(), ["W1", "W1‹U+200B›", "‹U+202E›2W"]);
});

test("shortened names are whole on the page", () => {
    const { short } = pageOf(DRAW, crowdedStations().get("crowded longest 2 by 6") ?? "");
    assert.ok([...short.values()].some(([, whole]) => whole === `0000${"x".repeat(60)}`));
    for (const [text, whole] of short.values()) {
        const [first, last] = text.split("…");
        assert.ok(whole.startsWith(first) && whole.endsWith(last));
    }
});

test("names without room are left out and said", () => {
    const count = 60;
    const each = (/** @type {number} */ end, /** @type {(at: number) => string} */ line) =>
        Array.from({ length: end }, (_, at) => line(at)).join("");
    const nodes = each(count, (at) => `node ${at} ${"x".repeat(40)}${at} ${at % 2 * 2} 0 0.000000\n`);
    const edges = each(count / 2, (at) => `edge ${at} t${at} ${2 * at} ${2 * at + 1} 0 0 2 0\n`);
    const run = runOf(DRAW,
        `railplan 2\ngrid 9 0 1\norder width\nnodes ${count}\n${nodes}edges ${count / 2}\n${edges}values 0 0 0 2\n`
        + "end best\n");
    const { drawing } = readSheet(run.record.output);
    assert.ok(drawing);
    const page = new Page("", run.station(), { title: "", build: run.record.build, version: "", date: null, files: [],
        madeBy: [],
        check: [], needs: "" });
    const scene = run.scene(drawing, page.station);
    page.draw(scene, [], { picture: crowded([scene])[0] });
    assert.deepEqual(faultsOfPage(page), []);
    assert.equal(named(page).size + page.leftOut.size, count + count / 2);
    assert.ok(named(page).size && page.leftOut.size);
});

test("the label of a name", () => {
    const station = stationOf('<infrastructure><tracks><track id="t" name="1"><trackTopology><trackBegin id="a" name="North"/>'
        + "</trackTopology></track></tracks></infrastructure>");
    assert.deepEqual(["a", "t", "b"].map((it) => station.label(it)), ["North", "1", "b"]);
});

test("names or ids are drawn as asked", () => {
    for (const [labels, wanted] of /** @type {[string, string[]][]} */ ([["name", ["loop", "home signal"]],
        ["id", ["track3", "A"]]])) {
        const [track, signal] = [make(example(settings({ labels }))), make(sample("signals", settings({ labels })))].map(named);
        assert.deepEqual([track.get("track track3"), signal.get("signal 0")], wanted);
    }
});
