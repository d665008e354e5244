/** What a file itself says of its sides, and what is said of it: by the program's own answers, and as a reader reads it. */
import assert from "node:assert/strict";
import { spawnSync } from "node:child_process";
import { readdirSync, readFileSync } from "node:fs";
import { test } from "node:test";
import { Ground } from "../../cases/real/ground.js";
import { habits } from "../../cases/real/habits.js";
import { loopStation } from "../../cases/real/kind.js";
import { kinds } from "../../cases/real/kinds.js";
import { written } from "../../cases/real/writer.js";
import { notShown } from "../both/messages/not_shown.js";
import { notesOf } from "../both/messages/telling.js";
import { mended } from "../both/prepare.js";
import { read as readFile } from "../both/railml.js";
import { Orders } from "../both/sides/confirmed.js";
import { sidesOf } from "../both/sides/said.js";
import { KINDS, read } from "../both/words.js";
import { hasProgram, printed, PROGRAM, runOver, TOP } from "./clone.js";
import { ofCases, ofCurves } from "./many_curves.js";

const ALONG = { without: KINDS.map((it) => it.word), hands: "along" };
const CONFIRMED = "2 loops and crossovers confirm the sides: outgoing and incoming switches are seen alike";

/** @param {Uint8Array} data */
const textOf = (data) => new TextDecoder().decode(data);
/** @param {Uint8Array} data */
const signsOf = (data) => Buffer.from(data).toString("latin1");

/** @param {Uint8Array} data @returns {boolean | null} whether the program has two edges above each other; null where it finds
 * another fault */
function contradicts(data) {
    const [first = ""] = printed(data);
    return first === "railgraph 1" ? false : first.startsWith("order 1 ") ? true : null;
}

/** @param {Uint8Array} data @param {string} name @returns {string} holds what the shell reckons to the program's answers, and
 * says what came */
function hold(data, name) {
    const now = contradicts(data);
    if (now === null) {
        return "";
    }
    const document = readFile(data), orders = new Orders(document), exchanged = contradicts(mended("s.xml", data, "railplan",
        ALONG).data);
    assert.equal(orders.contradicts, now, name);
    assert.equal(orders.contradictsExchanged, exchanged, name);
    if (!now) {
        assert.equal(orders.confirming > 0, exchanged, name);
    }
    return now ? "refused" : exchanged ? "confirmed" : "open";
}

test("the shell's own reckoning is the program's, of the cases", { skip: !hasProgram }, () => {
    const folders = ["cases/stations", "examples"].flatMap((folder) => readdirSync(TOP + folder).map((name) => `${folder}/${name}`));
    const files = folders.filter((name) => name.endsWith(".xml")).map((name) => hold(readFileSync(TOP + name), name));
    const real = [...kinds(), ...habits()].map((it) => hold(it.data, it.name));
    assert.ok(files.filter((it) => it === "confirmed").length > 8 && files.includes("open"));
    assert.ok(real.filter((it) => it === "confirmed").length > 40 && real.includes("open") && real.includes("refused"));
});

test("the shell's own reckoning is the program's, of 300 made stations", { skip: !hasProgram }, () => {
    const came = Array.from({ length: 300 }, (_, at) => hold(spawnSync(PROGRAM, ["make", String(at * 131)]).stdout, `make ${at * 131}`));
    assert.ok(came.filter((it) => it === "confirmed").length > 50);
});

/** @returns {Ground} stubs to both ways, which meet nowhere again */
function stubs() {
    const ground = new Ground("Spitz"), one = ground.track("1", 0, 1000, 0);
    ground.switch(one, 600, ground.track("2", 100, 0, 4.5, { west: "bufferStop" }), "west", "W1");
    ground.switch(one, 700, ground.track("3", 0, 950, -4.5, { east: "bufferStop" }), "east", "W2");
    return ground;
}

/** @param {Uint8Array} data @param {string} output @param {string} [command] @param {number} [status] */
async function said(data, output, command = "graph", status = 0) {
    return (await notesOf(runOver([command, "s.xml"], output, { "s.xml": signsOf(data) }, { status }))).map((it) => it.text);
}

test("loops and crossovers confirm the sides: graph says it, and draw doesn't", async () => {
    const data = written(loopStation().ground);
    assert.deepEqual(sidesOf(readFile(data)), { good: [CONFIRMED], doubts: [] });
    assert.deepEqual(await said(data, "railgraph 1\n"), [CONFIRMED]);
    assert.deepEqual(notShown(data, read(["draw", "s.xml"]), []), []);
});

test("where nothing confirms the sides two switches are named", async () => {
    const data = written(stubs()), open = "nothing in this file confirms the sides: compare two switches with the ground, "
        + "sw_W2 (outgoing) "
        + "and sw_W1 (incoming)";
    assert.deepEqual(await said(data, "railgraph 1\n"), [open]);
    assert.deepEqual(notShown(data, read(["draw", "s.xml"]), []), [open]);
    const ground = stubs();
    ground.tracks[0].points.pop();
    ground.tracks.pop();
    assert.deepEqual(notShown(written(ground), read(["draw", "s.xml"]), []),
        ["nothing in this file confirms the sides: compare a switch with the ground, sw_W1 (incoming)"]);
});

test("without an incoming switch nothing is said", () => {
    const ground = new Ground("Spitz"), one = ground.track("1", 0, 1000, 0);
    ground.switch(one, 700, ground.track("3", 0, 950, -4.5, { east: "bufferStop" }), "east", "W2");
    assert.deepEqual(sidesOf(readFile(written(ground))), { good: [], doubts: [] });
});

test("a producer that sees courses along the track", async () => {
    const data = written(loopStation().ground, { course: "track" }), notes = await said(data, "order 1 Contradicts 1 3\n",
        "draw", 1);
    assert.equal(notes.at(-1), "with the hands of all 3 incoming switches exchanged nothing contradicts, and no single hand "
        + "does that: this "
        + "producer sees courses along the track, and not from the points. First compare two switches with the ground, sw_4 "
            + "(outgoing) and "
        + "sw_11 (incoming). Where only the incoming one differs, ./railplan prepare s.xml NEW.xml --hands along writes "
            + "them as they are read");
});

test("one wrong hand is no way to see hands", async () => {
    const text = signsOf(readFileSync(`${TOP}examples/station.xml`)).replace('course="right"', 'course="left"');
    const notes = await said(new Uint8Array(Buffer.from(text, "latin1")), "order 1 Contradicts 4 6\n", "draw", 1);
    assert.match(notes.at(-1) ?? "",
        /^either one hand is wrong, or this producer sees courses along the track, .* nothing contradicts either\. /);
    const other = signsOf(written(loopStation().ground)).replace('orientation="outgoing" course="right"',
        'orientation="outgoing" course="left"');
    assert.ok((await said(new Uint8Array(Buffer.from(other, "latin1")), "order 1 Contradicts 1 3\n", "draw", 1))
        .every((it) => !it.includes("this producer")));
});

// ---- votes

/** @returns {Ground} four stubs, two to each way, which meet nowhere again */
function fourStubs() {
    const ground = new Ground("Spitz"), one = ground.track("1", 0, 1400, 0);
    ground.switch(one, 500, ground.track("2", 100, 0, 4.5, { west: "bufferStop" }), "west", "W1");
    ground.switch(one, 600, ground.track("3", 200, 0, -4.5, { west: "bufferStop" }), "west", "W2");
    ground.switch(one, 800, ground.track("4", 0, 1200, 4.5, { east: "bufferStop" }), "east", "W3");
    ground.switch(one, 900, ground.track("5", 0, 1300, -4.5, { east: "bufferStop" }), "east", "W4");
    return ground;
}

/** @param {Ground} ground @param {1 | -1} up to where y counts @returns {(text: string) => string} puts the producer's own
 * schematic in */
function withSchematic(ground, up) {
    const vis = (/** @type {string} */ id, /** @type {number} */ x, /** @type {number} */ y) =>
        `<trackElementVis ref="${id}"><position x="${x}" y="${y * up * 3}"/></trackElementVis>`;
    const tracks = ground.tracks.map((it) => `<trackVis ref="${it.id}">${vis(`${it.id}_b`, it.from, it.lateral)}`
        + `${vis(`${it.id}_e`, it.to, it.lateral)}${it.points.map((one) => vis(one.id, one.at, it.lateral)).join("")}</trackVis>`);
    return (text) => text.replace("</infrastructure>", `<infrastructureVisualizations><visualization id="v" version="1">${tracks.join("")}`
        + "</visualization></infrastructureVisualizations></infrastructure>");
}

const LATITUDE = { coordinates: /** @type {const} */ ({ first: "latitude" }) };
const DIFFER = "2 incoming switches disagree and all outgoing ones agree: this producer sees courses along the track, and "
    + "not from the "
    + "points. Compare an incoming switch with the ground: where it differs, prepare --hands along exchanges their hands";

/** each file, what confirms its sides, and what is doubted
 * @type {[string, Uint8Array, string[], string[]][]} */
const VOTES = [
    ["coordinates agree", written(fourStubs(), LATITUDE), ["by coordinates 4 of 4 switches agree"], []],
    ["a curve between places that are too far apart", written(fourStubs(), { coordinates: { first: "northing",
        radius: 1000 } }), [],
        ["nothing in this file confirms the sides: compare two switches with the ground, sw_W3 (outgoing) and sw_W1 "
            + "(incoming)"]],
    ["mirrored coordinates", written(fourStubs(), { coordinates: { first: "latitude", isMirrored: true } }), [],
        ["by coordinates all 4 switches disagree: the file may be mirrored, or the axes of its coordinates exchanged"]],
    ["courses along the track, by coordinates", written(fourStubs(), { ...LATITUDE, course: "track" }), [], [`by coordinates all ${DIFFER}`]],
    ["one hand of four", written(fourStubs(), { ...LATITUDE, changed: (text) => text.replace('course="left"',
        'course="right"') }),
        ["by coordinates 3 of 4 switches agree"],
        ["nothing in this file confirms the sides: compare two switches with the ground, sw_W3 (outgoing) and sw_W1 "
            + "(incoming)"]],
    ["two switches are no vote", written(stubs(), LATITUDE), [],
        ["nothing in this file confirms the sides: compare two switches with the ground, sw_W2 (outgoing) and sw_W1 "
            + "(incoming)"]],
    ["axes that nothing says", written(fourStubs(), { ...LATITUDE, changed: (text) => text.replace(/coord="59/g,
        'coord="9') }), [],
        ["nothing in this file confirms the sides: compare two switches with the ground, sw_W3 (outgoing) and sw_W1 "
            + "(incoming)"]],
    ...[1, -1].flatMap((up) => {
        const ground = fourStubs(), changed = withSchematic(ground, up === 1 ? 1 : -1), by = "by the producer's own schematic";
        return /** @type {[string, Uint8Array, string[], string[]][]} */ ([
            [`a schematic, y counted by ${up}`, written(ground, { changed }), [`${by} 4 of 4 switches agree`], []],
            [`courses along the track, by a schematic, y counted by ${up}`, written(ground, { changed, course: "track" }), [],
                [`${by} all ${DIFFER}`]],
        ]);
    }),
];

for (const [name, data, good, doubts] of VOTES) {
    test(`votes: ${name}`, () => assert.deepEqual(sidesOf(readFile(data)), { good, doubts }));
}

test("votes: radii of switches whose track and branch turn to one hand", () => {
    const of = (/** @type {string} */ own, /** @type {string} */ radius) => written(fourStubs(), { changed: (text) =>
        text.replace(/<switch ([^>]*)>(.*)course="left"\/>/g, `<switch $1 trackContinueCourse="left" trackContinueRadius="${own}">$2course="left" `
            + `radius="${radius}"/>`) });
    assert.deepEqual(sidesOf(readFile(of("600", "300"))).good, ["by their radii 2 of 2 inside curved switches agree"]);
    assert.deepEqual(sidesOf(readFile(of("300", "600"))).doubts, ["by their radii 2 of 2 inside curved switches disagree: "
        + "the branch is the wider "
        + "of two curves to one hand, so it lies to the other. prepare --hands radii exchanges such hands, and lists them"]);
});

test("no false vote on random curves and the files of cases/real", () => {
    for (const { votes, falseVotes } of [ofCurves(200, 0.5), ofCases()]) {
        assert.ok(votes > 5);
        assert.equal(falseVotes, 0);
    }
});

test("of a file that the program refuses as too large nothing is said", () => {
    const tracks = Array.from({ length: 161 }, (_, at) => `<track id="t${at}"><trackTopology><trackBegin id="b${at}" pos="0" absPos="${at * 9}">`
        + `<openEnd/></trackBegin><trackEnd id="e${at}" pos="9" absPos="${at * 9 + 9}"><openEnd/></trackEnd></trackTopology></track>`);
    const stub = textOf(written(stubs())).replace("<tracks>", `<tracks>${tracks.join("")}`);
    assert.deepEqual(sidesOf(readFile(new TextEncoder().encode(stub))), { good: [], doubts: [] });
});
