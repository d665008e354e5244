/** railML 3: what is written of it, by the truth beside it; what isn't guessed; and that the judge reads the file by itself. */
import assert from "node:assert/strict";
import { spawnSync } from "node:child_process";
import { readdirSync, readFileSync } from "node:fs";
import { test } from "node:test";
import { judged } from "../../cases/real/judged.js";
import { Ground } from "../../cases/real/ground.js";
import { habits } from "../../cases/real/habits.js";
import { loopStation } from "../../cases/real/kind.js";
import { kinds } from "../../cases/real/kinds.js";
import { kinds3 } from "../../cases/real/kinds3.js";
import { written3 } from "../../cases/real/writer3.js";
import { Edits } from "../both/edits.js";
import { judge, whyUnfit } from "../both/mending/judge.js";
import { offeredOf } from "../both/mending/offered.js";
import { notesOf } from "../both/messages/telling.js";
import { mended } from "../both/prepare.js";
import { points, read } from "../both/railml.js";
import { handsOfCrossings } from "../both/railml3/hands.js";
import { NativeEngine } from "../terminal/native_engine.js";
import { randomOf } from "./many_curves.js";
import { hasProgram, printed, PROGRAM, runOver, TOP } from "./clone.js";

const KINDS = kinds3(), READ = KINDS.filter((it) => it.after === "drawn"), engine = new NativeEngine(PROGRAM);

/** @param {Uint8Array} data */
const textOf = (data) => new TextDecoder().decode(data);

/** @param {Uint8Array} data @param {[string | RegExp, string][]} edits @returns {Uint8Array} */
function changed(data, edits) {
    return new TextEncoder().encode(edits.reduce((text, [old, now]) => {
        assert.notEqual(text.replace(old, now), text, String(old));
        return text.replace(old, now);
    }, textOf(data)));
}

test("all kinds that are clear are drawn as on the ground", { skip: !hasProgram }, async () => {
    assert.ok(READ.length >= 9);
    for (const { name, data, truth } of READ) {
        const it = mended("s.xml", data, "railplan"), text = printed(it.data).join("\n");
        assert.deepEqual(it.guesses, [], name);
        const { wrong, misordered, elsewhere } = judged(`${text}\n`, truth);
        assert.deepEqual([wrong, misordered, elsewhere], [[], [], []], name);
        assert.deepEqual(await judge(engine, it), { reason: "", fault: "", isLarge: false }, name);
    }
});

/** what would be written, with a fault of its own, of which the judge has to say something
 * @type {[string, string, string | RegExp, string][]} */
const FAULTS = [
    ["a hand", "loop", /(<switch id="sw_W7"[^]*?course=")right/, "$1left"],
    ["a switch that is moved", "loop", /(<switch id="sw_W7"[^>]*absPos=")\d+/, "$112487"],
    ["a signal that is lost", "signals", /<signal id="sig_B1"[^>]*>/, ""],
    ["a signal on another piece", "signals", /(<signal id="sig_A1"[^>]*pos=")\d+(" absPos=")\d+/, "$11349$213349"],
];

for (const [name, kind, old, now] of FAULTS) {
    test(`the judge sees ${name}`, { skip: !hasProgram }, async () => {
        const it = mended("s.xml", /** @type {import("../../cases/real/kinds.js").Kind} */ (KINDS.find((one) => one.name === `railML-3-${kind}`)).data,
            "railplan");
        const other = Object.assign(Object.create(it), { edits: new Edits("s.xml", changed(it.data, [[old, now]])),
            read: null });
        const { reason, fault } = /** @type {import("../both/mending/judge.js").Judgement} */ (await judge(engine, other));
        assert.ok(reason || fault);
    });
}

test("left and right branch exchanged in the file are exchanged in what is written", { skip: !hasProgram }, () => {
    const data = written3(loopStation().ground), of = (/** @type {Uint8Array} */ file) =>
        printed(mended("s.xml", file, "railplan").data).filter((it) => / switch /.test(it)).map((it) => it.split(" ").slice(2,
            6).join(" "));
    const exchanged = changed(data, [[/<switchIS id="sw_W7"[^]*?<\/switchIS>/.exec(textOf(data))?.[0] ?? "",
        (/<switchIS id="sw_W7"[^]*?<\/switchIS>/
        .exec(textOf(data))?.[0] ?? "").replace(/left|right/g, (it) => (it === "left" ? "right" : "left"))]]);
    const [one, other] = [of(data), of(exchanged)];
    assert.deepEqual(one.filter((it) => !other.includes(it)), ["sw_W7 switch east lower"]);
    assert.deepEqual(other.filter((it) => !one.includes(it)), ["sw_W7 switch east upper"]);
});

/** what isn't clear, and what is said of it
 * @type {[string, [string | RegExp, string][], RegExp][]} */
const UNCLEAR = [
    ["a slip", [['type="ordinarySwitch"', 'type="singleSwitchCrossing"']],
        /^s\.xml:\d+:1: switch \S+ is a singleSwitchCrossing: where its slips/],
    ["a branch without a relation", [[/leftBranch netRelationRef="[^"]*"/, 'leftBranch netRelationRef="x"']],
        /^s\.xml:\d+:1: switch \S+ has no leftBranch and/],
    ["no switch where three meet", [[/<switchIS id="sw_W7"[^]*?<\/switchIS>/, ""]],
        /^s\.xml:\d+:1: at the \S+ of net element \S+ 2 net elements go on, and no/],
    ["no measures", [[/<linearCoordinate [^>]*>/g, ""]],
        /^s\.xml:\d+:1: net element tr_1\.1 has no measure at its begin, and nothing joined/],
    ["a measure at one end alone", [[/(<intrinsicCoordinate id="tr_1\.1_i0"[^>]*>)<linearCoordinate [^>]*>/, "$1"]],
        /^s\.xml:\d+:1: net element tr_1\.1 has no measure at its begin, and nothing joined/],
    ["a relation within an element", [['positionOnA="1"', 'positionOnA="0.5"']],
        /^s\.xml:\d+:1: net relation \S+ doesn't join ends of net elements/],
    ["no net elements", [[/<netElement [^]*<\/netElements>/, "</netElements>"]], /^this is railML 3, and has no net elements/],
];

for (const [name, edits, said] of UNCLEAR) {
    test(`nothing is guessed: ${name}`, () => {
        const it = mended("s.xml", changed(written3(loopStation().ground), edits), "railplan");
        assert.ok(it.guesses.some((one) => said.test(one)), it.guesses.join("\n"));
        assert.deepEqual([it.changes, it.unfit], [[], ""]);
    });
}

test("a crossing of two lines isn't guessed", () => {
    const [it] = KINDS.filter((one) => one.name === "railML-3-crossing");
    assert.deepEqual(mended("s.xml", it.data, "railplan").guesses,
        ["crossing Kr1: railML 3 doesn't say which of two paths lies to the left, and the switches around don't either"]);
});

test("a crossing that only the topology has isn't lost", () => {
    const [{ data }] = KINDS.filter((one) => one.name === "railML-3-scissors");
    const it = mended("s.xml", changed(data, [[/<crossing [^]*?<\/crossing>/, ""]]), "railplan");
    assert.equal(it.guesses.length, 4);
    assert.match(it.guesses[0],
        /^s\.xml:\d+:1: at the \S+ of net element \S+ lie net elements to which one can't go on, and no switch or/);
});

test("hands aren't exchanged that the file says itself", () => {
    for (const hands of ["along", "radii"]) {
        assert.match(mended("s.xml", KINDS[0].data, "railplan", { hands }).guesses[0],
            /^railML 3 says itself which branch lies left .*: leave --hands out$/);
    }
});

test("what is said of what is written", () => {
    const it = mended("s.xml", KINDS.filter((one) => one.name === "railML-3-scissors")[0].data, "railplan");
    assert.deepEqual(it.changes, ["railML 3.2 is written as railML 2.2: 10 net elements, 4 switches, 1 crossing. railML 3 "
        + "was tried on files of "
        + "our own making alone: look at the drawing"]);
    const silent = mended("s.xml", KINDS.filter((one) => one.name === "railML-3-silent-course")[0].data, "railplan");
    assert.match(silent.doubts[0],
        /^switch \S+ doesn't say by which leg its track goes on: its \w+ one is drawn straight\. Its sides don't/);
    const lost = mended("s.xml", changed(written3(loopStation().ground), [["<signalsIS>", '<signalsIS><signalIS id="x"/>']]),
        "railplan");
    assert.deepEqual(lost.doubts, ["signal x is on no net element that is read: it is left out"]);
});

test("draw names prepare", async () => {
    const [note] = await notesOf(runOver(["draw", "s.xml"], "text 8 Root at 39\n", { "s.xml": textOf(KINDS[0].data) }));
    assert.equal(note.text, "this is railML 3, which isn't read as it is. Export the infrastructure as railML 2, or "
        + "./railplan prepare s.xml NEW.xml "
        + "writes it so, where it says enough. That was tried on files of our own making alone");
});

/** @param {Uint8Array} data @returns {{data: Uint8Array, right: string[]}} a file with all crossings to the left, and which
 * truly aren't */
function toTheLeft(data) {
    const document = read(data), edits = new Edits("s.xml", data);
    const legs = document.tracks().flatMap(points).filter((it) => it.name === "crossing").flatMap((it) =>
        it.named("connection"))
        .filter((it) => it.attributes.get("orientation") === "outgoing" && it.attributes.get("course") === "right");
    edits.replace(legs.map((it) => edits.setting(it, "course", "left")));
    return { data: edits.data, right: legs.map((it) => it.parent?.id ?? "") };
}

test("the hands of crossings that follow from the switches around are the true ones", { skip: !hasProgram }, () => {
    const folders = ["cases/stations", "examples", "cases/exports"].flatMap((folder) => readdirSync(TOP + folder).map((name) => `${folder}/${name}`));
    const files = [...folders.filter((name) => name.endsWith(".xml")).map((name) => readFileSync(TOP + name)),
        ...[...kinds(), ...habits()].map((it) => it.data),
        ...Array.from({ length: 60 }, (_, at) => new Uint8Array(spawnSync(PROGRAM, ["make", String(at * 85)]).stdout))];
    let decided = 0;
    for (const file of files.filter((data) => textOf(data).includes("<crossing ") && printed(data)[0] === "railgraph 1")) {
        const { data, right } = toTheLeft(file), found = handsOfCrossings(read(data)), unclear = found.unclear.map((it) =>
            it.id);
        assert.deepEqual(found.right.map((it) => it.id).sort(), right.filter((id) => !unclear.includes(id)).sort());
        decided += read(data).tracks().flatMap(points).filter((it) => it.name === "crossing"
            && !unclear.includes(it.id)).length;
    }
    assert.ok(decided >= 7, String(decided));
});

/** @param {number} seed @returns {{ground: Ground, isFalling: () => boolean}} two crossovers that cross each other, or a
 * branch that crosses
 * another track, seen from either side, with either path as the crossing's own */
function randomCrossing(seed) {
    const random = randomOf(seed), up = random() < 0.5 ? 1 : -1, ground = new Ground("Kreuzung"), upper = up === 1 ? "upper"
        : "lower";
    const near = ground.track("n", 0, 1000, 0), far = ground.track("f", 0, 1000, 4.5 * up), lower = up === 1 ? "lower"
        : "upper";
    const [west, east] = [0, 1].map(() => Math.floor(300 + 40 * random())), [begun, ended] = [0, 1].map(() => Math.floor(420
        + 40 * random()));
    const own = random() < 0.5, from = own ? near : far, to = own ? far : near, sides =
        /** @type {import("../../cases/real/ground.js").Side[]} */ (own ? [upper, lower] : [lower, upper]);
    // the own path leads from one track to the other, and the other path back
    const path = ground.track("o", west, ended, 2 * up), before = ground.track("w", east, 0, 2.1 * up), behind =
        ground.track("e", 0, begun, 2.2 * up);
    ground.switch(from, west, path, "east", "W1", sides[0]);
    ground.switch(to, ended, path, "west", "W2", sides[1]);
    ground.switch(to, east, before, "east", "W3", sides[1]);
    ground.switch(from, begun, behind, "west", "W4", sides[0]);
    ground.crossing(path, 370, before, behind, "Kr", (own ? 1 : -1) * up < 0);
    return { ground, isFalling: () => random() < 0.5 };
}

test("the hands of crossings in 80 random stations", { skip: !hasProgram }, () => {
    for (let seed = 1; seed <= 80; seed++) {
        const { ground, isFalling } = randomCrossing(seed), it = mended("s.xml", written3(ground, { isFalling }), "railplan");
        assert.deepEqual(it.guesses, [], `seed ${seed}`);
        const { wrong } = judged(`${printed(it.data).join("\n")}\n`, { ...ground.truth(),
            laterals: new Map([...ground.truth().laterals].filter(([, lateral]) => lateral === 0
                || Math.abs(lateral) === 4.5)) });
        assert.deepEqual(wrong, [], `seed ${seed}`);
    }
});

test("a ground that is cut is written with coordinates falling in half of its elements", () => {
    const ground = new Ground("x"), data = textOf(written3(loopStation().ground)), falling =
        [...data.matchAll(/measure="([\d.]+)"[^]*?measure="([\d.]+)"/g)];
    assert.ok(ground && falling.some(([, one, other]) => Number(one) > Number(other)) && falling.some(([, one, other]) =>
        Number(one) < Number(other)));
});

// ---- the desk

/** @param {Uint8Array} bytes what a desk's worker makes of a file, as it hands it on */
const onDesk = (bytes) => structuredClone(offeredOf("s.xml", bytes, "railplan"));

test("a file that is dropped on the desk is offered to be prepared, and judged there", { skip: !hasProgram }, async () => {
    const none = { known: null, renamed: new Map(), made: new Map(), isRebuilt: true }, [{ data }] = KINDS, { data: written, changes, guesses,
        unfit, kept } = onDesk(data);
    assert.deepEqual([changes.length, guesses, unfit], [1, [], ""]);
    assert.equal(await whyUnfit(engine, "s.xml", written, kept ?? none), "");
    const other = changed(written, [[/(<switch id="sw_W7"[^]*?course=")right/, "$1left"]]);
    assert.match(await whyUnfit(engine, "s.xml", other, kept ?? none),
        /^it can't be shown that each switch and crossing has the same legs and sides: sw_/);
    const [{ data: two }] = kinds();
    assert.equal(onDesk(two).kept, null);
});
