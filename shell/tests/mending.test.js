/** What prepare mends: each kind by itself, twice, and what the judge of it sees. */
import assert from "node:assert/strict";
import { test } from "node:test";
import { habits } from "../../cases/real/habits.js";
import { kinds } from "../../cases/real/kinds.js";
import { kinds3 } from "../../cases/real/kinds3.js";
import { judge } from "../both/mending/judge.js";
import { HANDS, mended } from "../both/prepare.js";
import { KINDS, OWN_OPTIONS } from "../both/words.js";

const FILES = new Map([...kinds(), ...habits(), ...kinds3()].map((it) => [it.name, it]));
/** @type {[string, string, RegExp][]} a file that has each kind of change, and what is said of it */
const CHANGES = [
    ["encoding", "windows-1252", /^windows-1252 is written as UTF-8$/],
    ["doctype", "doctype", /^s\.xml:2:1: the DOCTYPE is taken out/],
    ["railml3", "railML-3-loop", /^railML 3\.2 is written as railML 2\.2: 13 net elements, 7 switches\. railML 3 was tried on files/],
    ["prefix", "two-namespaces-and-elements", /^the prefix own: is given to 6 elements of the namespace http:\/\/www\.producer\.com\/ext/],
    ["prefix", "prefix", /^the prefix rail: is taken off \d+ elements$/],
    ["numbers", "exponents", /absPos="1\.20000000e\+4" of the begin of track tr_1 is written as 12000$/],
    ["offsets", "absPosOffset", /absPos="12450" is written at switch sw_4, with its absPosOffset added$/],
    ["ids", "ids-with-blanks", /the id "sw 4" is written as sw_4$/],
    ["ids", "ids-alike-without-blanks", /the id "tr 1" is written as /],
    ["refs", "ref-names-switch", /ref="c_5" is written at the connection tr_3_cb: it named switch sw_4/],
    ["refs", "ref-names-end", /ref="tr_3_cb" is written at the connection c_5: it named the begin of track tr_3/],
    ["ends", "end-says-nothing", /the begin of track tr_1 says nothing of how the track ends: it is written as an open end$/],
    ["ends", "neighbours-left-out", /the end of track tr_1 refers to tr_line_2_cb, which isn't in the file: it is written as an open end$/],
    ["legs", "three-way-one", /the three-way switch sw_W1 is written as two/],
    ["legs", "switch-with-two-legs", /switch w1 has both its legs as connections: c1, by which the track goes straight on/],
    ["outside", "behind-the-end", /switch sw_11 lies 0\.001 m outside its track: it is moved to pos="1399\.498"/],
    ["mileages", "open-begins", /absPos="12150" is written at the begin of track tr_3, as switch sw_4 has/],
    ["mileages", "signals-falling", /absPos="12140" is written at signal signal_tr_2_\d: the mileage of track tr_2 falls/],
    ["joins", "cut-ladder", /tracks tr_1\.1, tr_1\.2, .* are cut at switches: they are one track now, tr_1\.1$/],
    ["joins", "cut-pieces-turned", /counted the other way for it$/],
];

/** @param {string} name @param {import("../both/prepare.js").Asked} [asked] */
function mendedFile(name, asked) {
    const file = FILES.get(name);
    assert.ok(file, name);
    return { file, it: mended("s.xml", file.data, "railplan", asked) };
}

test("each kind of change is made, and left out by its word", () => {
    assert.deepEqual([...new Set(CHANGES.map(([word]) => word))], KINDS.map(({ word }) => word));
    for (const [word, name, said] of CHANGES) {
        const { it } = mendedFile(name), { it: without } = mendedFile(name, { without: [word] });
        assert.ok(it.changes.some((text) => said.test(text)), `${name}: ${it.changes.join("\n")}`);
        assert.ok(!without.changes.some((text) => said.test(text)), `${name} without ${word}`);
    }
});

test("mended again nothing is changed, and a sound file stays to the byte", () => {
    for (const { name, data, today } of FILES.values()) {
        const it = mended("s.xml", data, "railplan"), again = mended("s.xml", it.data, "railplan");
        assert.deepEqual([again.changes, Buffer.from(again.data).equals(it.data)], [[], true], name);
        assert.ok(it.changes.length || Buffer.from(it.data).equals(data), name);
        assert.ok(today === "refused" || !it.changes.length || ["absPosOffset", "signal"].some((word) => it.changes[0].includes(word)),
            name);
    }
});

test("what would have to be guessed is said, and not done", () => {
    for (const [name, said] of [["doctype-entities", /entities, which are texts|entities, which stand for texts/],
        ["thousands", /may be 12 or 12000/],
        ["branch-left-out", /the connection c_20 refers to tr_18_cb/], ["no-mileage", /has no absPos, and is joined to no point/]]) {
        assert.match(mendedFile(String(name)).it.guesses[0], /** @type {RegExp} */ (said));
    }
    assert.match(mendedFile("triangle", { isOneKm: true }).it.guesses[0], /leads back to where it comes from/);
});

test("an end isn't opened where another one may be meant", () => {
    const { file } = mendedFile("halves"), text = new TextDecoder().decode(file.data);
    const broken = text.replace('ref="tr_2_cb"', 'ref="tr_22_cb"').replace('ref="tr_1_ce"', 'ref="tr_11_ce"');
    assert.notEqual(broken, text);
    const it = mended("s.xml", new TextEncoder().encode(broken), "railplan");
    assert.deepEqual([it.changes, it.guesses.length], [[], 2]);
    const one = mended("s.xml", new TextEncoder().encode(text.replace('ref="tr_2_cb"', 'ref="tr_22_cb"')), "railplan");
    assert.deepEqual([one.changes, one.guesses.length], [[], 1]);
});

test("one mileage is written only when it is asked for, and hands are exchanged so", () => {
    for (const [name, asked, said] of /** @type {[string, import("../both/prepare.js").Asked, RegExp][]} */ ([
        ["branch-line-less-turned", { isOneKm: true },
            /track tr_2 is counted with track tr_1: from 21600 to 20800, not from 3000.000 to 3800.000/],
        ["turned-silent", { isOneKm: true }, /track tr_2 is counted with track tr_\d: from 2000 to 1000, not from 2000.000 to 3000.000/],
        ["courses-along-the-track", { hands: "along" }, /the hands of 3 incoming switches are exchanged/],
        ["curve-inside-wide", { hands: "radii" }, /the hand of switch sw_W1 is exchanged/]])) {
        assert.deepEqual(mendedFile(name).it.changes, []);
        assert.match(mendedFile(name, asked).it.changes[0], said);
    }
});

test("the words of --without and --hands are those of the table", () => {
    assert.deepEqual(OWN_OPTIONS.get("--without")?.choices, KINDS.map(({ word }) => word));
    assert.deepEqual(OWN_OPTIONS.get("--hands")?.choices, [...HANDS.keys()]);
});

// ---- the judge

/** what the program prints of three-way-one as it is mended */
const GRAPH = ["railgraph 1", "nodes 6", "node 0 tr_1_b end 0.000000", "node 1 tr_1_e end 800.000000",
    "node 2 sw_W1 switch east upper 300.000000",
    "node 3 sw_W1.2 switch east lower 300.500000", "node 4 tr_2_e end 780.000000", "node 5 tr_3_e end 780.000000", "edges 5",
        "edge 0 tr_1 0 2",
    "edge 1 tr_1 2 3", "edge 2 tr_1 3 1", "edge 3 tr_2 2 4", "edge 4 tr_3 3 5", "above 2 4", "above 3 1", "above 3 2", "above 3 4", ""]
        .join("\n");

test("the judge sees another side, another leg, another place, and a switch that is lost", async () => {
    const { it } = mendedFile("three-way-one");
    for (const [old, now, said] of [["", "", ""],
        ["above 3 1", "above 1 3", "sw_W1 has tr_1_b, tr_2_e, tr_1_e, tr_3_e around it in the file, and"],
        ["edge 3 tr_2 2 4\nedge 4 tr_3 3 5", "edge 3 tr_2 2 5\nedge 4 tr_3 3 4", "sw_W1 has "],
            ["upper 300.0", "upper 301.0", "sw_W1 would be at another mileage, 301"],
        ["node 2 sw_W1 ", "node 2 sw_W9 ", "and isn't there in what would be written"]]) {
        const output = new TextEncoder().encode(GRAPH.replace(old, now));
        const engine = /** @type {any} */ ({ run: async () => ({ status: 0, output, wasStopped: false }) });
        const judgement = await judge(engine, it);
        assert.equal(judgement?.fault, "");
        assert.ok(said ? judgement?.reason.includes(said) : judgement?.reason === "", judgement?.reason);
    }
});
