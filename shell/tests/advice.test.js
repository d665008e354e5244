/** What is said of an answer that is no fault, and of a drawing's file. */
import assert from "node:assert/strict";
import { test } from "node:test";
import * as advice from "../both/messages/advice.js";
import { notShown } from "../both/messages/not_shown.js";
import { read } from "../both/words.js";
import { edited, hasProgram, printed, runOver, signs } from "./clone.js";

const PICTURED = ["nodes 2", "node 0 m\ufffe 0 0 0.000000", "node 1 b 1 0 5.000000", "edge 0 t\uffff 0 1 0 0 1 0"];

/** @param {string[]} words @param {string[]} said */
function answer(words, said) {
    return { line: read(words), called: "railplan", said };
}

test("an id that XML has no character for", () => {
    const [said] = advice.oddPicture("p.svg", PICTURED);
    assert.match(said.text, /^p.svg is no XML.* the id m<U\+FFFE>, t<U\+FFFF>/);
    assert.deepEqual(advice.oddPicture("", PICTURED), []);
});

test("drawings by their values", () => {
    for (const [order, end, said] of [["height bends diagonal width", "end best", "the best drawing: height 2, bends 4, "
        + "diagonal 3, width 7"],
        ["width bends", "end best", "the best drawing: width 7, bends 4"], ["height bends", "end conflicts 1", ""],
        ["height bends", "end room 0", ""]]) {
        assert.equal(advice.best(["railplan 2", `order ${order}`, "values 2 4 3 7", end, "signals 0"]), said);
    }
    for (const other of [["railplan 2", "order height", "end none"], ["railplan-moved 1", "values 1 2 2 7", "end best"], []]) {
        assert.equal(advice.best(other), "");
    }
    assert.equal(advice.lawful(["2", "4", "3", "7"]).text, "the drawing keeps all seven laws: height 2, bends 4, diagonal 3, "
        + "width 7. Whether a better one exists, only check and recheck say");
});

test("what is certified", () => {
    for (const [said, order, ending, text, command] of [
        ["certified 0", "height", "end none", "the log certifies that no drawing on this grid is lawful", "check"],
        ["certified 0", "height", "end conflicts 0", "all lines are right, and the sheet claims nothing that they could "
            + "certify", "check"],
        ["certified 1", "height", "nodes 2", "the log certifies that the sheet's height is least", "check"],
        ["certified 2", "width height bends", "nodes 2", "the log certifies that the sheet's width and height are least, in "
            + "this order",
            "check"],
        ["certified 1", "height", "nodes 2", "the hinted lines certify that the sheet's height is least", "recheck"]]) {
        const { seen } = runOver([], "", { s: `railplan 2\ngrid 4 8 1\norder ${order}\n${ending}\n` });
        assert.deepEqual(advice.certified(answer([command, "f", "s", "l"], [said]), seen), [{ text }]);
    }
});

test("what is true of a search that stopped", () => {
    const said = (/** @type {string} */ words, /** @type {string[]} */ lines) =>
        advice.stopped(answer(words.split(" "), lines)).text;
    const front = "front f height,width", redraw = "redraw f old s";
    assert.match(said(front, ["pair 1 5", "end conflicts"]),
        /The pairs are all up to the last one; more may follow. Ways on: more/);
    assert.match(said(front, ["end conflicts"]), /No pair is known yet/);
    assert.match(said(redraw, ["values 1 2 3 4", "end conflicts"]), /with fewer moved .* s --conflicts 200000; a smaller grid/);
    assert.match(said(redraw, ["end room"]), /no room for more clauses. No drawing was found, .* Ways on: a smaller/);
    assert.match(said("draw f", ["order height width", "values 1 2 3 4", "end conflicts 0"]),
        /was spent. The drawing is lawful, but a better one may exist. Ways on: .*fewer criteria, .* draw f --order height/);
    assert.match(said("draw f", ["order height width", "values 1 2 3 4", "end conflicts 1"]),
        /none is better in height; one that is better in width may exist/);
});

/** @param {number} count @param {string} [mileage] @returns {string[]} so many nodes one above another */
function stack(count, mileage = "5.000000") {
    return Array.from({ length: count }, (_, at) => `node ${at} n${at} end ${mileage}`);
}

/** @param {number} count @returns {string[]} so many edges one behind another */
function row(count) {
    return [...Array.from({ length: count + 1 }, (_, at) => `node ${at} n${at} end ${at}.000000`),
        ...Array.from({ length: count }, (_, at) => `edge ${at} t ${at} ${at + 1}`)];
}

test("no drawing: rows and columns that are needed", () => {
    const said = (/** @type {string[]} */ graph, /** @type {string[]} */ ...more) =>
        advice.noDrawing(answer(["draw", "f.xml", ...more], []), graph).text;
    assert.deepEqual([advice.tallestStack([...stack(3), ...stack(2, "6.000000")]), advice.tallestStack([])],
        [{ count: 3, mileage: "5.000000" }, { count: 0, mileage: "" }]);
    assert.match(said(stack(11)), /11 ends, switches or crossings are at 5.000000 m .* rows 0 to 10.* --width 40 --height 10$/);
    assert.doesNotMatch(said(stack(9)), /takes rows/);
    assert.match(said(stack(14)), /and a grid has at most rows 0 to 12. Draw a part of the station$/);
    assert.match(said(stack(13)), /--height 12/);
    assert.doesNotMatch(said(row(40)), /one behind another/);
    assert.match(said(row(65), "--least", "2"), /a grid has at most 64. Draw a part of the station$/);
    const signals = advice.noDrawing(answer(["signals", "f.xml"], []), row(65)).text;
    assert.match(signals, /Draw a part of the station, or its tracks without any signals: railplan draw f.xml$/);
    assert.match(said(row(41)), /rows 0 to 8. 41 pieces of track lie .*, which takes 41 columns. A larger grid may do: .* 12$/);
});

test("an explanation says of which grid it is", () => {
    const said = (/** @type {string[]} */ graph, /** @type {string[]} */ ...more) =>
        advice.larger(answer(["explain", "a f.xml", ...more], []), graph).text;
    const larger = "A larger grid may do: railplan draw 'a f.xml' --width 64 --height 12";
    assert.equal(said(row(40)), `this is of the grid that was asked for, columns 0 to 40 and rows 0 to 8: it need be no fault `
        + `of the file. ${larger}. Where no drawing lies there either, look at the places that are named here`);
    assert.equal(said(row(41)),
        `the pieces of track that lie one behind another take 41 columns, and this grid ends at column 40. ${larger}`);
    assert.match(said(row(40), "--least", "2"), /a grid has at most 64. A smaller --least takes fewer$/);
    assert.match(said(row(65), "--least", "2"), /at most 64. Draw a part of the station$/);
    assert.match(said(row(5), "--width", "64", "--height", "12"), /no grid is larger/);
});

// ---- two mileages of what is joined

const SHIFTED = signs("cases/stations/shifted.xml"), STATION = signs("examples/station.xml"),
    CROSSED = signs("cases/stations/crossed.xml");
const LOOP = ["absPos=\"12520\"><connection id=\"track3.west\"", "absPos=\"19000\"><connection id=\"track3.west\""];
const BEGIN = ["absPos=\"12310\"><connection id=\"track4.west\"", "absPos=\"12300\"><connection id=\"track4.west\""];
const END = ["absPos=\"12402.5\"><connection id=\"track4.east\"", "absPos=\"12402.6\"><connection id=\"track4.east\""];
const TRACKS = "joined at two mileages: the end of track a (km 0.600) and the begin of track b (km 0.610); drawn at the first";
const SWITCH = "joined at two mileages: switch W3 (km 12.520) and the begin of track track3 (km 19.000); drawn at the first";
const FAR = ". Unless a line begins there that has kilometres of its own, a track may be counted wrongly, and its branches "
    + "drawn on the wrong side";

/** @param {string} text @returns {string} the station with its tracks in the other order */
function turned(text) {
    const [before, ...rest] = text.split(/(<track .*?<\/track>)/s), after = rest.pop();
    return [before, ...rest.reverse(), after].join("");
}

/** @param {string} text @param {string} [command] @returns {string[]} what is said of two mileages */
function twoMileages(text, command = "draw") {
    return notShown(new Uint8Array(Buffer.from(text, "latin1")), read([command, "f"]),
        []).filter((it) => it.startsWith("joined at"));
}

test("two tracks, a switch or a crossing at two mileages", () => {
    for (const command of ["draw", "signals", "redraw"]) {
        assert.deepEqual(twoMileages(SHIFTED, command), [TRACKS]);
    }
    assert.deepEqual(twoMileages(turned(SHIFTED)),
        ["joined at two mileages: the begin of track b (km 0.610) and the end of track a (km 0.600); drawn at the first"]);
    const station = edited(STATION, [LOOP]);
    assert.deepEqual([twoMileages(station), twoMileages(turned(station))], [[SWITCH + FAR], [SWITCH + FAR]]);
    assert.deepEqual(twoMileages(edited(CROSSED, [["absPos=\"200\"><connection id=\"sa\"", "absPos=\"230\"><connection "
        + "id=\"sa\""]])),
        ["joined at two mileages: crossing k (km 0.200) and the begin of track s (km 0.230); drawn at the first"]);
});

test("one mileage", () => {
    for (const same of ["600", "600.000", " +600. "]) {
        assert.deepEqual(twoMileages(edited(SHIFTED, [["\"610\"", `"${same}"`]])), []);
    }
    for (const text of [STATION, CROSSED, signs("cases/stations/joints.xml"), edited(SHIFTED, [[" absPos=\"610\"", ""]]),
        "<railml>",
        edited(SHIFTED, [["pos=\"600\"", "pos=\"600\" absPos=\"610\""]])]) {
        assert.deepEqual(twoMileages(text), []);
    }
});

test("the two that are furthest apart, and how many more", () => {
    const counted = edited(STATION, [[" absPos=\"13090\"><connection id=\"track3.east\"", "><connection id=\"track3.east\""],
        LOOP]);
    assert.deepEqual(twoMileages(counted), [`${SWITCH}. 1 more is no further apart${FAR}`]);
    assert.deepEqual(twoMileages(edited(STATION, [BEGIN, LOOP])), [`${SWITCH}. 1 more is no further apart${FAR}`]);
    assert.deepEqual(twoMileages(turned(edited(STATION, [BEGIN, END, LOOP]))), [`${SWITCH}. 2 more are no further `
        + `apart${FAR}`]);
    assert.deepEqual(twoMileages(edited(STATION, [BEGIN, END])), ["joined at two mileages: switch W1 (km 12.310) and the begin "
        + "of track track4 (km 12.300); drawn at the first. 1 more is no further apart"]);
    assert.match(twoMileages(edited(SHIFTED, [["\"610\"", "\"-0\""]]))[0],
        /\(km 0.600\) and the begin of track b \(km 0.000\)/);
    assert.match(twoMileages(edited(SHIFTED, [["\"610\"", "\"-12.5\""]]))[0], /and the begin of track b \(km -0.0125\)/);
});

test("the program draws at the first", { skip: !hasProgram }, () => {
    const loop = edited(STATION, [LOOP]);
    for (const [text, node, other] of [[SHIFTED, "ae joint 600.000000", " 610.000000"], [turned(SHIFTED),
        "bb joint 610.000000", " 600.000000"],
        [loop, "W3 switch east upper 12520.000000", " 19000.000000"], [turned(loop), "W3 switch east upper 12520.000000",
            " 19000.000000"]]) {
        const graph = printed(text);
        assert.ok(graph.some((it) => it.endsWith(` ${node}`)) && !graph.join("\n").includes(other), graph.join("\n"));
    }
});
