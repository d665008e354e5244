/** What is said of a file that leaves something open or says it twice. */
import assert from "node:assert/strict";
import { test } from "node:test";
import { notShown } from "../both/messages/not_shown.js";
import { unrelatedOf } from "../both/unrelated.js";
import { read } from "../both/words.js";

/** @param {string} id @param {string} begin @param {string} end @param {string} [more] @param {string} [ends] */
function track(id, begin, end, more = "", ends = "<openEnd/>") {
    return `<track id="${id}"><trackTopology><trackBegin id="${id}b" pos="0" absPos="${begin}">${ends}</trackBegin><trackEnd `
        + `id="${id}e" pos="1000" absPos="${end}">${ends}</trackEnd></trackTopology>${more}</track>`;
}

/** @param {string} text @param {string} [command] @param {string} [more] */
function said(text, command = "draw", more = "") {
    const data = new TextEncoder().encode(`<infrastructure><tracks>${text}</tracks>${more}</infrastructure>`);
    return notShown(data, read([command, "f"]), []);
}

test("signals without absPos on a track that falls", () => {
    const signals = "<ocsElements><signals><signal id=\"s\" pos=\"250\"/><signal id=\"t\" pos=\"300\" "
        + "absPos=\"1700\"/></signals></ocsElements>";
    assert.deepEqual(said(track("m", "2000", "1000", signals), "signals"), ["the mileage of track m falls, and 1 signal has no "
        + "absPos: counted as if it rose, they may lie on another piece. Write absPos=\"1750\" at signal s"]);
    assert.deepEqual(said(track("m", "1000", "2000", signals), "signals"), []);
});

test("tracks that nothing joins", () => {
    assert.deepEqual(said(track("m", "0", "1000") + track("n", "0", "1000")),
        ["nothing joins track n to track m, so nothing says whether it lies above or below it"]);
    assert.deepEqual(said(track("m", "0", "1000") + track("n", "1000", "2000")), []);
});

/** @param {string} id @param {number} at @param {string} begin @param {string} end @returns {string} a track of 300 m */
function stub(id, at, begin, end) {
    return track(id, String(at), String(at + 300)).replace("<openEnd/>", begin).replace("<openEnd/>", end)
        .replace("1000", "300");
}

/** @param {string} id @param {number} at @param {string} way @param {string} course */
function point(id, at, way, course) {
    return `<switch id="${id}" pos="${at}" absPos="${at}"><connection id="${id}c" ref="${id}j" orientation="${way}" `
        + `course="${course}"/></switch>`;
}

test("tracks that are joined, and of which nothing says which lies above", () => {
    const stop = "<bufferStop/>", joined = (/** @type {string} */ id) => `<connection id="${id}j" ref="${id}c"/>`;
    const of = (/** @type {string} */ other, place = "", from = 500) => {
        const points = point("w", 300, "outgoing", "left") + point("v", 800, "incoming", other);
        return said(track("m", "0", "1000").replace("</trackTopology>", `<connections>${points}</connections></trackTopology>`)
            + stub("a", 300, place + joined("w"), place + stop) + stub("b", from, place + stop, place + joined("v")))
            .filter((it) => /above or below/.test(it));
    };
    assert.deepEqual(of("right"), ["nothing says whether track b lies above or below track a"]);
    assert.deepEqual(of("right", "<geoCoord coord=\"1 2\"/>"), ["nothing says whether track b lies above or below track a. The "
        + "file has coordinates (geoCoord) there: they may say it, and aren't read for this"]);
    // on the other side of their track, or one behind the other
    assert.deepEqual([...of("left"), ...of("right", "", 600)], []);
});

test("what lies above what follows over a piece between, and past a node", () => {
    const piece = (/** @type {string} */ track, /** @type {string} */ west, /** @type {string} */ east, /** @type {number} */ from,
        /** @type {number} */ to) => ({ track, west, east, from, to });
    const past = [piece("a", "p", "s", 0, 30), piece("x", "p", "q", 0, 10), piece("y", "q", "r", 10, 20)];
    assert.deepEqual([unrelatedOf(past, [[1, 0]]), unrelatedOf(past, [])], [[], [[0, 1], [0, 2]]]);
    const three = [piece("a", "p", "q", 0, 9), piece("b", "p", "r", 0, 8), piece("c", "p", "s", 0, 7)];
    assert.deepEqual([unrelatedOf(three, [[0, 1], [1, 2]]), unrelatedOf(three, [[0, 1]])], [[], [[0, 2], [1, 2]]]);
    // a station of its own is said by another note
    assert.deepEqual(unrelatedOf([piece("a", "p", "q", 0, 9), piece("b", "r", "s", 0, 8)], []), []);
});

test("ends that name one operational point where one track goes on as the other", () => {
    const ends = "<macroscopicNode id=\"x\" ocpRef=\"o\"/>";
    assert.match(said(track("m", "0", "1000", "", ends) + track("n", "1000", "2000", "", ends))[0],
        /^the end of track m and the begin of track n name one operational point, and/);
    assert.deepEqual(said(track("m", "0", "1000", "", ends) + track("n", "5", "1000", "", ends)).filter((it) =>
        it.includes("operational")), []);
});

test("offsets, and elements beside tracks", () => {
    const text = track("m", "0", "1000").replace("absPos=\"1000\"", "absPos=\"1000\" absPosOffset=\"50\"");
    assert.deepEqual(said(text, "draw", "<operationControlPoints><ocp id=\"a\"/><ocp id=\"b\"/></operationControlPoints>"),
        ["not drawn: 2 ocp",
        "absPosOffset isn't read: add it to absPos. Write absPos=\"1050\" at the end of track m, and leave "
            + "absPosOffset out"]);
});

test("all that a file has beside its tracks is counted", () => {
    const beside = ["<operationControlPoints><ocp id=\"a\"/><ocp id=\"b\"/></operationControlPoints>",
        "<speedProfiles><speedProfile id=\"p\"/></speedProfiles>", "<infraAttrGroups><infraAttrGroup id=\"g\"/></infraAttrGroups>",
        "<trackGroups><line id=\"l\"/></trackGroups>", "<states/>"].join("");
    const of = (/** @type {string} */ text) => notShown(new TextEncoder().encode(text), read(["draw", "f"]), []);
    const inside = `<infrastructure><tracks>${track("m", "0", "1000")}</tracks>${beside}</infrastructure>`;
    const counted = "1 infraAttrGroup, 1 line, 2 ocp, 1 speedProfile, 1 states";
    assert.deepEqual(of(inside), [`not drawn: ${counted}`]);
    assert.deepEqual(of(`<railml><metadata><x/></metadata>${inside}<timetable><trains><train id="t"/></trains></timetable></railml>`),
        [`not drawn: ${counted}, 1 timetable`]);
});

test("kilometres that jump on one of several tracks", () => {
    const changes = "<mileageChanges><mileageChange id=\"x\" pos=\"AT\" absPos=\"9\"/></mileageChanges></trackTopology>";
    const of = (/** @type {string} */ at) => said(track("m", "0", "1000") + track("n", "1000",
        "2000").replace("</trackTopology>",
        changes.replace("AT", at))).filter((it) => it.includes("jump"));
    assert.deepEqual(of("500"), ["the kilometres of track n jump (mileageChange). Against other tracks these may be in "
        + "another order than on "
        + "the ground: the end of track n"]);
    assert.deepEqual(of("0"), []);
});

test("mileages in kilometres beside positions in metres", () => {
    assert.deepEqual(said(track("m", "1", "2")), ["by absPos all tracks together are 1 m long, and by pos 1000 m. Both are "
        + "read as metres: "
        + "is one of them in kilometres?"]);
    assert.deepEqual(said(track("m", "0", "1400")), []);
});

test("a crossing of a type that isn't known", () => {
    const of = (/** @type {string} */ type) => said(track("m", "0", "1000").replace("</trackTopology>",
        `<connections><crossing id="k" pos="5"${type}/></connections></trackTopology>`));
    assert.deepEqual(of(" type=\"singleSwitchCrossing\""),
        ["k is a crossing of the type singleSwitchCrossing; it is drawn as a plain one, without slips if it has any"]);
    assert.deepEqual([...of(" type=\"simpleCrossing\""), ...of("")], []);
});
