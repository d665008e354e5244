/** A fault of sides names the track that is counted wrongly, and what is said of refs, legs and slips leads on: who does it has
 * a station. */
import assert from "node:assert/strict";
import { test } from "node:test";
import { notesOf } from "../both/messages/telling.js";
import { endOf, points, read } from "../both/railml.js";
import { edited, hasProgram, printed, runOver } from "./clone.js";

/**
 * A track: its begin and end with their attributes and what is in them, and its points.
 * @param {string} id @param {[string, string]} begin @param {[string, string]} end @param {string} [inside]
 */
function track(id, begin, end, inside = "") {
    return `<track id="${id}"><trackTopology><trackBegin id="${id}.b" ${begin[0]}>${begin[1]}</trackBegin><trackEnd `
        + `id="${id}.e" ${end[0]}>${end[1]}</trackEnd><connections>${inside}</connections></trackTopology></track>`;
}

/** @param {string} id @param {string} at @param {string} ref @param {string} way @param {string} [course] */
function branch(id, at, ref, way, course = "left") {
    return `<switch id="${id}" ${at}><connection id="${id}c" ref="${ref}" orientation="${way}" course="${course}"/></switch>`;
}

/** @param {string} id @param {string} ref */
function joined(id, ref) {
    return `<connection id="${id}" ref="${ref}"/>`;
}

/** @param {...string} tracks */
function station(...tracks) {
    return `<infrastructure>\n<tracks>\n${tracks.join("\n")}\n</tracks></infrastructure>`;
}

const OPEN = "<openEnd/>", at = (/** @type {number} */ pos, absPos = pos) => `pos="${pos}" absPos="${absPos}"`;
const MAIN = track("m", [at(0), OPEN], [at(1000), OPEN], branch("w", at(300), "sa", "outgoing") + branch("v", at(700), "sb",
    "incoming", "right"));

/** files whose kilometres contradict one another: the fault's node, and a piece of what is said */
const WRONG = /** @type {[string, string, string][]} */ ([
    [station(MAIN, track("s", [at(0), joined("sa", "wc")], [at(400), joined("sb", "vc")], branch("u", at(150), "ta",
        "outgoing")),
        track("t", [at(0, 450), joined("ta", "uc")], [at(100, 550), OPEN])), "w",
    "The kilometres of track s contradict those of its neighbours: the begin of track s is at 0 m, and switch w, to which it "
        + "is joined, at 300 m. One file has one mileage: write absPos=\"300\" at the begin of track s, absPos=\"450\" at "
        + "switch u, absPos=\"700\" at the end of track s"],
]);

/** @param {string} text @param {string} node */
async function said(text, node) {
    return (await notesOf(runOver(["graph", "s.xml"], `graph 4 SideMismatch ${node}\n`, { "s.xml": text })))[0].text;
}

/** @param {string} text @param {string} sentence @returns {string} the file with each absPos that the sentence says */
function mended(text, sentence) {
    const tracks = read(new TextEncoder().encode(text)).tracks();
    return [...sentence.matchAll(/absPos="([^"]+)" at (?:the (begin|end) of track (\w+)|switch (\w+))/g)].reduce((so, [,
        absPos, which, id, point]) => {
        const it = which ? tracks.map((one) => (one.id === id ? endOf(one, which === "begin" ? "trackBegin" : "trackEnd")
            : null)).find(Boolean)
            : tracks.flatMap(points).find((other) => other.id === point);
        return so.replace(new RegExp(`(<\\w+ id="${it?.id}" pos="[^"]*")( absPos="[^"]*")?`), `$1 absPos="${absPos}"`);
    }, text);
}

test("the track whose kilometres contradict its neighbours' is named, and no branch is turned", async () => {
    for (const [text, node, piece] of WRONG) {
        const sentence = await said(text, node);
        assert.ok(sentence.includes(piece), sentence);
        assert.doesNotMatch(sentence, /orientation|incoming|outgoing/);
    }
});

test("who writes what is said has a station", { skip: !hasProgram }, async () => {
    for (const [text, node] of WRONG) {
        assert.equal(printed(text).at(-1), `graph 4 SideMismatch ${node}`);
        assert.equal(printed(mended(text, await said(text, node)))[0], "railgraph 1");
    }
});

/** files where orientations or kilometres are wrong: the fault's node, a piece of what is said, and what isn't said */
const EITHER = /** @type {[string, string, RegExp, RegExp][]} */ ([
    // a stub whose kilometres are right, or whose end isn't written
    ...["pos=\"200\"", at(200, 500)].map((end) => [station(track("m", [at(0), OPEN], [at(1000), OPEN],
        branch("w", at(300), "sa", "incoming")), track("s", [at(0, 300), joined("sa", "wc")], [end, OPEN])), "w",
    new RegExp("hasn't\\. The kilometres of track s contradict those of its neighbours: .* falls from begin to end.* See "
        + "which way they go on the ground: where those of track s alone are wrong, or of another line, write absPos=.* Only "
        + "where all kilometres are right is it the orientation of switch w\\. Do the kilometres of track m rise .* lead "
        + "towards greater kilometres of track m, .* Where both are so write orientation=\"outgoing\" in place of incoming at "
        + "switch w$"),
    /--one-km|No orientation/]),
    // sidings that are counted from 0: no orientation is the cause
    [station(track("m", [at(0, 2000), OPEN], [at(1000, 3000), OPEN], branch("w", at(300, 2300), "sa", "outgoing")
        + branch("v", at(700, 2700), "ta", "outgoing", "right")), track("s", [at(0), joined("sa", "wc")], [at(200), OPEN]),
    track("t", [at(0), joined("ta", "vc")], [at(200), OPEN])), "w",
    new RegExp("hasn't\\. The kilometres of track s contradict those of its neighbours: the begin of track s is at 0 m, and "
        + "switch w, to which it is joined, at 2300 m\\. So do those of track t\\. No orientation that is turned alone has all "
        + "of them fit\\. Where all orientations are right on the ground, \\S+ prepare s.xml NEW.xml --one-km counts"),
    /orientation="/],
    // one mileage on each of two tracks: either may be the one that is read the wrong way
    [station(track("m", [at(0, 4000), OPEN], ["pos=\"3000\"", OPEN], branch("v", "pos=\"255\"", "sb", "outgoing")),
        track("s", [at(0, 1600), OPEN], ["pos=\"2145\"", joined("sb", "vc")])), "v",
    /kilometres of track \w contradict those of track \w: .*the file can't say which: .*write absPos="3745" at switch v/,
    /orientation="|rises and falls/],
    // a second track that falls and is counted up
    [station(track("m", [at(0), OPEN], [at(1000), OPEN], branch("w", at(300), "sa", "outgoing") + branch("v", at(700), "tb",
        "incoming", "right")), track("n", [at(0, 1000), OPEN], ["pos=\"1000\"", OPEN], branch("x", "pos=\"400\"", "ta",
        "incoming", "right") + branch("y", "pos=\"600\"", "sb", "outgoing")),
    track("s", [at(0, 300), joined("sa", "wc")], ["pos=\"100\"", joined("sb", "yc")]),
    track("t", [at(0, 600), joined("ta", "xc")], ["pos=\"100\"", joined("tb", "vc")])), "v",
    new RegExp("hasn't\\. The kilometres of track n contradict those of its neighbours: .*write absPos=\"600\" at switch x, "
        + "absPos=\"400\" at switch y, absPos=\"0\" at the end of track n"), /orientation="/],
    // a track that falls and is counted up, its switch near its begin
    [station(track("m", [at(0), OPEN], [at(1000), OPEN], branch("w", at(400), "sa", "outgoing")),
        track("n", [at(0, 1420), OPEN], ["pos=\"900\"", OPEN], branch("v", at(20, 1440), "sb", "outgoing")
            + branch("u", "pos=\"300\"", "ta", "outgoing")),
        track("s", [at(0, 400), joined("sa", "wc")], [at(1000, 1400), joined("sb", "vc")]),
        track("t", [at(0, 1720), joined("ta", "uc")], ["pos=\"100\"", OPEN])), "v",
    /The kilometres of track n contradict .*\. So do those of track t\. No orientation that is turned alone .* --one-km/,
    /absPos=|orientation="/],
    // half a metre apart, the wrong way round
    [station(track("m", [at(0), OPEN], [at(1000), OPEN], branch("w", at(300.5), "sa", "outgoing")),
        track("n", [at(0), OPEN], [at(1000), OPEN], branch("v", at(300), "sb", "incoming")),
        track("s", [at(0, 300.5), joined("sa", "wc")], [at(0, 300), joined("sb", "vc")])), "w",
    /look which of the two lies towards smaller kilometres, and write the smaller mileage there/, /orientation="/],
    // a loop that is longer than what it goes round: the track that hangs on it is right
    [station(MAIN, track("s", [at(0, 300), joined("sa", "wc")], ["pos=\"412\"", joined("sb", "vc")], branch("u", "pos=\"405\"",
        "ta", "outgoing")), track("t", [at(0, 695), joined("ta", "uc")], ["pos=\"100\"", OPEN])), "v",
    /kilometres of track s contradict .*: along it switch u, at 705 m, comes before the end of track s, at 700 m\. /,
    /kilometres of track t/],
    // a crossing
    [station(track("m", [at(0), OPEN], [at(1000), OPEN], `<crossing id="k" ${at(500)}><connection id="k1" ref="he" `
        + `orientation="outgoing" course="left"/><connection id="k2" ref="ga" orientation="incoming" `
        + `course="right"/></crossing>`),
    track("h", [at(0, 400), OPEN], [at(100, 500), joined("he", "k1")]), track("g", [at(0, 500), joined("ga", "k2")],
        [at(100, 600), OPEN])), "k", /are exchanged, or the kilometres of track m, h or g are wrong/, /[Ww]rite/],
]);

test("where the file can't say whether an orientation or kilometres are wrong it is asked", async () => {
    for (const [text, node, piece, other] of EITHER) {
        const sentence = await said(text, node);
        assert.match(sentence, piece);
        assert.doesNotMatch(sentence, other);
        if (hasProgram) {
            assert.equal(printed(text).at(-1), `graph 4 SideMismatch ${node}`);
        }
    }
});

test("an orientation is turned where that alone has all fit", async () => {
    const right = { w1: "outgoing", w2: "incoming", v1: "incoming", v2: "outgoing" };
    const between = (/** @type {Record<string, string>} */ way) => station(track("m", [at(0), OPEN], [at(1000), OPEN],
        branch("w1", at(300), "a1", way.w1) + branch("w2", at(700), "b2", way.w2, "right")),
    track("n", [at(0), OPEN], [at(1000), OPEN], branch("v1", at(400), "a2", way.v1)
        + branch("v2", at(600), "b1", way.v2, "right")),
    track("s1", [at(0, 300), joined("a1", "w1c")], [at(100, 400), joined("a2", "v1c")]), track("s2", [at(0, 600), joined("b1",
        "v2c")], [at(100, 700), joined("b2", "w2c")]));
    for (const [node, way] of Object.entries(right)) {
        const wrong = way === "outgoing" ? "incoming" : "outgoing";
        assert.ok((await said(between({ ...right, [node]: wrong }), node)).includes(
            "Where it isn't, one orientation is wrong, and one alone has all tracks and kilometres fit when it is turned: "
            + `write orientation="${way}" in place of ${wrong} at switch ${node}`));
    }
    const loop = station(MAIN.replace("outgoing", "incoming"), track("s", [at(0, 300), joined("sa", "wc")], [at(400, 700),
        joined("sb", "vc")]));
    assert.match(await said(loop, "w"), /write orientation="outgoing" in place of incoming at switch w/);
});

/** files whose refs, legs or places are wrong: the fault's line, a piece of what is said, and what isn't said */
const REFS = /** @type {[string, string, RegExp, RegExp][]} */ ([
    [station(MAIN.replace("ref=\"sb\"", "ref=\"sa\""), track("s", [at(0, 300), joined("sa", "wc")], [at(400, 700), joined("sb",
        "vc")])), "topology 8 NotMutual at PLACE vc sa",
    /vc is the odd one. Did you mean ref="sb", which refers to it\?$/, /[Ww]rite/],
    [station(MAIN.replace("ref=\"sb\"", "ref=\"sc\""), track("s", [at(0, 300), joined("sa", "wc")], [at(400, 700), OPEN])),
        "topology 7 UnknownRef at PLACE vc", /Was its track left out of the export\? .*<openEnd/, /Did you mean/],
    [station(track("m", [at(0), OPEN], [at(1000), joined("me", "za")], "<switch id=\"w\" pos=\"300\" "
        + "trackContinueCourse=\"right\"><connection id=\"vc\" ref=\"ba\" course=\"straight\" orientation=\"outgoing\"/>"
        + "<connection id=\"d\" ref=\"sa\" "
        + "course=\"left\" orientation=\"outgoing\"/></switch>")), "topology 10 EndKind at SWITCH w",
    /A three-way switch is written as two switches/, /Move/],
    [station(track("m", [at(0), OPEN], ["pos=\"1000\"", OPEN], branch("u", "pos=\"999.6\"", "sa", "outgoing")
        + branch("v", "pos=\"1000.001\"", "ta", "outgoing"))), "topology 13 OutsideTrack at LAST v",
    /Write pos="999.8", half-way to the next place, and move absPos as far/, /half a metre/],
]);

test("a ref, a leg or a place is changed only where that can't be wrong", async () => {
    for (const [text, line, piece, other] of REFS) {
        const fault = line.replace("PLACE", String(text.indexOf("<connection id=\"vc\"")))
            .replace("SWITCH", String(text.indexOf("<switch"))).replace("LAST", String(text.lastIndexOf("<switch")));
        const [note] = await notesOf(runOver(["graph", "s.xml"], `${fault}\n`, { "s.xml": text }));
        assert.match(note.text, piece);
        assert.doesNotMatch(note.text, other);
    }
});

/** files with another fault: the program's line, the edits that the sentence asks for, and a piece of it */
const OTHERS = /** @type {[string, string, string[][], string][]} */ ([
    [station(track("m", [at(0), OPEN], [at(300), OPEN], "<switch id=\"w\" pos=\"300\" absPos=\"300\"><connection id=\"c\" "
        + "ref=\"ba\" course=\"straight\" orientation=\"outgoing\"/><connection id=\"d\" ref=\"sa\" course=\"left\" "
        + "orientation=\"outgoing\"/></switch>"),
    track("b", [at(0, 300), joined("ba", "c")], [at(500, 800), OPEN]), track("s", [at(0, 300), joined("sa", "d")], [at(500,
        800), OPEN])),
    "topology 10 EndKind", [["<connection id=\"c\" ref=\"ba\" course=\"straight\" orientation=\"outgoing\"/>", ""],
        [`absPos="300">${OPEN}`, `absPos="300">${joined("c", "ba")}`], ["<switch id=\"w\" pos=\"300\" absPos=\"300\"",
            "<switch id=\"w\" pos=\"299.5\" absPos=\"299.5\""]],
    "has both its legs as connections, and only the branch d is one: its track goes on through the switch. Move the connection "
        + "c into the end of track m, in place of what is there, and the switch half a metre before it, in pos and absPos, "
        + "past no other"],
    [station(MAIN.replace("ref=\"sa\"", "ref=\"s\""), track("s", [at(0, 300), joined("sa", "w")], [at(400, 700), joined("sb",
        "vc")])),
        "topology 7 UnknownRef", [["ref=\"s\"", "ref=\"sa\""], ["ref=\"w\"", "ref=\"wc\""]],
        "the connection wc refers to track s itself, and not to its connection; so does 1 connection more, which ./railplan "
            + "prepare s.xml NEW.xml lists. Write its id, ref=\"sa\""],
    [station(track("m", [at(0), OPEN], ["pos=\"999.999\" absPos=\"1000\"", OPEN], branch("w", at(1000), "sa", "incoming")),
        track("s", [at(0, 300), OPEN], [at(700, 1000), joined("sa", "wc")])), "topology 13 OutsideTrack",
    [["id=\"w\" pos=\"1000\" absPos=\"1000\"", "id=\"w\" pos=\"999.499\" absPos=\"999.5\""]],
    "goes from 0 to 999.999: by 0.001 m, as by rounding. Write pos=\"999.499\", half a metre inside"],
    [station(track("m", [at(0), OPEN], [at(900), OPEN], branch("w", "pos=\"450\" absPos=\"300\" absPosOffset=\"150\"", "sa",
        "outgoing")),
        track("n", [at(0), OPEN], [at(900), OPEN], branch("v", "pos=\"500\" absPos=\"300\" absPosOffset=\"200\"", "sb",
            "incoming")),
        track("s", [at(0, 300), joined("sa", "wc")], [at(50, 300), joined("sb", "vc")])), "graph 3 NotForward",
    [["absPos=\"300\" absPosOffset=\"150\"", "absPos=\"450\""], ["absPos=\"300\" absPosOffset=\"200\"", "absPos=\"500\""]],
    "absPosOffset isn't read: add it to absPos. Write absPos=\"450\" at switch w, absPos=\"500\" at switch v, and leave "
        + "absPosOffset out"],
]);

test("refs, legs, rounding and offsets have their own sentences", { skip: !hasProgram }, async () => {
    for (const [text, fault, edits, piece] of OTHERS) {
        const line = printed(text).at(-1) ?? "";
        assert.ok(line.startsWith(fault), line);
        const [note] = await notesOf(runOver(["graph", "s.xml"], `${line}\n`, { "s.xml": text }));
        assert.ok(note.text.includes(piece), note.text);
        assert.equal(printed(edited(text, edits))[0], "railgraph 1");
    }
});

test("a crossing on each of both tracks, a triangle, a balloon", async () => {
    const cross = (/** @type {string} */ id, /** @type {string} */ ref) =>
        `<crossing id="${id}" pos="50" absPos="50"><connection id="${id}c" ref="${ref}" course="left" `
            + `orientation="outgoing"/></crossing>`;
    const both = station(track("m", [at(0), OPEN], [at(100), OPEN], cross("k", "lc")), track("n", [at(0), OPEN], [at(100),
        OPEN], cross("l", "kc")));
    const [slip] = await notesOf(runOver(["graph", "s.xml"], `topology 10 EndKind at ${both.indexOf("<crossing")} k\n`,
        { "s.xml": both }));
    assert.match(slip.text, /the crossings k and l are one place .* Cut track n in two there, .* and leave out l$/);
    const triangle = station(track("m", [at(0), OPEN], [at(2000), OPEN], branch("w", at(500), "na", "outgoing")
        + branch("v", at(1500), "xb", "incoming")), track("n", [at(0, 500), joined("na", "wc")], [at(1300, 1800), OPEN],
        branch("u", at(500, 1000), "xa", "incoming")), track("x", [at(0, 1000), joined("xa", "uc")], [at(500, 1500),
            joined("xb", "vc")]));
    assert.match(await said(triangle, "u"), /hasn't\. As it is written this is a triangle of the switches u, w and v: /);
    const ring = station(track("m", [at(0), OPEN], [at(900), joined("mb", "sb")], branch("w", at(300), "sa", "outgoing")),
        track("s", [at(0, 300), joined("sa", "wc")], [at(600, 900), joined("sb", "mb")]));
    assert.match(await said(ring, "m.e"), /^at the .*\. As it is written this is a turning loop \(balloon\) at switch w: /);
    const balloon = station(track("m", [at(0), OPEN], [at(900, 300), joined("e", "wc")], branch("w", at(300), "e",
        "outgoing")));
    const [loop] = await notesOf(runOver(["graph", "s.xml"], "graph 3 NotForward m 300.000000\n", { "s.xml": balloon }));
    assert.match(loop.text, /joined to itself by its own switch w, as a turning loop .* cut it, and write two ends/);
});

test("two namespaces", async () => {
    const text = `<r:railml xmlns="y" xmlns:r="x"><r:infrastructure/></r:railml>`;
    const [note] = await notesOf(runOver(["graph", "s.xml"], "text 8 Root at 0\n", { "s.xml": text }));
    assert.match(note.text, /another namespace has none .* this takes it off: sed -E 's#<\(\/\?\)r:#<\\1#g' s.xml > NEW.xml$/);
});
