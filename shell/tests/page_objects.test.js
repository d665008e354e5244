/**
 * What a page knows of what lies at tracks, of signals' kinds, slips, normal positions and operational points, and how it shows
 * it.
 */
import assert from "node:assert/strict";
import { test } from "node:test";
import { read } from "../both/infrastructure.js";
import { notShown } from "../both/messages/not_shown.js";
import { dxfOf, make } from "../both/page/kinds.js";
import { UNKNOWN } from "../both/page/pieces.js";
import * as signs from "../both/page/signs.js";
import { bodyOf, titleOf } from "../both/page/whole.js";
import { read as readWords } from "../both/words.js";
import { Drawn, faultsOfPage, picturesOf } from "./pages/drawn.js";
import { example, sample, stationOf, stored } from "./pages/runs.js";

/** @typedef {import("../both/page/page.js").Page} Page */

const EXAMPLE = stored("examples/station.xml"), NAME = "examples/station.xml";
const ENDS = '<trackEnd id="B1" pos="1250" absPos="13250">';

/** @type {(xml: string, more?: object) => Page} the page of README's example with another file, of the same graph */
const pageWith = (xml, more = {}) => make(example({ files: new Map([[NAME, xml]]), ...more }));

/** @type {(text: string, track?: string) => string} README's example with more in a track, behind its topology */
const furnished = (text, track = "track1") => EXAMPLE.replace(new RegExp(`(id="${track}"[^]*?</trackTopology>)`), `$1${text}`);

/** @type {(listed: string, group?: string, list?: string) => string} */
const listed = (text, group = "ocsElements", list = "trainDetectionElements") =>
    `<${group}><${list}>${text}</${list}></${group}>`;

/** @param {Page} page @param {string} id */
function entry(page, id) {
    const found = page.objects?.entries.find((it) => it.id === id);
    assert.ok(found, id);
    return found;
}

/** @type {(page: Page, id: string) => string} why an object isn't drawn; "" where it is */
const why = (page, id) => entry(page, id).facts.find(([term]) => term === "not drawn")?.[1] ?? "";

/** @type {(page: Page) => Map<string, string>} the texts of a picture by what they are of */
const named = (page) => new Map(picturesOf(page)[0].flatMap((it) => it.texts).filter((it) => it.owner)
    .map((it) => [it.owner, it.text]));

// ---- operational points

/** @type {(inside: string, points: string, name?: string) => string} what a file is called */
function calledBy(inside, points, name = "") {
    return read(new TextEncoder()
        .encode(`<railml><infrastructure id="i" name="${name}"><tracks><track id="t">${inside}</track></tracks>`
        + `<operationControlPoints>${points}</operationControlPoints></infrastructure></railml>`)).title;
}

const TWO = '<ocp id="a" name="Adorf" code="AAD"/><ocp id="b" name="Bheim"/>';
const LEADS = '<trackTopology><trackBegin id="t.b"><macroscopicNode id="m" ocpRef="b"/></trackBegin></trackTopology>';

test("the station's operational point is the page's title, with its code", () => {
    const section = '<trackTopology><crossSections><crossSection id="c" ocpRef="a"/></crossSections></trackTopology>';
    assert.equal(calledBy(section, TWO, "Export"), "Adorf (AAD)");
    assert.equal(calledBy(LEADS, TWO, "Export"), "Adorf (AAD)", "the only one to which no line goes on");
    assert.equal(calledBy("", TWO, "Export"), "Export", "one of two");
    assert.equal(calledBy(`${section}<x ocpRef="b"/>`, TWO, "Export"), "Export", "one of two that are referred to");
    assert.equal(calledBy("", '<ocp id="a" code="AAD"/>', "Export"), "AAD");
    assert.equal(calledBy("", '<ocp id="a"/>', "Export"), "Export");
    const deep = 50000;
    assert.equal(calledBy(`${"<x>".repeat(deep)}<y ocpRef="b"/>${"</x>".repeat(deep)}`, TWO, "Export"), "Bheim", "however deep");
});

const GOES_ON = EXAMPLE.replace('<openEnd id="B1.open"/>', '<macroscopicNode id="B1.open" ocpRef="b"/>')
    .replace("</tracks>", `</tracks><operationControlPoints>${TWO}</operationControlPoints>`);

test("an end says where its line goes on", () => {
    const page = pageWith(GOES_ON);
    assert.equal(titleOf(page), "Adorf (AAD)");
    assert.deepEqual([named(page).get("node 1"), named(page).get("node 0")], ["B1, to Bheim", "A1"]);
    assert.deepEqual([entry(page, "B1").kind, entry(page, "B1").note], ["line goes on", "to Bheim"]);
    assert.ok(dxfOf(page).includes("B1, to Bheim"));
    assert.match(String(page.pictures[0].strips[0]), /B1: line goes on, to Bheim, km 13\.250/);
    const own = pageWith(GOES_ON.replace('id="B1" pos', 'id="B1" name="towards Bheim" pos'));
    assert.equal(named(own).get("node 1"), "towards Bheim", "the name says it");
});

// ---- signals

const TYPES = ["main", "distant", "combined", "repeater", "shunting"];
/** @type {(more: Map<string, string>) => Page} the stored page of signals, with attributes for some of them */
const signalled = (more) => make(sample("signals", { files: new Map([[sample("signals").file,
    [...more].reduce((xml, [id, text]) => xml.replace(`<signal id="${id}"`, `<signal id="${id}" ${text}`),
        stored("signals.xml"))]]) }));

test("each kind of signal has a head of its own", () => {
    const heads = ["signal", ...TYPES.map((it) => `${it} signal`)].map((it) => signs.headSign(it).map(String).join(""));
    assert.equal(new Set(heads).size, 6);
    const page = signalled(new Map([["A", 'type="main" function="entry"'], ["P1", 'type="distant"'],
        ["N1", 'type="of its own"']]));
    assert.deepEqual(["A", "P1", "N1"].map((it) => [entry(page, it).kind, entry(page, it).note]),
        [["main signal", "entry"], ["distant signal", ""], ["signal", ""]]);
    assert.deepEqual([...page.signs].filter((it) => it.includes("signal")), ["signal", "main signal", "distant signal",
        "signal both"]);
    const drawn = String(page.pictures[0].strips[0]);
    assert.match(drawn, /home signal \(A\): main signal for trains with rising kilometres/);
    for (const kind of ["main signal", "distant signal"]) assert.ok(signs.headSign(kind).length);
});

test("virtual signals are left out and counted", () => {
    const all = signalled(new Map()), page = signalled(new Map([["A", 'virtual="true"'], ["P1", 'virtual="false"']]));
    assert.deepEqual([all, page].map((it) => it.objects?.entries.filter(({ kind }) => kind === "signal").length), [7, 6]);
    assert.ok(!page.objects?.entries.some(({ id }) => id === "A") && !named(page).has("signal 0"));
    const [, said] = page.facts.find(([title]) => title === "What the drawing doesn't show") ?? ["", []];
    assert.match(said.map((it) => String(it)).join(), /left out: 1 virtual signal\./);
});

test("a page of draw lists the file's signals, and says which command draws them", () => {
    const text = '<signal id="S1" name="A" pos="400" absPos="12400" dir="up" type="main" function="entry"/><signal id="S2" pos="500"/>'
        + '<signal id="S3" pos="600" virtual="true"/>';
    const page = pageWith(furnished(listed(text, "ocsElements", "signals"))), one = entry(page, "S1");
    assert.deepEqual([one.kind, one.name, one.km, one.track, one.note],
        ["main signal", "A", "12.400", "track1", "entry, direction up, not drawn: the command signals draws it"]);
    assert.deepEqual([entry(page, "S2").kind, why(page, "S2"), page.objects?.entries.some(({ id }) => id === "S3")],
        ["signal", "the command signals draws it", false]);
    assert.ok(page.objects?.csv().includes("12.400,main signal,A,S1,track1,"));
    // where the answer has them they are there once
    assert.equal(signalled(new Map()).objects?.entries.filter(({ kind }) => kind === "signal").length, 7);
});

// ---- slips and normal positions

test("a slip has a sign of its own", () => {
    const kinds = ["", "simpleCrossing", "simpleSwitchCrossing", "singleSwitchCrossing", "doubleSwitchCrossing"];
    const graph = "railgraph 1\nnodes 1\nnode 0 k crossing 100.000000\nedges 0\n";
    const found = kinds.map((type) => {
        const crossing = `<crossing id="k" type="${type}"/>`;
        const station = stationOf(`<railml><infrastructure><tracks><track id="t"><trackTopology><connections>${crossing}`
            + "</connections></trackTopology></track></tracks></infrastructure></railml>", graph);
        return [station.kind(0), station.signOf(0)];
    });
    assert.deepEqual(found, ["crossing", "crossing", "single slip", "single slip", "double slip"].map((it) =>
        ["crossing", it]));
    const made = ["crossing", "single slip", "double slip"].map((it) => signs.nodeSign(it, null, [], 0).parts.map(String)
        .join(""));
    assert.equal(new Set(made).size, 3);
});

test("the normal position of a switch is marked at its leg", () => {
    const of = (/** @type {string} */ said) => pageWith(EXAMPLE.replace('<switch id="W3"', `<switch id="W3" ${said}`));
    const legOf = (/** @type {string} */ said) => of(said).station.normalLeg(6);
    assert.deepEqual(["straight", "left", "right", ""].map((it) => legOf(`normalPosition="${it}"`)), ["straight", "diverging",
        "", ""]);
    assert.deepEqual(["right", "straight"].map((it) => legOf(`normalPosition="${it}" trackContinueCourse="right"`)),
        ["straight", ""]);
    const marks = ["straight", "left"].map((it) => {
        const page = of(`normalPosition="${it}"`),
            found = /class="normal" d="M([^,]*),([^ ]*) L([^,]*),([^"]*)"/.exec(String(page.pictures[0].strips[0]));
        assert.deepEqual([entry(page, "W3").note, page.signs.has("normal")],
            [`normal position ${it === "left" ? "diverging" : it}`, true]);
        return found?.slice(1).map(Number) ?? [];
    });
    const [[, y, , v], [, up, , upper]] = marks;
    assert.ok(y > 0 && y === v && upper < up && up < 0,
        "below the straight leg, which the other leaves above; above the diverging one");
    assert.deepEqual([entry(of('normalPosition="right"'), "W3").note, of("").signs.has("normal")],
        ["normal position in the file: right", false]);
});

// ---- what lies at tracks

const ALL = furnished(`${listed('<trackCircuitBorder id="ij" name="I 1" pos="100" insulatedRail="both"/>'
    + '<trackCircuitBorder id="tb" pos="150"/>'
    + '<trainDetector id="ac" pos="700" absPos="12700" axleCounting="true"/><trainDetector id="td" pos="800"/>')}${
    listed('<derailer id="dr" pos="900" dir="up" derailSide="left"/>', "ocsElements", "derailers")}${
    listed('<platformEdge id="pe" pos="400" length="150.5" side="left"/>', "trackElements", "platformEdges")}${
    listed('<levelCrossing id="lc" pos="1000"/>', "trackElements", "levelCrossings")}`)
    .replace("</connections></trackTopology>",
        '</connections><borders><border id="bo" pos="30" type="station"/></borders></trackTopology>');

test("all that lies at tracks is listed by kilometre, and in the table", () => {
    const page = pageWith(ALL), rows = page.objects?.csv().split("\r\n") ?? [];
    assert.deepEqual(rows.filter((it) =>
        /,(ij|tb|ac|td|dr|pe|lc|bo),/.test(it)), ["12.030,border,,bo,track1,,,,of type station",
        "12.100,insulated joint,I 1,ij,track1,,,,insulated rail both", "12.150,track circuit border,,tb,track1,,,,",
        '12.400,platform edge,,pe,track1,,,,"side left, 150.5 m long, to km 12.5505"', "12.700,axle counter,,ac,track1,,,,",
        "12.800,train detector,,td,track1,,,,", '12.900,derailer,,dr,track1,,,,"derails to the left, direction up"',
            "13.000,level crossing,,lc,track1,,,,"]);
    assert.deepEqual(page.objects?.notDrawn(), []);
    assert.deepEqual(page.scene?.pieces.located.map(({ place }) => place?.edge), [0, 0, 0, 1, 1, 1, 1, 1].sort().map(Number));
});

test("the legend has what is drawn, and no more", () => {
    assert.deepEqual([...pageWith(ALL).signs], ["switch", "open end", "insulated joint", "axle counter", "derailer",
        "platform", "level crossing", "border"]);
    assert.deepEqual([...pageWith(EXAMPLE).signs], ["switch", "open end"]);
    const kinds = [...signs.MEANINGS.keys()], made = kinds.map((it) => String(signs.sample(it, false)));
    assert.equal(new Set(made).size, kinds.length, "each sample differs");
});

test("each object has its sign on its own line, and its kilometre where a pointer is", () => {
    const page = pageWith(ALL), [drawn] = page.pictures[0].strips.map((it) => new Drawn(it));
    const keys = page.scene?.pieces.located.map(({ number }) => `o${number}`) ?? [];
    assert.deepEqual(keys.filter((it) => !drawn.places.has(it)), []);
    assert.match(String(page.pictures[0].strips[0]), /I 1 \(ij\): insulated joint, km 12\.100; insulated rail both/);
    assert.equal(named(page).get("object 1"), "I 1");
    const line = drawn.edges.get("e0")?.[0][0][1] ?? NaN, key = page.objects?.entries.find(({ id }) => id === "pe")?.key ?? "";
    const bar = drawn.signs.find((it) => it.key === key)?.box ?? [0, 0, 0, 0];
    assert.ok(bar[3] < line && bar[2] - bar[0] > 5, "a bar above the track, as left of a track that leads east");
});

test("names of objects are shortened, or left out, and said", () => {
    const long = `The joint ${"x".repeat(60)}`, of = (/** @type {number} */ count) =>
        pageWith(furnished(listed(Array.from({ length: count }, (_, at) =>
        `<trackCircuitBorder id="x${at}" name="${at} ${long}" pos="${100 + at}"/>`).join(""))));
    assert.deepEqual([...of(1).short.values()].map(([text, whole]) => [text.includes("…"), whole]), [[true, `0 ${long}`]]);
    const page = of(12);
    assert.ok(page.leftOut.size && page.leftOut.size + [...named(page).keys()].filter((it) => it.startsWith("object"))
        .length === 12);
    assert.deepEqual(faultsOfPage(page), []);
    assert.ok(!of(1).leftOut.size && [...of(1).pictures, ...page.pictures].every((it) => it.lacking.size === 0));
});

test("a table of a CAD program has them too", () => {
    const text = dxfOf(pageWith(ALL));
    assert.ok(text.split("\r\nOBJECT\r\n").length > 12);
    assert.ok(["12.030", "12.100", "12.900", "I 1"].every((it) => text.includes(`\r\n${it}\r\n`)));
});

test("what is connected without a joint or detector between is a section", () => {
    const joints = (/** @type {string} */ more) =>
        `${listed(`<trackCircuitBorder id="a" pos="100"/><trainDetector id="b" name="AC" pos="700"/>${more}`)}`;
    const page = pageWith(furnished(joints(""))), found = page.objects?.entries.filter((it) =>
        it.kind === "track section") ?? [];
    assert.deepEqual(found.map(({ name, km, note }) => [name, km, note]), [
        ["section 1", "12.000", "from a, km 12.100; to the end A1, km 12.000"],
        ["section 2", "12.000", "from a, km 12.100; from AC, km 12.700; to the end A2, km 12.000; to the end B2, km 13.250"],
        ["section 3", "12.700", "from AC, km 12.700; to the end B1, km 13.250"]],
            "the crossover connects the second one with the other track");
    assert.deepEqual(found[0].facts.map(([term, , key]) => [term, key]), [["border", "o0"], ["end", "n0"], ["on", "e0"]]);
    assert.deepEqual([page.objects?.lacksSections, pageWith(EXAMPLE)
        .objects?.entries.filter((it) => it.kind === "track section")], [false, []]);
    const lacking = pageWith(furnished(joints('<trainDetector id="c"/>')));
    assert.ok(!lacking.objects?.entries.some((it) => it.kind === "track section"));
    assert.match(bodyOf(lacking).map(String).join(""), /They aren't listed, as a joint or detector has no known place\./);
});

/** @type {(text: string) => string} why an object with the id `x` in README's first track isn't drawn */
const whyNot = (text) => why(pageWith(furnished(text)), "x");

test("what has no known place is listed, not drawn, and that is said", () => {
    const joint = (/** @type {string} */ said) => whyNot(listed(`<trackCircuitBorder id="x" ${said}/>`));
    assert.equal(joint('pos="100" absPos="12100"'), "");
    assert.equal(joint('absPos="12100"'), UNKNOWN.pos);
    assert.equal(joint('pos="1251"'), UNKNOWN.outside);
    assert.equal(joint('pos="310"'), UNKNOWN.switch);
    assert.equal(joint('pos="100" absPos="12400"'), UNKNOWN.order);
    assert.equal(joint('pos="0"'), "", "at the track's begin");
    const two = listed('<trackCircuitBorder id="x" pos="100" absPos="12200"/>'
        + '<trackCircuitBorder id="y" pos="200" absPos="12100"/>');
    assert.equal(whyNot(two), UNKNOWN.mixed);
    const platform = (/** @type {string} */ said) => whyNot(listed(`<platformEdge id="x" pos="400" ${said}/>`, "trackElements",
        "platformEdges"));
    assert.deepEqual(['length="100" side="right"', 'side="left"', 'length="100"', 'length="100" side="left" dir="down"',
        'length="900" side="left"']
        .map(platform), ["", UNKNOWN.length, UNKNOWN.side, UNKNOWN.way, UNKNOWN.outside]);
    const page = pageWith(furnished(listed('<trackCircuitBorder id="x" pos="1251"/>')));
    assert.match(bodyOf(page).map(String)
        .join(""), /Objects that aren't drawn<\/h2><ul><li>track circuit border <bdi>x<\/bdi>: it isn't between its/);
    assert.ok(page.objects?.csv().includes(`not drawn: ${UNKNOWN.outside}`));
    assert.deepEqual([...page.signs], ["switch", "open end"], "the legend has it neither");
});

test("a kilometre follows from neighbours where lengths and kilometres agree", () => {
    const at = (/** @type {string} */ xml) => entry(pageWith(xml), "x")
        .km, joint = listed('<trackCircuitBorder id="x" pos="350"/>');
    assert.equal(at(furnished(joint)), "12.350");
    const rounded = furnished(listed('<trackCircuitBorder id="x" pos="1250.4"/>'))
        .replace(ENDS, '<trackEnd id="B1" pos="1250.4" absPos="13250">');
    assert.equal(at(rounded), "13.250", "no further than its neighbour");
    const jump = furnished(joint).replace(ENDS, '<trackEnd id="B1" pos="1450" absPos="13250">');
    assert.deepEqual([at(jump), why(pageWith(jump), "x")], ["", UNKNOWN.metres]);
    const offset = furnished(listed('<trackCircuitBorder id="x" pos="350" absPos="12300" absPosOffset="50"/>'));
    assert.equal(at(offset), "12.350", "not the mileage that an offset belongs to");
});

test("the side of a derailer is drawn for trains that run as its track does", () => {
    const of = (/** @type {string} */ said) => pageWith(furnished(listed(`<derailer id="x" pos="900" ${said}/>`, "ocsElements",
        "derailers")));
    const has = (/** @type {string} */ said) => ["derailer", "derailer both"].filter((it) => of(said).signs.has(it)).join();
    assert.deepEqual(['dir="up" derailSide="left"', 'dir="down" derailSide="left"', 'dir="up"', ""].map(has),
        ["derailer", "derailer both", "derailer both", "derailer both"]);
    const tips = ["left", "right"].map((it) =>
        /class="tip" d="M[^,]*,(-?)/.exec(String(of(`dir="up" derailSide="${it}"`).pictures[0].strips[0]))?.[1]);
    assert.deepEqual(tips, ["-", ""]);
    assert.ok(!String(of('dir="down" derailSide="left"').pictures[0].strips[0]).includes('class="tip"'));
});

test("where kilometres needn't rise no object is drawn", () => {
    const run = sample("explain_above"), [{ facts: { name } }] = run.record.inputs;
    const xml = stored(name).replace("</trackTopology>", `</trackTopology>${listed('<trackCircuitBorder id="x" pos="1"/>')}`);
    const page = make(sample("explain_above", { files: new Map([[name, xml]]) }));
    assert.equal(why(page, "x"), UNKNOWN.scale);
    assert.ok(page.pictures.every((it) => it.spots.size === 0));
});

test("two versions of a station have their objects, and one of an id has one key", () => {
    const [old, now] = ['<trainDetector id="x" pos="90"/><trainDetector id="gone" pos="95"/>',
        '<trainDetector id="new" pos="80"/><trainDetector id="x" pos="90"/>'];
    const run = sample("redraw_station"), names = run.record.inputs.map(({ facts }) => facts.name);
    const files = new Map([[names[0], now], [names[1], old]].map(([name, text]) =>
        [name, stored(name).replace("</trackTopology>", `</trackTopology>${listed(text)}`)]));
    const keys = make(sample("redraw_station", { files }))
        .pictures.map((it) => it.strips.flatMap((strip) => [...new Drawn(strip).places.keys()])
        .filter((key) => /o\d+$/.test(key)).sort());
    assert.deepEqual(keys, [["gone-o1", "o1"], ["o0", "o1"]]);
});

test("a page counts as not drawn what it doesn't draw, and the program's own drawing all", () => {
    const file = new TextEncoder()
        .encode(ALL.replace("</tracks>", `</tracks><operationControlPoints>${TWO}</operationControlPoints>`)
        .replace("<trackElements>", "<trackElements><speedChanges><speedChange id='s' pos='1'/></speedChanges>"));
    const said = (/** @type {boolean} */ isPage) => notShown(file, readWords(["draw", "x.xml"]), [], isPage)
        .filter((it) => it.startsWith("not drawn"));
    assert.deepEqual(said(true), ["not drawn: 2 ocp, 1 speedChange"]);
    assert.deepEqual(said(false),
        ["not drawn: 1 border, 1 derailer, 1 levelCrossing, 2 ocp, 1 platformEdge, 1 speedChange, 2 trackCircuitBorder, "
            + "2 trainDetector"]);
    assert.deepEqual(notShown(file, readWords(["--html", "p.html", "draw", "x.xml"]), [])
        .filter((it) => it.startsWith("not drawn")), said(true));
    assert.deepEqual(notShown(new TextEncoder().encode(GOES_ON), readWords(["draw", "x.xml"]), [], true), [],
        "both points are named");
});
