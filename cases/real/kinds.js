/** Kinds of stations' files, as producers of railML 2 write them, each with what is so on the ground. */
import { Ground } from "./ground.js";
import { BY_ONE_KM, ONE_KM, kind, loopStation, prefixed, replacing } from "./kind.js";

/** @typedef {import("./ground.js").Side} Side */
/** @typedef {import("./ground.js").Track} Track */
/** @typedef {import("./ground.js").Truth} Truth */
/** @typedef {import("./kind.js").Kind} Kind */
/** @typedef {import("./kind.js").More} More */

/** @param {Ground} ground @param {Track} track @param {boolean} [isRich] signals, and what else stands at a track */
function furnish(ground, track, isRich = false) {
    const length = track.to - track.from, at = (/** @type {number} */ part) => track.from + length * part;
    ground.signal(track, at(0.2), `S${track.name}a`, true, { type: "main", function: "exit", sight: "200", virtual: "false" });
    ground.signal(track, at(0.8), `S${track.name}b`, false, { type: "main", function: "entry", sight: "350" });
    if (isRich) {
        ground.signal(track, at(0.82), `Ls${track.name}`, false, { type: "shunting" });
        ground.place(track, "ocsElements", "trainDetectionElements", "trainDetector", at(0.5), { axleCounting: "true" });
        ground.place(track, "ocsElements", "derailers", "derailer", at(0.7), { dir: "up", derailSide: "left" });
        ground.place(track, "ocsElements", "balises", "balise", at(0.21));
        ground.place(track, "trackElements", "platformEdges", "platformEdge", at(0.4),
            { length: "160.000", dir: "up", side: "left", ocpRef: "ocp_A" });
        ground.place(track, "trackElements", "levelCrossings", "levelCrossing", at(0.9), { angle: "90" });
        ground.place(track, "trackElements", "gradientChanges", "gradientChange", at(0.01), { slope: "3.5" });
    }
}

/** @param {string} title @param {number} count @param {number} step @returns {Ground} a yard with ladders at both ends */
function yard(title, count, step) {
    const ground = new Ground(title);
    let before = ground.track("1", 0, 3000, 0);
    for (let number = 2; number <= count; number++) {
        const next = ground.track(String(number), 0, 0, 4.5 * (number - 1));
        ground.switch(before, 200 + step * number, next, "east", `W${number}`);
        ground.switch(before, 2800 - step * number, next, "west", `W${number + 20}`);
        before = next;
    }
    return ground;
}

// ---- producers

/** @returns {Kind[]} */
function producers() {
    const numbered = loopStation({ idOf: (kind, number) => `${kind}${10000 + number}`, title: "OpenTrack export" });
    [numbered.one, numbered.two].forEach((it) => furnish(numbered.ground, it, true));
    const norwegian = loopStation({ title: "Eidsvoll" });
    [norwegian.one, norwegian.two, norwegian.three].forEach((it) => furnish(norwegian.ground, it, true));
    norwegian.ground.operationalPoint("ocp_A", "Eidsvoll", 12700, "EVL", [norwegian.one, norwegian.two]);
    const coordinates = /** @type {const} */ ({ first: "latitude" });
    return [
        kind("numbered-ids-six-decimals", "OpenTrack: numbers as ids, six decimals", numbered.ground,
            { version: "2.3", decimals: 6, moreOfSwitches: ' type="ordinarySwitch"',
                rootAttributes: ' xmlns:ot="http://www.opentrack.ch/railml"' }),
        kind("coordinates-track-goes-straight", "Bane NOR: geoCoord, trackContinueCourse=straight, xml:base", norwegian.ground,
            { version: "2.4", namespace: "http://www.railml.org/schemas/2018", coordinates: { ...coordinates, bearing: 20 }, goesOn: true,
                moreOfSwitches: ' normalPosition="straight"',
                    rootAttributes: ' xmlns:nor="http://www.banenor.no/schemas/2.4" xml:base="urn:x" xml:lang="no"' }),
        kind("courses-along-the-track", "hands seen along the track at incoming switches, geoCoord", loopStation().ground,
            { coordinates, course: "track" }, { today: "refused", asked: ["--hands", "along"] }),
        kind("courses-along-the-track-silent", "the same with stubs alone, so that nothing contradicts it", stubs(),
            { coordinates, course: "track" },
            { says: /confirms the sides|disagree/, asked: ["--hands", "along"] }),
        kind("no-course", "course left out, geoCoord there", loopStation().ground,
            { coordinates, changed: replacing(' course="\\w+"', "", "g") },
            { today: "refused", after: "refused" }),
        kind("no-orientation", "orientation left out", loopStation().ground, { changed: replacing(' orientation="\\w+"', "", "g") },
            { today: "refused", after: "refused" }),
        kind("unknown-course", 'course="unknown"', loopStation().ground, { changed: replacing('course="right"', 'course="unknown"') },
            { today: "refused", after: "refused" }),
    ];
}

/** @returns {Ground} stubs to both ways */
function stubs() {
    const ground = new Ground("Spitz"), one = ground.track("1", 0, 1000, 0);
    ground.switch(one, 600, ground.track("2", 100, 0, 4.5, { west: "bufferStop" }), "west", "W1");
    ground.switch(one, 700, ground.track("3", 0, 950, -4.5, { east: "bufferStop" }), "east", "W2");
    return ground;
}

/** @returns {Kind[]} */
function edgeModels() {
    const idOf = (/** @type {string} */ name, /** @type {number} */ number) =>
        `${name}-${((number * 2654435761) % 2 ** 32).toString(16).padStart(8, "0")}`;
    return (/** @type {const} */ (["end", "begin"])).map((where) => {
        const { ground } = loopStation({ idOf, title: "BIS" });
        ground.cutAtSwitches(where);
        return kind(
            `cut-at-switches-${where}`, `tracks cut at each switch, which lies at the ${where} of a piece`, ground, {},
            { today: "refused" });
    });
}

// ---- mileages

/** @returns {Kind[]} */
function turnedTracks() {
    const falling = loopStation({ isTurned: true });
    falling.two.jumps = ['<mileageChange id="mc1" pos="0.000" absPos="13400.000" dir="falling" type="overlapping"/>'];
    const silent = new Ground("Haltepunkt");
    silent.track("1", 1000, 2000, 0);
    const two = silent.track("2", 1000, 2000, -4.5, { isTurned: true });
    silent.switch(two, 1500, silent.track("3", 0, 1800, -9, { east: "bufferStop" }), "east", "W1");
    return [
        kind("second-track-turned", "second track counted against the mileage, absPos everywhere", loopStation({ isTurned: true }).ground),
        kind("turned-absPos-at-begins", "the same, absPos at begins alone", loopStation({ isTurned: true }).ground, { mileages: "begins" },
            { ...BY_ONE_KM, odd: "tr_2" }),
        kind("turned-mileage-change", "the same with a mileageChange of dir=falling", falling.ground, { mileages: "begins" },
            { ...BY_ONE_KM, odd: "tr_2" }),
        kind("turned-absPos-at-ends", "the same, absPos at begins and ends", loopStation({ isTurned: true }).ground,
            { mileages: "begins and ends" }, { ...BY_ONE_KM, odd: "tr_2" }),
        kind("turned-silent", "second track falls, only its begin has absPos; a siding at it", silent, { mileages: "begins" },
            { says: /wrong side/, asked: ONE_KM }),
        kind("absPos-at-begins", "absPos at begins alone, all tracks rising", loopStation().ground,
            { mileages: "begins", ofObjects: false }),
    ];
}

/** @returns {Kind[]} */
function offsets() {
    const one = new Ground("Offset"), main = one.track("1", 12000, 13000, 0), second = one.track("2", 12000, 13000, 4.5);
    one.crossover(main, 12450, second, 12500);
    one.switch(main, 12350, one.track("3", 0, 12900, -4.5, { east: "bufferStop" }), "east", "W9");
    const two = new Ground("Offset 2"), [first, beside] = [two.track("1", 12000, 13000, 0), two.track("2", 12000, 13000, 4.5)];
    two.switch(beside, 12450, two.track("3", 0, 12800, 9, { east: "bufferStop" }), "east", "W8");
    two.switch(first, 12350, two.track("4", 0, 12900, -4.5, { east: "bufferStop" }), "east", "W9");
    const hectometres = (/** @type {string} */ text) => text.replace(/absPos="12450.000"/g, 'absPos="12300.000" absPosOffset="150"')
        .replace(/absPos="12500.000"/g, 'absPos="12300.000" absPosOffset="200"');
    return [
        kind("absPosOffset", "absPos in hectometres with absPosOffset", one, { changed: hectometres }, { today: "refused" }),
        kind("absPosOffset-silent", "the same, where it makes no fault", two, { changed: hectometres },
            { says: /absPosOffset isn't read/ }),
    ];
}

/** @param {boolean} isTurned @returns {Ground} a stub to the west whose track begins at the switch */
function westStub(isTurned) {
    const ground = new Ground("Stumpfgleis"), one = ground.track("1", 12000, 13400, 0);
    ground.switch(one, 12900, ground.track("2", 12300, 0, 4.5, { west: "bufferStop", isTurned }), "west", "W1");
    return ground;
}

/** @returns {Kind[]} */
function ownMileages() {
    const zero = new Ground("Own zero"), one = zero.track("1", 12000, 13400, 0), two = zero.track("2", 0, 0, 4.5);
    zero.switch(one, 12300, two, "east", "W1");
    zero.switch(one, 13000, two, "west", "W2");
    zero.switch(two, 12450, zero.track("3", 0, 12700, 9, { east: "bufferStop" }), "east", "W3");
    const truth = zero.truth();
    zero.mileage = (track, at) => (track === one ? at : at - track.from);
    const junctions = [false, true].map((isTurned) => {
        const ground = new Ground("Abzweig"), main = ground.track("1", 20000, 21600, 0),
            branch = ground.track("B", 0, 21600, 8, { isTurned });
        ground.switch(main, 20800, branch, "east", "W1");
        ground.mileage = (track, at) => (track === main ? at : isTurned ? 3000 + 21600 - at : 55000 + at - 20800);
        return ground;
    });
    return [
        kind("sidings-from-zero", "each siding counted from 0", zero, {}, { ...BY_ONE_KM, truth, odd: "tr_2" }),
        kind("west-stub-begins", "stub to the west, begin at the switch, absPos at begins alone", westStub(true), { mileages: "begins" },
            { ...BY_ONE_KM, odd: "tr_2" }),
        kind("west-stub-open-begins", "the same, absPos at open begins alone", westStub(true), { mileages: "open begins" },
            { ...BY_ONE_KM, odd: "tr_2" }),
        kind("branch-line-greater", "a branch line with a mileage of its own, greater", junctions[0], {},
            { says: /joined at two mileages/ }),
        kind("branch-line-less-turned", "a branch line that ends at the junction at its km 3.8", junctions[1], {},
            { ...BY_ONE_KM, odd: "tr_2" }),
    ];
}

/** @returns {Kind[]} */
function jumps() {
    const gap = new Ground("Fehlkilometer"), one = gap.track("1", 10000, 12000, 0), loop = gap.track("2", 0, 0, 4.5);
    gap.switch(one, 10300, loop, "east", "W1");
    gap.switch(one, 11700, loop, "west", "W2");
    one.jumps = ['<mileageChange id="mc1" pos="1000.000" absPosIn="11000.000" absPos="11500.000" type="missing"/>'];
    gap.mileage = (_, at) => at + (at > 11000 ? 500 : 0);
    const twice = new Ground("Überlänge"), main = twice.track("1", 10000, 12000, 0), beside = twice.track("2", 0, 0, 4.5);
    twice.switch(main, 10300, beside, "east", "W1");
    twice.switch(main, 11200, beside, "west", "W2");
    twice.switch(main, 11500, twice.track("3", 0, 11950, -4.5, { east: "bufferStop" }), "east", "W3");
    main.jumps = ['<mileageChange id="mc1" pos="1350.000" absPosIn="11350.000" absPos="10850.000" type="overlapping"/>'];
    const truth = twice.truth();
    twice.mileage = (_, at) => at - (at > 11350 ? 500 : 0);
    const second = new Ground("Überlänge 2"), upper = second.track("1", 10000, 12000, 0), lower = second.track("2", 10000, 12000, 4.5);
    const stub = second.track("3", 10000, 11950, 9, { east: "bufferStop" });
    second.switch(lower, 11500, stub, "east", "W3");
    second.switch(upper, 10500, second.track("4", 0, 10900, -4.5, { east: "bufferStop" }), "east", "W4");
    second.switch(upper, 11400, second.track("5", 0, 11900, -4.5, { east: "bufferStop" }), "east", "W5");
    second.mileage = (track, at) => at - (at > 11000 && (track === lower || track === stub) ? 300 : 0);
    lower.jumps = ['<mileageChange id="mc1" pos="1000.000" absPosIn="11000.000" absPos="10700.000" type="overlapping"/>'];
    return [
        kind("kilometres-missing", "kilometres missing in the middle (mileageChange)", gap),
        kind("kilometres-twice", "kilometres twice (mileageChange overlapping)", twice, {}, { ...BY_ONE_KM, truth }),
        kind("kilometres-twice-on-one-track", "only the second track's kilometres jump back", second, {}, { says: /jump/ }),
        kind("absPos-in-kilometres", "absPos in kilometres", loopStation().ground, { changed: (text) => text.replace(/absPos="([\d.]+)"/g,
            (_, number) => `absPos="${(Number(number) / 1000).toFixed(6)}"`) }, { says: /kilomet/ }),
    ];
}

// ---- switches and crossings

/** @param {string} goesOn @param {string} course @param {[string, string]} radii of track and branch @param {Side} side */
function curved(goesOn, course, radii, side) {
    const ground = new Ground("Bogenweiche"), one = ground.track("1", 1000, 2000, 0);
    const it = ground.switch(one, 1300, ground.track("2", 0, 1900, side === "upper" ? 5 : -5, { east: "bufferStop" }), "east", "W1");
    it.attributes = { trackContinueCourse: goesOn, trackContinueRadius: radii[0] };
    it.more = { radius: radii[1], maxSpeed: "60" };
    it.course = course;
    return ground;
}

/** @param {string} type @returns {Ground} */
function crossed(type) {
    const ground = new Ground("Kreuzungsweiche"), one = ground.track("1", 2000, 3000, 0);
    const it = ground.crossing(one, 2500, ground.track("2w", 2000, 0, -4.5), ground.track("2e", 0, 3000, 4.5), "Kr1");
    it.type = type;
    return ground;
}

/** @param {number} apart @returns {Ground} a three-way switch as two, so far apart */
function threeWay(apart) {
    const ground = new Ground("Dreiwegweiche"), one = ground.track("1", 0, 800, 0);
    const [two, three] = [5, -5].map((lateral, at) => ground.track(String(at + 2), 0, 780, lateral, { east: "bufferStop" }));
    ground.switch(one, 300, two, "east", "W1");
    ground.switch(one, 300 + apart, three, "east", "W1b");
    return ground;
}

/** @param {boolean} isTurned @returns {Ground} a double crossover with a crossing in its middle */
function scissors(isTurned) {
    const ground = new Ground("Doppelte Gleisverbindung"), one = ground.track("1", 0, 1000, 0), two = ground.track("2", 0, 1000, -4.5);
    const falling = ground.track("A", 300, 400, -2, { isTurned }), west = ground.track("B1", 300, 350, -4),
        east = ground.track("B2", 350, 400, -1);
    ground.switch(one, 300, falling, "east", "W1");
    ground.switch(two, 400, falling, "west", "W4", "upper");
    ground.switch(two, 300, west, "east", "W2", "upper");
    ground.switch(one, 400, east, "west", "W3");
    ground.crossing(falling, 350, west, east, "Kr", true);
    return ground;
}

/** @returns {Kind[]} */
function switches() {
    const inStation = loopStation(), [it] = inStation.two.points;
    Object.assign(it, { attributes: { trackContinueCourse: "left", trackContinueRadius: "500" }, more: { radius: "300" } });
    const one = threeWay(0), truth = one.truth(), known = [...truth.switches][0][1];
    truth.switches = new Map([["sw_W1", { ...known, leaves: ["end 5", "end 0", "end -5"] }]]);
    truth.places.delete("sw_W1b");
    return [
        kind("curve-inside", "inside curved switch, the branch is the tighter curve", curved("left", "left", ["600", "300"], "upper")),
        kind("curve-inside-wide", "inside curved switch, the branch is the wider curve", curved("left", "left", ["300", "600"], "lower"),
            {},
            { says: /radi/, asked: ["--hands", "radii"] }),
        kind("curve-outside", "outside curved switch", curved("left", "right", ["600", "600"], "lower")),
        kind("curve-in-station", "an inside curved switch within a station", inStation.ground),
        kind("three-way-half-metre", "three-way as two, half a metre apart", threeWay(0.5)),
        kind("three-way-one", "three-way switch with two connections", one, { changed: (text) =>
            text.replace(/<\/switch>\n<switch id="[^"]*" name="W1b"[^>]*>/, "") }, { today: "refused", truth }),
    ];
}

/** @returns {Kind[]} */
function crossings() {
    const level = new Ground("Abzweig mit Kreuzung"), one = level.track("1", 0, 2000, 0), two = level.track("2", 0, 2000, -4.5);
    const branch = level.track("B1", 0, 1950, 12), west = level.track("B2w", 0, 0, -2), east = level.track("B2e", 0, 1900, 8);
    level.switch(one, 600, branch, "east", "W1");
    level.switch(two, 500, west, "east", "W2");
    level.crossing(one, 700, west, east, "Kr1", true);
    return [
        kind("crossing-simple", "simpleCrossing", crossed("simpleCrossing")),
        kind("slip-single", "simpleSwitchCrossing", crossed("simpleSwitchCrossing"), {}, { says: /slip/ }),
        kind("slip-single-by-another-word", "singleSwitchCrossing", crossed("singleSwitchCrossing"), {}, { says: /singleSwitchCrossing/ }),
        kind("slip-double", "doubleSwitchCrossing", crossed("doubleSwitchCrossing"), {}, { says: /slip/ }),
        bothTracks(),
        kind("scissors", "double crossover with a crossing in its middle", scissors(false), { coordinates: { first: "latitude" } }),
        kind("scissors-turned", "the same, the crossing's own track counted against", scissors(true)),
        kind("level-junction", "the branch of track 2 crosses track 1 on the level", level, { coordinates: { first: "latitude" } }),
    ];
}

/** @param {string} name @param {string} about @param {string} tracks @param {More} more @returns {Kind} a file that is written by hand */
function byHand(name, about, tracks, more) {
    const text = '<?xml version="1.0" encoding="UTF-8"?>\n<railml xmlns="http://www.railml.org/schemas/2013" version="2.2">'
        + `<infrastructure id="i"><tracks>\n${tracks}\n</tracks></infrastructure></railml>\n`;
    return { ...kind(name, about, new Ground(), {}, more), data: new TextEncoder().encode(text) };
}

/** @returns {Kind} */
function bothTracks() {
    const track = (/** @type {string} */ id, /** @type {string} */ ref) => `<track id="t${id}"><trackTopology>`
        + `<trackBegin id="b${id}" pos="0" absPos="2000"><openEnd id="o${id}"/></trackBegin><trackEnd id="e${id}" pos="1000" absPos="3000">`
        + `<openEnd id="p${id}"/></trackEnd><connections><crossing id="k${id}" pos="500" absPos="2500" type="simpleCrossing">`
        + `<connection id="c${id}" ref="c${ref}" course="straight" orientation="outgoing"/></crossing>`
        + "</connections></trackTopology></track>";
    return byHand("slip-on-both-tracks", "a crossing on each of two tracks, which both run through",
        [track("1", "2"), track("2", "1")].join("\n"),
        { today: "refused", after: "refused" });
}

/** @returns {Kind[]} */
function twoLegs() {
    const ground = new Ground("", (name, number) =>
        ["a", "c", "w1"][number - 1] ?? `${name}${number}`), main = ground.track("a", 0, 800, 0);
    ground.switch(main, 300, ground.track("c", 0, 800, 4), "east", "w1");
    const end = (/** @type {string} */ id, /** @type {string} */ at, /** @type {string} */ inner) =>
        `<trackEnd id="${id}e" pos="${at}" absPos="${inner}">`
        + `<openEnd id="${id}eo"/></trackEnd>`;
    const leg = (/** @type {string} */ id, /** @type {string} */ one, /** @type {string} */ two) => `<track id="${id}"><trackTopology>`
        + `<trackBegin id="${id}b" pos="0" absPos="300"><connection id="${one}" ref="${two}"/></trackBegin>${end(
            id, "500", "800")}</trackTopology></track>`;
    const truth = ground.truth();
    truth.switches = new Map([["w1", { legs: "east", leaves: ["end 4", "end 0"], toe: "end 0" }]]);
    truth.laterals = new Map([["a", 0], ["b", 0], ["c", 4]]);
    truth.places = truth.mileages = new Map([["w1", 300]]);
    return [byHand("switch-with-two-legs", "node model: the switch at the track's end has both legs as connections",
        `<track id="a"><trackTopology><trackBegin id="ab" pos="0" absPos="0"><openEnd id="ao"/></trackBegin>${end(
            "a", "300", "300")}<connections>`
        + '<switch id="w1" pos="300" absPos="300"><connection id="c1" ref="c2" course="straight" orientation="outgoing"/>'
        + '<connection id="c3" ref="c4" course="left" orientation="outgoing"/></switch></connections></trackTopology></track>\n'
        + `${leg("b", "c2", "c1")}\n${leg("c", "c4", "c3")}`, { today: "refused", after: "drawn", truth })];
}

// ---- texts

/** @returns {Kind[]} */
function texts() {
    const wide = loopStation();
    wide.one.name = "Gleis 1";
    const groups = '<trackGroups><line id="l1" code="6000"><trackRef ref="tr_1" sequence="1"/></line></trackGroups>';
    const seen = '<infrastructureVisualizations><visualization id="v1" version="1" infrastructureRef="inf"><trackVis ref="tr_1">'
        + '<trackElementVis ref="tr_1_b"><position x="0" y="10"/></trackElementVis></trackVis></visualization>'
        + "</infrastructureVisualizations>";
    return [
        kind("doctype", "a DOCTYPE", loopStation({ title: "Bf Übersee" }).ground, { doctype: '<!DOCTYPE railml SYSTEM "railML.dtd">' },
            { today: "refused" }),
        kind("utf-16-prefix", "UTF-16 with rail: on each element", wide.ground,
            { head: '<?xml version="1.0" encoding="UTF-16"?>', changed: prefixed,
            encoded: (text) => new Uint8Array(Buffer.from(`\ufeff${text}`, "utf16le")) }, { today: "refused" }),
        kind("two-namespaces", "rail: on each element, and another namespace without one", loopStation().ground, { changed: (text) =>
            prefixed(text).replace(" xmlns:rail=", ' xmlns="http://www.producer.com/ext" xmlns:rail=') }, { today: "refused" }),
        kind("windows-1252", "windows-1252", loopStation({ title: "Bf Übersee" }).ground,
            { head: '<?xml version="1.0" encoding="windows-1252"?>',
            encoded: (text) => new Uint8Array(Buffer.from(text, "latin1")) }, { today: "refused" }),
        kind("mark-and-standalone", "byte order mark, utf-8 in small letters, standalone", loopStation().ground,
            { head: '\ufeff<?xml version="1.0" encoding="utf-8" standalone="yes"?>' }),
        kind("long-ids", "ids of more than 64 bytes", loopStation({ idOf: (name, number) => `urn_infrastructure_export_2024_${name}_`
            + `${((number * 2654435761) % 2 ** 32).toString(16)}_${String(number).padStart(4, "0")}_4711_abcdef01234567` }).ground, {},
                { today: "refused" }),
        kind("ids-with-blanks", "ids with blanks",
            loopStation({ idOf: (name, number) => `${name} ${number}` }).ground, {}, { today: "refused" }),
        kind("own-schematic", "infrastructureVisualizations", loopStation().ground,
            { changed: (text) => text.replace("</infrastructure>", `</infrastructure>\n${seen}`) }),
        kind("groups-and-comments", "infraAttrGroups, trackGroups, schemaLocation, comments", loopStation().ground,
            { before: '<infraAttrGroups><infraAttrGroup id="iag"><owner ownerName="IM"/></infraAttrGroup></infraAttrGroups>',
                changed: (text) =>
                text.replace("</tracks>", `</tracks>\n${groups}`).replace("<trackTopology>", "<!-- topology --><trackTopology>")
                    .replace('version="2.2"', 'version="2.2" xsi:schemaLocation="http://www.railml.org/schemas/2013 railML.xsd"') }),
    ];
}

// ---- ends and joins

/** @returns {Kind[]} */
function ends() {
    const silent = loopStation(), macroscopic = loopStation(), cut = loopStation(), named = loopStation();
    silent.one.ends.west = "nothing";
    macroscopic.one.ends.west = { text: '<macroscopicNode ocpRef="ocp_A"/>' };
    macroscopic.two.ends.east = { text: '<macroscopicNode ocpRef="ocp_B"/>' };
    cut.one.ends.east = { text: '<connection id="{id}" ref="tr_line_2_cb"/>' };
    cut.two.ends.east = { text: '<connection id="{id}" ref="tr_line_3_cb"/>' };
    const ofConnection = new Map(named.ground.tracks.flatMap((it) => it.points)
        .flatMap((it) => ("connection" in it ? [[it.connection, it.id]] : [])));
    return [
        kind("end-says-nothing", "a begin without a child", silent.ground, {}, { today: "refused" }),
        kind("macroscopic-ends", "macroscopicNode with ocpRef, without id", macroscopic.ground),
        kind("neighbours-left-out", "ends that refer to neighbours that were left out", cut.ground, {}, { today: "refused" }),
        kind("ref-names-switch", "a ref names the switch and not its connection", named.ground, { changed: (text) =>
            text.replace(/ref="([^"]*)"/g, (_, ref) => `ref="${ofConnection.get(ref) ?? ref}"`) }, { today: "refused" }),
        kind("behind-the-end", "a switch a millimetre behind its track's end", loopStation().ground, { changed: (text) =>
            text.replace('pos="1400.000"', 'pos="1399.998"').replace('pos="1250.000"', 'pos="1399.999"') }, { today: "refused" }),
        ...joins(), ...parts(),
    ];
}

/** @returns {Kind[]} */
function joins() {
    const zero = new Ground("Null"), [one, two] = [0, -4.5].map((lateral, at) => zero.track(String(at + 1), 0, 1000, lateral));
    zero.crossover(one, 300, two, 300);
    const direct = [false, true].map((isTurned) => {
        const ground = new Ground("Direkt"), upper = ground.track("1", 0, 1000, 0, { isTurned }), lower = ground.track("2", 0, 1000, -4.5);
        ground.crossover(upper, 300, lower, 380, { isDirect: true });
        ground.crossover(lower, 600, upper, 680, { isDirect: true });
        return ground;
    });
    return [
        kind("no-length", "a crossover whose two switches have one mileage", zero, {}, { today: "refused", after: "refused" }),
        kind("joined-switches", "switches joined to each other without a track", direct[0]),
        kind("joined-switches-turned", "the same, the first track counted against", direct[1], { coordinates: { first: "latitude" } }),
    ];
}

/** @returns {Kind[]} */
function parts() {
    const second = new Ground("Zweigleisig mit Gütergleis");
    second.track("1", 0, 2000, 0);
    const two = second.track("2", 0, 2000, -4.5), loop = second.track("3", 0, 0, -9);
    second.switch(two, 400, loop, "east", "W1");
    second.switch(two, 1600, loop, "west", "W2");
    const third = new Ground("Drei Gleise"), [upper, middle] = [0, -4.5]
        .map((lateral, at) => third.track(String(at + 1), 0, 2000, lateral));
    third.track("3", 0, 2000, -9);
    third.crossover(upper, 300, middle, 380);
    const stubs = new Ground("Zwei Stumpfgleise"), main = stubs.track("1", 0, 2000, 0);
    stubs.switch(main, 400, stubs.track("2", 0, 1200, 9, { east: "bufferStop" }), "east", "W1");
    stubs.switch(main, 1600, stubs.track("3", 800, 0, 4.5, { west: "bufferStop" }), "west", "W2");
    return [
        kind("second-not-joined", "two main tracks that nothing joins, a loop at the second", second,
            { coordinates: { first: "latitude" } },
            { says: /nothing joins/ }),
        kind("stubs-beside-each-other", "two stubs of one track, from both ends, beside each other", stubs, {},
            { says: /nothing says whether track tr_5 lies above or below track tr_2/ }),
        kind("third-not-joined", "three tracks, a crossover between the upper two", third, { coordinates: { first: "latitude" } },
            { says: /nothing joins/ }),
        ...rings(),
    ];
}

/** @returns {Kind[]} */
function rings() {
    const triangle = new Ground("Gleisdreieck"), one = triangle.track("1", 0, 2000, 0), two = triangle.track("2", 0, 1800, -50);
    triangle.switch(one, 500, two, "east", "W1");
    const three = triangle.track("3", 1000, 1500, -30);
    triangle.switch(one, 1500, three, "west", "W2");
    const back = triangle.switch(two, 1000, null, "west", "W3", "upper");
    back.branch = three.connectionAt("west");
    three.ends.west = { to: back };
    const balloon = new Ground("Wendeschleife"), main = balloon.track("1", 0, 1000, 0),
        loop = balloon.switch(main, 800, null, "east", "W1", "upper");
    loop.branch = main.connectionAt("east");
    main.ends.east = { to: loop };
    const truth = { ...balloon.truth(), switches: new Map() };
    return [
        kind("triangle", "a triangle: three switches, three tracks", triangle, {},
            { today: "refused", after: "refused", truth: { ...triangle.truth(), switches: new Map() } }),
        kind("turning-loop", "a track's end joined to a switch of its own", balloon, {}, { today: "refused", after: "refused", truth }),
    ];
}

// ---- large ones, and objects

/** @returns {Kind[]} */
function large() {
    const all = loopStation(), circuits = new Ground("Gleisstromkreise");
    [all.one, all.two, all.three, all.four].forEach((it) => furnish(all.ground, it, true));
    all.ground.operationalPoint("ocp_A", "Adorf", 12700, "AAD", [all.one, all.two, all.three]);
    const pieces = [0, 1, 2, 3, 4, 5].map((at) => circuits.track(`T${at + 1}`, at * 200, at * 200 + 200, 0));
    pieces.slice(1).forEach((it, at) => circuits.joint(pieces[at], it));
    const loop = circuits.track("2", 0, 0, 4.5);
    circuits.switch(pieces[1], 250, loop, "east", "W1");
    circuits.switch(pieces[4], 950, loop, "west", "W2");
    return [
        kind("all-objects", "all objects, operational points, cross sections", all.ground,
            { version: "2.5", namespace: "https://www.railml.org/schemas/2021" }),
        kind("track-circuits", "main track cut at each track circuit", circuits),
        kind("yard-of-twelve", "yard of twelve tracks, ladders at both ends", yard("Rangierbahnhof", 12, 60)),
        kind("tracks-17", "17 tracks side by side", yard("Großer Bahnhof", 17, 30)),
        kind("terminus-of-eight", "terminus of eight tracks", terminus(), { coordinates: { first: "latitude", bearing: 180 } }),
    ];
}

/** @returns {Ground} */
function terminus() {
    const ground = new Ground("Kopfbahnhof"), end = /** @type {const} */ ({ east: "bufferStop" });
    let upper = ground.track("1", 0, 2000, 0, end), lower = ground.track("2", 0, 2000, -4.5, end);
    ground.crossover(upper, 300, lower, 360);
    ground.crossover(lower, 400, upper, 460);
    for (let number = 3; number < 9; number++) {
        const isUpper = number % 2 === 1, base = isUpper ? upper : lower;
        const next = ground.track(String(number), 0, 2000, base.lateral + (isUpper ? 4.5 : -4.5), end);
        ground.switch(base, 500 + 50 * number, next, "east", `W${number + 10}`);
        [upper, lower] = isUpper ? [next, lower] : [upper, next];
    }
    return ground;
}

/** @returns {Kind[]} all 67 */
export function kinds() {
    return [...producers(), ...edgeModels(), ...turnedTracks(), ...offsets(), ...ownMileages(), ...jumps(), ...switches(), ...crossings(),
        ...twoLegs(),
        ...texts(), ...ends(), ...large()];
}
