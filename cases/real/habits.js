/** Further habits of producers: ids, directions, mileages, objects, encodings, namespaces, ends, crossings, slips, coordinates. */
import { Ground, Switch } from "./ground.js";
import { BY_ONE_KM, kind, loopStation, prefixed, replacing } from "./kind.js";

/** @typedef {import("./kinds.js").Kind} Kind */
/** @typedef {import("./ground.js").Track} Track */

const REFUSED = /** @type {const} */ ({ today: "refused", after: "refused" }), MENDED = /** @type {const} */ ({ today: "refused" });

/** @param {Ground} ground @param {(track: Track, at: number) => boolean} isTurned @returns {Ground} with tracks turned */
function turned(ground, isTurned = () => true) {
    ground.tracks.forEach((it, at) => {
        it.isTurned = isTurned(it, at);
    });
    return ground;
}

/** @param {Ground} ground @param {"end" | "begin"} where @returns {Ground} */
function cut(ground, where = "end") {
    ground.cutAtSwitches(where);
    return ground;
}

/** @returns {Ground} a station of five tracks with ladders */
function ladder() {
    const ground = new Ground("Leiter");
    let before = ground.track("1", 1000, 3000, 0);
    for (let number = 2; number < 6; number++) {
        const next = ground.track(String(number), 0, 0, 4.5 * (number - 1));
        ground.switch(before, 1200 + 50 * number, next, "east", `W${number}`);
        ground.switch(before, 2800 - 50 * number, next, "west", `W${number + 20}`);
        before = next;
    }
    return ground;
}

/** @returns {Ground} two main tracks that are cut in the middle of the station, and a loop */
function halves() {
    const ground = new Ground("Geteilt"), [west, east] = [ground.track("1w", 0, 700, 0), ground.track("1e", 700, 1400, 0)];
    ground.joint(west, east);
    const loop = ground.track("2", 0, 0, 4.5);
    ground.switch(west, 300, loop, "east", "W1");
    ground.switch(east, 1100, loop, "west", "W2");
    return ground;
}

/** @returns {Kind[]} */
function texts() {
    const plain = () => loopStation().ground;
    return [
        kind("infrastructure-alone", "infrastructure as the root", plain(), { isBare: true }),
        kind("one-line", "all on one line", plain(), { isTight: true }),
        kind("carriage-returns", "lines that end in two signs", plain(), { changed: replacing("\\n", "\r\n", "g") }),
        kind("single-quotes", "values in single quotes", plain(), { changed: (text) => text.replace(/="([^"']*)"/g, "='$1'") }),
        kind("utf-16-big-end", "UTF-16, big end first", plain(), { head: '<?xml version="1.0" encoding="UTF-16"?>',
            encoded: (text) => new Uint8Array(Buffer.from(`\ufeff${text}`, "utf16le").swap16()) }, MENDED),
        kind("latin-1", "ISO-8859-1", loopStation({ title: "Bf Übersee" }).ground, { head: '<?xml version="1.0" encoding="ISO-8859-1"?>',
            encoded: (text) => new Uint8Array(Buffer.from(text, "latin1")) }, MENDED),
        kind("prefix", "rail: on each element", plain(), { changed: prefixed }, MENDED),
        kind("prefix-one-line-latin-1", "rail:, one line, ISO-8859-1", loopStation({ title: "Übersee" }).ground,
            { changed: prefixed, isTight: true,
            head: '<?xml version="1.0" encoding="ISO-8859-1"?>', encoded: (text) => new Uint8Array(Buffer.from(text, "latin1")) }, MENDED),
        kind("two-namespaces-and-elements", "rail:, and elements of a producer's own without a prefix", plain(), { changed: (text) =>
            prefixed(text).replace(" xmlns:rail=", ' xmlns="http://www.producer.com/ext" xmlns:rail=')
                .replace(/<\/rail:track>/g, "<own a=\"1\"/></rail:track>") }, MENDED),
        kind("doctype-inside", "a DOCTYPE with an element declared", plain(), { doctype: "<!DOCTYPE railml [<!ELEMENT railml ANY>]>" },
            MENDED),
        kind("doctype-entities", "a DOCTYPE with an entity", plain(), { doctype: '<!DOCTYPE railml [<!ENTITY name "x">]>' }, REFUSED),
        kind("decimal-commas", "commas in numbers", plain(),
            { changed: (text) => text.replace(/(pos|absPos)="(\d+)\.(\d+)"/g, '$1="$2,$3"') }, MENDED),
        kind("exponents", "exponents in numbers", plain(),
            { changed: (text) => text.replace(/(absPos)="(\d+)\.(\d+)"/g, (_, name, whole, part) =>
            `${name}="${Number(`${whole}.${part}`).toExponential(8)}"`) }, MENDED),
        kind("nine-decimals", "nine decimals", plain(), { decimals: 9 }, MENDED),
        kind("whole-metres", "no decimals", plain(), { decimals: 0 }),
        kind("thousands", "commas that may part thousands", plain(),
            { changed: (text) => text.replace(/absPos="(\d+)(\d{3})\.000"/g, 'absPos="$1,$2"')
            .replace(/pos="(\d+)\.000"/g, 'pos="$1"') }, REFUSED),
    ];
}

/** @returns {Kind[]} */
function ids() {
    const named = (/** @type {(kind: string, number: number) => string} */ idOf) => loopStation({ idOf }).ground;
    const long = "x".repeat(70);
    return [
        kind("ids-in-braces", "ids as {..}", named((name, number) => `{${name}-${number}}`)),
        kind("ids-with-umlauts", "ids with letters that are no ASCII", named((name, number) => `Gleis_Ü${name}${number}`)),
        kind("ids-no-break", "ids with a no-break space", named((name, number) => `${name}\u00a0${number}`), {}, MENDED),
        kind("ids-alike-without-blanks", "ids that are one where a blank is written as _",
            named((name, number) => (number % 2 ? `${name} ${number}` : `${name}_${number - 1}`)), {}, MENDED),
        kind("ids-long-alike", "long ids that differ at their end alone", named((name, number) => `${long}${name}${number}`), {}, MENDED),
        kind("ids-long-letters", "ids of 40 letters of two bytes",
            named((name, number) => `${"ü".repeat(40)}${name}${number}`), {}, MENDED),
        kind("ids-twice", "a connection's id twice", loopStation().ground,
            { changed: (text) => text.replace(/id="tr_1_cbo"/, 'id="x"').replace(/id="sw_W3"/, 'id="tr_1"') }, REFUSED),
        kind("ref-names-track", "the ref of a switch names its branch's track", loopStation().ground, { changed: (text) =>
            text.replace(/ref="(tr_\d+)_c[be]"( orientation)/g, 'ref="$1"$2') }, MENDED),
        kind("ref-names-end", "the ref of a switch names its branch's begin or end", loopStation().ground, { changed: (text) =>
            text.replace(/ref="(tr_\d+)_c([be])"( orientation)/g, 'ref="$1_$2"$3') }, MENDED),
        kind("ref-names-itself", "two refs that name connections of a third", loopStation().ground,
            { changed: replacing('ref="tr_3_cb"', 'ref="tr_8_cb"') }, REFUSED),
    ];
}

/** @returns {Kind[]} */
function directions() {
    const joined = halves();
    joined.tracks[1].isTurned = true;
    return [
        kind("all-turned", "all tracks counted against the mileage", turned(loopStation().ground)),
        kind("every-second-turned", "each second track counted against", turned(ladder(), (_, at) => at % 2 === 1)),
        kind("halves", "a main track cut in the middle", halves(), { mileages: "begins" }),
        kind("halves-turned", "the same, the east one counted against", joined),
        kind("halves-turned-begins", "the same, absPos at begins alone", turned(halves(), (_, at) => at === 1), { mileages: "begins" },
            { ...BY_ONE_KM, odd: "tr_2" }),
        kind("cut-all-turned", "cut at switches, all counted against", cut(turned(loopStation().ground)), {}, MENDED),
        kind("cut-some-turned", "cut at switches, each second track counted against",
            cut(turned(ladder(), (_, at) => at % 2 === 1), "begin"), {}, MENDED),
        kind("cut-ladder", "a ladder cut at switches", cut(ladder()), {}, MENDED),
        kind("cut-absPos-at-begins", "cut at switches, absPos at begins alone", cut(loopStation().ground), { mileages: "begins" }, MENDED),
        kind("cut-pieces-turned", "cut at switches, each second piece counted against", turnedPieces(), {}, MENDED),
        kind("cut-with-signals", "cut at switches, signals at the pieces", withSignals(), {}, MENDED),
        kind("signals-falling", "signals without absPos on a track that falls", falling(), { ofObjects: false }, { says: /absPos/ }),
    ];
}

/** @returns {Ground} */
function turnedPieces() {
    const ground = cut(loopStation().ground);
    return turned(ground, (_, at) => at % 2 === 1);
}

/** @returns {Ground} */
function withSignals() {
    const { ground, one, two } = loopStation();
    [one, two].forEach((it) => [0.1, 0.3, 0.6, 0.9]
        .forEach((part, at) => ground.signal(it, it.from + 1400 * part + 3, `S${it.name}${at}`, at % 2 === 0)));
    return cut(ground, "begin");
}

/** @returns {Ground} */
function falling() {
    const { ground, two } = loopStation({ isTurned: true });
    [0.1, 0.5, 0.9].forEach((part, at) => ground.signal(two, two.from + 1400 * part, `S${at}`, true));
    return ground;
}

/** @returns {Kind[]} */
function mileages() {
    const from = (/** @type {number} */ at) => loopStation({ at }).ground, own = ladder(), truth = own.truth();
    own.mileage = (track, at) => (track === own.tracks[0] ? at : 9000 - at);
    const hundreds = (/** @type {string} */ text) => text.replace(/absPos="(\d+)(\d\d)\.(\d+)"/g, 'absPos="$100" absPosOffset="$2.$3"');
    return [
        kind("around-zero", "mileages around 0", from(-700)),
        kind("open-begins", "absPos at open begins alone", from(12000), { mileages: "open begins" }, MENDED),
        kind("no-mileage", "no absPos", from(12000), { mileages: "none" }, REFUSED),
        kind("ladder-of-own-mileages", "each track of a ladder counted its own way", own, {}, { ...BY_ONE_KM, truth, odd: "tr_1" }),
        kind("offsets-everywhere", "absPos in hectometres, absPosOffset everywhere", from(12000), { changed: hundreds },
            { says: /absPosOffset/ }),
        kind("offset-negative", "a negative absPosOffset", from(12000),
            { changed: replacing('absPos="12150.000"', 'absPos="12200.000" absPosOffset="-50"', "g") },
            { says: /absPosOffset/ }),
        kind("pos-is-absPos", "pos counted as the mileage", from(12000),
            { changed: (text) => text.replace(/pos="[\d.]+" absPos="([\d.]+)"/g, 'pos="$1" absPos="$1"') }),
        kind("switch-before-begin", "a switch a millimetre before its track's begin", from(12000),
            { changed: replacing('pos="150.000"', 'pos="-0.001"') }, MENDED),
        kind("switch-far-outside", "a switch a metre behind its track's end", from(12000), { changed: (text) =>
            text.replace('pos="1250.000"', 'pos="1401.000"') }, REFUSED),
        kind("two-outside", "two switches a millimetre behind their track's end", from(12000), { changed: (text) =>
            text.replace('pos="1250.000"', 'pos="1400.001"').replace('pos="150.000"', 'pos="1400.001"') }, REFUSED),
    ];
}

/** @returns {Kind[]} */
function ends() {
    const both = loopStation(), left = loopStation();
    both.one.ends = { west: "nothing", east: "nothing" };
    left.ground.tracks = left.ground.tracks.filter((it) => it !== left.four);
    return [
        kind("ends-say-nothing", "both ends without a child", both.ground, {}, MENDED),
        kind("ends-without-ids", "open ends and buffer stops without ids", loopStation().ground, { changed: (text) =>
            text.replace(/<(openEnd|bufferStop) id="[^"]*"/g, "<$1") }),
        kind("branch-left-out", "a branch whose track was left out", left.ground, {}, { ...REFUSED, truth: loopStation().ground.truth() }),
        kind("two-endings", "an end that is joined and open", loopStation().ground,
            { changed: replacing('(<connection id="tr_8_cb"[^>]*/>)', '$1<openEnd id="oe"/>') }, REFUSED),
        kind("switches-not-in-order", "switches listed from the east", loopStation().ground, { changed: (text) =>
            text.replace(/<connections>\n([^]*?)\n<\/connections>/g,
                (_, listed) => `<connections>\n${listed.split("\n").reverse().join("\n")}\n</connections>`) }),
        kind("connections-listed-first", "connections before begin and end", loopStation().ground, { changed: (text) =>
            text.replace(/(<trackBegin.*\n<trackEnd.*\n)(<connections>[^]*?<\/connections>\n)/g, "$2$1") }),
    ];
}

/** @returns {Kind[]} */
function hands() {
    const straight = loopStation(), mirrored = loopStation().ground;
    const it = straight.two.points.find((one) => one.name === "W3");
    if (it instanceof Switch) {
        // the branch goes on straight, and the track turns off to the other hand
        it.course = "straight";
        it.attributes = { trackContinueCourse: "left" };
    }
    const half = (/** @type {string} */ text) => text.replace(/<geoCoord[^>]*>/g, (all, at) => (at % 2 ? all : ""));
    return [
        kind("branch-straight", "a branch that goes straight, the track turns off", straight.ground),
        kind("along-the-track-turned", "courses along the track, the second track counted against", loopStation({ isTurned: true }).ground,
            { course: "track" },
            { ...MENDED, asked: ["--hands", "along"] }),
        kind("along-the-track-ladder", "courses along the track in a ladder", ladder(), { course: "track" },
            { ...MENDED, asked: ["--hands", "along"] }),
        kind("coordinates-mirrored", "coordinates that are mirrored", mirrored, { coordinates: { first: "latitude", isMirrored: true } },
            { says: /disagree/ }),
        kind("coordinates-curve", "coordinates on a curve of 1,000 m", loopStation({ at: 100 }).ground,
            { coordinates: { first: "latitude", radius: 1000 } }),
        kind("coordinates-northing", "coordinates in metres, northing first", loopStation().ground,
            { coordinates: { first: "northing", bearing: 200 } }),
        kind("coordinates-easting", "coordinates in metres, easting first", loopStation().ground,
            { coordinates: { first: "easting", bearing: 70 } }),
        kind("coordinates-longitude", "coordinates in degrees, longitude first", loopStation().ground,
            { coordinates: { first: "longitude", bearing: 110 } }),
        kind("coordinates-some", "coordinates at some places", loopStation().ground, { coordinates: { first: "latitude" }, changed: half }),
        kind("along-the-track-coordinates", "courses along the track, coordinates", loopStation({ isTurned: true }).ground,
            { course: "track", coordinates: { first: "latitude", bearing: 300 } }, { ...MENDED, asked: ["--hands", "along"] }),
    ];
}

/** @returns {Kind[]} */
function slips() {
    const ground = new Ground("DKW"), one = ground.track("1", 2000, 3000, 0), two = ground.track("2", 2000, 3000, -4.5);
    const [west, east] = [ground.track("Aw", 0, 0, -3), ground.track("Ae", 0, 0, 2)];
    ground.switch(two, 2200, west, "east", "W1", "upper");
    ground.crossing(one, 2400, west, east, "Kr", true);
    const three = ground.track("3", 2000, 3000, 4.5);
    ground.switch(three, 2600, east, "west", "W2", "lower");
    return [
        kind("crossover-over-a-track", "a crossover that crosses the track between", ground),
        kind("crossover-over-a-track-cut", "the same, cut at switches and crossing", cutWhole(), {}, MENDED),
        kind("crossing-without-incoming-course", "a crossing whose incoming connection has no course", cutless(),
            { changed: (text) => text.replace(/ course="straight"/g, "") }),
        kind("slip-four-connections", "a double slip with four connections", cutless(), { changed: (text) =>
            text.replace(
                "</crossing>",
                '<connection id="s1" ref="s2" orientation="incoming"/><connection id="s2" ref="s1" orientation="outgoing"/></crossing>') },
                REFUSED),
    ];
}

/** @returns {Ground} */
function cutless() {
    const ground = new Ground("Kreuzung"), one = ground.track("1", 2000, 3000, 0);
    ground.crossing(one, 2500, ground.track("2w", 2000, 0, -4.5), ground.track("2e", 0, 3000, 4.5), "Kr1");
    return ground;
}

/** @returns {Ground} */
function cutWhole() {
    const ground = new Ground("DKW"), one = ground.track("1", 2000, 3000, 0), two = ground.track("2", 2000, 3000, -4.5);
    const [west, east] = [ground.track("Aw", 0, 0, -3), ground.track("Ae", 0, 0, 2)], three = ground.track("3", 2000, 3000, 4.5);
    ground.switch(two, 2200, west, "east", "W1", "upper");
    ground.switch(three, 2600, east, "west", "W2", "lower");
    ground.crossing(one, 2400, west, east, "Kr", true);
    return cut(ground);
}

/** @returns {Kind[]} */
export function habits() {
    return [...texts(), ...ids(), ...directions(), ...mileages(), ...ends(), ...hands(), ...slips()];
}

