/** Files of lines of any size: what is done grows with the file and not with its square, and what is too large is said. */
import assert from "node:assert/strict";
import { spawnSync } from "node:child_process";
import { closeSync, existsSync, ftruncateSync, mkdtempSync, openSync, readFileSync, rmSync, writeFileSync } from "node:fs";
import { tmpdir } from "node:os";
import { test } from "node:test";
import { lineOf } from "../../cases/real/lines.js";
import { written } from "../../cases/real/writer.js";
import { written3 } from "../../cases/real/writer3.js";
import { Edits } from "../both/edits.js";
import { MOST_OF_LINE } from "../both/file_kinds.js";
import { elsewhere, wholeOf } from "../both/line/judged.js";
import { mendedLine } from "../both/line/mended.js";
import { cutLine } from "../both/line/stations.js";
import { knownOf } from "../both/messages/topology_faults.js";
import { judge } from "../both/mending/judge.js";
import { mended } from "../both/prepare.js";
import * as railml from "../both/railml.js";
import { Walked } from "../both/surroundings.js";

/** @typedef {import("../../cases/real/ground.js").Ground} Ground */

const { read } = railml;
const TOP = new URL("../../", import.meta.url).href, encoder = new TextEncoder(), decoder = new TextDecoder();

/** @param {number} stations @returns {Ground} a line of two tracks, with many objects at each */
function crowded(stations) {
    const ground = lineOf({ mains: 2, stations });
    for (const track of ground.tracks) {
        const count = Math.ceil((track.to - track.from) / 50), at = (/** @type {number} */ number) =>
            track.from + (track.to - track.from) * (number + 0.5) / count;
        for (let number = 0; number < count; number++) {
            const ocpRef = `ocp_${Math.min(stations - 1, Math.floor(at(number) / 5000))}`;
            number % 2 ? ground.place(track, "ocsElements", "balises", "balise", at(number), { ocpRef })
                : ground.signal(track, at(number), `N${number}`, true);
        }
    }
    return ground;
}

/** @param {number} stations @returns {Ground} the same, the second track counted against */
function turned(stations) {
    const ground = crowded(stations);
    ground.tracks.filter((it) => it.name.startsWith("2.")).forEach((it) => { it.isTurned = true; });
    return ground;
}

/** @param {Ground} ground @returns {Ground} each track cut at its switches */
function cut(ground) {
    ground.cutAtSwitches("end");
    return ground;
}

/** @type {[string, (stations: number) => Uint8Array][]} */
const LINES = [
    ["as it is", (stations) => written(crowded(stations))],
    ["absPos at open begins alone", (stations) => written(crowded(stations), { mileages: "open begins" })],
    ["a track counted against, signals without absPos", (stations) => written(turned(stations), { ofObjects: false })],
    ["cut at each switch", (stations) => written(cut(crowded(stations)))],
    ["no operational points", (stations) => written(lineOf({ mains: 1, stations: 2 * stations, hasPoints: false }))],
    ["parted at borders", (stations) => written(lineOf({ mains: 2, stations: 2 * stations, isParted: true }))],
    ["ends that lead out of the file", (stations) => encoder.encode(decoder.decode(written(crowded(stations)))
        .replaceAll(/<bufferStop id="([^"]*)"\/>/g, '<connection id="$1" ref="out_$1"/>'))],
    ["railML 3", (stations) => written3(crowded(stations))],
];

/** @param {Uint8Array} data what is done of a line but running the program */
function cutWhole(data) {
    const it = mendedLine("line.xml", data, "railplan"), { files, isWhole } = cutLine(it.document, {}), whole = wholeOf(it.document);
    assert.deepEqual([it.unfit, isWhole, files.length > 1], ["", true, true]);
    assert.deepEqual(files.map((file) => elsewhere(whole.signals, file)).filter(Boolean), []);
}

/**
 * How many values are looked up, and how many things of lists are gone through, while something is done.
 * @param {() => void} body
 * @returns {number}
 */
function steps(body) {
    let count = 0;
    const list = /** @type {Record<string | symbol, Function>} */ (/** @type {unknown} */ (Array.prototype)), { get } = Map.prototype;
    const names = ["indexOf", "filter", "find", "findIndex", "some", "every", "map", "flatMap", "includes", Symbol.iterator];
    const kept = names.map((name) => list[name]);
    Map.prototype.get = function counted(/** @type {unknown} */ key) {
        count++;
        return get.call(this, key);
    };
    names.forEach((name, at) => Object.defineProperty(list, name, { configurable: true, writable: true, value: function counted() {
        count += this.length;
        return kept[at].apply(this, arguments);
    } }));
    try {
        body();
    } finally {
        Map.prototype.get = get;
        names.forEach((name, at) => Object.defineProperty(list, name, { configurable: true, writable: true, value: kept[at] }));
    }
    return count;
}

test("what is done of a line grows with the line, and not with its square", () => {
    for (const [name, line] of LINES) {
        const [small, large] = [10, 40].map(line).map((data) => ({ size: data.length, count: steps(() => cutWhole(data)) }));
        const times = large.count / small.count / (large.size / small.size);
        assert.ok(times < 1.03, `${name}: of a file ${(large.size / small.size).toFixed(1)} times as long `
            + `${(large.count / small.count).toFixed(1)} times as much is done`);
    }
});

/** @param {number} count @returns {Uint8Array} tracks one behind the other, the longest of them last, the first counted otherwise */
function chain(count) {
    const joined = (/** @type {string} */ id, /** @type {string} */ ref, /** @type {boolean} */ isJoined) =>
        (isJoined ? `<connection id="${id}" ref="${ref}"/>` : `<openEnd id="${id}"/>`);
    const track = (/** @type {number} */ at) => {
        const length = at === count - 1 ? 20 : 10, from = at ? 10 * at : 5000, place = `pos="0" absPos="${from}"`;
        return `<track id="t${at}"><trackTopology><trackBegin id="b${at}" ${place}>${joined(`cb${at}`, `ce${at - 1}`, at > 0)}</trackBegin>`
            + `<trackEnd id="e${at}" pos="${length}" absPos="${from + length}">${joined(`ce${at}`, `cb${at + 1}`, at < count - 1)}`
            + "</trackEnd></trackTopology></track>";
    };
    return encoder.encode(`<railml version="2.2"><infrastructure><tracks>${Array.from({ length: count }, (_, at) => track(at)).join("")}`
        + "</tracks></infrastructure></railml>");
}

/** @param {number} count @returns {Uint8Array} a track with many switches and signals, counted otherwise than what is joined to it */
function comb(count) {
    const of = (/** @type {(at: number) => string} */ each) => Array.from({ length: count }, (_, at) => each(at)).join("");
    const points = of((at) => `<switch id="w${at}" pos="${10 * at + 5}" absPos="${9000 + 10 * at}"><connection id="cw${at}" ref="cb${at}" `
        + 'orientation="outgoing" course="left"/></switch>');
    const signals = of((at) => `<signal id="s${at}" pos="${10 * at + 7}" absPos="${9002 + 10 * at}" dir="up"/>`);
    const branches = of((at) => `<track id="t${at}"><trackTopology><trackBegin id="b${at}" pos="0" absPos="${10 * at + 5}"><connection id="cb${at}" `
        + `ref="cw${at}"/></trackBegin><trackEnd id="e${at}" pos="4" absPos="${10 * at + 9}"><openEnd id="o${at}"/></trackEnd></trackTopology></track>`);
    return encoder.encode('<railml version="2.2"><infrastructure><tracks><track id="m"><trackTopology><trackBegin id="mb" pos="0" absPos="8995">'
        + `<openEnd id="mo"/></trackBegin><trackEnd id="me" pos="${10 * count}" absPos="${8995 + 10 * count}"><openEnd id="mp"/></trackEnd>`
        + `<connections>${points}</connections></trackTopology><ocsElements><signals>${signals}</signals></ocsElements></track>${branches}`
        + "</tracks></infrastructure></railml>");
}

/** @param {number} count @returns {Uint8Array} ends that all refer to one that isn't there */
function lost(count) {
    return encoder.encode(decoder.decode(chain(count)).replaceAll(/ref="[^"]*"/g, 'ref="out"'));
}

/** @param {Uint8Array} data counts its tracks as one */
function counted(data) {
    const { changes } = mended("l", data, "railplan", { isOneKm: true });
    assert.match(changes[0], /^l:1:\d+: track (t0|m) is counted with track t\d+: from 0 to /);
}

/** @type {[string, (count: number) => Uint8Array, (data: Uint8Array) => void][]} */
const GROWING = [
    ["a chain of tracks is counted as one", chain, counted],
    ["a track is counted with its many branches", comb, counted],
    ["ends lead nowhere, and what is meant is looked for", lost, (data) => assert.equal(knownOf(read(data)).backs.get("out")?.length,
        railml.connections(read(data)).length)],
];

test("what is joined is counted as one, and what a ref may mean is found, in steps that grow with the file and not with its square", () => {
    for (const [name, file, body] of GROWING) {
        const [small, large] = [200, 800].map(file).map((data) => ({ size: data.length, count: steps(() => body(data)) }));
        assert.ok(large.count / small.count < 1.1 * large.size / small.size, `${name}: of a file ${(large.size / small.size).toFixed(1)} times as `
            + `long ${(large.count / small.count).toFixed(1)} times as much is done`);
    }
});

test("a chain of many tracks is walked along, to its end and back", () => {
    const count = 20000, track = (/** @type {number} */ at) => `<track id="t${at}"><trackTopology><trackBegin id="b${at}" pos="0">`
        + `${at ? `<connection id="cb${at}" ref="ce${at - 1}"/>` : ""}</trackBegin><trackEnd id="e${at}" pos="10">`
        + `${at < count - 1 ? `<connection id="ce${at}" ref="cb${at + 1}"/>` : ""}</trackEnd></trackTopology>`
        + `<ocsElements><signals><signal id="s${at}" pos="5"/></signals></ocsElements></track>`;
    const text = `<railml><infrastructure><tracks>${Array.from({ length: count }, (_, at) => track(at)).join("")}</tracks></infrastructure></railml>`;
    const found = new Walked(read(encoder.encode(text))).signals();
    assert.deepEqual([found.size, new Set(found.values())], [count, new Set([`b0 and e${count - 1}`])]);
});

test("a ring of tracks is walked along once", () => {
    const track = (/** @type {number} */ at) => `<track id="t${at}"><trackTopology><trackBegin id="b${at}" pos="0"><connection id="cb${at}" `
        + `ref="ce${(at + 2) % 3}"/></trackBegin><trackEnd id="e${at}" pos="10"><connection id="ce${at}" ref="cb${(at + 1) % 3}"/></trackEnd>`
        + `</trackTopology><ocsElements><signals><signal id="s${at}" pos="5"/></signals></ocsElements></track>`;
    const text = `<railml><infrastructure><tracks>${[0, 1, 2].map(track).join("")}</tracks></infrastructure></railml>`;
    const found = new Walked(read(encoder.encode(text))).signals();
    assert.deepEqual([found.size, new Set(found.values()).size], [3, 1]);
});

test("places are said in any order", () => {
    const lines = Array.from({ length: 900 }, (_, at) => "é".repeat(at % 40)), data = encoder.encode(`\ufeff${lines.join("\n")}`);
    const edits = new Edits("s", data), begins = lines.map((_, at) => encoder.encode(`\ufeff${lines.slice(0, at).join("\n")}`).length + Number(at > 0));
    const numbers = lines.map((_, at) => (at * 577) % 900);
    assert.deepEqual(numbers.map((at) => edits.at(begins[at])), numbers.map((at) => `s:${at + 1}:1`));
    assert.deepEqual(numbers.map((at) => edits.at(begins[at] + 2 * lines[at].length)), numbers.map((at) => `s:${at + 1}:${lines[at].length + 1}`));
    assert.equal(edits.at(0), "s:1:1");
});

test("what is too large for the program is judged by two readings, and a side that changed is seen", async () => {
    const line = cut(lineOf({ mains: 2, stations: 12 })), data = written(line), it = mended("line.xml", data, "railplan");
    const says = (/** @type {string} */ fault) => /** @type {import("../both/engine.js").Engine} */ (/** @type {unknown} */ ({
        run: async () => ({ status: 1, output: encoder.encode(`${fault}\n`), files: new Map(), wasStopped: false }) }));
    for (const fault of ["long 1", "topology 2 TooMany at 7", "graph 1 TooManyNodes 162", "graph 1 TooManyEdges 170"]) {
        assert.deepEqual(await judge(says(fault), it), { reason: "", fault, isLarge: true });
    }
    assert.equal((await judge(says("topology 3 Missing at 7"), it))?.isLarge, false);
    const source = decoder.decode(data), [, id] = /** @type {RegExpExecArray} */ (/<switch id="([^"]*)"/.exec(source));
    for (const [changed, said] of /** @type {[string, string][]} */ ([
        [source.replace(/course="(left|right)"/, (_, hand) => `course="${hand === "left" ? "right" : "left"}"`), `${id} has `],
        [source.replace(/(<switch [^>]*absPos=")/, "$11"), `${id} would be at another mileage`]])) {
        it.source = read(encoder.encode(changed));
        assert.ok((await judge(says("long 1"), it))?.reason.startsWith(said));
    }
});

/** @param {string} command @param {string[]} words @param {string} folder @returns {string} the status and what a command says */
function ran(command, words, folder) {
    const script = `import { run } from "${TOP}shell/terminal/${command}_command.js"; import { read } from "${TOP}shell/both/words.js";
        import { Ended } from "${TOP}shell/terminal/say.js";
        const context = { engine: { run: async () => ({ status: 1, output: Buffer.from("long 1\\n"), wasStopped: false }) } };
        const words = read(process.argv.slice(1));
        try { process.exitCode = await (${command === "prepare"} ? run(words, async () => context) : run(context, words)); }
        catch (error) { if (!(error instanceof Ended)) throw error; process.exitCode = error.status; }`;
    const { status, stderr } = spawnSync(process.execPath, ["--input-type=module", "-e", script, command, ...words], { cwd: folder });
    return `${status}: ${stderr}`;
}

/** @param {(folder: string) => void} body */
function inFolder(body) {
    const folder = mkdtempSync(`${tmpdir()}/railplan-`);
    try {
        body(folder);
    } finally {
        rmSync(folder, { recursive: true });
    }
}

test("a file with more than is read is refused, and nothing of it is read in silence", () => inFolder((folder) => {
    const handle = openSync(`${folder}/large.xml`, "w");
    ftruncateSync(handle, MOST_OF_LINE + 1);
    closeSync(handle);
    for (const command of ["prepare", "stations"]) {
        assert.equal(ran(command, ["large.xml", "out"], folder),
            "1: railplan: large.xml has more than 128 MiB, and no more is read. Export a part of it, or the infrastructure alone\n");
    }
}));

test("a line is prepared, and it is said by what it was judged", () => inFolder((folder) => {
    writeFileSync(`${folder}/line.xml`, written(cut(lineOf({ mains: 2, stations: 12 }))));
    const said = ran("prepare", ["line.xml", "out.xml"], folder);
    assert.match(said, /^0: /);
    assert.match(said, /The program reads no file of this size, so this was judged by two readings of the launcher alone: by them each switch and /);
    assert.match(said, / stations out\.xml FOLDER cuts a line into stations, and judges each by the program's track graph\n$/);
    assert.ok(cutLine(read(readFileSync(`${folder}/out.xml`)), {}).isWhole);
}));

// ---- railML 3

test("a line of railML 3 is cut by its operational points, at a spot or in an area", () => {
    const text = decoder.decode(written3(lineOf({ mains: 2, stations: 12 })));
    const areas = text.replaceAll(/(<operationalPoint .*?)<spotLocation id="([^"]*)" netElementRef="([^"]*)"[^>]*\/>/g,
        '$1<areaLocation id="$2"><associatedNetElement netElementRef="$3"/></areaLocation>');
    assert.notEqual(areas, text);
    for (const one of [text, areas]) {
        const it = mendedLine("line.xml", encoder.encode(one), "railplan"), { files, isWhole } = cutLine(it.document, {});
        assert.deepEqual([it.unfit, isWhole, files.map((file) => file.title)], ["", true, Array.from({ length: 12 }, (_, at) => `Ort ${at}`)]);
    }
});

test("a line of railML 3 that isn't clear, or would be another one, isn't cut, and why is said", () => inFolder((folder) => {
    const text = decoder.decode(written3(lineOf({ mains: 1, stations: 3 }))), slip = text.replace("ordinarySwitch", "singleSwitchCrossing");
    writeFileSync(`${folder}/slip.xml`, slip);
    const said = ran("stations", ["slip.xml", "out"], folder);
    assert.match(said, /^1: [^]*: switch 0W1 is a singleSwitchCrossing: where its slips lead can't be drawn\n/);
    assert.ok(said.endsWith("railplan: this railML 3 file can't be written as railML 2, by which a line is cut: what is listed would have to be "
        + "guessed\nrailplan: nothing is written\n"), said);
    assert.ok(!existsSync(`${folder}/out`));
}));
