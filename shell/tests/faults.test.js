/** Every fault, refusal and law has a sentence, and what is said of a file names the place and the way on. */
import assert from "node:assert/strict";
import { execFileSync } from "node:child_process";
import { readFileSync } from "node:fs";
import { test } from "node:test";
import { lines } from "../../cases/real/lines.js";
import { cutLine } from "../both/line/stations.js";
import { GRAPH } from "../both/messages/graph_faults.js";
import { HINTS, LOG, REFUSALS } from "../both/messages/log_faults.js";
import { broken, LAWS, SHEET } from "../both/messages/sheet_faults.js";
import { SIGNAL } from "../both/messages/signal_faults.js";
import { Ending, nearby, notesOf } from "../both/messages/telling.js";
import { notes as textNotes, TEXT } from "../both/messages/text_faults.js";
import { TOPOLOGY } from "../both/messages/topology_faults.js";
import { WORDS } from "../both/messages/word_faults.js";
import { plain, show } from "../both/notes.js";
import { Place, ofByte } from "../both/places.js";
import { printable } from "../both/printable.js";
import { connections, hasNoHand, hasNoWay, read } from "../both/railml.js";
import { fault, read as readWords } from "../both/words.js";
import { edited, hasProgram, printed, runOver, signs, TOP } from "./clone.js";

/** @typedef {{command: string, of?: string, edits?: string[][], cut?: number, more?: string, text?: string, line: string,
 * place?: string, piece: string, other?: string}} Row a file with a fault, the program's line, the place and a piece of what is
 * said, and of what is said of another place */

const bytes = (/** @type {string} */ text) => new TextEncoder().encode(text);
const unpainted = (/** @type {string} */ text) => text;

/** @param {number} count @returns {string} a file of tracks that nothing joins */
function tracks(count) {
    const one = (/** @type {number} */ n) => `<track id="t${n}"><trackTopology><trackBegin id="b${n}" pos="0" `
        + `absPos="0"><openEnd/></trackBegin><trackEnd id="e${n}" pos="5"><openEnd/></trackEnd></trackTopology></track>`;
    return `<infrastructure><tracks>${Array.from({ length: count }, (_, n) => one(n)).join("")}</tracks></infrastructure>`;
}

/** @returns {string} a station with 513 signals */
function manySignals() {
    const listed = Array.from({ length: 513 }, (_, n) => `<signal id="s${n}" pos="5"/>`).join("");
    const end = "</connections></trackTopology>";
    return edited(signs("examples/station.xml"),
        [[`${end}</track>`, `${end}<ocsElements><signals>${listed}</signals></ocsElements></track>`]]);
}

/** @type {Row[]} */
const ROWS = [...JSON.parse(readFileSync(new URL("faults.json", import.meta.url), "utf8")),
    { command: "graph", text: tracks(129), line: "topology 2 TooMany at 21326", piece: "129 of 129" },
    { command: "graph", text: tracks(65), line: "graph 1 TooManyNodes 130", piece: "130 ends" },
    { command: "signals", text: manySignals(), line: "signal 1 TooMany at 14377", place: "10:", piece: "513 of 513" }];

/** @param {Row} row @returns {string} */
function fileOf({ of, edits = [], cut, more = "", text = "" }) {
    return of ? edited(signs(of), edits).slice(0, cut) + more : text;
}

/** @param {string[]} words @param {string} output @param {Record<string, string>} files @param {number} [status] */
function said(words, output, files, status = 1) {
    return notesOf(runOver(words, `${output}\n`, files, { status }));
}

test("files", async () => {
    for (const row of ROWS) {
        const notes = await said([row.command, "s.xml"], row.line, { "s.xml": fileOf(row) });
        const text = notes.map((it) => show(it, unpainted)).join("");
        assert.ok(text.includes(row.piece), `${row.line}: ${text}`);
        assert.ok(!row.place || notes[0].place?.head().startsWith(`s.xml:${row.place}`), `${row.line}: ${text}`);
        assert.ok(!row.other || notes.slice(1).some((it) => it.text.includes(row.other ?? "")), `${row.line}: ${text}`);
    }
});

test("a whole line is cut where it can be, and else a part is exported", async () => {
    const [double, parted] = ["double", "double-parted"].map((name) => new TextDecoder().decode(lines().find((it) => it.name === name)?.data));
    for (const [text, line] of [[parted, "topology 2 TooMany at 1"], [double, "graph 1 TooManyNodes 170"], [double, "graph 2 TooManyEdges 200"]]) {
        const { files, isWhole } = cutLine(read(bytes(text)), {}), [note] = await said(["graph", "s.xml"], line, { "s.xml": text });
        assert.ok(isWhole && note.text.endsWith(`Cut it: ./railplan stations s.xml STATIONS writes it in ${files.length} files, `
            + "one for each station or part of one"), note.text);
    }
    for (const line of ["topology 2 TooMany at 1", "graph 1 TooManyNodes 130", "graph 2 TooManyEdges 163"]) {
        const [note] = await said(["graph", "s.xml"], line, { "s.xml": tracks(129) });
        assert.match(note.text, /\. Export a part of it$/);
    }
});

test("what prepare would change is said where the fault is of its kinds and nothing is guessed", async () => {
    const silent = "<infrastructure><tracks><track id=\"m\"><trackTopology><trackBegin id=\"b\" pos=\"0\" absPos=\"0\"/>"
        + "<trackEnd id=\"e\" pos=\"9\"><openEnd/></trackEnd></trackTopology></track></tracks></infrastructure>";
    for (const [line, text, count] of /** @type {[string, string, number][]} */ ([["topology 10 EndKind at 49 b", silent, 1],
        ["topology 5 RepeatedId at 49 b", silent, 0],
        ["topology 10 EndKind at 49 b", silent.replace("absPos=\"0\"", ""), 0]])) {
        const notes = (await said(["graph", "s.xml"], line, { "s.xml": text })).map((it) => it.text);
        const found = notes.filter((it) => it === "./railplan prepare s.xml NEW.xml writes the file with 1 change, and says it");
        assert.equal(found.length, count, notes.join("\n"));
    }
});

test("a comma that may part thousands isn't promised to be mended", async () => {
    const text = tracks(1).replace("pos=\"5\"", "pos=\"1,500\"");
    const [note] = await said(["graph", "s.xml"], `topology 6 Number at ${text.indexOf("<trackEnd")} e0 pos`, { "s.xml": text });
    assert.match(note.text, /A comma before three digits may part thousands or decimals: write it without/);
});

test("the program says these lines", { skip: !hasProgram }, () => {
    for (const row of ROWS) {
        assert.equal(printed(fileOf(row), row.command).at(-1), row.line);
    }
});

test("hands and ways that are not read are those of the program", { skip: !hasProgram }, () => {
    const own = (/** @type {string} */ goesOn, /** @type {string} */ course, /** @type {string} */ way) =>
        `<switch id="W1"${goesOn} pos="310" absPos="12310"><connection id="W1.branch" ref="track4.west" course="${course}" `
        + `orientation="${way}"/>`;
    for (const course of ["left", "right", "straight", "", "Left"]) {
        for (const goesOn of ["", " trackContinueCourse=\"left\"", " trackContinueCourse=\"straight\""]) {
            for (const way of ["outgoing", "incoming", "Incoming"]) {
                const text = edited(signs("examples/station.xml"), [[own("", "left", "outgoing"), own(goesOn, course, way)]]);
                const isWrong = connections(read(bytes(text))).some((it) => hasNoHand(it) || hasNoWay(it));
                assert.equal(/^topology 1[12] /.test(printed(text)[0]), isWrong, text);
            }
        }
    }
});

test("files of other kinds are called what they are", () => {
    for (const [text, piece] of [["PK\x03\x04zip", "a packed archive"], ["%PDF-1.7", "a PDF"], ["{\"a\": 1}", "JSON"],
        ["name;km\n", "no XML"], ["text <railml>", "nothing but comments"]]) {
        for (const name of ["Markup", "NotUtf8"]) {
            const found = textNotes(name, { name: "f", data: bytes(text), place: 0, called: "railplan" })[0].text;
            assert.equal(found.includes(piece), name === "Markup" || !text.includes("<"), found);
        }
    }
    for (const [name, piece] of [["railML", "this is railML 3"], ["rail3:railML", "this is railML 3"], ["rail:railml",
        "the prefix rail:"],
        ["timetable", "the first element is timetable"]]) {
        const found = textNotes("Root", { name: "f", data: bytes(`<${name}/>`), place: 0, called: "railplan" })[0].text;
        assert.ok(found.includes(piece), found);
    }
});

test("a file of another name isn't meant", () => {
    const seen = { names: () => ["station.xml"] };
    for (const [missing, meant] of [["a/station.xm", "a/station.xml"], ["statoin.xml", "station.xml"], ["depot.xml", ""],
        ["statio.sheet", ""]]) {
        assert.equal(nearby(missing, seen), meant);
    }
});

test("the former file", async () => {
    const [note] = await said(["redraw", "new.xml", "old.xml", "s"], "old text 8 Root at 0", { "old.xml": "<x/>", "s": "" });
    assert.equal(note.place?.head(), "old.xml:1:1");
});

test("sheets, logs and hints", async () => {
    const files = { "s": signs("examples/one.sheet"), "l": "railplan-log 1\nf 1 -1 0\n", "h": "railplan-hints 1\ncaps 01 0 0 "
        + "0\n" };
    for (const [command, line, place, piece] of [
        ["verify", "sheet 1 Form line 9", "s:9:1", "hasn't the form"], ["verify", "sheet 2 Range line 2", "s:2:1", "1 to 64"],
        ["verify", "sheet 3 Graph line 6", "s:6:1", "station's"], ["verify", "sheet 4 Shape line 8", "s:8:1", "no line"],
        ["verify", "sheet 5 Values line 9", "s:9:1", "values"], ["check", "log 1 Header line 1", "l:1:1", "railplan-log 1"],
        ["check", "log 2 Form line 2", "l:2:1", "no line of a log"], ["check", "log 3 Number line 2", "l:2:1", "digits"],
        ["check", "log 4 Twice line 2", "l:2:1", "twice"], ["check", "check Differs line 2", "l:2:1", "another file"],
        ["check", "check NewVar line 2", "l:2:1", "that no formula line"], ["check", "check Room line 3", "l:3:1",
            "no room for this line"],
        ["check", "check NotNew line 3", "l:3:1", "nothing that isn't known by then"], ["check", "check Lacks place 1", "",
            "the least"],
        ["recheck", "hints 1 Header line 1", "h:1:1", "railplan-hints 1"], ["recheck", "hints 2 Form line 2", "h:2:1",
            "no hinted line"],
        ["recheck", "hints 3 Number line 2", "h:2:1", "digits"], ["recheck", "hints 5 Range line 2", "h:2:1", "cap"],
        ["recheck", "check BadHint line 2", "h:2:1", "hints"]]) {
        const [note] = await said([command, "f", "s", command === "recheck" ? "h" : "l"].slice(0, command === "verify" ? 3
            : 4), line, files);
        assert.ok(note.text.includes(piece), `${line}: ${note.text}`);
        assert.equal(note.place?.head() ?? "", place, line);
    }
});

test("broken laws name their parties", async () => {
    const files = { "s": signs("examples/one.sheet") };
    const [found] = await said(["verify", "f", "s"], "broken law 3 edge 0", files);
    assert.ok(found.text.includes("law 3: the line of edge 0 (m, from mb to me)"), found.text);
    const parties = ["0", "1"].map((number) => ({ kind: "node", number }));
    const [one, other] = broken(runOver([], "", files).seen, "s", 5, parties);
    assert.ok(one.text.endsWith("law 5: node 0 (mb) and node 1 (me) are at one point"), one.text);
    assert.deepEqual([one.place?.line, other.text, other.place?.line], [5, "node 1 (me) is here", 6]);
});

test("unread and long", async () => {
    const files = { "one.sheet": "", "one.xml": "" };
    for (const [words, line, piece] of /** @type {[string[], string, string][]} */ ([
        [["draw", "-"], "read failed 1", "/dev/stdin"], [["draw", "nosuch"], "read failed 1", "nosuch isn't there"],
        [["verify", "one.xml", "one.shet"], "read failed 2", "Did you mean one.sheet?"], [["draw", "one.xml"], "long 1",
            "4 MiB"]])) {
        assert.ok((await said(words, line, files, 5))[0].text.includes(piece), line);
    }
});

test("faults of the words name the line to type", async () => {
    for (const [words, piece] of /** @type {[string[], string][]} */ ([
        [[], "a command is missing"], [["drw", "x"], "Did you mean ./railplan draw x"], [["--width", "3", "draw", "x"],
            "the command comes first: ./railplan draw x --width 3"], [["one.xml"], "is a file, and a command is missing before "
                + "it"],
        [["check", "a"], "check needs 2 names more: SHEET"], [["draw", "a", "b"], "one run takes one station"],
        [["draw", "a", "--width=3"], "two words: ./railplan draw a --width 3"], [["draw", "a", "--widht", "3"],
            "draw a --width 3"],
        [["draw", "a", "--order", "hight;widht"], "Did you mean ./railplan draw a --order height,width"],
        [["front", "a", "height", "width"], "./railplan front a height,width"], [["draw", "a", "—width"], "as --width"],
        [["draw", "a", "--width"], "behind --width its value is missing, a number of columns, 1 to 64"],
        [["draw", "a", "--svg", "a"], "a is named twice"], [["draw", "a", "--width", "3", "--width", "4"], "--width comes "
            + "twice"],
        [["verify", "a", "b", "--width", "3"], "--width is an option of draw and signals"]])) {
        const [note] = await said(words, fault(words)?.line() ?? "", { "one.xml": "" });
        assert.ok(note.text.includes(piece), note.text);
    }
});

test("the names are said in their order", async () => {
    const files = { "x 1": "<railml/>\n", "s": "railplan 2\n", "l": "railplan-log 1\n", "h": "railplan-hints 1\n", "?": "\n" };
    for (const [given, line] of [["verify|s|x 1", "verify 'x 1' s"], ["check|l|x 1|s", "check 'x 1' s l"],
        ["recheck|h|s|x 1", "recheck 'x 1' s h"], ["trim|s|x 1|l|h", "trim 'x 1' s l h"], ["check|s|x 1|h", "check FILE SHEET "
            + "LOG"],
        ["check|s|s|l", "check FILE SHEET LOG"], ["verify|?|s", "verify FILE SHEET"], ["redraw|s|x 1|x 1", "redraw FILE OLD "
            + "SHEET"]]) {
        assert.equal(await new Ending(runOver(given.split("|"), "", files)).usage(), `./railplan ${line}`);
    }
    assert.equal(readWords(["verify", "s"]).names.length, 1);
});

test("a file, a name and an answer give a terminal no order", () => {
    const odd = "\x1b[31mx\x9b2J\x07\u202ey\r", harmless = "\ufffd[31mx\ufffd2J\ufffd\ufffdy ";
    assert.deepEqual([printable(odd), printable("é\n\udcff\u{1f682}")], [harmless, "é\n\udcff\u{1f682}"]);
    const note = { text: odd, place: new Place(odd, 1, 1, odd) };
    for (const text of [plain(note), show(note, unpainted)]) {
        assert.equal(text.split(harmless).length, 4);
    }
    const data = bytes(`<?xml version="1.0" encoding="${odd}"?>`);
    const found = plain(textNotes("Encoding", { name: "f", data, place: 0, called: "railplan" })[0]);
    assert.ok(found.includes(`the file says that it is ${harmless}`), found);
});

test("a long line is cut around the place", () => {
    const [shown, mark] = ofByte("f", bytes(`${"x".repeat(500)}<here>${"y".repeat(500)}`), 500).excerpt(unpainted).split("\n");
    assert.ok(shown.length < 120);
    assert.equal(shown[mark.indexOf("^")], "<");
});

test("each fault, refusal and law has a sentence", () => {
    const script = "import json, sys; sys.path.insert(0, 'docs'); from checking import numbers as n; import re\n"
        + "named = re.findall(r'`check (\\w+) (?:line N|place I)`', n.section(n.FORMATS, 'The answer on a log') + "
        + "n.section(n.FORMATS, 'The answer of recheck'))\nprint(json.dumps([{f: [name for _, name in n.faults(t)] for f, t in "
        + "n.TABLES.items()}, sorted(set(named)), sorted(n.laws())]))";
    const [listed, refusals, laws] = JSON.parse(execFileSync("python3", ["-c", script], { cwd: TOP, encoding: "utf8" }));
    const having = { words: WORDS, text: TEXT, topology: TOPOLOGY, graph: GRAPH, signal: SIGNAL, sheet: SHEET, log: LOG,
        hints: HINTS };
    assert.deepEqual(Object.keys(listed).sort(), [...Object.keys(having), "order"].sort());
    for (const [front, sentences] of Object.entries(having)) {
        assert.deepEqual([...sentences.keys()], listed[front]);
    }
    assert.deepEqual([[...REFUSALS.keys()].sort(), [...LAWS.keys()], listed.order], [refusals, laws, ["Contradicts"]]);
    const provoked = ROWS.map(({ line }) => line.split(" ").filter((_, at) => at !== 1).slice(0, 2).join(" "));
    for (const front of ["text", "topology", "graph", "order", "signal"]) {
        listed[front].forEach((/** @type {string} */ name) => assert.ok(provoked.includes(`${front} ${name}`), name));
    }
});
