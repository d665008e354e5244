/** A folder of stations: what is drawn, on which grids, what is not drawn again, parts, and the page of all. */
import assert from "node:assert/strict";
import { existsSync, mkdtempSync, readdirSync, rmSync, symlinkSync, unlinkSync, writeFileSync } from "node:fs";
import { tmpdir } from "node:os";
import { basename, join } from "node:path";
import { test } from "node:test";
import { setTimeout as pause } from "node:timers/promises";
import { InClone, PLACE, until } from "./clones.js";
import { FolderRecord, readRecord } from "../both/folder_record.js";
import { text as pageOf, worst } from "../both/page/folder_index.js";
import { list, look } from "../terminal/built.js";
import { processors } from "../terminal/building.js";
import { Shown, stations } from "../terminal/folder.js";
import { grids } from "../both/folder_grids.js";
import { listingText } from "../both/line/listing.js";
import { readFolderWords } from "../terminal/folder_words.js";

// a program that answers by the name of the file: it says what it was asked for
const NONE = "railplan 2\\ngrid 40 8 1\\norder height\\nend none\\n";
const SHEET = "railplan 2\\ngrid 40 8 1\\norder height bends\\nnodes 1\\nnode 0 a 0 0 0.0\\nedges 0\\nvalues 1 2 3 4\\n"
    + "end best\\n";
const ANSWERING = `#!/bin/sh
echo "$@" >> "$HERE/asked_of_program"
case $1 in
graph) printf 'railgraph 1\\nnodes 3\\nnode 0 a end 0.000000\\nnode 1 b end 5.000000\\nnode 2 c end 9.000000\\nedges 2\\n'
    printf 'edge 0 t 0 1\\nedge 1 t 1 2\\n' ;;
draw)
    read -r line < "$2"
    case $line in
    *refused*) echo 'text 8 Root at 0'; exit 1 ;;
    *slow*) sleep 30 ;;
    *none*) printf '${NONE}'; exit 3 ;;
    *large*) case "$*" in *'--width 64 --height 12'*) ;; *) printf '${NONE}'; exit 3 ;; esac ;;
    esac
    while test $# -gt 0; do case $1 in --svg) echo '<svg>' > "$2" ;; --log) echo 'railplan-log 1' > "$2" ;; esac; shift; done
    printf '${SHEET}' ;;
trim) echo 'railplan-hints 1' > "$5"; echo 'trimmed 2 1' ;;
recheck) echo 'certified 2' ;;
esac
`;
const OF_EXAMPLES = `#!/bin/sh
word=$1
while test $# -gt 0; do case $1 in --svg) cp "$HERE/station.svg" "$2" ;; esac; shift; done
case $word in graph) cat "$HERE/station.graph" ;; draw) cat "$HERE/station.sheet" ;; esac
`;
// a program that says in \`most\` how many of it run at the same time: it waits until COUNT do, and then for one too many
const SIDE_BY_SIDE = `#!/bin/sh
case $1 in draw) ;; *) exit 1 ;; esac
touch "$HERE/running.$$"
for turn in $(seq 400); do
    ls "$HERE" | grep -c '^running' >> "$HERE/most"
    if grep -qx "$COUNT" "$HERE/most"; then break; fi
    sleep 0.05
done
sleep 0.3
ls "$HERE" | grep -c '^running' >> "$HERE/most"
rm "$HERE/running.$$"
printf 'railplan 2\\ngrid 40 8 1\\norder height\\nend none\\n'
`;

/** A clone with a folder of stations. */
class Folders extends InClone {
    /** @param {any} it @param {...string} names */
    constructor(it, ...names) {
        super(it);
        this.script(PLACE, ANSWERING);
        this.stations(...names);
    }

    /** @param {...string} names */
    stations(...names) {
        names.forEach((name) => this.write(`in/${name}.xml`, `<${name}/>\n`));
    }

    /** @param {...string} more */
    folder(...more) {
        return this.launch(["folder", "in", "out", ...more]);
    }

    made() {
        return readdirSync(join(this.top, "out")).filter((name) => !["records", "shell", "small"].includes(name)).sort();
    }

    /** the draw runs of the program so far, which are forgotten then */
    drawn() {
        const lines = this.text("asked_of_program").split("\n").filter((line) => line.startsWith("draw"));
        this.write("asked_of_program", "");
        return lines.map((line) => line.split(" --svg")[0].split(" ").slice(2).join(" "));
    }

    /** @param {string} name @returns {any} */
    record(name) {
        return JSON.parse(this.text(`out/records/${name}.json`));
    }

    page() {
        return this.text("out/index.html");
    }
}

test("nothing that is made has the name of another", (it) => {
    for (const [found, names] of [[["a.xml", "b.railml"], ["a", "b"]], [["a.xml", "a.XML"], ["a.XML", "a.xml"]],
        [["index.xml", "a.xml"], ["a", "index.xml"]], [["index.railml"], ["index.railml"]],
        [["a.xml", "a.XML", "a.xml.xml"], ["a.XML", "a.xml", "a.xml.xml"]]]) {
        const folder = mkdtempSync(join(tmpdir(), "railplan-test-"));
        it.after(() => rmSync(folder, { recursive: true }));
        found.forEach((name) => writeFileSync(join(folder, name), "<railml/>"));
        const named = stations(folder);
        assert.deepEqual([[...named.keys()].sort(), [...named.values()].map((path) => basename(path)).sort()], [names,
            [...found].sort()]);
    }
});

test("the two folders are not one", (it) => {
    const clone = new Folders(it, "a");
    for (const [again, said] of [["in", "in is named twice"], ["./in", "in and ./in are one folder"]]) {
        const [status, , err] = clone.launch(["folder", "in", again]);
        assert.equal(status, 2);
        assert.ok(err.includes(`railplan: ${said}. Name another one for what is drawn, as in/drawn`), err);
    }
});

test("each station has its files, and the page has all, faults first", (it) => {
    const clone = new Folders(it, "b", "refused", "a"), [status, out, err] = clone.folder("-j", "2");
    assert.deepEqual([status, out], [1, ""]);
    assert.match(err, /in\/refused\.xml:1:1: the first element is refused/);
    assert.match(err, /3 stations: 2 best, 1 refused, in /);
    assert.deepEqual(clone.made().filter((name) => name !== "refused.html"),
        ["a.html", "a.sheet", "a.svg", "b.html", "b.sheet", "b.svg", "index.html"]);
    const page = clone.page(), places = [">refused<", ">a<", ">b<"].map((text) => page.indexOf(text));
    assert.deepEqual(places, [...places].sort((one, other) => one - other));
    assert.ok(page.includes('<a href="a.html"><img src="small/a.svg"') && page.includes("columns 0 to 40, rows 0 to 8"));
    assert.ok(!existsSync(join(clone.top, "out/small/refused.svg")));
    assert.equal(page.split(">1, 2, 3, 4<").length, 3);
    assert.match(page, /<p>Drawn by a program [^<]*proved[^<]*\(SHA-256 <code>[0-9a-f]{64}<\/code>\)\.<\/p>/);
    assert.deepEqual(clone.record("a").values, [1, 2, 3, 4]);
});

test("the stations of a line are in its order, with the open line between them", (it) => {
    const clone = new Folders(it, "b", "refused", "a", "c");
    clone.write("in/stations.csv", listingText([
        { name: "b", title: "Bheim, \"West\"", from: 1.2, to: 2.5, leads: ["Aheim"] },
        { name: "a", title: "Aheim", from: 4.75, to: 5, leads: ["Bheim, \"West\""] },
        { name: "refused", title: "Cheim", from: 9, to: 9.5, leads: [] }]));
    const [, , err] = clone.folder();
    assert.doesNotMatch(err, /passed over/);
    const page = clone.page(), order = ['<a href="b.html">b<', 'Bheim, "West" – Aheim: open line, 2.3 km<', '<a href="a.html">a<',
        "Aheim – Cheim: no track leads from the one to the other<", ">refused<", '<a href="c.html">c<'];
    const places = order.map((text) => page.indexOf(text));
    assert.ok(places.every((place, at) => place > (places[at - 1] ?? 0)), `${places}`);
    clone.write("in/stations.csv", "file,station\n");
    clone.folder();
    assert.ok(clone.page().indexOf(">refused<") < clone.page().indexOf('<a href="a.html">a<'), "what is no such list counts for nothing");
});

test("larger grids are tried", (it) => {
    const clone = new Folders(it, "large", "none");
    assert.equal(clone.folder("-j", "1")[0], 3);
    const tried = ["--width 40 --height 8", "--width 64 --height 12", "--width 64 --height 8"];
    assert.deepEqual(clone.drawn().sort(), tried.flatMap((grid) => [grid, grid]));
    assert.deepEqual(clone.record("large").grid, [64, 12]);
    assert.match(clone.folder()[2], /2 stations: 1 best \(on a larger grid than asked for\), 1 no drawing, in /);
    assert.match(clone.page(), />columns 0 to 64, rows 0 to 12, larger than asked for</);
    clone.stations("a");
    assert.match(clone.folder()[2], /2 best \(1 of them on a larger grid than asked for\), 1 no drawing, in /);
    assert.doesNotMatch(clone.folder("--width", "64", "--height", "12")[2], /larger grid/);
});

test("files that are passed over", (it) => {
    const clone = new Folders(it, "a");
    ["b.txt", "c.xml.zip", ".hidden", "below/d.pdf"].forEach((name) => clone.write(`in/${name}`, "x"));
    assert.match(clone.folder()[2], /railplan: passed over, as they don't end in \.xml or \.railml: b\.txt, c\.xml\.zip\n/);
    for (let number = 0; number < 9; number++) {
        clone.write(`in/n${number}`, "x");
    }
    assert.match(clone.folder()[2], /: b\.txt, c\.xml\.zip, n0, n1, n2 and 6 more\n/);
});

test("what has not changed is not drawn again", (it) => {
    const clone = new Folders(it, "a", "b", "refused"), drawn = (/** @type {string[]} */ ...more) => {
        clone.folder(...more);
        return clone.drawn().length;
    };
    assert.deepEqual([drawn(), drawn()], [3, 0]);
    clone.write("in/a.xml", "<other/>\n");
    unlinkSync(join(clone.top, "out/b.svg"));
    assert.equal(drawn(), 2);
    unlinkSync(join(clone.top, "out/small/b.svg"));
    assert.deepEqual([drawn(), drawn("--least", "2")], [1, 3]);
    clone.script(PLACE, `${ANSWERING}# other\n`);
    assert.equal(drawn(), 3);
    for (const module of ["both/page/signs.js", "both/mending/hands.js", "engine/packed.js"]) {
        clone.write(`shell/${module}`, `${clone.text(`shell/${module}`)}// other\n`);
        assert.equal(drawn(), 3, module);
    }
});

test("faults are said in the order of the stations", () => {
    const names = [0, 1, 2, 3].map((number) => `refused${number}`), said = /** @type {string[]} */ ([]);
    const shown = new Shown(["a", ...names], (text) => said.push(text), false);
    for (const name of [names[2], names[0], "a"]) {
        shown.take(new FolderRecord(name, "", { status: name === "a" ? 0 : 1, said: name }));
    }
    assert.deepEqual(said, ["refused0"]);
    shown.sayRest();
    assert.deepEqual([said, shown.done, shown.faults], [["refused0", "refused2"], 3, 2]);
});

test("a terminal shows how far the run is", () => {
    for (const [onTerminal, lines] of /** @type {[boolean, string[]][]} */ ([
        [true, ["\r[########--------] 2 of 4 stations · 1 refused · 7 s\x1b[K"]], [false, []]])) {
        const said = /** @type {string[]} */ ([]), shown = new Shown(["a", "b", "c", "d"], (text) => said.push(text),
            onTerminal);
        shown.began -= 7000;
        shown.take(new FolderRecord("d", "", { status: 0 }));
        shown.take(new FolderRecord("c", "", { status: 1, said: "a fault\n" }));
        shown.show();
        assert.deepEqual(said, lines);
    }
});

test("a station that is taken away is named", (it) => {
    const clone = new Folders(it, "a", "b", "c");
    assert.doesNotMatch(clone.folder()[2], /left in/);
    ["in/b.xml", "in/c.xml", "out/c.html", "out/c.svg", "out/c.sheet",
        "out/small/c.svg"].forEach((name) => rmSync(join(clone.top, name)));
    assert.match(clone.folder()[2], /railplan: left in out from former runs, as in has no such station any more: b\n/);
    assert.ok(clone.made().includes("b.html"));
});

test("a picture that is no XML is named", (it) => {
    const clone = new Folders(it, "a", "none");
    clone.script(PLACE, ANSWERING.replace("node 0 a 0 0 0.0", "node 0 a\ufffe 0 0 0.0"));
    assert.equal(clone.folder()[0], 3);
    assert.match(clone.record("a").said, /out\/a\.svg is no XML, .*: XML has no such character as in the id a<U\+FFFE>/);
    assert.doesNotMatch(clone.record("none").said, /no XML/);
});

test("certificates", (it) => {
    const clone = new Folders(it, "a", "none");
    assert.match(clone.folder("--certify")[2], /2 stations: 1 best, 1 no drawing, 2 with a certificate, in /);
    assert.equal(clone.record("a").certified, "certified 2");
    assert.ok(clone.made().includes("a.hints") && !clone.made().includes("a.log"));
    for (const text of [">certified: height, bends<", '<a href="a.sheet">sheet</a>', '<a href="none.sheet">sheet</a>',
        ">certified: no drawing<"]) {
        assert.ok(clone.page().includes(text), text);
    }
    clone.drawn();
    assert.match(clone.folder()[2], /2 with a certificate/);
    assert.deepEqual([clone.drawn(), clone.made().includes("a.hints")], [[], true]);
});

test("a page with a certificate carries the hinted lines and the program, and is made again when that is another one", async (it) => {
    const clone = new Folders(it, "a"), hasHints = () => clone.text("out/a.html").includes('class="hints">"H4');
    clone.folder("--certify");
    assert.ok(!hasHints() && !clone.text("out/a.html").includes('class="program">"H4'));
    for (const bytes of ["wasm", "another"]) {
        clone.drawn();
        clone.write("out/wasm/proved/railplan.wasm", bytes);
        await list(clone.clone.wasm, await look(clone.clone), "kit-1");
        clone.folder("--certify");
        assert.ok(hasHints() && clone.text("out/a.html").includes('class="program">"H4'));
        assert.equal(clone.drawn().length, 1);
    }
});

test("a certificate that is refused", (it) => {
    const clone = new Folders(it, "a", "b"), said = "the certificate of in/a.xml was refused: check Lacks place 2";
    clone.script(PLACE, ANSWERING.replace("recheck) echo 'certified 2' ;;", "recheck) echo 'check Lacks place 2'; exit 8 ;;"));
    const [status, , err] = clone.folder("--certify"), { certified, status: own } = clone.record("a");
    assert.deepEqual([status, own, certified], [8, 8, "check Lacks place 2"]);
    assert.ok(err.includes(said) && clone.page().includes(said) && !clone.page().includes('class="badge"'));
    clone.script(PLACE, ANSWERING);
    assert.equal(clone.folder("--certify")[0], 0);
});

test("so many are drawn side by side", (it) => {
    const clone = new Folders(it, "a", "b");
    clone.script(PLACE, SIDE_BY_SIDE);
    for (const count of [1, 3]) {
        clone.write("most", "0\n");
        clone.launch(["folder", "in", "out", "-j", String(count), "--least", String(count)], { COUNT: String(count) });
        assert.equal(Math.max(...clone.text("most").trim().split("\n").map(Number)), count);
        clone.stations("c", "d");
    }
});

test("a folder that cannot be made, and files of others, which stay", (it) => {
    const clone = new Folders(it, "a");
    clone.write("file", "mine");
    for (const out of ["file", "file/below", "/proc/none"]) {
        const [status, printed, err] = clone.launch(["folder", "in", out]);
        assert.deepEqual([status, printed, err.split("\n").length], [6, "", 2], out);
    }
    for (const name of ["index.html", "a.svg", "a.html", "a.sheet", "small/a.svg"]) {
        clone.write(`out/${name}`, "mine");
        assert.ok(clone.folder()[2].includes(`out/${name} is there, and railplan didn't make it`));
        unlinkSync(join(clone.top, "out", name));
    }
    clone.write("mine", "<svg mine");
    for (const [name, target] of [["a.svg", "../mine"], ["a.sheet", "../mine"], ["index.html", "../mine"], ["a.html",
        "../nowhere"]]) {
        symlinkSync(target, join(clone.top, "out", name));
        assert.equal(clone.folder()[0], 2);
        unlinkSync(join(clone.top, "out", name));
    }
    assert.deepEqual([clone.text("file"), clone.text("mine"), clone.drawn()], ["mine", "<svg mine", []]);
});

test("parts and their page", (it) => {
    const clone = new Folders(it, "a", "b", "c", "d", "e");
    for (const [part, count] of /** @type {[string, number][]} */ ([["1/2", 3], ["2/2", 2]])) {
        if (part === "2/2") {
            assert.equal(clone.folder("--join")[0], 4);
            assert.match(clone.page(), /not drawn yet/);
            unlinkSync(join(clone.top, "out/index.html"));
        }
        const [status, out, err] = clone.folder("--shard", part, "--width", "20");
        assert.deepEqual([status, out, clone.drawn().length], [0, "", count]);
        assert.match(err, /folder --join in out/);
        assert.ok(!clone.made().includes("index.html"));
    }
    assert.match(clone.folder("--shard", "6/6", "--width", "20")[2], /railplan: 0 stations, in /);
    assert.equal(clone.folder("--join")[0], 0);
    assert.deepEqual(clone.drawn(), []);
    assert.match(clone.page(), /5 best/);
});

test("an interrupt leaves what is done", async (it) => {
    const clone = new Folders(it, "a", "slow"), run = clone.start(["folder", "in", "out", "-j", "2"]);
    await until(() => existsSync(join(clone.top, "out/records/a.json")));
    for (let count = 0; count < 2; count++) {
        run.job.kill("SIGINT");
        await pause(10);
    }
    assert.equal(await run.ended, 130);
    assert.equal(run.err.split("\n").slice(1).join("\n"),
        "railplan: stopped; of 2 stations 1 is done. The same line goes on from there, and writes index.html at its end\n");
    clone.drawn();
    clone.write("in/slow.xml", "<quick/>\n");
    assert.deepEqual([clone.folder()[0], clone.drawn().length], [0, 1]);
});

test("words with a fault", (it) => {
    const clone = new Folders(it, "a");
    for (const [more, piece] of [["--shard 3/2", "`3/2` is no part"], ["-j 0", "no number of stations"],
        ["--width 65", "`65` is no value of --width"], ["x", "folder has no word `x`"], ["-j",
            "railplan: behind -j its value is missing: "], ["--jobs 4", "folder has no option --jobs. Did you mean -j N: "],
        ["--certfy", "Did you mean --certify: "], ["--svg s", "folder has no option --svg: "],
        ["--shard 2", "railplan: --shard: `2` is no part"]]) {
        const [status, out, err] = clone.folder(...more.split(" "));
        assert.deepEqual([status, out], [2, ""]);
        assert.ok(err.includes(piece), err);
    }
    assert.deepEqual([clone.launch(["folder", "nosuch", "out"])[0], clone.launch(["folder", "bin", "out"])[0]], [5, 5]);
    assert.match(clone.launch(["folder"])[2], /IN and OUT are missing/);
    assert.equal(clone.launch(["--html", "p", "folder", "in", "out"])[0], 2);
    const asked = readFolderWords("folder in --shard=1/2 out -j3 --width 20 --certify".split(" "), "railplan", 1);
    assert.deepEqual(asked, { from: "in", out: "out", jobs: 3, certifies: true, shard: { part: 1, parts: 2 }, joins: false,
        options: ["--width", "20"] });
    assert.equal(readFolderWords(["folder", "in", "out"], "railplan", processors()).jobs, processors());
});

test("grids", () => {
    const all = [[40, 8], [64, 8], [64, 12]];
    assert.deepEqual(grids([], 0), all);
    assert.deepEqual(grids([], 41), all.slice(1));
    assert.deepEqual(grids([], 65), all.slice(0, 1));
    assert.deepEqual(grids(["--width", "64", "--height", "12"], 5), [[64, 12]]);
    assert.deepEqual(grids(["--width", "20", "--least", "2"], 11), all.slice(1));
});

test("the status is the worst", () => {
    for (const [statuses, found] of /** @type {[number[], number][]} */ ([[[0, 0], 0], [[0, 3], 3], [[3, 4, 0], 4], [[4, 1,
        3], 1],
        [[5, 1], 1], [[7, 6], 6], [[], 0]])) {
        assert.equal(worst(statuses.map((status) => new FolderRecord("", "", { status }))), found);
    }
});

test("the page has times, names as text, and names as addresses", () => {
    const timed = pageOf("t", [new FolderRecord("a", "", { status: 0, seconds: 12.34 }), new FolderRecord("b", "",
        { status: 0 })]);
    assert.deepEqual([timed.split(">12.3 s<").length, timed.split(" s<").length], [2, 2]);
    const files = ["a#1?%20:b.html", "a#1?%20:b.sheet", "small/a#1?%20:b.svg"];
    const named = pageOf("", [new FolderRecord("a#1?%20:b", "", { status: 0, files })]);
    for (const name of ["a%231%3F%2520%3Ab.html", "a%231%3F%2520%3Ab.sheet", "small/a%231%3F%2520%3Ab.svg"]) {
        assert.ok(named.includes(`="${name}"`), name);
    }
    assert.ok(named.includes(">a#1?%20:b<"));
    const marked = pageOf("<b>", [new FolderRecord("<i>&", "", { status: 1, said: "<u>" })]);
    assert.ok(!marked.includes("<i>") && !marked.includes("<u>") && marked.includes("&lt;i&gt;&amp;"));
});

test("a record that is spoilt counts for nothing", () => {
    const whole = JSON.stringify(new FolderRecord("a", "k", { status: 0 }));
    assert.deepEqual(readRecord(whole), new FolderRecord("a", "k", { status: 0 }));
    for (const text of ["", "{}", "[]", "null", whole.replace('"files":[]', '"files":{}'), whole.replace('"status":0',
        '"status":"0"')]) {
        assert.equal(readRecord(text), null, text);
    }
});

test("the index shows the drawings of the pages", (it) => {
    const clone = new Folders(it);
    ["station.sheet", "station.graph", "station.svg"].forEach((name) => clone.write(name, clone.example(name)));
    clone.script(PLACE, OF_EXAMPLES);
    clone.write("in/station.xml", clone.example("station.xml"));
    assert.equal(clone.folder()[0], 0);
    assert.match(clone.page(), /<img src="small\/station\.svg"/);
    const small = clone.text("out/small/station.svg");
    assert.deepEqual([small.split('class="wedge"').length - 1, small.split("<svg").length - 1, small.includes("<text")], [4,
        2, false]);
    assert.equal(clone.text("out/station.svg"), clone.example("station.svg"));
});
