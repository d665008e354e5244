/** prepare: what is mended, what stays to the byte, and where nothing is written. */
import assert from "node:assert/strict";
import { mkdirSync, mkdtempSync, readFileSync, existsSync, rmSync, symlinkSync, writeFileSync } from "node:fs";
import { spawnSync } from "node:child_process";
import { tmpdir } from "node:os";
import { test } from "node:test";
import { Edits } from "../both/edits.js";
import { ofByte } from "../both/places.js";
import { MARK, mended as prepared, withMark } from "../both/prepare.js";
import { edited, TOP } from "./clone.js";

const TRACK = "<railml xmlns=\"x\"><infrastructure><tracks>"
    + "<track id=\"a\"><trackTopology><trackBegin id=\"ab\" pos=\"0\" absPos=\"100\"><openEnd/></trackBegin>"
    + "<trackEnd id=\"ae\" pos=\"50\"><openEnd/></trackEnd><connections>"
    + "<switch id=\"w\" pos=\"20\"><connection id=\"c\" ref=\"d\" course=\"left\" orientation=\"outgoing\"/></switch>"
    + "</connections></trackTopology></track>"
    + "<track id=\"b\"><trackTopology><trackBegin id=\"bb\" pos=\"0\"><connection id=\"d\" ref=\"c\"/></trackBegin>"
    + "<trackEnd id=\"be\" pos=\"9\"><openEnd/></trackEnd></trackTopology></track></tracks></infrastructure></railml>";
const bytes = (/** @type {string} */ text) => new TextEncoder().encode(text);
const wide = (/** @type {string} */ text) => new Uint8Array(Buffer.from(text, "utf16le"));
const swapped = (/** @type {string} */ text) => new Uint8Array(Buffer.from(text, "utf16le").swap16());
const latin1 = (/** @type {string} */ text) => new Uint8Array(Buffer.from(text, "latin1"));

/** @param {string | Uint8Array} given */
function mended(given) {
    const it = prepared("s.xml", typeof given === "string" ? bytes(given) : given, "railplan");
    return { text: Buffer.from(it.data).toString(), changes: it.changes, guesses: it.guesses, doubts: it.doubts,
        unfit: it.unfit };
}

/** @param {string} old @param {string} now @returns {string} */
function track(old, now) {
    return edited(TRACK, [[old, now]]);
}

/** the tracks with the prefix r: on each element */
const PREFIXED = TRACK.replaceAll("<", "<r:").replaceAll("<r:/", "</r:").replace("xmlns=\"x\"", "xmlns:r=\"x\"");

test("the mileage of a joined begin", () => {
    const { text, changes, guesses } = mended(TRACK);
    assert.equal(text, track("<trackBegin id=\"bb\"", "<trackBegin absPos=\"120\" id=\"bb\""));
    assert.deepEqual([changes.length, guesses], [1, []]);
    assert.match(changes[0], /is written at the begin of track b, as switch w has, to which it is joined/);
});

test("an end that speaks against the joined begin is doubted", () => {
    for (const [end, count] of [["129", 0], ["111", 0], ["128.5", 0], ["900", 1]]) {
        const { changes, guesses, doubts } = mended(track("id=\"be\" pos=\"9\"", `id="be" pos="9" absPos="${end}"`));
        assert.deepEqual([changes.length, guesses, doubts.length], [1, [], count]);
        assert.ok(doubts.every((it) => it.includes("the begin of track b is at 120 and the end at 900, but the track is 9 m "
            + "long")));
    }
});

test("a chain of begins", () => {
    const more = "<track id=\"e\"><trackTopology><trackBegin id=\"eb\" pos=\"0\"><connection id=\"g\" ref=\"h\"/></trackBegin>"
        + "<trackEnd id=\"ee\" pos=\"9\"><openEnd/></trackEnd></trackTopology></track></tracks>";
    const { text, changes, guesses } = mended(edited(TRACK, [["</tracks>", more],
        ["<trackEnd id=\"be\" pos=\"9\"><openEnd/>", "<trackEnd id=\"be\" pos=\"9\"><connection id=\"h\" ref=\"g\"/>"]]));
    assert.ok(text.includes("<trackBegin absPos=\"129\" id=\"eb\""));
    assert.deepEqual([changes.length, guesses], [2, []]);
});

test("a mileage that nothing says, or that is too large", () => {
    const { changes, guesses } = mended(track(" absPos=\"100\"", ""));
    assert.deepEqual([changes.length, guesses.length], [0, 2]);
    assert.match(guesses[0], /the begin of track a has no absPos, and is joined to no point whose mileage the file says/);
    const large = mended(track("absPos=\"100\"", "absPos=\"999999999\""));
    assert.deepEqual([large.text.split("absPos").length, large.changes, large.guesses.length], [2, [], 1]);
});

test("all that elements must have is listed", () => {
    for (const [lacking, said] of [[" course=\"left\"", "the connection c of switch w has no course. Write left or right"],
        [" orientation=\"outgoing\"", "the connection c of switch w has no orientation. Write"], [" pos=\"20\"", "the switch w "
            + "has no pos"],
        [" id=\"be\"", "the end of track b has no id"], [" ref=\"d\"", "the connection c of switch w has no ref"]]) {
        const { guesses } = mended(edited(TRACK, [[" absPos=\"100\"", ""], [lacking, ""]]));
        const found = guesses.filter((it) => it.includes(said));
        assert.deepEqual([guesses.length, found.length], [3, 1], guesses.join("\n"));
        assert.ok(found[0].startsWith("s.xml:1:"));
    }
});

test("hands and ways that are not read are listed", () => {
    for (const [old, now, said] of [
        ["course=\"left\"", "course=\"straight\"", "the branch c goes straight, so the track itself turns off"],
        ["course=\"left\"", "course=\"lefft\"", "(did you mean left?)"],
        ["\"outgoing\"", "\"Outgoing\"", "orientation=\"Outgoing\" of c isn't read. Write"],
        ["<switch id=\"w\" pos=\"20\"><connection", "<crossing id=\"w\" pos=\"20\"><connection id=\"z\" ref=\"z\" "
            + "orientation=\"incoming\" course=\"none\"/><connection", ""],
        ["<switch id=\"w\" pos=\"20\"><connection id=\"c\" ref=\"d\" course=\"left\"", "<switch id=\"w\" pos=\"20\" "
            + "trackContinueCourse=\"right\"><connection id=\"c\" ref=\"d\" course=\"straight\"", ""]]) {
        const text = track(old, now), { guesses } = mended(now.includes("<crossing") ? text.replace("</switch>", "</crossing>")
            : text);
        assert.deepEqual(guesses.map((it) => said !== "" && it.includes(said)), said ? [true] : [], guesses.join("\n"));
    }
});

test("what leads nowhere is listed", () => {
    for (const [edits, count] of /** @type {[string[][], number][]} */ ([[[], 0], [[["ref=\"d\"", "ref=\"e\""]], 1],
        [[["ref=\"d\"", "ref=\"e\""], ["ref=\"c\"", "ref=\"\""]], 2]])) {
        const found = mended(edited(TRACK, edits)).guesses.filter((it) => it.includes("and no connection that is read has this id. "));
        assert.equal(found.length, count);
        ["the connection c refers to e, and", "the connection d refers to nothing, and"].slice(0, count)
            .forEach((said, at) => assert.ok(found[at].includes(said)));
    }
});

test("numbers", () => {
    const given = (/** @type {string} */ number) => mended(track("id=\"w\" pos=\"20\"", `id="w" pos="${number}"`));
    for (const [number, written] of [["20,5", "20.5"], ["2.05E1", "20.5"], ["20.5000001", "20.5"], ["20.12345678", "20.123457"],
        ["1e-7", "0"]]) {
        const { text, changes, guesses } = given(number);
        assert.ok(text.includes(`id="w" pos="${written}"`) && !guesses.length);
        assert.ok(changes[0].includes(`pos="${number}" of switch w is written as ${written}`));
    }
    for (const number of ["1.234,5", "1,234,5", "twenty", "", "1e99", "nan", "1234567890"]) {
        assert.match(given(number).guesses[0], /is no number of metres that is clear/);
    }
    for (const number of ["20.50", "+20", " 20 ", "020", "20.", ".5", "20.000000"]) {
        const text = edited(TRACK, [["id=\"w\" pos=\"20\"", `id="w" pos="${number}"`], ["pos=\"0\"><connection",
            "pos=\"0\" absPos=\"1\"><connection"]]);
        assert.deepEqual(mended(text), { text, changes: [], guesses: [], doubts: [], unfit: "" });
    }
});

test("a comma that may part thousands", () => {
    const text = track("absPos=\"100\"", "absPos=\"1,200\"");
    assert.match(mended(text).guesses[0], /absPos="1,200" of .* may be 1.2 or 1200/);
    const sure = mended(edited(text, [["pos=\"50\"", "pos=\"50,5\""]]));
    assert.deepEqual([sure.guesses, sure.text.includes("absPos=\"1.2\"")], [[], true]);
});

test("encodings", () => {
    const named = (/** @type {string} */ name) => `<?xml version="1.0" encoding="${name}"?><!-- ü -->${TRACK}`;
    for (const [data, change] of /** @type {[Uint8Array, string][]} */ ([
        [latin1(named("ISO-8859-1")), "ISO-8859-1 is written as UTF-8"], [wide(`\ufeff${named("UTF-16")}`), "UTF-16 is written "
            + "as UTF-8"],
        [swapped(`\ufeff${named("UTF-16")}`), "UTF-16 is written as UTF-8"],
        [latin1(named("windows-1252")), "windows-1252 is written as UTF-8"]])) {
        const { text, changes, guesses } = mended(data);
        assert.ok(text.startsWith("<?xml version=\"1.0\" encoding=\"UTF-8\"?><!-- ü -->"), text.slice(0, 80));
        assert.deepEqual([changes[0], guesses], [change, []]);
    }
    const euro = latin1(`<?xml version="1.0" encoding="windows-1252"?><!-- \x80 -->${TRACK}`);
    assert.ok(mended(euro).text.includes("<!-- € -->"));
});

test("encodings that the file doesn't say, or that it isn't in", () => {
    for (const text of [`<!-- ü -->${TRACK}`, `<?xml version="1.0" encoding="UTF-8"?><!-- ü -->${TRACK}`]) {
        assert.match(mended(latin1(text)).guesses[0], /Name its encoding in the first line/);
    }
    for (const name of ["x-y", "undefined", "rot13", "a\0b"]) {
        assert.match(mended(`<?xml version="1.0" encoding="${name}"?>${TRACK}`).guesses[0], /isn't known/);
    }
    const size = TRACK.length;
    for (const [data, said] of /** @type {[Buffer, string][]} */ ([
        [Buffer.concat([bytes(`\ufeff${TRACK}`), Uint8Array.of(0xfc)]), `begins as UTF-8 does, and byte ${size + 3} isn't`],
        [Buffer.concat([wide(`\ufeff${TRACK}`), bytes("x")]), `begins as UTF-16 does, and byte ${2 * size + 2} isn't`],
        [Buffer.concat([wide(TRACK), bytes("x")]), `begins as UTF-16 does, and byte ${2 * size} isn't`]])) {
        const { changes, guesses } = mended(new Uint8Array(data));
        assert.deepEqual([changes, guesses.length, guesses[0].includes(said)], [[], 1, true], guesses[0]);
    }
});

test("the mark is behind a byte order mark and the declaration", () => {
    const declared = "<?xml version=\"1.0\"?>";
    for (const [front, behind] of [["", ""], ["\ufeff", ""], [declared, "\n"], [`\ufeff${declared}`, "\n"]]) {
        const marked = withMark(bytes(front + TRACK));
        assert.ok(Buffer.from(marked).toString().startsWith(`${front}${behind}<!-- ${MARK} -->`));
        assert.deepEqual([mended(marked).guesses, withMark(marked)], [[], marked]);
    }
});

test("a prefix", () => {
    const { text, guesses } = mended(PREFIXED);
    assert.equal(text, mended(track("<railml xmlns=\"x\"", "<railml xmlns=\"x\" xmlns:r=\"x\"")).text);
    assert.deepEqual(guesses, []);
    const two = TRACK.replaceAll("<track id", "<r:track id").replaceAll("</track>", "</r:track>").replace("xmlns=\"x\"",
        "xmlns=\"x\" xmlns:r=\"y\"");
    assert.match(mended(two).guesses[0], /isn't clear/);
});

test("places are those of the file that was read", () => {
    const text = edited(PREFIXED, [[" course=\"left\"", ""], ["pos=\"50\"", "pos=\"50,5\""]]), { changes,
        guesses } = mended(text);
    for (const [said, sign] of [[changes[1], "<r:trackEnd"], [changes[2], "<r:trackBegin id=\"bb\""], [guesses[0],
        "<r:connection id=\"c\""]]) {
        assert.ok(said.startsWith(`s.xml:1:${text.indexOf(sign) + 1}: `), said);
    }
});

test("where a byte was", () => {
    const it = new Edits("f", bytes("0123456789"));
    it.replace([{ begun: 2, ended: 4, text: "" }, { begun: 6, ended: 6, text: "xyz" }, { begun: 8, ended: 9, text: "Y" }]);
    assert.equal(Buffer.from(it.data).toString(), "0145xyz67Y9");
    assert.deepEqual(Array.from({ length: 11 }, (_, at) => it.moved[0].before(at)), [0, 1, 4, 5, 6, 6, 6, 6, 7, 8, 9]);
});

test("the places of a file", () => {
    for (const front of ["", "\ufeff"]) {
        const data = bytes(`${front}abäc\n\ndäe\nf`), it = new Edits("f", data);
        const places = [...data.keys()].filter((at) => at >= bytes(front).length && (data[at] & 0xc0) !== 0x80);
        for (const order of [places, [...places].reverse(), [...places.filter((at) => at % 2),
            ...places.filter((at) => at % 2 === 0)]]) {
            assert.deepEqual(order.map((at) => it.at(at)), order.map((at) => ofByte("f", data, at).head()));
        }
    }
});

test("a long file takes no long", () => {
    const more = Array.from({ length: 8000 }, (_, n) => `<switch id="s${n}" pos="5,5"><connection id="c${n}" ref="x${n}" `
        + `course="left" orientation="outgoing"/></switch>`).join("");
    const began = performance.now(), long = track("<connections>", `<connections>${more}`);
    assert.equal(mended(long).guesses.length, 8000);
    assert.ok(performance.now() - began < 15000);
});

test("what is no railML 2", () => {
    for (const [data, said] of /** @type {[Uint8Array, string][]} */ ([[bytes(TRACK.slice(0, -5)), "this isn't XML: "],
        [bytes(" \n"), "s.xml:1:1: the file is empty. "], [latin1("\x1f\x8b\x08\xff"), "this file is a packed file. Unpack it "
            + "first"],
        [latin1("PK\x03\x04\xff"), "this file is a packed archive. Unpack it, and name the railML file in it"],
        [bytes("name;km\n"), "this file is no XML"],
        [bytes("<timetable/>"), "the first element is timetable, so the file isn't railML 2"]])) {
        assert.ok(mended(data).unfit.includes(said), mended(data).unfit);
    }
    assert.equal(mended(TRACK).unfit, "");
    for (const text of ["<railML version=\"3.1\"/>", "<r:railML xmlns:r=\"x\"><r:infrastructure/></r:railML>"]) {
        assert.deepEqual(mended(text).guesses, ["this is railML 3, and has no net elements (topology) of which tracks could be made"]);
    }
    const left = prepared("s.xml", bytes("<railML version=\"3.1\"/>"), "railplan", { without: ["railml3"] });
    assert.match(left.unfit, /^s\.xml:1:1: this is railML 3, which isn't read as it is\. /);
});

test("what is whole stays to the byte", () => {
    const text = `<?xml version="1.0"?>\r\n${mended(TRACK).text}\n\n<!-- pos="1,5" -->`;
    assert.deepEqual(mended(text), { text, changes: [], guesses: [], doubts: [], unfit: "" });
    const others = mended(edited(TRACK, [["<connections>", "<!-- <switch pos=\"1,5\"/> --><connections>"],
        ["</trackTopology></track><track",
        "</trackTopology><trackElements><bridge pos=\"1,5\"/></trackElements></track><track"]]));
    assert.ok(others.text.includes("<!-- <switch pos=\"1,5\"/> -->") && others.text.includes("<bridge pos=\"1,5\"/>"));
    assert.deepEqual([others.changes.length, others.guesses], [1, []]);
});

// ---- the command

/** what the program prints of the tracks */
const GRAPH = "railgraph 1\nnodes 4\nnode 0 ab end 100.000000\nnode 1 ae end 150.000000\nnode 2 w switch east upper 120.000000\n"
    + "node 3 be end 129.000000\nedges 3\nedge 0 a 0 2\nedge 1 a 2 1\nedge 2 b 2 3\nabove 2 1\n";

/** @param {(run: (source: string, out: string) => {status: number | null, said: string}, folder: string) => void} body */
function inFolder(body) {
    const folder = mkdtempSync(`${tmpdir()}/railplan-`), script = `import { run } from `
        + `"${TOP}shell/terminal/prepare_command.js";
        import { read } from "${TOP}shell/both/words.js"; import { Ended } from "${TOP}shell/terminal/say.js";
        const engine = { run: async () => ({ status: 0, output: Buffer.from(${JSON.stringify(GRAPH)}), wasStopped: false }) };
        try { process.exitCode = await run(read(["prepare", ...process.argv.slice(1)]), async () => ({ engine })); }
        catch (error) { if (!(error instanceof Ended)) throw error; process.exitCode = error.status; }`;
    try {
        writeFileSync(`${folder}/s.xml`, TRACK);
        writeFileSync(`${folder}/other.xml`, "mine");
        body((source, out) => {
            const ran = spawnSync(process.execPath, ["--input-type=module", "-e", script, source, out], { cwd: folder });
            assert.equal(ran.stdout.toString(), "");
            return { status: ran.status, said: ran.stderr.toString() };
        }, folder);
    } finally {
        rmSync(folder, { recursive: true });
    }
}

test("what prepare wrote is written over, and nothing where something lacks", () => inFolder((run, folder) => {
    writeFileSync(`${folder}/empty.xml`, "");
    for (const out of ["new.xml", "new.xml", "empty.xml"]) {
        assert.equal(run("s.xml", out).status, 0);
    }
    assert.ok(readFileSync(`${folder}/new.xml`, "utf8").includes(MARK));
    writeFileSync(`${folder}/doubt.xml`, track("id=\"be\" pos=\"9\"", "id=\"be\" pos=\"9\" absPos=\"900\""));
    const doubted = run("doubt.xml", "doubted.xml");
    assert.deepEqual([doubted.status, existsSync(`${folder}/doubted.xml`)], [0, true]);
    assert.match(doubted.said, /but the track is 9 m long. One of the three may be wrong/);
    writeFileSync(`${folder}/lacks.xml`, track(" course=\"left\"", ""));
    const { status, said } = run("lacks.xml", "none.xml");
    assert.deepEqual([status, existsSync(`${folder}/none.xml`)], [1, false]);
    assert.match(said, /has no course[^]*railplan: nothing is written: 1 thing would have to be guessed\n$/);
    writeFileSync(`${folder}/three.xml`, "<railML version=\"3.1\"/>");
    assert.deepEqual(run("three.xml", "none.xml"), { status: 1, said: "railplan: this is railML 3, and has no net "
        + "elements (topology) of which tracks could be made\nrailplan: nothing is written: 1 thing would have to be guessed\n" });
}));

test("what isn't replaced, and what can't be read", () => inFolder((run, folder) => {
    symlinkSync("other.xml", `${folder}/link.xml`);
    symlinkSync("nosuch.xml", `${folder}/open.xml`);
    mkdirSync(`${folder}/folder.xml`);
    for (const [source, out, wanted, piece] of /** @type {[string, string, number, string][]} */ ([
        ["s.xml", "link.xml", 2, "is a link, and isn't replaced"], ["s.xml", "open.xml", 2, "is a link, and isn't replaced"],
        ["s.xml", "/dev/null", 2, "is no plain file"], ["s.xml", "folder.xml", 6, "it is a folder. Name a file in it"],
        ["s.xml", "none/s.xml", 6, "none isn't there. Make the folder"], ["s.xml", "s.xml", 2, "s.xml is named twice. Name"],
        ["s.xml", "./s.xml", 2, "s.xml and ./s.xml are one file. Name"], ["s.xml", "-", 2, "`-` is no name of a file that is "
            + "written"],
        ["s.xml", "other.xml", 2, "is there, and nothing in it says that prepare wrote it"],
        ["s.xm", "new.xml", 5, "s.xm isn't there. Did you mean s.xml?"], ["-", "new.xml", 5, "standard input is /dev/stdin"],
        [".", "new.xml", 5, ". is a folder. Name one file in it"]])) {
        const { status, said } = run(source, out);
        assert.deepEqual([status, said.split("\n").length, said.includes(piece)], [wanted, 2, true], said);
    }
    assert.equal(readFileSync(`${folder}/other.xml`, "utf8"), "mine");
    assert.ok(!existsSync(`${folder}/nosuch.xml`));
}));
