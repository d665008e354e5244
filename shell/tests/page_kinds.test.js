/** What the pages of the commands say, and that they say no more than is known. */
import assert from "node:assert/strict";
import { test } from "node:test";
import { gunzipSync, gzipSync } from "node:zlib";
import { make } from "../both/page/kinds.js";
import { Element, flat } from "../both/page/markup.js";
import { pathBetween } from "../both/page/paths.js";
import { recordOf, textOf } from "../both/page/record.js";
import { Run } from "../both/page/run.js";
import { bodyOf, knownOf } from "../both/page/whole.js";
import { pageText } from "../both/page/written.js";
import { sourceOf } from "../engine/packed.js";
import { stylesIn } from "../terminal/bundle.js";
import { classesOf } from "./pages/drawn.js";
import { DATE, TOP, example, hashOf, pageOf, runOf, sample, samples, stored } from "./pages/runs.js";
import { examples } from "./write_examples.js";

/** @typedef {import("../both/page/page.js").Page} Page */
/** @typedef {import("../both/page/markup.js").Child} Child */

const PROVED = { state: /** @type {const} */ ("proved"), sha256: "a".repeat(64) };
const SCRIPT = "const script = 1 < 2;";
const STATION = "examples/station.xml";
const SHEET = stored("examples/station.sheet");

/** @type {(children: Child[]) => string} */
const wordsOf = (children) => flat(children).map((it) => it instanceof Element ? it.text() : it).join(" ");

/** @type {(page: Page, title: string) => string} */
const fact = (page, title) => wordsOf(page.facts.find(([name]) => name === title)?.[1] ?? []);

/** @type {(page: Page) => string} all texts of a page, with single blanks */
const textsOf = (page) => bodyOf(page).flatMap((it) => [...it.all()])
    .map((it) => flat(it.children).filter((child) => typeof child === "string").join("")).join(" ").replace(/\s+/g, " ");

/** @type {(page: Page, picture?: string) => string} its file */
const written = (page, picture = "") => pageText(page, "A3", { ...stylesIn(TOP), script: SCRIPT, picture, carried: null,
    hashOf: sourceOf, data: gzipSync("{}").toString("base64") });

/** @type {(from: string, ...changes: [string, string][]) => Map<string, string>} a station's file with changes */
const changed = (from, ...changes) => new Map([[from, changes.reduce((xml, [one, other]) => {
    assert.ok(xml.includes(one), one);
    return xml.replace(one, other);
}, stored(from))]]);

test("no page claims a proof that isn't known", () => {
    for (const name of samples()) {
        const text = textsOf(make(sample(name)));
        assert.match(text, /Whether the program's proofs passed isn't known here\./);
        assert.doesNotMatch(text, /is proved|are proved|proofs had passed/);
    }
    for (const [build, said] of /** @type {const} */ ([[PROVED, "All proofs of the program had passed"],
        [{ state: "unproved", sha256: "b".repeat(64) }, "a first look"]])) {
        const text = textsOf(make(sample("verify_lawful", { build })));
        assert.ok(text.includes(said) && text.includes(build.sha256));
    }
});

test("what the title block ties the print to", () => {
    const log = { name: "a b.log", sha256: "c".repeat(64), size: 77, date: null, why: "" };
    const run = example({ build: PROVED, version: "9.1", log, page: "p.html", frontWords: ["--paper", "A2"] });
    const text = textsOf(make(run)).replace(/ +/g, " ");
    for (const wanted of [hashOf(stored(STATION)), hashOf(SHEET), "c".repeat(64), "a".repeat(64), "9.1", "2023-11-14 22:13 UTC",
        "Revision", "Checked by"]) assert.ok(text.includes(wanted), wanted);
    const html = written(make(run));
    for (const wanted of ["./railplan <span>--html</span> p.html <span>--paper</span> A2 draw examples/station.xml",
        "./railplan check examples/station.xml station.sheet 'a b.log'"]) assert.ok(html.includes(wanted), wanted);
});

test("files beside the page are named from where it was made", () => {
    for (const [page, folder] of [["u/out/station.html", "u/out/"], ["station.html", ""]]) {
        const html = written(make(example({ page, sheetBeside: "station.sheet", hintsBeside: "station.hints" })));
        assert.ok(html.includes(`./railplan recheck examples/station.xml ${folder}station.sheet ${folder}station.hints`));
        assert.ok(html.includes(`${folder}station.sheet is the sheet that this page holds. Hand over the three files of this `));
    }
    assert.ok(written(make(example())).includes("Save this page's sheet first, as station.sheet in the folder where you type "));
});

test("without a log only the laws are judged again", () => {
    const html = written(make(example()));
    assert.ok(html.includes("./railplan verify examples/station.xml station.sheet"));
    assert.ok(html.includes("Without a log only the drawing's laws can be judged."));
});

test("a log that lacks has no hash", () => {
    const page = make(example({ log: { name: "l", sha256: "", size: 0, date: null,
        why: "It couldn't be read: No such file." } }));
    assert.match(fact(page, "What certifies it"), /It couldn't be read/);
    assert.ok(page.provenance.check.includes("verify"));
});

test("the station has a name", () => {
    const files = changed(STATION, ['<infrastructure id="station"', '<infrastructure id="station" name="Bärstadt"']);
    assert.equal(make(example({ files })).provenance.title, "Bärstadt");
    assert.equal(make(example()).provenance.title, "station");
});

test("the sheet is in the page, of signals the sheet alone", () => {
    const page = make(example());
    assert.equal(page.sheet, SHEET);
    assert.equal(knownOf(page)?.save.sheet(), SHEET);
    assert.ok(make(sample("signals")).sheet.endsWith("\nend best\n"));
});

test("laws outside of the list aren't said to be kept", () => {
    const captions = make(sample("explain")).figures.map((it) => wordsOf(it.caption));
    assert.equal(captions.length, 4);
    captions.forEach((caption, at) => {
        const [one, two, three] = [1, 2, 3, 4].filter((it) => it !== at + 1);
        assert.ok(caption.includes(`Given up: ${at + 1}. `));
        assert.ok(caption.includes(`It keeps numbers ${one}, ${two} and ${three} of the list. Laws outside the list needn't be `));
    });
});

test("what is said is of this grid", () => {
    for (const [options, isMore] of /** @type {[[string, string][], boolean][]} */ ([[[], true], [[["--width", "64"]], true],
        [[["--width", "64"], ["--height", "12"]], false]])) {
        const said = fact(make(sample("explain", { options: new Map(options) })), "Grid");
        assert.match(said, /All that is said here is of this grid\./);
        assert.equal(said.includes("On a larger one there may be a drawing."), isMore);
    }
});

test("an order names the switch from which it comes", () => {
    const words = wordsOf(make(sample("explain_above")).lead).split(". ").filter((it) => it.includes("lies above"));
    assert.ok(words.length);
    for (const it of words) assert.match(it, /lies above .*, by the (switch|crossing) \S+ \(course=/);
});

test("one law alone, and other answers", () => {
    assert.match(wordsOf(make(sample("explain_exists")).lead), /A lawful drawing exists/);
    assert.match(wordsOf(make(sample("explain_nothing")).lead), /The lines alone don't fit/);
});

test("endings", () => {
    for (const [ending, badge, said] of [
        ["best", "lawful, and none better", "No lawful drawing on this grid is better in height, bends, diagonal and width"],
        ["conflicts 2", "search stopped", "On height and bends no lawful drawing is better; the rest isn't settled."],
        ["room 0", "search stopped", "Whether a lawful drawing is better isn't settled."]]) {
        const page = pageOf(["draw", STATION], SHEET.replace("end best", `end ${ending}`), { status: 4 });
        assert.equal(page.badge[1], badge);
        assert.ok(fact(page, "How the search ended").includes(said));
    }
});

test("a verdict", () => {
    const page = make(sample("verify_law_4", { status: 8 }));
    const [law] = page.lead;
    assert.ok(law instanceof Element);
    assert.ok(law.text().startsWith("Law 4 is broken. It asks: at the switch"));
    assert.equal(law.attributes["data-parties"], "n2");
    assert.deepEqual(make(sample("verify_lawful")).badge, ["settled", "lawful"]);
});

test("the limit that is drawn is named", () => {
    for (const [name, isThere] of /** @type {[string, boolean][]} */ ([["verify_law_1", true], ["verify_law_4", false]])) {
        const page = make(sample(name, { status: 8 }));
        assert.equal(wordsOf(page.figures[0].caption).includes("The broken line is the grid's last column or row."), isThere);
        assert.equal([...page.pictures[0].strips[0].all()].some((it) => it.attributes.class === "limit"), isThere);
    }
});

test("paths are spoken of where there are signals", () => {
    for (const [run, isThere] of /** @type {[Run, boolean][]} */ ([[sample("signals"), true], [example(), false]])) {
        assert.equal(textsOf(make(run)).includes("Two signals, one after the other, show the path between them."), isThere);
    }
});

test("what the drawing doesn't show", () => {
    const files = changed(STATION, ["<connections>", '<mileageChanges><mileageChange id="m"/></mileageChanges><connections>'],
        ["</tracks>", "<x:track/></tracks>"], ["<switch ", '<switch trackContinueCourse="right" '],
        ['pos="0" absPos="12520"', 'pos="0" absPos="19000"']);
    const said = fact(pageOf(["draw", STATION], SHEET, { files }), "What the drawing doesn't show");
    for (const piece of ["drawn straight.", "1 x:track has a prefix, so it is passed over.", "1 mileageChange",
        "switch W3 (km 12.520) and the begin of track track3 (km 19.000); drawn at the first."]) assert.ok(said.includes(piece),
            said);
    const slip = changed(STATION, ["<connections>", '<connections><crossing id="k" type="doubleSwitchCrossing"/>']);
    assert.ok(fact(pageOf(["draw", STATION], SHEET, { files: slip }), "What the drawing doesn't show")
        .includes("k is a double slip in the file; its sign says so, and the ways over its slips aren't drawn"));
    const plain = pageOf(["draw", "examples/one.xml"], stored("examples/one.sheet"));
    assert.ok(!plain.facts.some(([title]) => title === "What the drawing doesn't show"));
});

test("redraw lists what changed", () => {
    const page = make(sample("redraw_station"));
    assert.match(wordsOf(page.lead), /Of 6 nodes that the former drawing has too, 2 moved\. .*gives a narrower one/);
    const changes = page.changes.map((it) => it.text());
    assert.deepEqual(changes.slice(0, 4), ["moved: B1, from column 3, row 0 to column 13, row 0",
        "moved: B2, from column 3, row 1 to column 13, row 1", "new node: W3, column 9, row 1",
            "new node: W4, column 12, row 1"]);
    assert.ok(changes.includes("gone piece of track: second main track (track2), from W2 to B2"));
    assert.deepEqual(page.changes.slice(0, 4).map((it) => it.attributes["data-key"]), ["n1", "n4", "n6", "n7"]);
});

test("pictures side by side have one width, so that a narrow screen shows them at one scale", () => {
    for (const [name, kind, count] of /** @type {[string, string, number][]} */ ([["redraw_station", "version", 2],
        ["explain", "panel", 4]])) {
        const strips = make(sample(name)).figures.filter((it) => it.kind === kind).flatMap((it) => it.parts);
        assert.equal(strips.length, count);
        assert.equal(new Set(strips.map(({ attributes: { width, viewBox } }) =>
            `${width} ${String(viewBox).split(" ")[2]}`)).size, 1);
    }
});

test("a switch that moved past another is said once, with the pieces that are longer or shorter", () => {
    const page = pageOf(["redraw", "examples/station_changed.xml", STATION, "examples/station.sheet"],
        stored("examples/station_changed.txt"));
    assert.deepEqual(page.changes.map((it) => it.text()), ["moved: W3, from column 3, row 1 to column 1, row 1, along second "
        + "main track (track2) from between W2 and W4 to between A2 and W2", "another kilometre: W3, from 12.520 to 12.360; second "
        + "main track (track2), from W3 to W2, is 75 m shorter; loop (track3), from W3 to W4, is 160 m longer"]);
});

test("a change that is ticked off is struck out", () => {
    for (const item of make(sample("redraw_station")).changes) {
        assert.deepEqual([...item.all()].map((it) => it.tag), ["li", "label", "input", "span"]);
    }
    assert.ok(stylesIn(TOP).page.includes(".changes input:checked + span { text-decoration: line-through }"));
});

test("redraw says other kilometres and sides", () => {
    const run = sample("redraw_station");
    const [now = "", former = ""] = run.record.graphs;
    const [, name, side] = /node \d+ (\S+) switch \S+ (upper|lower)/.exec(former ?? "") ?? [];
    const other = side === "upper" ? "lower" : "upper";
    run.record.graphs = [now, (former ?? "").replace(/^(node 0 .*) \S+$/m, "$1 12001.000000")
        .replace(new RegExp(`(${name} switch \\S+) ${side}`), `$1 ${other}`)];
    const changes = make(run).changes.map((it) => it.text()).join(" ");
    assert.ok(changes.includes("another kilometre: A1, from 12.001 to 12.000"), changes);
    assert.ok(changes.includes(`another kind: ${name}, from switch`), changes);
});

test("a point of a front leads to its drawing", () => {
    const page = make(sample("front"));
    const links = [...page.figures[0].parts[0].all()].filter((it) => it.tag === "a").map((it) => it.attributes.href);
    assert.deepEqual(links, page.figures.slice(1).map((it) => `#${it.id}`));
    assert.equal(links.length, 2);
    assert.match(fact(make(sample("front_long")), "Pairs"), /of which there is no drawing here/);
});

test("options aren't broken", () => {
    assert.ok(written(make(sample("explain")))
        .includes('<code class="command">./railplan explain loop.xml <span>--width</span> 4</code>'));
    assert.ok(stylesIn(TOP).page.includes(".command span { white-space: nowrap }"));
});

test("unread names are said", () => {
    assert.match(fact(make(example({ files: new Map([[STATION, "<railml>\n<"]]) })), "Names and ends"), /line 2/);
});

const NAMES = ["<script>alert(1)</script>", "\"onload='x()'", "</style><img/src=x>", "</script><b>", "]]>&lt;b&gt;",
    "a\u202eb\u200b",
    "\ufffe<!--", "javascript:alert(1)"];

/** @returns {Run} one in which each id and name is hostile */
function hostile() {
    let [xml, output, graph] = [stored("signals.xml"), sample("signals").record.output, stored("signals.graph")];
    ["mb", "me", "s1", "s2", "A", "N1", "m", "l"].forEach((id, at) => {
        const name = NAMES[at % NAMES.length].replaceAll(" ", "") + at;
        const quoted = name.replaceAll("&", "&amp;").replaceAll("<", "&lt;").replaceAll('"', "&quot;");
        xml = xml.replaceAll(new RegExp(`id="${id}"( name="[^"]*")?`, "g"), () => `id="${quoted}" name="${quoted}n"`);
        [output, graph] = [output, graph].map((text) =>
            text.replaceAll(new RegExp(`^((?:node|edge|signal) \\d+) ${id} `, "gm"), (_, front) => `${front} ${name} `));
    });
    return runOf(["signals", "<i>.xml"], output, { files: new Map([["<i>.xml", xml]]), graphs: [graph],
        page: "</style><i>.html" });
}

test("no name becomes markup", () => {
    const page = make(hostile());
    const all = bodyOf(page).flatMap((it) => [...it.all()]);
    const names = new Set(all.flatMap((it) => Object.keys(it.attributes)));
    assert.deepEqual([...names].filter((it) => it.startsWith("on") || ["src", "style", "action", "srcdoc"].includes(it)), []);
    assert.deepEqual(all.filter((it) => it.attributes.href && !String(it.attributes.href).startsWith("#")), []);
    assert.ok(all.some((it) => it.text() === "<script>alert(1)</script>0n"));
    const html = written(page, '<svg viewBox="0 0 20 20"><text x="1" y="2">&lt;/style&gt;&amp;lt;b</text></svg>');
    assert.equal(html.match(/<script/g)?.length, 2);
    assert.ok(!/<img|<b>s|<i>/.test(html.replace(/<b>Law/g, "")));
    assert.ok(bodyOf(page).join("").includes("‹U+FFFE›&lt;!--6n")
        && html.includes('font-size="10">&lt;/style&gt;&amp;lt;b</text>'));
    assert.ok(html.includes("./railplan <span>--html</span> '&lt;/style&gt;&lt;i&gt;.html' signals '&lt;i&gt;.xml'"));
});

test("heading and title", () => {
    const files = changed("examples/one.xml", ["<infrastructure ", '<infrastructure name="&lt;img src=x>" ']);
    const html = written(pageOf(["draw", "examples/one.xml"], stored("examples/one.sheet"), { files }));
    assert.ok(html.includes("<title>&lt;img src=x&gt;: Track schematic</title>") && !html.includes("<img"));
});

test("the policy allows this script and these styles alone", () => {
    for (const name of samples()) {
        const html = written(make(sample(name)));
        const [, policy] = /content="(default-src [^"]*)"/.exec(html) ?? [];
        const styles = [...html.matchAll(/<style[^>]*>([^]*?)<\/style>/g)].map(([, text]) => sourceOf(text));
        assert.equal(policy, `default-src 'none'; style-src ${styles.join(" ")}; script-src ${sourceOf(SCRIPT)}; `
            + "base-uri 'none'; form-action 'none'");
        assert.ok(!/ (src|style)=/.test(html));
    }
});

test("without the script a page shows what the program drew, and says so", () => {
    const html = written(make(example()), stored("examples/station.svg"));
    assert.equal(html.match(/<polyline class="edge" points=/g)?.length, 8);
    assert.match(html, /its script, which doesn't run here\. So it shows the picture that the program drew\./);
    assert.match(written(make(sample("explain"))), /So it shows what was found, without its pictures\./);
});

test("what the script knows", () => {
    const known = knownOf(make(sample("signals")));
    assert.ok(known);
    assert.deepEqual(known.edges.get("e0"), ["n0", "n2"]);
    assert.deepEqual(known.signals.get("s0"), ["e0", 2, true]);
    assert.ok(known.ways.get("n2")?.some((it) => String(it) === "e0,e3,diverging"));
    assert.equal(known.objects.get("s0")?.link, "A");
    const path = pathBetween(known, "s0", "s5");
    assert.deepEqual([path?.pieces, path?.nodes], [["e0", "e3"], [["n2", "diverging"]]]);
    assert.equal(pathBetween(known, "s1", "s5"), null);
});

test("a run comes back from its record", () => {
    for (const run of [sample("signals"), sample("front"), example({ files: new Map([[STATION, Uint8Array.of(60, 255)]]) })]) {
        const again = new Run(recordOf(gunzipSync(gzipSync(textOf(run.record))).toString()));
        assert.deepEqual(again.record, run.record);
    }
});

test("ids are given once", () => {
    for (const name of samples()) {
        const ids = bodyOf(make(sample(name))).flatMap((it) => [...it.all()]).flatMap((it) => it.attributes.id ?? []);
        assert.equal(ids.length, new Set(ids).size, name);
    }
});

test("a page has the run's date, and signs that it names", () => {
    const page = make(example());
    assert.equal(page.provenance.date, DATE);
    const drawn = new Set(page.pictures[0].strips.flatMap((it) => [...it.all()]).flatMap(classesOf));
    assert.ok(drawn.has("wedge") && page.signs.has("switch"));
});

test("the stored example is what is made; node shell/tests/write_examples.js makes it anew", () => {
    const plain = (/** @type {string} */ text) => text.replace(/<script>[^]*<\/script>/, "").replace(/script-src '[^']*'/, "");
    for (const [name, text] of examples()) assert.ok(plain(stored(name)) === plain(text), name);
});
