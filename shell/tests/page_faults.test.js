/** A fault's page: the launcher's sentences, the lines of the file, and both elements where two are meant. */
import assert from "node:assert/strict";
import { test } from "node:test";
import { excerpts } from "../both/page/faults.js";
import { make } from "../both/page/kinds.js";
import { Element, flat } from "../both/page/markup.js";
import { bodyOf } from "../both/page/whole.js";
import { faultOf, inputOf, stored } from "./pages/runs.js";

/** @typedef {import("../both/page/page.js").Page} Page */

const MUTUAL = stored("cases/stations/mutual.xml");

/** @type {(page: Page) => string} */
const lead = (page) => flat(page.lead).map((it) => it instanceof Element ? it.text() : it).join(" ");

/** @type {(files: {[name: string]: string}) => Map<string, string>} */
const named = (files) => new Map(Object.entries(files));

test("both elements are linked", async () => {
    const place = MUTUAL.indexOf("c1") - '<connection id="'.length;
    const page = make(await faultOf(`topology 8 NotMutual at ${place} c1 c2`, 1, ["draw", "x.xml"],
        named({ "x.xml": MUTUAL })));
    assert.match(lead(page), /The connection c1 refers to c2, and c2 refers to c3\./);
    const html = bodyOf(page).join("");
    const targets = page.figures.flatMap((it) => it.parts).flatMap((it) => [...it.all()]).map((it) => it.attributes.id);
    for (const [id, said] of [["c1", "The connection c1 refers to c2"], ["c2", "C2 is here."]]) {
        const line = MUTUAL.slice(0, MUTUAL.indexOf(`id="${id}"`)).split("\n").length;
        assert.ok(lead(page).toLowerCase().includes(`line ${line}: ${said}`.toLowerCase()), lead(page));
        assert.ok(html.includes(`<a href="#·line-1-${line}">line ${line}</a>: `));
        assert.ok(targets.includes(`·line-1-${line}`));
    }
    assert.ok(!html.includes('class="facts"'));
});

test("lines that are near each other are shown once", () => {
    const lines = Array.from({ length: 39 }, (_, at) => `<a${at + 1}/>`);
    const notes = [30, 4, 7, 12].map((line) => ({ text: "", file: "x.xml", line }));
    assert.deepEqual(excerpts(notes, [inputOf("x.xml", lines.join("\n"))]),
        [{ name: "x.xml", first: 2, lines: lines.slice(1, 14), meant: [4, 7, 12] },
            { name: "x.xml", first: 28, lines: lines.slice(27, 32), meant: [30] }]);
});

test("the program's own line is there", async () => {
    assert.match(lead(make(await faultOf("read failed 1", 5))), /The program's own line: read failed 1/);
});

test("a place is a line", async () => {
    const files = named({ "x.xml": "<railml>\n<a>\n  <b id='1' x='y'/>\n</a></railml>\n" });
    const page = make(await faultOf("topology 3 Missing at 20 absPos", 1, ["draw", "x.xml"], files));
    assert.match(lead(page), /This element has no absPos\./);
    assert.match(page.figures[0].parts[0].text(), /▸ 3/);
});

test("other endings", async () => {
    for (const [output, status, said] of /** @type {[string, number,
        string][]} */ ([["", 7, "There was no memory for this run."],
        ["long 1", 1, "x.xml has more than 4 MiB"], ["words 5 UnknownOption 3", 2, "words 5 UnknownOption 3"],
        ["", 10, "words of the command line"]])) {
        const page = make(await faultOf(output, status, ["draw", "x.xml"], named({ "x.xml": "<railml/>" })));
        assert.ok(lead(page).includes(said), lead(page));
    }
});

test("faults of the former file and of sheets", async () => {
    const files = named({ "x.xml": "<a/>", "old.xml": "<a>\n<b>\n</a>", s: "railplan 2\nnonsense\n" });
    const words = ["redraw", "x.xml", "old.xml", "s"];
    const page = make(await faultOf("old text 6 EndTag at 8", 1, words, files));
    assert.match(lead(page), /<\/a> comes before <b> is closed\./);
    assert.match(page.figures[0].parts[0].text(), /▸ 3/);
    const other = make(await faultOf("sheet 1 Form line 2", 1, words, files));
    assert.match(other.figures[0].parts[0].text(), /nonsense/);
});

test("a long line is cut, and bytes that are no text are shown", async () => {
    const bytes = new Uint8Array(Buffer.from(`<a>${"x".repeat(5000)}\xff\x00`, "latin1"));
    const page = make(await faultOf("text 1 NotUtf8 at 500", 1, ["draw", "x.xml"], new Map([["x.xml", bytes]])));
    assert.ok(page.figures[0].parts[0].text().length < 400);
});
