/** A page that is handed over, compared with the one that this version writes of its run. */
import assert from "node:assert/strict";
import { createHash } from "node:crypto";
import { readFileSync } from "node:fs";
import { test } from "node:test";
import { gunzipSync, gzipSync } from "node:zlib";
import { outline } from "../both/page/kinds.js";
import { recordOf, textOf } from "../both/page/record.js";
import { Run } from "../both/page/run.js";
import { judgeWhole, pictureOf, shownBy } from "../both/page/same_page.js";
import { pageText } from "../both/page/written.js";

const EXAMPLES = new URL("../../examples/", import.meta.url);
const text = (/** @type {string} */ name) => readFileSync(new URL(name, EXAMPLES), "utf8");
const file = new TextEncoder().encode(text("station.xml")), sheet = text("station.sheet"), graph = text("station.graph");
const sum = (/** @type {Uint8Array | string} */ bytes) => createHash("sha256").update(bytes).digest("hex");
const packed = (/** @type {string} */ it) => gzipSync(it).toString("base64");
const own = { page: "p{}", drawing: ".edge{}", script: "draw()", worker: "work()", program: sum("program"), hashOf: () => "'h'" };

/**
 * a program that knows the example's answers
 * @type {import("../both/engine.js").Engine}
 */
const engine = {
    kind: "native",
    run: async ({ words: [command] }) => ({ status: 0, output: new TextEncoder().encode(command === "graph" ? graph : "lawful 2 2 3 7\n"),
        files: new Map(), seconds: 0, wasStopped: false }),
};

/** @param {Partial<import("../both/page/run.js").RunRecord>} [changed] @param {string} [program] @param {string} [picture] */
function pageOf(changed = {}, program = "program", picture = text("station.svg")) {
    const run = new Run({
        words: ["draw", "station.xml"], names: ["station.xml"], output: sheet, graphs: [graph], sheetHash: sum(sheet), version: "0.9",
        inputs: [{ facts: { name: "station.xml", sha256: sum(file), size: file.length, date: null, why: "" }, content: file }], ...changed,
    });
    return pageText(outline(run), "A3", { ...own, data: packed(textOf(run.record)), picture,
        carried: { program: packed(program), worker: own.worker, hints: "" } });
}

/** @param {string} page @param {Partial<typeof own>} [other] */
async function judged(page, other = {}) {
    const found = await judgeWhole(page, async () => ({ ...own, ...other }), engine, async (bytes) => sum(bytes));
    return found?.lines.map((it) => it.join(" ")) ?? [];
}

const SAME = "right it is built, to the byte, as this version builds the page of its run";

test("the picture of a sheet is the one that the program draws", () => {
    assert.equal(pictureOf(sheet), text("station.svg"));
});

test("a page of this version is the same to the byte, with its picture and without it", async () => {
    for (const picture of [text("station.svg"), ""]) {
        const lines = await judged(pageOf({}, "program", picture));
        assert.ok(lines.includes(SAME), lines.join("\n"));
        assert.ok(lines.includes(`right the program that it carries is the one here, SHA-256 ${sum("program")}`));
        assert.deepEqual(lines.filter((it) => !it.startsWith("right ")), ["open the command line, names and dates"]);
    }
});

test("each part that is another is named", async () => {
    const page = pageOf(), data = /class="data">"([^"]*)"/.exec(page)?.[1] ?? "", record = recordOf(gunzipSync(Buffer.from(data, "base64")).toString());
    const open = "open what it shows when it is opened: this version makes otherwise ";
    const changes = /** @type {[string, string][]} */ ([
        [page.replace("points=\"20,100 60,100\"", "points=\"20,100 60,60\""), "wrong what it shows without its script is what its run gives"],
        [page.replace("<script>draw()", "<script>other()"), `${open}its script`],
        [page.replace("\"work()\"", "\"other()\""), `${open}the script of its worker`],
        [page.replace("p{}", "p{display:none}"), `${open}its style`],
        [page.replace("default-src 'none'", "default-src *"), `${open}what it lets a browser do`],
        [pageOf({}, "other"), `open what it finds of itself: the program that it carries, SHA-256 ${sum("other")}, isn't the one here, SHA-256 `
            + sum("program")],
        [pageOf({ notShown: ["nothing"] }), "wrong what it says that the drawing doesn't show is what this version says of its file"],
        [page.replace(data, packed(textOf({ ...record, output: "no sheet\n" }))), "wrong there is a page of the run that it carries"],
    ]);
    for (const [changed, wanted] of changes) {
        const lines = await judged(changed);
        assert.ok(lines.includes(wanted), `${wanted}\n${lines.join("\n")}`);
    }
});

test("where there is no program as WebAssembly to compare with, that is open", async () => {
    assert.ok((await judged(pageOf(), { program: "" })).includes(
        "open the program that it carries: there is none as WebAssembly here to compare it with"));
});

test("what isn't built as pages are isn't judged, and a run without its parts isn't read", async () => {
    const page = pageOf(), data = /class="data">"([^"]*)"/.exec(page)?.[1] ?? "";
    assert.deepEqual(await judged(`${page} `), []);
    assert.deepEqual(await judged("<!DOCTYPE html>"), []);
    assert.deepEqual(await judged(page.replace(data, packed("{\"words\": 1, \"inputs\": []}"))), []);
    assert.deepEqual(await judged(page.replace(data, packed(textOf(new Run({ words: ["draw"], output: "", settings: /** @type {any} */ ({ paper: "B9" }) }).record)))), []);
});

test("what is shown of a page is made anew, and has nothing of its script", async () => {
    const found = await judgeWhole(pageOf().replace("draw()", "evil()"), async () => own, engine, async (bytes) => sum(bytes));
    const shown = found ? shownBy(found.carried, own) : "";
    assert.ok(shown.includes("<script>draw()</script>") && !shown.includes("evil()") && !shown.includes('class="program"'));
});
