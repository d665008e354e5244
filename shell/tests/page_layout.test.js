/** Names lie on no line, sign or name, nothing is cut off, and all is there: on made, crowded and stored drawings. */
import assert from "node:assert/strict";
import { test } from "node:test";
import { make } from "../both/page/kinds.js";
import { crowdedSignals, crowdedStations } from "./pages/crowded.js";
import { faultsOfDrawing, faultsOfPage, picturesOf } from "./pages/drawn.js";
import { madeSheets, pageOf, sample, samples } from "./pages/runs.js";

const SLOW = ["longest", "signs", "accents"].map((it) => `crowded ${it} 7 by 18`);

/** @param {import("../both/page/page.js").Page} page @returns {string[]} */
function faultsOf(page) {
    const [strips] = picturesOf(page);
    assert.ok(page.scene);
    return [...faultsOfPage(page), ...faultsOfDrawing(strips, page.scene.drawing, page.scene.signals)];
}

test("pictures of made stations", () => {
    const sheets = madeSheets().filter((_, at) => at % 8 === 0);
    assert.ok(sheets.length > 5);
    for (const [name, sheet] of sheets) assert.deepEqual(faultsOf(pageOf(["draw", "no.xml"], sheet)), [], name);
});

test("pictures of crowded stations", () => {
    for (const [name, sheet] of crowdedStations()) {
        if (!SLOW.includes(name)) assert.deepEqual(faultsOf(pageOf(["draw", "no.xml"], sheet)), [], name);
    }
    for (const [name, output] of crowdedSignals()) assert.deepEqual(faultsOf(pageOf(["signals", "no.xml"], output)), [], name);
});

test("pictures of stored runs", () => {
    for (const name of samples()) assert.deepEqual(faultsOfPage(make(sample(name))), [], name);
});
