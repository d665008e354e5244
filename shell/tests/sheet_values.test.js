/** What the shell measures of a sheet's points is what the program printed, and reads again. */
import assert from "node:assert/strict";
import { readdirSync } from "node:fs";
import { test } from "node:test";
import { valuesLine, valuesOf } from "../both/sheet_values.js";
import { signs, TOP } from "./clone.js";

const SHEETS = ["examples", "cases/sheets"].flatMap((folder) => readdirSync(TOP + folder)
    .filter((it) => it.endsWith(".sheet")).map((it) => signs(`${folder}/${it}`)));

test("the values of sheets of both editions", () => {
    assert.ok(SHEETS.length > 8);
    for (const text of SHEETS) {
        const line = text.split("\n").find((it) => it.startsWith("values ")) ?? "";
        assert.equal(valuesLine(text), line);
        assert.equal(valuesLine(text.replace(line, "values 9 9 9 9")), line);
    }
});

test("a node counts where no line goes, and rows that a line falls count too", () => {
    const node = { number: 0, name: "a", mileage: null }, edge = { number: 0, track: null, west: 0, east: 0 };
    assert.deepEqual(valuesOf({ nodes: [{ ...node, point: [9, 5] }], edges: [{ ...edge, points: [[0, 3], [3, 0], [5, 0]] }] }),
        [5, 1, 3, 9]);
    assert.deepEqual(valuesOf({ nodes: [], edges: [] }), [0, 0, 0, 0]);
    assert.equal(valuesLine("railplan 2\ngrid 4 4 1\norder height\nnodes x\n"), "");
});
