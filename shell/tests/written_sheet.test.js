/** The sheets that `--sheet` writes of redraw and signals: the program takes them, finds them lawful, and draws on from them. */
import assert from "node:assert/strict";
import { spawnSync } from "node:child_process";
import { mkdtempSync, readFileSync, rmSync, writeFileSync } from "node:fs";
import { tmpdir } from "node:os";
import { test } from "node:test";
import { readSheet, sheetIn } from "../both/page/texts.js";
import { PROGRAM, TOP, hasProgram } from "./clone.js";

/** @param {string[]} words @returns {string} what the program prints */
function printed(words) {
    return spawnSync(PROGRAM, words, { encoding: "utf8" }).stdout;
}

/** a new file, a former one, a drawing of that, and options: stations of examples/ and cases/, and made ones by number */
const CHANGES = ["examples/station_changed examples/station examples/station.sheet", "station_changed station - --width 12",
    "cases/stations/loop cases/stations/loop cases/sheets/loop.sheet", "cases/stations/loop cases/stations/loop cases/sheets/loop.sheet "
        + "--least 2", "cases/stations/loop cases/stations/loop cases/sheets/loop_first.sheet",
    "cases/stations/loop examples/one examples/one.sheet", "examples/one cases/stations/loop cases/sheets/loop.sheet --width 4",
    "cases/stations/loop cases/stations/two cases/sheets/two_first.sheet", "examples/station 7 -", "16 16 - --least 2 --conflicts 4",
    "16 16 - --least 2", "31 16 -", "17 32 -", "3 48 -", "18 48 -"];

/** Files for one test, which are gone behind it. */
class Files {
    /** @param {{after: (done: () => void) => void}} test */
    constructor(test) {
        this.folder = mkdtempSync(`${tmpdir()}/railplan-`);
        test.after(() => rmSync(this.folder, { recursive: true }));
    }

    /** @param {string} name @param {string} text @returns {string} the file's place */
    write(name, text) {
        writeFileSync(`${this.folder}/${name}`, text);
        return `${this.folder}/${name}`;
    }

    /** @param {string} named a station of the clone, or a number @returns {string} */
    station(named) {
        return /^\d+$/.test(named) ? this.write(`${named}.xml`, printed(["make", named]))
            : `${TOP}${named.includes("/") ? "" : "examples/"}${named}.xml`;
    }
}

test("a sheet of redraw is lawful, claims nothing, and is where the next redraw begins", { skip: !hasProgram }, (it) => {
    const files = new Files(it);
    for (const change of CHANGES) {
        const [fresh, former, named, ...options] = change.split(" "), file = files.station(fresh), old = files.station(former);
        const sheet = named === "-" ? files.write("old.sheet", printed(["draw", old])) : TOP + named;
        const text = sheetIn(printed(["redraw", file, old, sheet, ...options])), mine = files.write("new.sheet", text);
        const { values, ending } = readSheet(text);
        assert.equal(printed(["verify", file, mine]), `lawful ${Object.values(values).join(" ")}\n`, change);
        assert.deepEqual(ending, ["conflicts", "0"]);
        assert.match(printed(["redraw", file, file, mine, ...options]), /^moved 0 of /m, change);
        assert.match(printed(["check", file, mine, files.write("log", "railplan-log 1\n")]), /^certified 0$/m, change);
    }
});

test("a sheet of signals is that of draw", { skip: !hasProgram }, (it) => {
    const files = new Files(it), file = `${TOP}examples/station_signals.xml`, sheet = sheetIn(printed(["signals", file]));
    assert.equal(sheet, printed(["draw", file, "--least", "2"]));
    assert.match(printed(["verify", file, files.write("sheet", sheet)]), /^lawful /);
});

test("without a drawing there is no sheet", () => {
    assert.equal(sheetIn("railplan-moved 1\ngrid 4 8 1\nend none\n"), "");
    assert.equal(sheetIn("railplan 2\ngrid 4 8 1\norder height\nend none\n"), "");
    assert.equal(sheetIn("words 1 NoCommand 1\n"), "");
    assert.equal(readFileSync(`${TOP}examples/one.sheet`, "utf8"), sheetIn(readFileSync(`${TOP}examples/one.sheet`, "utf8")));
});
