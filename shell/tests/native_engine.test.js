/** The native program over files that are handed to it: what it is seen to write, and what it leaves. */
import assert from "node:assert/strict";
import { chmodSync, mkdtempSync, rmSync, writeFileSync } from "node:fs";
import { tmpdir } from "node:os";
import { join } from "node:path";
import { test } from "node:test";
import { NativeEngine } from "../terminal/native_engine.js";

const WORDS = ["draw", "station.xml", "--log", "l"];

/**
 * what a run came to of a program that writes its log in two pieces and ends with this status
 * @param {number} status
 */
async function ranWith(status) {
    const room = mkdtempSync(join(tmpdir(), "railplan-")), program = join(room, "program");
    writeFileSync(program, `#!/bin/sh\nprintf one >"$4"\nsleep 0.5\nprintf ' two' >>"$4"\nexit ${status}\n`);
    chmodSync(program, 0o755);
    /** @type {string[]} */
    const pieces = [];
    try {
        const ran = await new NativeEngine(program, { isQuiet: true }).run({ words: WORDS, files: new Map([["station.xml", new Uint8Array()]]),
            seen: (name, piece) => pieces.push(`${name}: ${Buffer.from(piece)}`) });
        return { ran, pieces, written: [...ran.files].map(([name, bytes]) => `${name}: ${Buffer.from(bytes)}`) };
    } finally {
        rmSync(room, { recursive: true, force: true });
    }
}

test("what the program writes is said as it is written, and handed back", async () => {
    const { ran, pieces, written } = await ranWith(4);
    assert.equal(ran.status, 4);
    assert.deepEqual(pieces, ["l: one", "l:  two"]);
    assert.deepEqual(written, ["l: one two"]);
});

test("a run that ends with 7 leaves nothing", async () => {
    assert.deepEqual((await ranWith(7)).written, []);
});
