/** What is found in stations' files: by processes that start the program beside the one that has the line. */
import assert from "node:assert/strict";
import { chmodSync, mkdtempSync, rmSync, writeFileSync } from "node:fs";
import { tmpdir } from "node:os";
import { test } from "node:test";
import { finderOf } from "../terminal/finding.js";
import { NativeEngine } from "../terminal/native_engine.js";
import { Ended } from "../terminal/say.js";

const FILES = 20, encoder = new TextEncoder();

/** @param {number} number @returns {[string, Uint8Array]} the name of a file and its text, of one track with a signal */
function file(number) {
    return [`s${number}.xml`, encoder.encode(`<railml><infrastructure><tracks><track id="t"><trackTopology><trackBegin id="b${number}" pos="0" `
        + 'absPos="0"/><trackEnd id="e" pos="9"/></trackTopology><ocsElements><signals><signal id="n" pos="5"/></signals></ocsElements></track>'
        + "</tracks></infrastructure></railml>")];
}

/**
 * @param {string} script what is run in place of the program
 * @param {(engine: NativeEngine) => Promise<void>} body
 */
async function withProgram(script, body) {
    const folder = mkdtempSync(`${tmpdir()}/railplan-`);
    try {
        writeFileSync(`${folder}/program`, `#!/bin/sh\n${script}\n`);
        chmodSync(`${folder}/program`, 0o755);
        await body(new NativeEngine(`${folder}/program`));
    } finally {
        rmSync(folder, { recursive: true });
    }
}

test("many files are looked into side by side, and what is found is of each file", () => withProgram('test "$1" = graph && wc -c <"$2"',
    async (engine) => {
        const { signal } = new AbortController(), finder = finderOf(engine, FILES, signal);
        try {
            const found = await Promise.all(Array.from({ length: FILES }, (_, at) => finder.found(...file(at))));
            found.forEach(({ status, text, signals, wasStopped }, at) => assert.deepEqual([status, Number(text), [...signals], wasStopped],
                [0, file(at)[1].length, [["n", [`b${at}`, "e"].sort().join(" and ")]], false]));
        } finally {
            finder.close();
        }
    }));

test("few files are looked into by the process itself, with the same result", () => withProgram('wc -c <"$2"', async (engine) => {
    const { signal } = new AbortController(), few = finderOf(engine, 2, signal), many = finderOf(engine, FILES, signal);
    try {
        assert.deepEqual(await few.found(...file(3)), await many.found(...file(3)));
    } finally {
        many.close();
    }
}));

test("what the program says of a fault is handed on", () => withProgram("echo graph 1 TooManyNodes 162; exit 1", async (engine) => {
    const finder = finderOf(engine, FILES, new AbortController().signal);
    try {
        assert.deepEqual(await finder.found(...file(0)), { status: 1, text: "graph 1 TooManyNodes 162\n", signals: new Map(), wasStopped: false });
    } finally {
        finder.close();
    }
}));

test("a run that is stopped waits for nothing", () => withProgram("exec sleep 60", async (engine) => {
    const stopper = new AbortController(), finder = finderOf(engine, FILES, stopper.signal), began = performance.now();
    const waited = Array.from({ length: FILES }, (_, at) => finder.found(...file(at)));
    setTimeout(() => stopper.abort(), 300);
    assert.deepEqual((await Promise.all(waited)).map((it) => it.wasStopped), waited.map(() => true));
    assert.equal((await finder.found(...file(0))).wasStopped, true);
    assert.ok(performance.now() - began < 20_000);
}));

test("a program that can't be started ends the run, and it is said once", async () => {
    const finder = finderOf(new NativeEngine("/nowhere/railplan_main"), FILES, new AbortController().signal);
    try {
        await assert.rejects(finder.found(...file(0)), (error) => error instanceof Ended && error.status === 10);
    } finally {
        finder.close();
    }
});
