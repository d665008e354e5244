/** The host of the program in WebAssembly, beside the system's own files: the same calls are to have the same answers. */
import assert from "node:assert/strict";
import { closeSync, mkdtempSync, openSync, readFileSync, readSync, readdirSync, rmSync, writeFileSync, writeSync } from "node:fs";
import { tmpdir } from "node:os";
import { join } from "node:path";
import { test } from "node:test";
import { Host, plainName } from "../both/wasm_host.js";

const NAMES = ["one", "two", "./one", "three"];
const FLAGS = [0, 1, 2, 0o101, 0o1101, 0o301, 0o2001, 0o1102];

/**
 * numbers that look random, and are the same each time
 * @param {number} seed
 */
function numbers(seed) {
    return (/** @type {number} */ below) => {
        seed = (Math.imul(seed, 1103515245) + 12345) >>> 0;
        return (seed >>> 8) % below;
    };
}

/**
 * a call's answer, or its error's number with a minus
 * @param {() => number} call
 */
function tried(call) {
    try {
        return call();
    } catch (error) {
        return /** @type {{errno: number}} */ (error).errno;
    }
}

/**
 * A host whose memory is ours, over the same files as a folder.
 * @param {string} folder
 */
function hostOver(folder) {
    const files = new Map([["one", new TextEncoder().encode("the first file")], ["two", new Uint8Array(0)]]);
    files.forEach((bytes, name) => writeFileSync(join(folder, name), bytes));
    const host = new Host(["draw", "größe"], files, () => undefined);
    host.memory = /** @type {any} */ ({ buffer: new ArrayBuffer(65536) });
    return host;
}

test("calls of the host are answered as the system answers them", () => {
    for (let seed = 1; seed <= 40; seed++) {
        const folder = mkdtempSync(join(tmpdir(), "railplan-")), host = hostOver(folder), some = numbers(seed);
        /** @type {[number, number][]} the handles of the host and of the system */
        let handles = [];
        for (let step = 0; step < 150; step++) {
            const [ours, theirs] = handles[some(handles.length)] ?? [77, 777], at = some(5) ? 0 : 1000, length = 1 + some(20);
            const memory = new Uint8Array(/** @type {any} */ (host.memory).buffer), kind = some(4);
            if (kind === 0) {
                const name = NAMES[some(NAMES.length)], flags = FLAGS[some(FLAGS.length)], bytes = new TextEncoder().encode(name);
                memory.set(bytes, 5000);
                const answer = host.calls.open(5000, bytes.length, flags), system = tried(() => openSync(join(folder, name), flags));
                assert.equal(Math.min(answer, 0), Math.min(system, 0), `open ${name} ${flags}`);
                handles = answer >= 0 ? [...handles, [answer, system]] : handles;
            } else if (kind === 1) {
                const into = new Uint8Array(length), answer = host.calls.read(ours, at, length);
                assert.equal(answer, tried(() => readSync(theirs, into, 0, length, null)), "read");
                assert.deepEqual(memory.slice(at, at + Math.max(answer, 0)), into.slice(0, Math.max(answer, 0)));
            } else if (kind === 2) {
                const bytes = Uint8Array.from({ length }, () => some(256));
                memory.set(bytes, at);
                assert.equal(host.calls.write(ours, at, length), tried(() => writeSync(theirs, bytes)), "write");
            } else if (some(3) === 0) {
                assert.equal(host.calls.close(ours), tried(() => (closeSync(theirs), 0)), "close");
                handles = handles.filter(([one]) => one !== ours);
            }
        }
        handles.forEach(([, theirs]) => closeSync(theirs));
        assert.deepEqual([...host.files.keys()].sort(), readdirSync(folder).sort());
        for (const [name, file] of host.files) {
            assert.deepEqual(Buffer.from(file.bytes), readFileSync(join(folder, name)), name);
        }
        rmSync(folder, { recursive: true });
    }
});

test("words are handed over as bytes, where there is room", () => {
    const folder = mkdtempSync(join(tmpdir(), "railplan-")), host = hostOver(folder);
    assert.deepEqual([0, 1, 2, 3].map((number) => host.calls.word(number, 100, 20)), [8, 4, 7, -1]);
    assert.equal(host.calls.word(2, 100, 6), -2);
    assert.equal(Buffer.from(host.part(100, 6)).toString("latin1"), Buffer.from("größe").toString("latin1").slice(0, 6));
    rmSync(folder, { recursive: true });
});

test("one file has one name", () => {
    assert.deepEqual(["a/./b", "a//b", "a/c/../b", "./a/b", "/a/b"].map(plainName), ["a/b", "a/b", "a/b", "a/b", "/a/b"]);
});
