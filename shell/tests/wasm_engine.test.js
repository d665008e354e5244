/** The engine over WebAssembly: jobs in turn, a stop, a failed worker; by a worker that is none. */
import assert from "node:assert/strict";
import { test } from "node:test";
import { WasmEngine } from "../both/wasm_engine.js";

/** a worker that answers a job by its words: `ends STATUS`, `writes`, `fails`, or not at all */
function standIn() {
    const worker = {
        /** @type {any[]} */ posted: [],
        ended: 0,
        started: 0,
        start() {
            worker.started++;
            /** @type {(sent: any) => void} */ let onSent = () => undefined;
            /** @type {(why: string) => void} */ let onFault = () => undefined;
            return {
                post(/** @type {any} */ asked) {
                    worker.posted.push(asked);
                    const words = asked.words ?? [];
                    const ran = { status: Number(words[1] ?? 0), output: new Uint8Array(0), files: new Map(), seconds: 0, wasStopped: false };
                    queueMicrotask(() => {
                        if (words[0] === "writes") {
                            onSent({ name: "log", piece: new Uint8Array([1, 2]) });
                        }
                        if (words[0] === "fails") {
                            onFault("out of luck");
                        } else if (words[0] !== "waits" && words[0]) {
                            onSent({ ran });
                        }
                    });
                },
                listen(/** @type {any} */ sent, /** @type {any} */ fault) {
                    [onSent, onFault] = [sent, fault];
                },
                end() {
                    worker.ended++;
                },
            };
        },
    };
    return worker;
}

test("jobs go one by one to one worker, which has the module first", async () => {
    const worker = standIn(), engine = new WasmEngine(/** @type {any} */ ("module"), worker.start);
    const ran = await Promise.all([engine.run({ words: ["ends", "3"] }), engine.run({ words: ["ends", "0"], files: new Map() })]);
    assert.deepEqual(ran.map((it) => it.status), [3, 0]);
    assert.deepEqual(worker.posted.map((it) => it.module ?? it.words[1]), ["module", "3", "0"]);
    assert.equal(worker.started, 1);
});

test("what is written is seen as it is written, if somebody looks", async () => {
    const worker = standIn(), engine = new WasmEngine(/** @type {any} */ ("module"), worker.start);
    /** @type {string[]} */ const seen = [];
    await engine.run({ words: ["writes"], seen: (name, piece) => void seen.push(`${name} ${piece.length}`) });
    assert.deepEqual(seen, ["log 2"]);
    await engine.run({ words: ["ends", "0"] });
    assert.deepEqual(worker.posted.slice(1).map((it) => it.isSeen), [true, false]);
});

test("a stop ends the worker and leaves nothing; the next job has a new one", async () => {
    const worker = standIn(), engine = new WasmEngine(/** @type {any} */ ("module"), worker.start), stop = new AbortController();
    const waiting = engine.run({ words: ["waits"], signal: stop.signal }), next = engine.run({ words: ["ends", "0"] });
    setTimeout(() => stop.abort(), 5);
    const ran = await waiting;
    assert.deepEqual([ran.status, ran.wasStopped, ran.files.size], [130, true, 0]);
    assert.equal((await next).status, 0);
    assert.deepEqual([worker.started, worker.ended], [2, 1]);
    assert.equal((await engine.run({ words: ["ends", "0"], signal: AbortSignal.abort() })).wasStopped, true);
});

test("a worker that fails is said, and isn't used again", async () => {
    const worker = standIn(), engine = new WasmEngine(/** @type {any} */ ("module"), worker.start);
    const ran = await engine.run({ words: ["fails"] });
    assert.deepEqual([ran.status, ran.trap, ran.wasStopped], [134, "out of luck", false]);
    assert.equal((await engine.run({ words: ["ends", "0"] })).status, 0);
    assert.equal(worker.started, 2);
});
