#!/usr/bin/env node
/**
 * The program as WebAssembly on the system's own files, with the words and the statuses of the native one: so the runs of
 * cases/ can judge it. The module is out/railplan.wasm at the top, or the file that RAILPLAN_WASM names.
 */
import { readFileSync, writeSync } from "node:fs";
import { dirname, join } from "node:path";
import { fileURLToPath } from "node:url";
import { runWasm } from "../both/wasm_host.js";
import { runOverSystem } from "../terminal/system_files.js";

const TOP = dirname(dirname(dirname(fileURLToPath(import.meta.url))));
const UNWRITTEN = 6;

const module = new WebAssembly.Module(readFileSync(process.env.RAILPLAN_WASM ?? join(TOP, "out/railplan.wasm")));
/** @type {import("../both/engine.js").Engine} */
const engine = { kind: "wasm", run: async (job) => runWasm(module, job.words, job.files ?? new Map()) };
const ran = await runOverSystem(engine, { words: process.argv.slice(2) });
process.exitCode = ran.status;
try {
    for (let at = 0; at < ran.output.length;) {
        at += writeSync(1, ran.output, at);
    }
} catch {
    process.exitCode = UNWRITTEN;
}
