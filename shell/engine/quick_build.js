/**
 * The program built, once: without proofs, with its checks, at full speed; and as WebAssembly, with proofs or without.
 */
import { mkdirSync } from "node:fs";
import { dirname } from "node:path";
import { needShortener, nativeProgram, provedModule, unprovedModule, wasmProgram, withBench } from "./compile.js";

/** @typedef {{crate: string}} Clone a clone, with the folder of the program's crate */
/** @typedef {(clone: Clone, rt: string, to: string, signal?: AbortSignal) => Promise<void>} Build builds a file with the kit's command rt;
 * it throws Otherwise where the kit goes other ways, and BuildFailed where a step fails */

/**
 * @param {typeof unprovedModule} moduleOf
 * @param {typeof nativeProgram} make
 * @returns {Build}
 */
function building(moduleOf, make) {
    return async (clone, rt, to, signal) => {
        if (make === wasmProgram) await needShortener();
        mkdirSync(dirname(to), { recursive: true });
        await withBench(rt, signal, async (bench) => make(bench, await moduleOf(bench, clone.crate), to));
    };
}

/** the native program without proofs */
export const quickBuild = building(unprovedModule, nativeProgram);
/** the program without proofs as WebAssembly */
export const quickWasm = building(unprovedModule, wasmProgram);
/** the proved program as WebAssembly, where it is proved and built */
export const provedWasm = building(provedModule, wasmProgram);
