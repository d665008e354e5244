/** The engine whose body is railplan.wasm, under node: over files in memory and the system's own, several jobs side by side. */
import { readFileSync } from "node:fs";
import { Worker } from "node:worker_threads";
import { WasmEngine } from "../both/wasm_engine.js";
import { runOverSystem } from "../terminal/system_files.js";

/** @typedef {import("../both/engine.js").Job} Job */
/** @typedef {import("../both/engine.js").Ran} Ran */

/** @returns {import("../both/wasm_engine.js").Port} */
function startThread() {
    const thread = new Worker(new URL("./wasm_thread.js", import.meta.url), { execArgv: [] });
    thread.unref();
    return {
        post: (asked) => {
            thread.ref();
            thread.postMessage(asked);
        },
        listen: (onSent, onFault) => {
            thread.removeAllListeners("message").removeAllListeners("error");
            thread.on("message", (sent) => {
                if ("ran" in sent) {
                    thread.unref();
                }
                onSent(sent);
            });
            thread.on("error", (error) => onFault(error.message));
        },
        end: () => void thread.terminate(),
    };
}

/** The program as WebAssembly; each job that runs beside others has a worker of its own. */
export class NodeWasmEngine {
    /** @param {string} wasm the file railplan.wasm */
    constructor(wasm) {
        this.kind = /** @type {const} */ ("wasm");
        this.wasm = wasm;
        /** @type {Promise<WebAssembly.Module> | undefined} */
        this.module = undefined;
        /** @type {WasmEngine[]} */
        this.idle = [];
    }

    /**
     * @param {Job} job
     * @returns {Promise<Ran>}
     */
    async run(job) {
        this.module ??= WebAssembly.compile(readFileSync(this.wasm));
        const module = await this.module, engine = this.idle.pop() ?? new WasmEngine(module, startThread);
        try {
            return await (job.files ? engine.run(job) : runOverSystem(engine, job));
        } finally {
            this.idle.push(engine);
        }
    }
}
