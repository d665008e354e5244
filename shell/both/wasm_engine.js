/**
 * The engine whose body is railplan.wasm, in a worker: the browser's or node's. A run that is stopped ends its worker, and
 * leaves nothing.
 */

/** @typedef {import("./engine.js").Job} Job */
/** @typedef {import("./engine.js").Ran} Ran */
/** @typedef {import("./wasm_worker.js").Asked} Asked */
/** @typedef {import("./wasm_worker.js").Sent} Sent */
/**
 * A worker, whatever makes it.
 * @typedef {Object} Port
 * @property {(asked: Asked) => void} post
 * @property {(onSent: (sent: Sent) => void, onFault: (why: string) => void) => void} listen
 * @property {() => void} end
 */

/** the status of a run that was stopped from outside, and of one whose worker failed */
const STOPPED = 130, FAILED = 134;

/** Runs the program as WebAssembly, one job at a time; a further job waits for the one before it. */
export class WasmEngine {
    /**
     * @param {WebAssembly.Module} module railplan.wasm, compiled
     * @param {() => Port} start starts a worker
     */
    constructor(module, start) {
        this.kind = /** @type {const} */ ("wasm");
        this.module = module;
        this.start = start;
        /** @type {Port | undefined} */
        this.port = undefined;
        /** @type {Promise<unknown>} */
        this.before = Promise.resolve();
    }

    /**
     * Runs a job over its files. `trap` says why a run ended that the machine stopped.
     * @param {Job} job
     * @returns {Promise<Ran & {trap?: string, memory?: number}>}
     */
    run(job) {
        const ran = this.before.then(() => this.runNow(job));
        this.before = ran.catch(() => undefined);
        return ran;
    }

    /** ends the worker; a further job starts one anew */
    close() {
        this.port?.end();
        this.port = undefined;
    }

    /**
     * @param {Job} job
     * @returns {Promise<Ran & {trap?: string, memory?: number}>}
     */
    runNow(job) {
        const began = performance.now();
        return new Promise((resolve) => {
            /** @param {number} status @param {string} [trap] */
            const cut = (status, trap) => {
                this.close();
                resolve({
                    status, output: new Uint8Array(0), files: new Map(), seconds: (performance.now() - began) / 1000,
                    wasStopped: status === STOPPED, trap,
                });
            };
            if (job.signal?.aborted) {
                cut(STOPPED);
                return;
            }
            const stop = () => cut(STOPPED);
            job.signal?.addEventListener("abort", stop, { once: true });
            if (!this.port) {
                this.port = this.start();
                this.port.post({ module: this.module });
            }
            this.port.listen((sent) => {
                if ("ran" in sent) {
                    job.signal?.removeEventListener("abort", stop);
                    resolve(sent.ran);
                } else {
                    job.seen?.(sent.name, sent.piece);
                }
            }, (why) => {
                job.signal?.removeEventListener("abort", stop);
                cut(FAILED, why);
            });
            this.port.post({ words: job.words, files: job.files ?? new Map(), isSeen: job.seen !== undefined });
        });
    }
}
