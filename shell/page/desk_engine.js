/** The engine of a page: railplan.wasm out of the page's own data, in workers of the browser. */
import { sumOf } from "../both/sha256.js";
import { WasmEngine } from "../both/wasm_engine.js";

/**
 * The SHA-256 of bytes: by the browser, where it has that for this page, else by its own code.
 * @param {Uint8Array} bytes
 * @returns {Promise<Uint8Array>} 32 bytes
 */
export async function digest(bytes) {
    const own = /** @type {SubtleCrypto | undefined} */ (crypto.subtle);
    return own ? new Uint8Array(await own.digest("SHA-256", bytes)) : sumOf(bytes);
}

/**
 * The SHA-256 of bytes, in hexadecimal digits.
 * @param {Uint8Array} bytes
 */
export async function sha256(bytes) {
    return [...await digest(bytes)].map((it) => it.toString(16).padStart(2, "0")).join("");
}

/**
 * @param {WebAssembly.Module} module
 * @param {string} script the worker's
 */
export function engineOf(module, script) {
    const url = URL.createObjectURL(new Blob([script], { type: "text/javascript" }));
    return new WasmEngine(module, () => {
        const worker = new Worker(url);
        return {
            post: (asked) => worker.postMessage(asked),
            listen: (onSent, onFault) => {
                worker.onmessage = (event) => onSent(event.data);
                worker.onerror = (event) => onFault(event.message || "the browser ended the worker");
            },
            end: () => worker.terminate(),
        };
    });
}
