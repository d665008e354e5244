/**
 * The inside of a worker that runs the program as WebAssembly: in a browser and under node.
 *
 * It gets the module first, then one job at a time; it sends what is written as it is written, if the job wants it, and then
 * the end.
 */
import { runWasm } from "./wasm_host.js";

/**
 * @typedef {{module: WebAssembly.Module} | {words: string[], files: Map<string, Uint8Array>, isSeen: boolean}} Asked what a
 * worker gets
 */
/** @typedef {{name: string, piece: Uint8Array} | {ran: ReturnType<typeof runWasm>}} Sent what it sends */

/**
 * What a worker does with each message.
 * @param {(sent: Sent, handed: ArrayBuffer[]) => void} send hands buffers over, where there are any
 */
export function serving(send) {
    /** @type {WebAssembly.Module | undefined} */
    let module;
    return (/** @type {Asked} */ asked) => {
        if ("module" in asked) {
            module = asked.module;
            return;
        }
        const seen = asked.isSeen ? seenBy(send) : undefined;
        const ran = runWasm(/** @type {WebAssembly.Module} */ (module), asked.words, asked.files, seen);
        // copies of what was written, in buffers of their own, that are handed over
        const output = ran.output.slice(), files = new Map([...ran.files].map(([name, bytes]) => [name, bytes.slice()]));
        send({ ran: { ...ran, output, files } }, [output, ...files.values()].map((bytes) => bytes.buffer));
    };
}

/** @param {(sent: Sent, handed: ArrayBuffer[]) => void} send */
function seenBy(send) {
    return (/** @type {string} */ name, /** @type {Uint8Array} */ piece) => {
        const kept = piece.slice();
        send({ name, piece: kept }, [kept.buffer]);
    };
}
