/** The worker of the desk: the program as WebAssembly. */
import { serving } from "../both/wasm_worker.js";

onmessage = (() => {
    const take = serving((sent, handed) => postMessage(sent, { transfer: handed }));
    return (/** @type {MessageEvent} */ event) => take(event.data);
})();
