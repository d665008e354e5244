/** A worker thread of node that runs the program as WebAssembly. */
import { parentPort } from "node:worker_threads";
import { serving } from "../both/wasm_worker.js";

const port = /** @type {import("node:worker_threads").MessagePort} */ (parentPort);
port.on("message", serving((sent, handed) => port.postMessage(sent, handed)));
