/**
 * The script of the desk, in both of its places: in the page it starts the desk out of the page's own data; in a worker it reads files.
 */
import { unpacked } from "../both/packing.js";
import { Desk } from "./desk.js";
import { engineOf, sha256 } from "./desk_engine.js";
import { Reader, serveReading } from "./desk_reading.js";
import { element } from "./elements.js";
import { one } from "./tree.js";

/** @typedef {{version: string, build: string, isProved: boolean, wasm: string, packed: string, example: string}} Data what the page
 * carries */
/** @typedef {import("./desk_page.js").Parts & {common: string, desk: string}} Scripts what pages are made of, this script, and how both begin */

async function open() {
    const data = /** @type {Data} */ (JSON.parse(one("#data")?.textContent ?? ""));
    const wasm = await unpacked(data.wasm), program = await sha256(wasm), module = await WebAssembly.compile(wasm);
    const { common, desk, ...packed } = /** @type {Scripts} */ (JSON.parse(new TextDecoder().decode(await unpacked(data.packed))));
    const script = URL.createObjectURL(new Blob([common, desk], { type: "text/javascript" })), parts = { ...packed, script: common + packed.script };
    one("#program")?.append(`Version ${data.version}. The program: ${data.build}; as WebAssembly its SHA-256 is ${program}.`);
    const maker = { parts, wasm: data.wasm, program, version: data.version, isProved: data.isProved };
    new Desk({ start: () => engineOf(module, parts.worker), reader: new Reader(script), maker, example: data.example }).build();
    document.body.dataset.ready = "yes";
}

if (typeof document === "undefined") {
    serveReading();
} else {
    open().catch((/** @type {unknown} */ why) => {
        one("#answer")?.append(element("p", { class: "said bad" }, `The program couldn't be started in this browser: ${why}`));
    });
}
