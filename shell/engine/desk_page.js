/** The desk as one HTML file: the program as WebAssembly, its worker, its script and style, and nothing that is fetched. */
import { readFileSync } from "node:fs";
import { dirname, join } from "node:path";
import { fileURLToPath } from "node:url";
import { PAPERS } from "../both/page/columns.js";
import { stylesOf } from "../both/page/written.js";
import { packedScript, stylesIn } from "../terminal/bundle.js";
import { packed, sourceOf, written } from "./packed.js";

const PAGE = join(dirname(dirname(fileURLToPath(import.meta.url))), "page");

/** @param {string} one @param {string} other @returns {string} how both begin */
function commonFront(one, other) {
    let at = 0;
    while (at < one.length && one[at] === other[at]) at++;
    return one.slice(0, at);
}

/**
 * @param {string} top the folder that has shell/ in it
 * @param {{wasm: Uint8Array, version: string, build: string, isProved: boolean, example: string}} parts the module, the version, what is
 *     known of the program in words, whether it is made from the proved one, and the text of the example
 * @returns {string} the page
 */
export function deskPage(top, parts) {
    const begin = packedScript(top, "begin"), style = readFileSync(join(PAGE, "desk.css"), "utf8");
    // what the pages of answers are made of: they are shown in a frame, under this page's own policy
    const pages = { ...stylesIn(top), script: packedScript(top, "page"), worker: packedScript(top, "worker") };
    const styles = [style, ...[...PAPERS.keys()].flatMap((paper) => stylesOf(pages, paper))];
    const desk = packedScript(top, "desk"), common = commonFront(pages.script, desk);
    const scripts = JSON.stringify({ ...pages, common, script: pages.script.slice(common.length), desk: desk.slice(common.length) });
    const data = written({ ...parts, wasm: packed(parts.wasm), packed: packed(Buffer.from(scripts)) });
    const policy = [
        "default-src 'none'", `script-src ${[begin, pages.script].map(sourceOf).join(" ")} 'wasm-unsafe-eval' blob:`, "worker-src blob:",
        "frame-src blob:", `style-src ${[...new Set(styles.map(sourceOf))].join(" ")}`, "img-src blob: data:", "base-uri 'none'", "form-action 'none'",
    ].join("; ");
    const values = new Map([["POLICY", policy], ["STYLE", style], ["DATA", data], ["SCRIPT", begin]]);
    return readFileSync(join(PAGE, "desk.html"), "utf8").replace(/POLICY|STYLE|DATA|SCRIPT/g, (name) => values.get(name) ?? name);
}
