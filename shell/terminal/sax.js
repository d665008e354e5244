/** The XML reader sax, from wherever this system has it: beside railplan, among Node's packages or those of Debian. */
import { createRequire } from "node:module";

const require = createRequire(import.meta.url);
const PLACES = ["sax", "/usr/share/nodejs/sax/lib/sax.js"];

/** @returns {any} */
function found() {
    for (const place of PLACES) {
        try {
            return require(place);
        } catch {
            continue;
        }
    }
    throw new Error("the XML reader sax isn't there: install Debian's package node-sax, or npm install sax");
}

export default found();
