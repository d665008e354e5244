/**
 * Draws a station as pages draw it, without a program: `node shell/terminal/picture.js FILE GRAPH SHEET OUT` writes the drawing
 * of a sheet as SVG. README, guide and folders have such pictures.
 */
import { readFileSync, writeFileSync } from "node:fs";
import { fileURLToPath } from "node:url";
import { alone } from "../both/page/drawing.js";
import { make } from "../both/page/kinds.js";
import { Run } from "../both/page/run.js";
import { stylesOf } from "../both/page/written.js";
import { stylesIn } from "./bundle.js";

const TOP = fileURLToPath(new URL("../..", import.meta.url));

/**
 * The drawing of a run as an SVG of its own.
 * @param {Run} run
 * @returns {string}
 */
export function pictureOf(run) {
    const [picture] = make(run).pictures;
    const [, style] = stylesOf(stylesIn(TOP), run.record.settings.paper);
    return picture ? `${alone(picture, style, run.stem)}\n` : "";
}

/** @param {string[]} names @returns {string} the drawing of a sheet */
function drawn([file, graph, sheet]) {
    const facts = { name: file, sha256: "", size: 0, date: null, why: "" };
    return pictureOf(new Run({ words: ["draw", file], names: [file], output: readFileSync(sheet, "utf8"),
        inputs: [{ facts, content: readFileSync(file) }], graphs: [readFileSync(graph, "utf8")] }));
}

if (process.argv[1] === fileURLToPath(import.meta.url)) {
    const [out] = process.argv.slice(5);
    if (out) writeFileSync(out, drawn(process.argv.slice(2, 5)));
    else {
        process.stderr.write("picture.js FILE GRAPH SHEET OUT\n");
        process.exitCode = 2;
    }
}
