/** Makes the stored page and drawing of examples/ anew: `node shell/tests/write_examples.js`. */
import { writeFileSync } from "node:fs";
import { fileURLToPath } from "node:url";
import { outline } from "../both/page/kinds.js";
import { textOf } from "../both/page/record.js";
import { pageText } from "../both/page/written.js";
import { packed, sourceOf } from "../engine/packed.js";
import { scriptOf, stylesIn } from "../terminal/bundle.js";
import { pictureOf } from "../terminal/picture.js";
import { TOP, example, stored } from "./pages/runs.js";

/** @returns {Map<string, string>} the stored files with what is made of the stored file, graph and sheet; they have no dates */
export function examples() {
    const run = example({ page: "examples/station.html", date: null });
    run.record.inputs[0].facts.date = null;
    const page = pageText(outline(run), "A3", { ...stylesIn(TOP), script: scriptOf(TOP), picture: stored("examples/station.svg"),
        hashOf: sourceOf, carried: null,
        data: packed(Buffer.from(textOf(run.record))) });
    return new Map([["examples/station.html", page], ["examples/station.page.svg", pictureOf(run)]]);
}

if (process.argv[1] === fileURLToPath(import.meta.url)) {
    for (const [name, text] of examples()) writeFileSync(TOP + name, text);
}
