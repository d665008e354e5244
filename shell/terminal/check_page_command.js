/** `check-page PAGE`: judges a page that somebody else made, by the reader's own program. */
import { createHash } from "node:crypto";
import { existsSync, readFileSync } from "node:fs";
import { Unjudged } from "../both/page/page_check.js";
import { judgeWhole } from "../both/page/same_page.js";
import { sourceOf } from "../engine/packed.js";
import { scriptOf, stylesIn, workerOf } from "./bundle.js";
import { end, say, why, writeOutput } from "./say.js";

/** @param {Uint8Array} bytes */
const sum = (bytes) => createHash("sha256").update(bytes).digest("hex");
const sha256 = async (/** @type {Uint8Array} */ bytes) => sum(bytes);

const REFUSED = 8, OPEN = 4;
/** what is open of each page: nobody can judge it */
const ALWAYS_OPEN = "the command line, names and dates";

/**
 * Runs the command. It prints a line for each claim: right, wrong, or open where nobody judged it. It ends with 8 where one doesn't hold,
 * and with 4 where the page, its program or its answer is another than this version can judge.
 * @param {import("./context.js").Context} context
 * @param {import("../both/words.js").Line} line
 * @returns {Promise<number>}
 */
export async function run({ top, called, engine, wasm, signal }, line) {
    const page = line.words[1];
    if (!page) {
        end(2, `check-page takes a page: ${called} check-page PAGE`);
    }
    let text = "";
    try {
        text = readFileSync(page, "utf8");
    } catch (error) {
        end(5, `${page} can't be read: ${why(error)}`);
    }
    const own = { ...stylesIn(top), script: scriptOf(top), worker: workerOf(top), hashOf: sourceOf,
        program: wasm && existsSync(wasm) ? sum(readFileSync(wasm)) : "" };
    const judging = { kind: engine.kind, run: (/** @type {import("../both/engine.js").Job} */ job) => engine.run({ ...job, signal }) };
    const judged = await judgeWhole(text, async () => own, judging, sha256).catch((error) => {
        if (error instanceof Unjudged) {
            end(signal.aborted ? 130 : 10, `${page} couldn't be judged: ${error.message}`);
        }
        throw error;
    });
    if (!judged) {
        return end(1, `${page} isn't built as railplan builds pages, or was changed, so nothing of it is judged`);
    }
    writeOutput(new TextEncoder().encode(judged.lines.map((it) => `${it.join(" ")}\n`).join("")));
    say(judged.said);
    const words = judged.lines.filter(([, what]) => what !== ALWAYS_OPEN).map(([word]) => word);
    return words.includes("wrong") ? REFUSED : words.includes("open") ? OPEN : 0;
}
