/**
 * A page's run with a program of a test's own: `node run_page.js PROGRAM WORDS..`. What the launcher does before, it does too.
 */
import { read } from "../../both/words.js";
import { look } from "../../terminal/files.js";
import { NativeEngine } from "../../terminal/native_engine.js";
import { runPage, refuse } from "../../terminal/page_command.js";
import { Ended } from "../../terminal/say.js";
import { listen } from "../../terminal/signals.js";
import { TOP } from "./runs.js";

const [program, ...words] = process.argv.slice(2);
const line = read(words);
try {
    const build = { state: /** @type {const} */ ("proved"), sha256: "d".repeat(64), kit: "" };
    const signal = listen([]);
    refuse(line);
    look(line);
    const beside = process.env.SMALL ? { small: process.env.SMALL } : {};
    const wasm = process.env.WASM ?? "";
    process.exitCode = await runPage({ top: TOP, called: "railplan", engine: new NativeEngine(program), build, wasm, signal }, line, beside);
} catch (error) {
    if (!(error instanceof Ended)) throw error;
    process.exitCode = error.status;
}
process.exit();
