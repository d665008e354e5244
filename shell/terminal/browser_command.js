/** `browser OUT.html`: writes the desk, one page that has the whole program in it as WebAssembly. */
import { chmodSync, mkdirSync, readFileSync } from "node:fs";
import { dirname, join } from "node:path";
import { BuildFailed } from "../engine/compile.js";
import { deskPage } from "../engine/desk_page.js";
import { Otherwise } from "../engine/kit.js";
import { NotBundled } from "../engine/packed.js";
import { VERSION } from "../both/version.js";
import { find, findProved, list, look } from "./built.js";
import { packAll } from "./bundle.js";
import { needRt } from "./building.js";
import { Output, Refused, remove } from "./files.js";
import { end, say } from "./say.js";

/** @typedef {import("./built.js").Built} Built */
/** @typedef {import("./built.js").Clone} Clone */
/** @typedef {import("./programs.js").Asking} Asking */

/** how long a build of it takes, in words */
const WASM_BUILD = "two to four minutes";

/**
 * The program as WebAssembly: of the proved program where that is there, else of the one without proofs. It is built where it
 * isn't there.
 * @param {Asking} asking
 * @returns {Promise<Built>}
 */
export async function wasmFor({ clone, called, signal }) {
    const proved = await findProved(clone), isProved = proved.isFresh && proved.isListed;
    const program = isProved ? clone.wasm : clone.quickWasm;
    return isProved ? made(clone, program, proved.kit, called, signal).catch((error) => {
        if (!(error instanceof Otherwise)) {
            throw error;
        }
        say(`it can't be made of the proved program here: ${error.message}`);
        return made(clone, clone.quickWasm, proved.kit, called, signal);
    }) : made(clone, program, proved.kit, called, signal);
}

/**
 * @param {Clone} clone
 * @param {import("./built.js").Program} program
 * @param {string} kit
 * @param {string} called
 * @param {AbortSignal} signal
 * @returns {Promise<Built>}
 */
async function made(clone, program, kit, called, signal) {
    const { isProved } = program, found = await find(clone, program);
    if (found.isListed) {
        return found;
    }
    const rt = needRt(clone), states = await look(clone);
    say(`building the program as WebAssembly${isProved ? "" : ` without its proofs; ${called} prove proves it`}: ${WASM_BUILD}`);
    remove(program.list);
    mkdirSync(dirname(program.path), { recursive: true });
    const { provedWasm, quickWasm } = await import("../engine/quick_build.js");
    await (isProved ? provedWasm : quickWasm)(clone, rt, program.path, signal);
    chmodSync(program.path, 0o755);
    return list(program, states, kit);
}

/**
 * The desk with a program.
 * @param {string} top the folder that has shell/ in it
 * @param {{path: string, isProved: boolean, kit: string}} program the file of the program as WebAssembly, whether it is made from the
 *     proved one, and by which kit
 * @returns {string}
 */
export function deskOf(top, { path, isProved, kit }) {
    const example = readFileSync(join(top, "examples/station.xml"), "utf8"), by = kit ? ` with ${kit}` : "";
    const build = isProved ? `made from the program whose proofs passed${by}` : "built without proofs: what it says is a first look";
    return deskPage(top, { wasm: readFileSync(path), version: VERSION, build, isProved, example });
}

/**
 * Runs the command.
 * @param {Asking} asking
 * @param {import("../both/words.js").Line} line
 * @returns {Promise<number>}
 */
export async function run(asking, line) {
    const { clone, called, signal } = asking, out = line.words[1];
    if (!out) {
        end(2, `browser takes a name for the page: ${called} browser OUT.html`);
    }
    /** @type {Output | undefined} */
    let output;
    try {
        output = new Output(out);
        packAll(clone.top);
        const { program, kit } = await wasmFor(asking);
        output.write(deskOf(clone.top, { ...program, kit }));
    } catch (error) {
        if (signal.aborted) {
            end(130, `stopped; ${out} isn't written`);
        }
        if (error instanceof Refused) {
            end(error.status, error.message);
        }
        if (error instanceof BuildFailed || error instanceof NotBundled || error instanceof Otherwise) {
            end(10, `${out} isn't written: ${error.message}`);
        }
        throw error;
    } finally {
        output?.drop();
    }
    say(`${out} is the whole program in one page. Open it in a browser, or hand it over`);
    return 0;
}
