/**
 * Which program a run gets: the proved one, or the one that is built without proofs, which is built where neither is there.
 * Each is taken as native code where that can be started, else as WebAssembly.
 */
import { UNPROVED_BUILD, buildOf, find, findProved, hasSources } from "./built.js";
import { say } from "./say.js";
import { quotedLine } from "../both/quoted.js";

/** @typedef {import("./built.js").Built} Built */
/** @typedef {import("./built.js").Clone} Clone */
/** @typedef {import("./context.js").Context} Context */
/** @typedef {import("../both/words.js").Line} Line */

/** @typedef {object} Asking what is asked for
 * @property {Clone} clone
 * @property {string} called
 * @property {AbortSignal} signal
 * @property {boolean} isApart whether the program is to be apart from the terminal, whose end is ignored
 * @property {() => Promise<void>} before what is done before anything is built
 * @property {() => void} behind what is done behind a build */

/**
 * The program of these sources that is there: the proved one, or else, or where it is asked for, the one without proofs.
 * @param {Clone} clone @param {boolean} isUnproved whether that without proofs is asked for
 * @returns {Promise<Built | null>}
 */
export async function programThere(clone, isUnproved) {
    const proved = isUnproved ? null : await findProved(clone);
    if (proved?.isFresh) {
        return proved;
    }
    for (const program of [clone.quick, clone.quickWasm]) {
        const found = await find(clone, program);
        if (found.isFresh) {
            return found;
        }
    }
    return null;
}

/**
 * The program without its proofs, which is built; nothing where the kit goes other ways.
 * @param {Asking} asking
 * @returns {Promise<Built | null>}
 */
async function quick({ clone, called, signal, before, behind }) {
    await before();
    const { buildQuick } = await import("./building.js");
    const built = await buildQuick(clone, signal, `${called} prove`);
    behind();
    return built;
}

/**
 * The program that is run: a proved one that is fresh, or else the one without proofs, or else what is proved and built now.
 * @param {Asking} asking @param {Line} line
 * @returns {Promise<Built>}
 */
export async function programFor(asking, line) {
    const { clone, called, signal, before, behind } = asking;
    const found = await programThere(clone, false) ?? await quick(asking);
    if (found) {
        return found;
    }
    await before();
    const { build } = await import("./building.js");
    const built = await build(clone, signal, `${called} --unproved ${quotedLine(line.inOrder())}`);
    behind();
    return built;
}

/** @param {Built} built @param {Asking} asking */
function sayUnproved(built, { clone, called }) {
    const prove = hasSources(clone) ? `; ${called} prove proves it` : "";
    if (!built.program.isProved) {
        say(`the program that runs here isn't proved${prove}`);
    } else if (!built.isListed) {
        say(`the program that runs here isn't known to be proved, as something else than railplan built it${prove}`);
    }
}

/**
 * What a run is given, with the program that it gets.
 * @param {Asking} asking @param {Line} line
 * @returns {Promise<Context>}
 */
export async function contextFor(asking, line) {
    const { clone, called, signal, isApart } = asking;
    const built = line.isUnproved ? await programThere(clone, true) ?? await quick(asking) : await programFor(asking, line);
    if (!built) {
        return tried(asking);
    }
    sayUnproved(built, asking);
    const engine = await engineOf(built.program, isApart);
    const wasm = line.pages.size || ["folder", "check-page"].includes(line.command) ? await wasmThere(clone, built) : "";
    return { top: clone.top, called, engine, build: await buildOf(built, line.pages.size > 0 || line.isJson), wasm, signal };
}

/**
 * What runs a program.
 * @param {import("./built.js").Program} program @param {boolean} isApart
 * @returns {Promise<import("../both/engine.js").Engine>}
 */
export async function engineOf({ path, isWasm }, isApart) {
    if (isWasm) {
        const { NodeWasmEngine } = await import("../engine/node_wasm.js");
        return new NodeWasmEngine(path);
    }
    const { NativeEngine } = await import("./native_engine.js");
    return new NativeEngine(path, { isApart });
}

/**
 * The same program as WebAssembly, where it was built; else nothing.
 * @param {Clone} clone @param {Built} built
 * @returns {Promise<string>}
 */
async function wasmThere(clone, built) {
    const found = await find(clone, built.program.isProved ? clone.wasm : clone.quickWasm);
    return found.isListed ? found.program.path : "";
}

/**
 * The program as the kit's own `rt try` builds and runs it, anew for each run.
 * @param {Asking} asking
 * @returns {Promise<Context>}
 */
async function tried({ clone, called, signal, isApart, before }) {
    await before();
    const { needRt } = await import("./building.js");
    const { NativeEngine } = await import("./native_engine.js");
    const rt = needRt(clone);
    say(`without its proofs the program is built anew for each run, in ${UNPROVED_BUILD}, and searches a hundred times `
        + "as long");
    const engine = new NativeEngine(rt, { isApart, front: ["try", "--seconds", "3600", "--"], folder: clone.crate });
    return { top: clone.top, called, engine, build: { state: "unproved", sha256: "", kit: "" }, wasm: "", signal };
}
