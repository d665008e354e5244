/**
 * From the LLVM module of the program to a native program and to WebAssembly, by the kit's own clang.
 */
import { existsSync, mkdtempSync, readFileSync, realpathSync, renameSync, rmSync, writeFileSync } from "node:fs";
import { tmpdir } from "node:os";
import { dirname, join } from "node:path";
import { fileURLToPath } from "node:url";
import { called, kitOf, Otherwise, standIn } from "./kit.js";
import { changed } from "./module_text.js";

const HERE = dirname(fileURLToPath(import.meta.url));
const ALWAYS = ["--no-default-config", "-no-canonical-prefixes", "-fno-crash-diagnostics", "-Werror"];
/** how Rattle has its programs compiled: what is unreachable stops */
const OF_RATTLE = ["-mllvm", "-no-trap-after-noreturn", "-mllvm", "-trap-unreachable", "-ffunction-sections", "-fdata-sections"];
const NATIVE = [
    "--target=x86_64-unknown-linux-gnu", "-march=x86-64", "-fPIC", "-mllvm", "-no-x86-call-frame-opt", "-mllvm", "-disable-machine-licm",
    "-mllvm", "-disable-postra-machine-licm", "-mllvm", "-sink-common-insts=false",
];
const WASM = [
    "--target=wasm64-unknown-unknown", "-mcpu=mvp", "-mbulk-memory", "-msign-ext", "-mmutable-globals", "-mnontrapping-fptoint",
];
const FEATURES = ["memory64", "bulk-memory", "sign-ext", "mutable-globals", "nontrapping-float-to-int"].map((it) => `--enable-${it}`);
const STACK_BYTES = 8 << 20;
/** what makes addresses of 64 bits those of 32 that every browser takes; its package, and the line that installs it */
const SHORTENER = "wasm-opt";
export const NO_SHORTENER = "wasm-opt isn't there, which makes the program one that every browser takes. Install it: apt install binaryen";

/** A step of a build that failed; its text is what the tool said. */
export class BuildFailed extends Error {}

/** @typedef {{file: string, isFilled: boolean}} Module an LLVM module, and whether new memory is filled with a pattern in it */
/** @typedef {{kit: string, room: string, signal?: AbortSignal}} Bench the kit's folder, and one for what is made on the way */

/**
 * @param {Bench} bench
 * @param {string} command
 * @param {string[]} words
 * @param {string} [name] how the command is to see itself called
 */
async function step(bench, command, words, name) {
    const ran = await called(command, words, { cwd: bench.room, signal: bench.signal, ...(name ? { argv0: name } : {}) });
    bench.signal?.throwIfAborted();
    if (ran.status !== 0) {
        throw new BuildFailed(`${command} ${words.slice(0, 3).join(" ")} ..: ${ran.said.trim().slice(-2000)}`);
    }
}

/**
 * A folder for what is made on the way, which is gone afterwards.
 * @template T
 * @param {string} rt
 * @param {AbortSignal | undefined} signal
 * @param {(bench: Bench) => Promise<T>} use
 */
export async function withBench(rt, signal, use) {
    const kit = kitOf(rt), room = mkdtempSync(join(realpathSync(tmpdir()), "railplan-build-"));
    try {
        return await use({ kit, room, signal });
    } finally {
        rmSync(room, { recursive: true, force: true });
    }
}

/**
 * The module of the program without proofs, with its checks: as `rt try` makes it, which isn't let to compile it.
 * @param {Bench} bench
 * @param {string} crate the folder of the program's crate
 * @returns {Promise<Module>}
 * @throws {Otherwise} where the kit goes other ways
 */
export async function unprovedModule(bench, crate) {
    const module = join(bench.room, "module.bc"), kit = join(bench.room, "kit");
    standIn(bench.kit, kit, { word: "-fsanitize=address", ends: true, keptAs: module });
    const ran = await called(join(kit, "bin/rt"), ["try", "--steps", "1", "--seconds", "1"], { cwd: crate, signal: bench.signal });
    bench.signal?.throwIfAborted();
    if (!existsSync(module)) {
        throw new Otherwise(`no module came of rt try: ${ran.said.trim().slice(-300)}`);
    }
    return { file: module, isFilled: true };
}

/**
 * How the proved program is compiled once more over the libraries that are proved: by the words that rt itself would use, of which its
 * own library of functions knows how they are made. The arguments are the kit's folder and the file for what is compiled.
 */
const ONCE_MORE = `
import importlib.machinery, importlib.util, os, sys
sys.dont_write_bytecode = True
kit, made = sys.argv[1:]
loader = importlib.machinery.SourceFileLoader("rtlib", kit + "/bin/rtlib.py")
rtlib = importlib.util.module_from_spec(importlib.util.spec_from_loader("rtlib", loader))
sys.modules["rtlib"] = rtlib
loader.exec_module(rtlib)
crate = rtlib.Crate(os.getcwd(), os.path.realpath("../.."), {})
words = crate.words([]) + ["--toolchain", kit + "/toolchain", "--backend", "llvm", *rtlib.KEPT, "-o", made]
os.execv(rtlib.RATTLE, [rtlib.RATTLE, "build", *words])
`;

/**
 * The module of the proved program: as the compiler is given it when the program is checked and compiled once more, over the libraries
 * that are proved. The program that comes of it is to be the same, byte for byte, as the one that is there.
 * @param {Bench} bench
 * @param {string} crate the folder of the program's crate, in whose out/ the proved program lies
 * @returns {Promise<Module>}
 * @throws {Otherwise} where the kit goes other ways, or another program comes of it
 */
export async function provedModule(bench, crate) {
    const module = join(bench.room, "module.bc"), kit = join(bench.room, "kit"), made = join(bench.room, "proved");
    standIn(bench.kit, kit, { word: "", ends: false, keptAs: module });
    const ran = await called("python3", ["-c", ONCE_MORE, kit, `${made}.o`], { cwd: crate, signal: bench.signal });
    bench.signal?.throwIfAborted();
    if (ran.status !== 0 || !existsSync(module)) {
        throw new Otherwise(`the proved program couldn't be compiled once more: ${ran.said.trim().slice(-300)}`);
    }
    await linked(bench, `${made}.o`, made);
    if (!readFileSync(made).equals(readFileSync(join(crate, "out/railplan_main")))) {
        throw new Otherwise("another program came of it than the one that is there");
    }
    return { file: module, isFilled: false };
}

/**
 * Links what was compiled to a program.
 * @param {Bench} bench
 * @param {string} compiled
 * @param {string} to
 */
async function linked(bench, compiled, to) {
    const { kit } = bench, words = ["--target", "x86_64-unknown-linux-gnu", "--toolchain", `${kit}/toolchain`, "-o", to, compiled];
    await step(bench, join(kit, "bin/rattle-link"), [...words, `${kit}/c/libos_c.a`, `${kit}/c/liblibc_c.a`]);
}

/**
 * The text of a module, changed for a target.
 * @param {Bench} bench
 * @param {Module} module
 * @param {"native" | "wasm"} target
 * @returns {Promise<string>} the text's file
 */
async function textFor(bench, module, target) {
    const text = join(bench.room, "module.ll"), result = join(bench.room, `${target}.ll`);
    if (!existsSync(text)) {
        const words = ["--target=x86_64-unknown-linux-gnu", "--no-default-config", "-x", "ir", module.file, "-S", "-emit-llvm", "-O0"];
        await step(bench, join(bench.kit, "toolchain/bin/clang"), [...words, "-Xclang", "-disable-llvm-passes", "-o", text]);
    }
    writeFileSync(result, changed(readFileSync(text, "utf8"), target, module.isFilled));
    return result;
}

/**
 * The native program of a module.
 * @param {Bench} bench
 * @param {Module} module
 * @param {string} to the program's file, which is written whole
 */
export async function nativeProgram(bench, module, to) {
    const { kit, room } = bench, clang = join(kit, "toolchain/bin/clang");
    const text = await textFor(bench, module, "native"), made = join(room, "program");
    const words = [...NATIVE, `--sysroot=${kit}/toolchain`, ...OF_RATTLE, ...ALWAYS, "-fintegrated-cc1", "-O3"];
    await step(bench, clang, [...words, "-c", "-x", "ir", text, "-o", `${made}.o`]);
    await linked(bench, `${made}.o`, made);
    await step(bench, made, ["make", "1"]);
    writeFileSync(`${to}.part`, readFileSync(made), { mode: 0o755 });
    renameSync(`${to}.part`, to);
}

/**
 * Asks for what makes WebAssembly of 64 bits that of 32, since what comes before it takes minutes.
 * @throws {BuildFailed} where it isn't there
 */
export async function needShortener() {
    await called(SHORTENER, ["--version"]).catch((error) => {
        throw error.code === "ENOENT" ? new BuildFailed(NO_SHORTENER) : error;
    });
}

/**
 * The module as WebAssembly that every browser takes: railplan.wasm.
 * @param {Bench} bench
 * @param {Module} module
 * @param {string} to the file, which is written whole
 */
export async function wasmProgram(bench, module, to) {
    const { kit, room } = bench, clang = join(kit, "toolchain/bin/clang"), made = join(room, "program.wasm");
    const text = await textFor(bench, module, "wasm");
    // with its checks the program is larger: made small, a page of it has 450 KB at most
    const how = module.isFilled ? "-Os" : "-O3";
    await step(bench, clang, [...WASM, ...OF_RATTLE, ...ALWAYS, "-fintegrated-cc1", how, "-c", "-x", "ir", text, "-o", `${made}.o`]);
    for (const name of ["heap", "host"]) {
        const words = [...WASM, ...ALWAYS, "-O3", "-ffreestanding", "-fno-builtin", "-Wall", "-c", join(HERE, `${name}.c`)];
        await step(bench, clang, [...words, "-o", join(room, `${name}.o`)]);
    }
    const link = ["-mwasm64", "--no-entry", "--export=main", "--gc-sections", "--strip-all", "-z", `stack-size=${STACK_BYTES}`, "--stack-first"];
    await step(bench, clang, [...link, "-o", made, `${made}.o`, join(room, "heap.o"), join(room, "host.o")], "wasm-ld");
    await step(bench, SHORTENER, [...FEATURES, "--memory64-lowering", made, "-o", `${to}.part`]);
    renameSync(`${to}.part`, to);
}
