/**
 * What the gate leaves of a run that passed: `node shell/terminal/gate.js begin`, and behind all its checks `.. end LOG`.
 *
 * The program that the gate proved and built is listed as one that is proved, in both forms, if no source changed meanwhile; and
 * out/gate says which commit passed, by which kit, with the last line of rt ci.
 */
import { execFileSync } from "node:child_process";
import { chmodSync, copyFileSync, existsSync, mkdirSync, readFileSync } from "node:fs";
import { dirname, join } from "node:path";
import { fileURLToPath } from "node:url";
import { findRt, kitOf, nameOf } from "../engine/kit.js";
import { Clone, list, look } from "./built.js";
import { remove, writeWhole } from "./files.js";
import { PASSED, TITLE } from "./gate_passed.js";

const clone = new Clone(fileURLToPath(new URL("../..", import.meta.url)).replace(/\/$/, ""));
const BEGUN = join(clone.top, "out/gate.begun");
/** the program as WebAssembly, as the gate makes and judges it */
const WASM = join(clone.top, "out/railplan.wasm");

/** @param {Awaited<ReturnType<typeof look>>} states */
const known = (states) => [...states].map(([place, it]) => `${place}\t${it.known}\n`).join("");

/** @param {string[]} words */
const git = (...words) => execFileSync("git", ["-C", clone.top, ...words], { encoding: "utf8" }).trim();

async function begin() {
    mkdirSync(join(clone.top, "out"), { recursive: true });
    remove(join(clone.top, PASSED));
    writeWhole(BEGUN, known(await look(clone)));
}

/** @param {string} log what rt ci said */
async function end(log) {
    const states = await look(clone);
    if (known(states) !== readFileSync(BEGUN, "utf8")) {
        throw new Error("a source changed while the gate ran, so nothing is said of the program");
    }
    const last = readFileSync(log, "utf8").trimEnd().split("\n").pop() ?? "", rt = findRt();
    const version = execFileSync(rt, ["version"], { encoding: "utf8" }).trim(), kit = nameOf(kitOf(rt));
    const built = await list(clone.proved, states, kit);
    if (existsSync(WASM)) {
        mkdirSync(dirname(clone.wasm.path), { recursive: true });
        copyFileSync(WASM, clone.wasm.path);
        chmodSync(clone.wasm.path, 0o755);
        await list(clone.wasm, states, kit);
    }
    const isClean = git("status", "--porcelain") === "";
    writeWhole(join(clone.top, PASSED), `${TITLE}\ncommit ${git("rev-parse", "HEAD")}${isClean ? "" : " with changes"}\nkit ${version}\n`
        + `proofs ${last}\nprogram ${built.sha256}\n`);
}

const [, , word, log] = process.argv;
if (word === "begin") {
    await begin();
} else if (word === "end") {
    await end(log);
} else {
    process.stderr.write("gate.js begin, or gate.js end LOG\n");
    process.exitCode = 2;
}
