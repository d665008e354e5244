/**
 * Makes WebAssembly of the proved program of this clone, and the desk with it: `node shell/engine/proved_wasm.js OUT.wasm [DESK.html]`.
 * It ends with 3 where the kit goes other ways than those that are known here.
 */
import { writeFileSync } from "node:fs";
import { dirname, resolve } from "node:path";
import { fileURLToPath } from "node:url";
import { deskOf } from "../terminal/browser_command.js";
import { Otherwise, findRt, kitOf, nameOf } from "./kit.js";
import { provedWasm } from "./quick_build.js";

const top = dirname(dirname(dirname(fileURLToPath(import.meta.url)))), [, , name = "", desk] = process.argv, out = name && resolve(name);
if (out) {
    try {
        const rt = findRt();
        await provedWasm({ crate: `${top}/crates/railplan_main` }, rt, out);
        if (desk) {
            writeFileSync(desk, deskOf(top, { path: out, isProved: true, kit: nameOf(kitOf(rt)) }));
        }
    } catch (error) {
        process.stderr.write(`proved_wasm.js: ${error instanceof Error ? error.message : error}\n`);
        process.exitCode = error instanceof Otherwise ? 3 : 1;
    }
} else {
    process.stderr.write("proved_wasm.js OUT.wasm [DESK.html]\n");
    process.exitCode = 2;
}
