/** The heap and the host functions of the program as WebAssembly, which are written in C: each is tried on its own, as native code. */
import assert from "node:assert/strict";
import { spawnSync } from "node:child_process";
import { mkdtempSync, rmSync } from "node:fs";
import { tmpdir } from "node:os";
import { join } from "node:path";
import { test } from "node:test";
import { fileURLToPath } from "node:url";

const ENGINE = fileURLToPath(new URL("../engine/", import.meta.url));
const COMPILER = ["cc", "-O2", "-fno-builtin", "-fno-strict-aliasing", "-w"];

/**
 * what a test in C prints
 * @param {string} name @param {number} seed
 */
function printed(name, seed) {
    const room = mkdtempSync(join(tmpdir(), "railplan-"));
    try {
        const [command, ...words] = COMPILER, program = join(room, name);
        const made = spawnSync(command, [...words, join(ENGINE, `${name}.c`), "-o", program], { encoding: "utf8" });
        assert.equal(made.status, 0, made.error ? `${command} isn't there: apt install gcc libc6-dev` : made.stderr);
        return spawnSync(program, [String(seed)], { encoding: "utf8" }).stdout;
    } finally {
        rmSync(room, { recursive: true, force: true });
    }
}

test("the heap keeps what is in it, and gets back all that it gave", () => {
    assert.match(printed("heap_test", 1), /^3000000 calls, \d+ refused, \d+ pages, all given back\n$/);
});

test("the host's functions answer as the machine's do", () => {
    assert.equal(printed("host_test", 1), "3000000 products, and the calls\n");
});
