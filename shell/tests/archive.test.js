/** An archive is opened by another program, and has its files as they were. */
import assert from "node:assert/strict";
import { spawnSync } from "node:child_process";
import { mkdtempSync, readFileSync, rmSync, writeFileSync } from "node:fs";
import { tmpdir } from "node:os";
import { join } from "node:path";
import { test } from "node:test";
import { archive, checksum } from "../both/archive.js";

/** opens an archive by Python's own module, and prints each name with its bytes as hexadecimal digits */
const OPEN = "import sys, zipfile\nwith zipfile.ZipFile(sys.argv[1]) as it:\n    assert it.testzip() is None\n"
    + "    print('\\n'.join(f'{name} {it.read(name).hex()}' for name in it.namelist()))\n";

test("an archive has its files, with names in any letters", () => {
    const files = new Map([["index.html", "<p>"], ["small/Bf Köln.svg", "<svg/>"], ["empty", ""]].map(([name, text]) =>
        /** @type {[string, Uint8Array]} */ ([name, new TextEncoder().encode(text)])));
    const folder = mkdtempSync(join(tmpdir(), "railplan-")), name = join(folder, "a.zip");
    writeFileSync(name, Buffer.concat(archive(files)));
    const ran = spawnSync("python3", ["-c", OPEN, name], { encoding: "utf8", env: { ...process.env, PYTHONIOENCODING: "utf-8" } });
    assert.equal(ran.stderr, "");
    assert.deepEqual(ran.stdout.replace(/\n$/, "").split("\n"), [...files].map(([it, bytes]) => `${it} ${Buffer.from(bytes).toString("hex")}`));
    assert.deepEqual(readFileSync(name), Buffer.concat(archive(files)));
    rmSync(folder, { recursive: true });
});

test("a checksum is the known one", () => {
    assert.equal(checksum(new TextEncoder().encode("123456789")), 0xcbf43926);
});
