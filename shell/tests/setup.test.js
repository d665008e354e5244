/** What `.ci/setup` finds missing, and what `setup` says of it. */
import assert from "node:assert/strict";
import { spawnSync } from "node:child_process";
import { mkdtempSync, rmSync, symlinkSync } from "node:fs";
import { tmpdir } from "node:os";
import { join } from "node:path";
import { test } from "node:test";
import { InClone, TOP } from "./clones.js";

const SETUP = join(TOP, ".ci/setup");
// the commands of a shell that the script itself uses
const SHELL = ["dirname", "tr", "grep", "cut", "sort"];

/**
 * a folder with links to commands, which is all that is found
 * @param {any} it @param {string[]} more @returns {string}
 */
function commands(it, more) {
    const folder = mkdtempSync(join(tmpdir(), "railplan-test-"));
    it.after(() => rmSync(folder, { recursive: true, force: true }));
    for (const name of [...SHELL, ...more]) {
        symlinkSync(spawnSync("sh", ["-c", `command -v ${name}`], { encoding: "utf8" }).stdout.trim(), join(folder, name));
    }
    return folder;
}

test("each package, whether it is there, and what for", (it) => {
    const said = spawnSync("/bin/sh", [SETUP, "--list"], { encoding: "utf8", env: { PATH: commands(it, ["node"]) } });
    assert.equal(said.status, 0, said.stderr);
    const lines = said.stdout.trim().split("\n").map((line) => line.split("\t"));
    assert.ok(lines.every(([name, state, purpose, ...more]) => name && /^(there|missing)$/.test(state) && purpose && !more.length));
    const state = new Map(lines.map(([name, state, purpose]) => [`${name}: ${purpose}`, state]));
    assert.equal(state.get("nodejs: the shell around the program"), "there");
    assert.equal(state.get("binaryen: the program as WebAssembly"), "missing");
    assert.equal(state.get("chromium: a desk in a browser"), "missing");
});

test("what can't be installed is named in one line with what installs it", (it) => {
    // without apt-get nothing is installed, whoever asks
    const said = spawnSync("/bin/sh", [SETUP], { encoding: "utf8", env: { PATH: commands(it, ["node", "id"]) } });
    assert.equal(said.status, 1);
    assert.match(said.stderr, /^\.ci\/setup: these packages are missing: [^\n]*binaryen [^\n]*Install them: apt-get install [^\n]*\n$/);
});

test("setup says of each package whether it is there or was installed", (it) => {
    const clone = new InClone(it);
    clone.script(".ci/setup", `#!/bin/sh
[ "$1" = --list ] || { : > installed; exit; }
[ -e installed ] && state=there || state=missing
printf 'one\\tthere\\tthe first\\ntwo\\t%s\\tthe second\\nthree\\tmissing\\tthe third\\n' $state
`);
    const [status, , err] = clone.launch(["setup"]);
    assert.equal(status, 0);
    assert.equal(err, "railplan: one is there: the first\nrailplan: two is installed now: the second\n"
        + "railplan: three is missing: the third\n");
});
