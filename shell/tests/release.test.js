/** A release: when it is refused, that it is the same bytes again, and that what is unpacked runs, is installed and taken away. */
import assert from "node:assert/strict";
import { execFileSync, spawnSync } from "node:child_process";
import { chmodSync, copyFileSync, cpSync, existsSync, mkdirSync, readFileSync, readdirSync, rmSync } from "node:fs";
import { join } from "node:path";
import { test } from "node:test";
import { InClone, PLACE, TOP } from "./clones.js";
import { Clone, list, look } from "../terminal/built.js";
import { sha256Of } from "../terminal/hash.js";
import { VERSION } from "../both/version.js";

const HAS = { skip: ["git", "dpkg-deb", "esbuild"].some((it) => spawnSync("which", [it]).status !== 0) && "what packs isn't there" };
const ANY_WASM = join(TOP, "out/railplan.wasm");
const AUTHOR = ["-c", "user.name=A", "-c", "user.email=a@example.org"];
const FILES = ["PROVED", "SHA256SUMS", `railplan-${VERSION}.tar.gz`, "railplan.html", `railplan_${VERSION}_amd64.deb`];

/** @param {string} top @param {string[]} words */
const git = (top, ...words) => execFileSync("git", ["-C", top, ...words], { encoding: "utf-8", stdio: ["ignore", "pipe", "ignore"] }).trim();

/**
 * what a gate that passed leaves
 * @param {string} top @param {Partial<{commit: string, program: string}>} [other]
 */
async function pass(top, other = {}) {
    const clone = new Clone(top), states = await look(clone);
    for (const program of [clone.proved, clone.wasm]) {
        await list(program, states, "kit-1");
    }
    const { commit, program } = { commit: git(top, "rev-parse", "HEAD"), program: sha256Of(clone.proved.path), ...other };
    return `railplan-gate 1\ncommit ${commit}\nkit kit-1 logic x\nproofs all 2 crates passed\nprogram ${program}\n`;
}

/** @param {any} it @returns {Promise<InClone>} a clone that is a repository, with both programs */
async function repository(it) {
    const clone = new InClone(it);
    clone.write(".gitignore", "out/\ncrates/*/out/\nasked\nmade/\nagain/\n");
    mkdirSync(join(clone.top, "examples"));
    copyFileSync(join(TOP, "examples/station.xml"), join(clone.top, "examples/station.xml"));
    clone.script(PLACE, "#!/bin/sh\necho ran\n");
    clone.write("out/wasm/proved/railplan.wasm", "wasm");
    git(clone.top, "init", "-q");
    git(clone.top, "add", "-A");
    git(clone.top, ...AUTHOR, "commit", "-qm", "all");
    return clone;
}

test("a clone whose gate didn't pass as it is", HAS, async (it) => {
    const clone = await repository(it), refused = (/** @type {RegExp} */ why) => {
        const [status, , err] = clone.launch(["release", "made"]);
        assert.deepEqual([status, existsSync(join(clone.top, "made"))], [10, false]);
        assert.match(err, why);
    };
    refused(/the gate hasn't passed here/);
    clone.write("out/gate", await pass(clone.top, { commit: "0123" }));
    refused(/the gate passed for commit 0123, and this is/);
    clone.write("out/gate", await pass(clone.top, { program: "0123" }));
    refused(/the program isn't the one that the gate proved/);
    clone.write("out/gate", await pass(clone.top));
    clone.write("new", "");
    refused(/files are changed since/);
    rmSync(join(clone.top, "new"));
    clone.write("taken/x", "");
    assert.match(clone.launch(["release", "taken"])[2], /taken is there and isn't an empty folder/);
});

test("the same bytes again, which run, are installed and taken away", HAS, async (it) => {
    const clone = await repository(it), other = new InClone(it), prefix = join(clone.top, "made/prefix");
    clone.write("out/gate", await pass(clone.top));
    assert.equal(clone.launch(["release", "made"])[0], 0);
    rmSync(other.top, { recursive: true });
    cpSync(clone.top, other.top, { recursive: true });
    assert.equal(other.launchBy("umask 077; ./railplan release again")[0], 0);
    assert.deepEqual(readdirSync(join(clone.top, "made")).sort(), FILES);
    for (const name of FILES) {
        assert.ok(readFileSync(join(clone.top, "made", name)).equals(readFileSync(join(other.top, "again", name))), name);
    }
    const [, out] = clone.launchBy("cd made; sha256sum -c --quiet SHA256SUMS; tar xzf *.tar.gz; cat */PROVED; cd ..; "
        + "git ls-files -z | LC_ALL=C sort -z | xargs -0 sha256sum | sha256sum");
    assert.match(out, /\nkit +kit-1\nlogic +x\n/);
    assert.ok(out.includes(`\nsources  ${out.trimEnd().split("\n").at(-1)?.split(" ")[0]}\n`));
    const run = `made/railplan-${VERSION}/railplan`;
    assert.equal(clone.launchBy(`${run} graph one.xml`)[1], "ran\n");
    assert.match(clone.launchBy(`${run} --version`)[1], /program: proved with kit-1\ncommit: [0-9a-f]{40}\nSHA-256: [0-9a-f]{64}\n$/);
    assert.equal(clone.launchBy(`${run} install ${prefix}; rm -r made/railplan-*; ${prefix}/bin/railplan graph one.xml`)[1], "ran\n");
    assert.match(clone.launchBy(`${prefix}/bin/railplan --version`)[1], /program: proved with kit-1\ncommit: /);
    assert.equal(clone.launchBy(`${prefix}/bin/railplan uninstall ${prefix}`)[0], 0);
    assert.ok(!existsSync(prefix));
});

test("the program as WebAssembly where there is no native one", { skip: !existsSync(ANY_WASM) && "it isn't built" }, async (it) => {
    const clone = new InClone(it);
    mkdirSync(join(clone.top, "out/wasm/proved"), { recursive: true });
    copyFileSync(ANY_WASM, clone.clone.wasm.path);
    chmodSync(clone.clone.wasm.path, 0o755);
    await list(clone.clone.wasm, await look(clone.clone), "kit-1");
    rmSync(join(clone.top, "bin/rt"));
    clone.write("in/one.xml", clone.text("one.xml"));
    for (const line of ["draw one.xml --log one.log > one.sheet", "check ./one.xml ../clone/one.sheet one.log", "verify one.xml one.sheet",
        "trim one.xml one.sheet one.log one.hints", "recheck one.xml one.sheet one.hints", "graph in/../one.xml", "folder in drawn --certify"]) {
        const [status, , err] = clone.launchBy(`./railplan ${line}`);
        assert.deepEqual([status, err.includes("unproved")], [0, false], line + err);
    }
    assert.match(clone.launch(["--version"])[1], /proved and built from these sources with kit-1, as WebAssembly\n/);
    assert.deepEqual(clone.launch(["graph", "none.xml"]).slice(0, 2), [5, "read failed 1\n"]);
});
