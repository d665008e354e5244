/** What runs is what was built from these sources. */
import assert from "node:assert/strict";
import { copyFileSync, renameSync, rmSync, statSync, utimesSync } from "node:fs";
import { join } from "node:path";
import { test } from "node:test";
import { InClone, PLACE } from "./clones.js";
import { buildOf, find } from "../terminal/built.js";
import { sha256Of } from "../terminal/hash.js";

const LIB = "crates/low/src/lib.rt";

/**
 * a clone with a program that was built
 * @param {any} it @returns {InClone}
 */
function builtClone(it) {
    const clone = new InClone(it);
    assert.deepEqual(clone.launch(["graph", "one.xml"]).slice(0, 2), [0, "ran\n"]);
    assert.equal(clone.asked(), 1);
    return clone;
}

/**
 * holds what is known of the program
 * @param {InClone} it @param {string} [changed] the source that isn't as it was
 */
async function hold(it, changed = "") {
    const found = await find(it.clone, it.clone.proved);
    assert.equal(found.isFresh, !changed);
    assert.equal(found.reason, changed && `${changed} isn't as it was when the program was built`);
    return found;
}

test("what was built is known, and nothing is built again", async (it) => {
    const clone = builtClone(it), found = await hold(clone), sha256 = sha256Of(clone.clone.proved.path);
    assert.deepEqual([found.isListed, found.kit, found.sha256], [true, "kit-1", sha256]);
    assert.deepEqual(await buildOf(found, true), { state: "proved", sha256, kit: "kit-1" });
    clone.launch(["graph", "one.xml"]);
    assert.equal(clone.asked(), 1);
});

test("sources that are changed, removed or new, and another program", async (it) => {
    const clone = builtClone(it), path = join(clone.top, LIB), text = clone.text(LIB), { atime, mtime } = statSync(path);
    const changes = /** @type {[string, () => void][]} */ ([
        [LIB, () => {
            clone.write(LIB, text.replace("//", "/*"));
            utimesSync(path, atime, mtime);
        }],
        ["crates/low/src", () => {
            clone.write(LIB, text);
            clone.write("crates/low/src/more.rt", "");
        }],
        ["crates/low/specs", () => {
            rmSync(join(clone.top, "crates/low/src/more.rt"));
            rmSync(join(clone.top, "crates/low/specs/A.antt"));
        }],
        ["crates/low", () => rmSync(join(clone.top, "crates/low/specs"), { recursive: true })],
        ["crates.txt", () => clone.write("crates.txt", "low: other\nrailplan_main: low\nother:\n")],
    ]);
    for (const [changed, change] of changes) {
        change();
        await hold(clone, changed);
    }
});

test("a changed source with an older time is built anew, and so is another program", async (it) => {
    const clone = builtClone(it);
    clone.write(LIB, "// other\n");
    clone.touch(LIB, -9999);
    assert.match(clone.launch(["graph", "one.xml"])[2],
        /crates\/low\/src\/lib\.rt isn't as it was when the program was built\. Proving/);
    assert.equal(clone.asked(), 2);
    clone.script(PLACE, "#!/bin/sh\necho other\n");
    await hold(clone, PLACE);
    assert.equal(clone.launch(["graph", "one.xml"])[1], "ran\n");
});

test("a source that only looks otherwise", async (it) => {
    const clone = builtClone(it), path = join(clone.top, LIB), list = "crates/railplan_main/out/built",
        before = clone.text(list);
    copyFileSync(path, `${path}.new`);
    renameSync(`${path}.new`, path);
    clone.touch(LIB, 9999);
    await hold(clone);
    assert.notEqual(clone.text(list), before);
    await hold(clone);
});

test("a changed proof makes no other program, but is proved", async (it) => {
    const proof = "crates/low/proofs/lib/sum.antt", clone = new InClone(it);
    clone.write(proof, "// a proof\n");
    clone.launch(["prove"]);
    clone.write(proof, "// another\n");
    assert.deepEqual(clone.launch(["graph", "one.xml"]), [0, "ran\n", ""]);
    clone.touch(LIB, 9999);
    assert.deepEqual(clone.launch(["graph", "one.xml"]), [0, "ran\n", ""]);
    const said = `proofs: ${proof} isn't as it was when the program was built; `;
    assert.ok(clone.launch(["--version"])[1].includes(said));
    assert.equal(clone.asked(), 1);
    assert.match(clone.launch(["prove"])[2], new RegExp(`^railplan: ${proof} isn't as it was when the program was built\\. Proving`));
    assert.equal(clone.asked(), 2);
    assert.ok(!clone.launch(["--version"])[1].includes("proofs: crates"));
});

test("what is no source of the program", async (it) => {
    const clone = builtClone(it);
    for (const name of ["crates/other/src/lib.rt", "crates/low/must-fail/x.rt", "crates/low/out/x.rt",
        "crates/low/src/notes.txt"]) {
        clone.write(name, "// other\n");
    }
    await hold(clone);
});

test("a list that is spoilt counts for nothing", async (it) => {
    const clone = builtClone(it), list = "crates/railplan_main/out/built", whole = clone.text(list);
    for (const text of ["", "railplan-built 1\n", whole.slice(0, -9), `x${whole}`, whole.replaceAll("\t", " ")]) {
        clone.write(list, text);
        assert.equal((await find(clone.clone, clone.clone.proved)).isListed, false);
    }
});

test("of a program without a list nothing is said to be proved", async (it) => {
    const clone = new InClone(it), { proved } = clone.clone;
    clone.script(PLACE, "#!/bin/sh\necho mine\n");
    const found = await find(clone.clone, proved);
    assert.deepEqual([found.isFresh, found.isListed], [true, false]);
    assert.deepEqual(await buildOf(found, true), { state: "unknown", sha256: sha256Of(proved.path), kit: "" });
    assert.match(clone.launch(["graph", "one.xml"])[2],
        /^railplan: the program that runs here isn't known to be proved, .*prove proves it\n$/);
    clone.touch(LIB, 9999);
    assert.equal((await find(clone.clone, proved)).reason, `${LIB} is younger than the program`);
});

test("a program without proofs is run where there is no proved one, and is named", async (it) => {
    const clone = new InClone(it), { quick } = clone.clone, { list, look } = await import("../terminal/built.js");
    clone.script(quick.place, "#!/bin/sh\necho quick\n");
    await list(quick, await look(clone.clone), "kit-2");
    const [status, out, err] = clone.launch(["graph", "one.xml"]);
    assert.deepEqual([status, out], [0, "quick\n"]);
    assert.match(err, /^railplan: the program that runs here isn't proved; \S+ prove proves it\n$/);
    assert.match(clone.launch(["--version"])[1], /^program: built from these sources without proofs with kit-2$/m);
    assert.match(clone.launch(["prove"])[1], /^program: proved and built from these sources with kit-1$/m);
    assert.deepEqual(clone.launch(["graph", "one.xml"]), [0, "ran\n", ""]);
    assert.equal(clone.launch(["--unproved", "graph", "one.xml"])[1], "quick\n");
});

test("two at once build once", async (it) => {
    const clone = new InClone(it), jobs = [1, 2, 3].map(() => clone.start(["graph", "one.xml"], { SLOW: "1" }));
    for (const job of jobs) {
        await job.ended;
        assert.equal(job.out, "ran\n");
    }
    assert.equal(clone.asked(), 1);
});

test("a source that changes while the program is built", async (it) => {
    const clone = new InClone(it);
    clone.script("bin/rt",
        "#!/bin/sh\ncase $1 in run) echo '// other' > ../low/src/lib.rt; cp ../../program out/railplan_main; "
        + "echo 'rt: running';; esac\n");
    assert.equal(clone.launch(["graph", "one.xml"])[1], "ran\n");
    assert.equal((await find(clone.clone, clone.clone.proved)).isFresh, false);
});

test("files are looked at again behind a build", (it) => {
    const clone = new InClone(it);
    clone.script("bin/rt", "#!/bin/sh\ncase $1 in run) ln -s one.xml ../../l; cp ../../program out/railplan_main; "
        + "echo 'rt: running';; esac\n");
    const [status, out, err] = clone.launch(["draw", "one.xml", "--log", "l"]);
    assert.deepEqual([status, out], [2, ""]);
    assert.match(err, /one\.xml and l are one file/);
});

test("what a build takes is said before it begins", (it) => {
    const clone = new InClone(it), [kit, first, second] = clone.launch(["graph", "one.xml"])[2].split("\n");
    assert.match(kit, /^railplan: the kit here isn't built as railplan knows it \(the kit has no bin\/rtlib\.py\), so no program is built without proofs/);
    assert.match(first, /^railplan: proving and building the program: from nothing that takes most of an hour on four processors, /);
    assert.match(first, /, and here are [1-9]\d*$/);
    assert.ok(second.endsWith("/railplan --unproved graph one.xml"), second);
    assert.equal(clone.launch(["graph", "one.xml"])[2], "");
});
