/** How runs end that are stopped or whose program ends otherwise. */
import assert from "node:assert/strict";
import { spawn } from "node:child_process";
import { existsSync, readdirSync, rmSync } from "node:fs";
import { join } from "node:path";
import { test } from "node:test";
import { setTimeout as pause } from "node:timers/promises";
import { InClone, PLACE, Started, until } from "./clones.js";

const SLOW = "#!/bin/sh\necho $$ > begun\nexec sleep 60\n";

/**
 * a clone whose program takes long
 * @param {any} it @returns {InClone}
 */
function slowClone(it) {
    const clone = new InClone(it);
    clone.script(PLACE, SLOW);
    return clone;
}

/**
 * the number of the program, when it has begun
 * @param {InClone} clone @returns {Promise<number>}
 */
function begun(clone) {
    return until(() => Number(clone.text("begun").trim()));
}

/** @param {number} number @returns {boolean} */
function isThere(number) {
    try {
        return process.kill(number, 0);
    } catch {
        return false;
    }
}

/**
 * what is said of the program aside
 * @param {string} text @returns {string}
 */
function said(text) {
    return text.replace(/^railplan: the program that runs here isn't known to be proved.*\n/gm, "");
}

test("a signal ends the run with 130 and leaves no process", async (it) => {
    const clone = slowClone(it);
    for (const sign of /** @type {NodeJS.Signals[]} */ (["SIGINT", "SIGTERM", "SIGHUP", "SIGQUIT"])) {
        const run = clone.start(["draw", "one.xml"]), number = await begun(clone);
        run.job.kill(sign);
        assert.equal(await run.ended, 130, sign);
        assert.equal(run.out, "");
        assert.match(said(run.err), /^railplan: stopped after \d+\.\d s; nothing was printed\n$/);
        assert.ok(!isThere(number));
        rmSync(join(clone.top, "begun"));
    }
});

test("a run with a page that is ended by a quit leaves nothing", async (it) => {
    const clone = slowClone(it);
    clone.write("tmp/x", "");
    const names = () => readdirSync(clone.top).filter((name) => name !== "out").sort(), before = names();
    const run = clone.start(["--html", "p", "draw", "one.xml"], { TMPDIR: join(clone.top, "tmp") }),
        number = await begun(clone);
    run.job.kill("SIGQUIT");
    assert.equal(await run.ended, 130);
    assert.equal(run.out, "");
    assert.match(run.err, /p isn't written/);
    assert.ok(!isThere(number));
    rmSync(join(clone.top, "begun"));
    assert.deepEqual(names(), before);
    assert.deepEqual(readdirSync(join(clone.top, "tmp")).filter((name) => !/^railplan-\d+$|^x$/.test(name)), []);
});

test("what a run was started to ignore stays ignored", async (it) => {
    const clone = slowClone(it);
    const run = new Started(spawn("sh", ["-c", "trap '' HUP QUIT; exec ./railplan draw one.xml"], clone.how({})));
    await begun(clone);
    run.job.kill("SIGHUP");
    run.job.kill("SIGQUIT");
    await pause(300);
    assert.equal(run.job.exitCode, null);
    run.job.kill("SIGTERM");
    await run.ended;
    assert.match(run.err, /stopped after/);
});

test("a second signal does not disturb the end", async (it) => {
    const clone = slowClone(it), run = clone.start(["draw", "one.xml"]);
    await begun(clone);
    for (let count = 0; count < 3; count++) {
        run.job.kill("SIGINT");
        await pause(10);
    }
    assert.equal(await run.ended, 130);
    assert.match(said(run.err), /^railplan: stopped after \d+\.\d s; nothing was printed\n$/);
});

test("an interrupt while the launcher is read", (it) => {
    const clone = new InClone(it);
    clone.write("shell/terminal/launch.js",
        "process.kill(process.pid, 'SIGINT');\nawait new Promise((done) => setTimeout(done, 9000));\n");
    assert.deepEqual(clone.launch(["draw", "one.xml"]), [130, "", "railplan: stopped\n"]);
});

test("an interrupt at the end comes too late", (it) => {
    const clone = new InClone(it);
    clone.write("shell/terminal/launch.js",
        "export async function main() {\n    process.kill(process.pid, 'SIGINT');\n    return 3;\n}\n");
    assert.deepEqual(clone.launch(["draw", "one.xml"]).slice(0, 2), [3, ""]);
});

test("a fault of the launcher is one line", (it) => {
    const clone = new InClone(it);
    clone.write("shell/terminal/built.js", `${clone.text("shell/terminal/built.js")}\nClone.prototype.toString = 1;\n`
        .replace(/^export async function find\(.*$/m, "$&\n    null.x;"));
    const [status, out, err] = clone.launch(["graph", "one.xml"]);
    assert.deepEqual([status, out], [10, ""]);
    assert.match(err, /^railplan: this is a fault of the launcher itself, so nothing more is known: TypeError: .*\n$/);
});

test("what was found is said from the log", async (it) => {
    const clone = slowClone(it);
    clone.script(PLACE, "#!/bin/sh\nprintf 'railplan-log 1\\nq 0\\nl 1 0\\nl 2 0\\nm\\nb height 1 5\\nq -5 0\\n' > l\n"
        + "echo $$ > begun\nexec sleep 60\n");
    const run = clone.start(["draw", "one.xml", "--log", "l", "--conflicts", "70"]);
    await begun(clone);
    run.job.kill("SIGINT");
    await run.ended;
    assert.match(run.err, /found so far: a drawing; height: at most 1 found, looking for 0\./);
    assert.match(run.err, /railplan draw one\.xml --log l --conflicts 2\n/);
    assert.match(run.err, /l holds the beginning of a log, which certifies nothing/);
});

test("of a redrawing no values are said, as its log asks for moved nodes", async (it) => {
    const clone = slowClone(it);
    clone.script(PLACE, "#!/bin/sh\nprintf 'railplan-log 1\\nq 0\\nm\\n' > l\necho $$ > begun\nexec sleep 60\n");
    const run = clone.start(["redraw", "one.xml", "one.xml", "one.xml", "--log", "l"]);
    await begun(clone);
    run.job.kill("SIGINT");
    await run.ended;
    assert.ok(!run.err.includes("found so far"), run.err);
});

test("a program that is killed", async (it) => {
    const clone = slowClone(it), run = clone.start(["draw", "one.xml"]);
    process.kill(await begun(clone), "SIGKILL");
    assert.equal(await run.ended, 137);
    assert.match(run.err, /ended by signal 9/);
});

test("statuses without a line are explained", (it) => {
    const clone = new InClone(it);
    for (const [status, piece] of /** @type {[number, string][]} */ ([[6, "couldn't be written"], [7, "no memory"],
        [10, "words of the command line"]])) {
        clone.script(PLACE, `#!/bin/sh\nexit ${status}\n`);
        const [found, out, err] = clone.launch(["graph", "one.xml"]);
        assert.deepEqual([found, out], [status, ""]);
        assert.ok(err.includes(piece), err);
    }
});

test("trim of too large a log says so, and is no want of memory", (it) => {
    const clone = new InClone(it);
    clone.script(PLACE, "#!/bin/sh\necho trim Room\nexit 4\n");
    const [status, out, err] = clone.launch(["trim", "one.xml", "s", "l", "h"]);
    assert.deepEqual([status, out], [4, "trim Room\n"]);
    assert.match(err, /l certifies what the sheet claims, but has more variables or words than hints are found in/);
    const { fault } = JSON.parse(clone.launch(["--json", "trim", "one.xml", "s", "l", "h"])[1]);
    assert.deepEqual([fault.kind, fault.name, fault.remedy], ["trim", "Room", "Hand over the log as it is: check reads it"]);
    clone.script(PLACE, "#!/bin/sh\nexit 7\n");
    assert.doesNotMatch(clone.launch(["trim", "one.xml", "s", "l", "h"])[2], /hints/);
});

test("a program that cannot be started", (it) => {
    const clone = new InClone(it);
    clone.script(PLACE, "#!/nowhere\n");
    const [found, out, err] = clone.launch(["graph", "one.xml"]);
    assert.deepEqual([found, out], [10, ""]);
    assert.match(err, /couldn't be started/);
});

test("an interrupt while another run builds", async (it) => {
    const clone = new InClone(it), first = clone.start(["graph", "one.xml"], { SLOW: "30" });
    await until(() => clone.text("asked").split("\n").includes("run"));
    const second = clone.start(["graph", "one.xml"]);
    await until(() => second.err.includes("another run is building"));
    for (const run of [second, first]) {
        run.job.kill("SIGINT");
        assert.equal(await run.ended, 130);
    }
    assert.ok(!existsSync(join(clone.top, "crates/railplan_main/out/build.lock")));
});

test("words that are no UTF-8 reach the program", (it) => {
    const clone = new InClone(it);
    clone.script(PLACE, "#!/bin/sh\nprintf '%s' \"$2\" | od -An -tx1\n");
    assert.equal(clone.launchBy("./railplan graph \"$(printf 'a\\377 b')\"")[1], " 61 ff 20 62\n");
});

test("a stopped prove says that it goes on, leaves no process, and the next one ends it", async (it) => {
    const clone = new InClone(it);
    clone.script("bin/rt", `#!/bin/sh
case $1 in
version) echo 'kit-1 logic x' ;;
all) echo '== low'; [ -e kept ] && { echo '== railplan_main'; exit; }; : > kept; echo $$ > "$HERE/begun"; exec sleep 60 ;;
run) cp "$HERE/program" out/new; mv out/new out/railplan_main; echo 'rt: running'; exit 2 ;;
esac
`);
    const run = clone.start(["prove"]), number = await begun(clone);
    await until(() => run.err.includes("crate 1 of 2: low"));
    run.job.kill("SIGINT");
    assert.equal(await run.ended, 130);
    assert.match(run.err, /^railplan: what is proved by now is kept: \S+railplan prove goes on from there$/m);
    assert.ok(!isThere(number));
    const [status, out, err] = clone.launch(["prove"]);
    assert.equal(status, 0);
    assert.match(out, /^program: proved and built from these sources with kit-1$/m);
    assert.match(err, /crate 2 of 2: railplan_main/);
});
