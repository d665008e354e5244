/** A clone for a test: the launcher and its shell, a few sources, and scripts in place of the program and of `rt`. */
import { spawn, spawnSync } from "node:child_process";
import {
    chmodSync, copyFileSync, cpSync, existsSync, mkdirSync, mkdtempSync, readFileSync, rmSync, statSync, utimesSync,
    writeFileSync,
} from "node:fs";
import { tmpdir } from "node:os";
import { dirname, join } from "node:path";
import { setTimeout as pause } from "node:timers/promises";
import { fileURLToPath } from "node:url";
import { Clone } from "../terminal/built.js";

/** the top of railplan's own clone */
export const TOP = fileURLToPath(new URL("../..", import.meta.url)).replace(/\/$/, "");
/** where a clone has its program */
export const PLACE = "crates/railplan_main/out/railplan_main";
/** after how many milliseconds a run is given up */
export const PATIENCE = 60000;

const RT = `#!/bin/sh
echo "$@" >> "$HERE/asked"
case $1 in
version) echo 'kit-1 logic x' ;;
run) sleep \${SLOW:-0}; cp "$HERE/program" out/new; mv out/new out/railplan_main; echo 'rt: running'; exit 2 ;;
esac
`;
const SOURCES = ["crates/low/src/lib.rt", "crates/low/specs/A.antt", "crates/railplan_main/src/main.rt",
    "crates/other/src/lib.rt",
    "crates/low/must-fail/x.rt"];

/** A clone of a test's own, which is gone behind it. */
export class InClone {
    /** @param {{after: (done: () => void) => void}} test */
    constructor(test) {
        const folder = mkdtempSync(join(tmpdir(), "railplan-test-"));
        test.after(() => rmSync(folder, { recursive: true, force: true }));
        this.top = join(folder, "clone");
        const isNeeded = (/** @type {string} */ name) => !name.endsWith("/tests");
        cpSync(join(TOP, "shell"), join(this.top, "shell"), { recursive: true, filter: isNeeded });
        copyFileSync(join(TOP, "railplan"), join(this.top, "railplan"));
        this.write("crates.txt", "low:\nrailplan_main: low\nother: low\n");
        SOURCES.forEach((name) => this.write(name, `// ${name}\n`));
        this.clone = new Clone(this.top);
        this.script("bin/rt", RT);
        this.script("program", "#!/bin/sh\necho ran\n");
        copyFileSync(join(TOP, "examples/one.xml"), join(this.top, "one.xml"));
    }

    /** @param {string} name @param {string} text */
    write(name, text) {
        mkdirSync(dirname(join(this.top, name)), { recursive: true });
        writeFileSync(join(this.top, name), text);
    }

    /** @param {string} name @param {string} text */
    script(name, text) {
        this.write(name, text);
        chmodSync(join(this.top, name), 0o755);
    }

    /** @param {string} name @returns {string} what a file of examples/ has */
    example(name) {
        return readFileSync(join(TOP, "examples", name), "utf-8");
    }

    /** @param {string} name @returns {string} what a file has, or "" where it isn't there */
    text(name) {
        return existsSync(join(this.top, name)) ? readFileSync(join(this.top, name), "utf-8") : "";
    }

    /** @param {string} name @param {number} seconds by which its time is changed */
    touch(name, seconds) {
        const { atimeMs, mtimeMs } = statSync(join(this.top, name));
        utimesSync(join(this.top, name), atimeMs / 1000 + seconds, mtimeMs / 1000 + seconds);
    }

    /** @param {{[name: string]: string}} more */
    how(more) {
        const env = { PATH: `${this.top}/bin:${dirname(process.execPath)}:/usr/bin:/bin`, HERE: this.top, ...more };
        return { cwd: this.top, env, stdio: /** @type {import("node:child_process").StdioOptions} */ (["ignore", "pipe", "pipe"]) };
    }

    /**
     * A run of the launcher that has begun.
     * @param {string[]} given @param {{[name: string]: string}} [more] of the environment
     */
    start(given, more = {}) {
        return new Started(spawn(join(this.top, "railplan"), given, this.how(more)));
    }

    /**
     * A run of the launcher to its end: how it ended, what it printed and what it said.
     * @param {string[]} given @param {{[name: string]: string}} [more] of the environment
     * @returns {[number | null, string, string]}
     */
    launch(given, more = {}) {
        const ran = spawnSync(join(this.top, "railplan"), given, { ...this.how(more), encoding: "utf-8", timeout: PATIENCE });
        return [ran.status, ran.stdout, ran.stderr];
    }

    /**
     * The same of a line that a shell runs.
     * @param {string} line
     * @returns {[number | null, string, string]}
     */
    launchBy(line) {
        const ran = spawnSync("sh", ["-c", line], { ...this.how({}), encoding: "utf-8", timeout: PATIENCE });
        return [ran.status, ran.stdout, ran.stderr];
    }

    /** how often the program was built */
    asked() {
        return this.text("asked").split("\n").filter((it) => it === "run").length;
    }
}

/** A run that has begun. */
export class Started {
    /** @param {import("node:child_process").ChildProcess} job */
    constructor(job) {
        this.job = job;
        this.out = "";
        this.err = "";
        job.stdout?.setEncoding("utf-8").on("data", (/** @type {string} */ text) => { this.out += text; });
        job.stderr?.setEncoding("utf-8").on("data", (/** @type {string} */ text) => { this.err += text; });
        /** @type {Promise<number | null>} */
        this.ended = new Promise((resolve) => job.on("close", resolve));
    }
}

/**
 * Waits until something is there.
 * @template T
 * @param {() => T} what
 * @returns {Promise<T>}
 */
export async function until(what) {
    for (const end = Date.now() + PATIENCE; Date.now() < end; await pause(20)) {
        const found = what();
        if (found) {
            return found;
        }
    }
    throw new Error("it never came");
}
