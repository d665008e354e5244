/** `setup`: starts .ci/setup, which installs what a clone needs beside the kit, and says what each package is for. */
import { spawnSync } from "node:child_process";
import { existsSync } from "node:fs";
import { join } from "node:path";
import { end, say } from "./say.js";

/** @typedef {{name: string, isThere: boolean, purpose: string}} Need a package, and what it is for */

/** @param {string} script @returns {Need[]} */
function needs(script) {
    const said = spawnSync(script, ["--list"], { encoding: "utf8" }).stdout ?? "";
    return said.split("\n").filter(Boolean).map((line) => line.split("\t"))
        .map(([name, state, purpose]) => ({ name, isThere: state === "there", purpose }));
}

/**
 * Runs the command.
 * @param {import("./built.js").Clone} clone
 * @returns {number}
 */
export function run({ top }) {
    const script = join(top, ".ci/setup");
    if (!existsSync(script)) {
        end(10, `${top} is no clone: it has all that it needs but Node`);
    }
    const before = needs(script);
    const { status } = spawnSync(script, [], { stdio: ["ignore", "ignore", "inherit"] });
    const isThere = new Map(needs(script).map((it) => [it.name + it.purpose, it.isThere]));
    for (const { name, isThere: wasThere, purpose } of before) {
        const now = isThere.get(name + purpose) ? "is installed now" : "is missing";
        say(`${name} ${wasThere ? "is there" : now}: ${purpose}`);
    }
    return status === 0 ? 0 : 10;
}
