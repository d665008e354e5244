/** What a gate that passed left in out/gate, and whether this clone is still the one that passed. */
import { spawnSync } from "node:child_process";
import { readFileSync } from "node:fs";
import { join } from "node:path";
import { end } from "./say.js";

/** what out/gate is called, and how it begins */
export const PASSED = "out/gate", TITLE = "railplan-gate 1";

/** @typedef {{commit: string, kit: string, proofs: string, program: string}} Passed the commit, the kit's own line, the last
 * line of its proofs, and the SHA-256 of the program */

/**
 * What git answers; "" where it fails.
 * @param {string} top @param {string[]} words
 * @returns {string}
 */
export function git(top, ...words) {
    const ran = spawnSync("git", ["-C", top, ...words], { encoding: "utf8", maxBuffer: 1 << 26 });
    return ran.status === 0 ? ran.stdout.trim() : "";
}

/**
 * The lines of out/gate by their words.
 * @param {string} top
 * @returns {Passed | null}
 */
export function passedIn(top) {
    try {
        const [title, ...lines] = readFileSync(join(top, PASSED), "utf8").split("\n");
        const of = (/** @type {string} */ word) =>
            lines.find((line) => line.startsWith(`${word} `))?.slice(word.length + 1) ?? "";
        const passed = { commit: of("commit"), kit: of("kit"), proofs: of("proofs"), program: of("program") };
        return title === TITLE && Object.values(passed).every(Boolean) ? passed : null;
    } catch {
        return null;
    }
}

/**
 * The gate that passed here; the run ends with 10 where none did, or the clone or its program is another one by now.
 * @param {import("./built.js").Clone} clone @param {import("./built.js").Built} built the proved program
 * @returns {Passed}
 */
export function needPassed({ top }, built) {
    const passed = passedIn(top), head = git(top, "rev-parse", "HEAD");
    if (!passed) {
        return end(10, "the gate hasn't passed here, so nothing is known to be proved. Run it: .ci/run");
    }
    if (passed.commit !== head) {
        const [then, now] = [passed.commit, head || "none"].map((it) => it.replace(/^([0-9a-f]{12})[0-9a-f]*/, "$1"));
        return end(10, `the gate passed for commit ${then}, and this is ${now}. Run it again: .ci/run`);
    }
    if (git(top, "status", "--porcelain")) {
        return end(10, "files are changed since the commit for which the gate passed. Commit them, and run it again: .ci/run");
    }
    if (!built.isFresh || !built.isListed || built.sha256 !== passed.program) {
        return end(10, "the program isn't the one that the gate proved. Run it again: .ci/run");
    }
    return passed;
}
