/** Proves and builds the program, or builds it without its proofs: one run at a time. */
import { spawn, spawnSync } from "node:child_process";
import { accessSync, closeSync, constants, openSync, readFileSync, utimesSync } from "node:fs";
import { availableParallelism, cpus } from "node:os";
import { setTimeout as pause } from "node:timers/promises";
import { FIRST_BUILD, UNPROVED_BUILD, cratesOf, find, hasSources, isThere, list, look } from "./built.js";
import { makeFolders, remove } from "./files.js";
import { hold, release } from "./locks.js";
import { end, say, why } from "./say.js";

/** @typedef {import("./built.js").Built} Built */
/** @typedef {import("./built.js").Clone} Clone */
/** @typedef {import("./built.js").Program} Program */

const NO_RT = "the program must be built, and the Rattle toolchain's command rt isn't on the PATH. It comes with "
    + "the Rattle kit: unpack the kit, and add its folder with rt to the PATH; README.md names the kit that this version was "
    + "proved with";
// how often a log or a lock is looked at, and how long what builds has to end
const OFTEN = 300;
const PATIENCE = 10000;

/**
 * How many processors this run may use.
 * @returns {number}
 */
export function processors() {
    return typeof availableParallelism === "function" ? availableParallelism() : cpus().length;
}

/**
 * The command rt; without one, or without sources, the run ends.
 * @param {Clone} clone
 * @returns {string}
 */
export function needRt(clone) {
    if (!hasSources(clone)) {
        end(10, `${clone.top} has neither the program nor its sources. Install railplan anew from a clone`);
    }
    for (const folder of (process.env.PATH ?? "").split(":")) {
        const rt = `${folder || "."}/rt`;
        try {
            accessSync(rt, constants.X_OK);
            return rt;
        } catch {
            continue;
        }
    }
    return end(10, NO_RT);
}

/**
 * the kit's name, or nothing where it says none
 * @param {string} rt @returns {string}
 */
function kitOf(rt) {
    const said = spawnSync(rt, ["version"], { stdio: ["ignore", "pipe", "ignore"], timeout: 20000 }).stdout?.toString() ?? "";
    const first = said.split("\n")[0].split(/\s+/).find(Boolean) ?? "";
    return /^[\w.-]+$/.test(first) ? first : "";
}

/**
 * Does something while no other run does the like.
 * @template T
 * @param {Clone} clone @param {string} name the lock's @param {AbortSignal} signal @param {() => Promise<T>} work
 * @returns {Promise<T>}
 */
async function oneAtATime(clone, name, signal, work) {
    const path = `${clone.out}/${name}`;
    try {
        makeFolders(clone.out);
        accessSync(clone.out, constants.W_OK | constants.X_OK);
    } catch (error) {
        end(10, `the program can't be built: ${clone.out}: ${why(error)}`);
    }
    for (let times = 0; hold(path) === "taken"; times++) {
        if (!times) {
            say("another run is building the program; waiting for it");
        }
        await pause(OFTEN);
        if (signal.aborted) {
            end(130, "stopped");
        }
    }
    try {
        return await work();
    } finally {
        release([path]);
    }
}

/**
 * Runs a step of a build, which is a process group, to its end, and says each crate that is proved.
 * @param {string} rt @param {string[]} words @param {Clone} clone @param {AbortSignal} signal @param {() => void} follow
 * @returns {Promise<number>} its status
 */
function step(rt, words, clone, signal, follow) {
    const log = openSync(logOf(clone), "a");
    const job = spawn(rt, words, { cwd: clone.crate, stdio: ["ignore", log, log], detached: true });
    closeSync(log);
    const followed = setInterval(() => follow(), OFTEN);
    const stop = () => endGroup(job);
    signal.addEventListener("abort", stop, { once: true });
    return new Promise((resolve) => {
        /** @param {number} status */
        const over = (status) => {
            clearInterval(followed);
            signal.removeEventListener("abort", stop);
            follow();
            resolve(status);
        };
        job.on("error", (/** @type {Error} */ error) => {
            say(`${rt} couldn't be started: ${why(error)}`);
            over(-1);
        });
        job.on("exit", (/** @type {number | null} */ status) => over(status ?? 1));
    });
}

/**
 * Ends all that builds.
 * @param {{pid?: number, once: (name: string, done: () => void) => void}} job
 */
function endGroup(job) {
    const send = (/** @type {string} */ sign) => {
        try {
            process.kill(-(job.pid ?? 0), sign);
        } catch {
            return;
        }
    };
    if (job.pid) {
        send("SIGTERM");
        const late = setTimeout(() => send("SIGKILL"), PATIENCE);
        job.once("exit", () => {
            clearTimeout(late);
            send("SIGKILL");
        });
    }
}

/** @param {Clone} clone @returns {string} */
function logOf(clone) {
    return `${clone.out}/build.log`;
}

/**
 * Proves the program's crates, as many side by side as there are processors, and builds it. With no words the program ends
 * with 2, and says so itself: only whether it was built counts.
 * @param {Clone} clone @param {string} rt @param {AbortSignal} signal
 */
async function proveAndBuild(clone, rt, signal) {
    const total = cratesOf(clone).length;
    let seen = 0;
    const follow = () => {
        const log = readFileSync(logOf(clone), "utf-8");
        const proved = [...log.matchAll(/^== (.*)$/gm)].map((it) => it[1]).filter((it) => it !== "summary");
        if (proved.length > seen) {
            seen = proved.length;
            say(`crate ${seen} of ${total}: ${proved[seen - 1]}`);
        }
    };
    closeSync(openSync(logOf(clone), "w"));
    for (const words of [["all", "check", "--jobs", String(processors())], ["run"]]) {
        const status = await step(rt, words, clone, signal, follow);
        if (signal.aborted) {
            end(130, "stopped while the program was built");
        }
        if (status < 0) {
            end(10);
        }
        if (status) {
            break;
        }
    }
    if (!/^rt: running/m.test(readFileSync(logOf(clone), "utf-8")) || !isThere(clone.proved)) {
        end(10, `the program couldn't be built; ${logOf(clone)} says why`);
    }
}

/**
 * Says what is done, how long it takes as far as that is known, and what needn't wait for it.
 * @param {string} reason @param {string} quick
 */
function announce(reason, quick) {
    const doing = reason ? `${reason}. Proving and building the program anew` : "proving and building the program";
    say(`${doing}: from nothing that takes ${FIRST_BUILD}, and here are ${processors()}`);
    if (quick) {
        say(`a first look without the proofs begins in ${UNPROVED_BUILD}: ${quick}`);
    }
}

/**
 * Proves and builds the program, where no other run has by then, and lists what it was built from: the sources as they were
 * before.
 * @param {Clone} clone @param {AbortSignal} signal @param {string} [quick] the line that runs the same without proofs
 * @returns {Promise<Built>}
 */
export async function build(clone, signal, quick = "") {
    const rt = needRt(clone);
    return oneAtATime(clone, "build.lock", signal, async () => {
        const found = await find(clone, clone.proved, true);
        if (found.isFresh && found.isListed) {
            return found;
        }
        announce(found.reason, quick);
        remove(clone.proved.list);
        const states = await look(clone);
        await proveAndBuild(clone, rt, signal);
        utimesSync(clone.proved.path, new Date(), new Date());
        return list(clone.proved, states, kitOf(rt));
    });
}

/**
 * Builds the program without its proofs, where no other run has by then; nothing where the kit goes other ways than those that
 * are known here.
 * @param {Clone} clone @param {AbortSignal} signal @param {string} prove the line that proves the program
 * @returns {Promise<Built | null>}
 */
export async function buildQuick(clone, signal, prove) {
    const rt = needRt(clone);
    const { quickBuild } = await import("../engine/quick_build.js");
    const { Otherwise, kitOf: known } = await import("../engine/kit.js");
    try {
        known(rt);
    } catch (error) {
        say(`the kit here isn't built as railplan knows it (${why(error)}), so no program is built without proofs and kept`);
        return null;
    }
    return oneAtATime(clone, "quick.lock", signal, async () => {
        const found = await find(clone, clone.quick);
        if (found.isFresh) {
            return found;
        }
        const doing = found.reason ? `${found.reason}. Building the program anew` : "building the program";
        say(`${doing} without its proofs, which takes ${UNPROVED_BUILD}; ${prove} proves it`);
        remove(clone.quick.list);
        const states = await look(clone);
        try {
            await quickBuild(clone, rt, clone.quick.path, signal);
        } catch (error) {
            if (signal.aborted) {
                end(130, "stopped while the program was built");
            }
            say(`the program couldn't be built without its proofs: ${why(error)}`);
            return error instanceof Otherwise ? null : end(10);
        }
        return list(clone.quick, states, kitOf(rt));
    });
}
