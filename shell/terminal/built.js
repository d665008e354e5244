/**
 * Which programs there are, and whether one is that which these sources make.
 *
 * A list lies beside each program that the launcher built: the program and its sources as they were at the build. Of each it
 * has the size, both times, the inode and the SHA-256. Where the first four are as they were the file counts as unchanged;
 * else the SHA-256 decides. So a source that was copied, restored, added or removed is seen, and so is another program.
 * Sources are the .rt and .antt files of the program's crates, and crates.txt. A program without a list was built by somebody
 * else: it counts by its time, as of a build with `rt`, and nothing is said to be proved of it. Proofs don't shape a program,
 * and most sources are proofs: a run doesn't look at them; what proves, releases, or says what was proved, does.
 */
import { accessSync, constants, existsSync, readFileSync, readdirSync, statSync } from "node:fs";
import { writeWhole } from "./files.js";

const TITLE = "railplan-built 1";
const PROGRAM = "crates/railplan_main/out/railplan_main";
const QUICK = "crates/railplan_main/out/quick/railplan_main";
/** whether this system runs the native program */
const RUNS_NATIVE = process.platform === "linux" && process.arch === "x64";
const LEFT_OUT = new Set(["out", "must-fail"]);

/** how long it takes to prove and build the program where nothing is proved yet, and how soon it is there without proofs */
export const FIRST_BUILD = "most of an hour on four processors";
export const UNPROVED_BUILD = "two to three minutes";

/** A program of a clone: its path from the top, and whether it is the one that proofs go before. */
export class Program {
    /** @param {Clone} clone @param {string} place @param {boolean} isProved */
    constructor(clone, place, isProved) {
        this.place = place;
        this.path = `${clone.top}/${place}`;
        this.isProved = isProved;
        this.isWasm = place.endsWith(".wasm");
        this.list = `${this.path.slice(0, this.path.lastIndexOf("/"))}/built`;
    }
}

/**
 * The folders of a clone, and its programs: the proved one, and the one that is built without proofs, each as WebAssembly too.
 */
export class Clone {
    /** @param {string} top */
    constructor(top) {
        this.top = top;
        this.crate = `${top}/crates/railplan_main`;
        this.out = `${this.crate}/out`;
        this.proved = new Program(this, PROGRAM, true);
        this.quick = new Program(this, QUICK, false);
        this.wasm = new Program(this, "out/wasm/proved/railplan.wasm", true);
        this.quickWasm = new Program(this, "out/wasm/unproved/railplan.wasm", false);
    }
}

/** @typedef {object} Built what is known of a program: whether it can be run as it is, why not, whether it was proved, and what
 * made it
 * @property {Program} program
 * @property {boolean} isFresh
 * @property {string} reason
 * @property {boolean} isListed whether the launcher built it
 * @property {string} sha256
 * @property {string} kit */
/**
 * @typedef {{kit: string, states: Map<string, {state: string, known: string}>}} Listed the list: what made the program, and of
 * each path its state and its SHA-256; of a folder the names of its sources
 */

/**
 * size, both times and inode
 * @param {string} path @returns {string}
 */
function stateOf(path) {
    const it = statSync(path, { bigint: true });
    return `${it.size} ${it.mtimeNs} ${it.ctimeNs} ${it.ino}`;
}

/**
 * The crates of which the program consists: it, and those that it is built on.
 * @param {Clone} clone
 * @returns {string[]}
 */
export function cratesOf(clone) {
    const below = new Map();
    for (const line of readFileSync(`${clone.top}/crates.txt`, "utf-8").split("\n")) {
        const [head, rest = ""] = line.split(":");
        if (head.trim()) {
            below.set(head.trim().split(/\s+/)[0], rest.split(/\s+/).filter(Boolean));
        }
    }
    const seen = new Set();
    for (const left = ["railplan_main"]; left.length;) {
        const name = left.pop();
        if (below.has(name) && !seen.has(name)) {
            seen.add(name);
            left.push(...below.get(name));
        }
    }
    return [...seen];
}

/** @param {string} name @returns {boolean} */
function isSource(name) {
    return name.endsWith(".rt") || name.endsWith(".antt");
}

/**
 * What is in a folder that counts: its sources and its folders.
 * @param {string} path
 * @returns {{sources: string[], folders: string[]}}
 */
function entriesOf(path) {
    /** @type {{name: string, isDirectory: () => boolean}[]} */
    const entries = readdirSync(path, { withFileTypes: true });
    const sources = entries.map((it) => it.name).filter(isSource);
    const folders = entries.filter((it) => it.isDirectory()).map((it) => it.name)
        .filter((name) => !isSource(name) && !LEFT_OUT.has(name));
    return { sources, folders };
}

/**
 * the same in one text
 * @param {string} path @returns {string}
 */
function namesIn(path) {
    const { sources, folders } = entriesOf(path);
    return [...sources, ...folders].sort().join("/");
}

/**
 * The state of each source and of each folder of sources, as they are now.
 * @param {Clone} clone
 * @returns {Promise<Listed["states"]>}
 */
export async function look(clone) {
    const { sha256Of } = await import("./hash.js");
    /** @type {Listed["states"]} */
    const states = new Map();
    const take = (/** @type {string} */ place) => {
        const path = `${clone.top}/${place}`;
        states.set(place, { state: stateOf(path), known: place.endsWith("/") ? namesIn(path) : sha256Of(path) });
    };
    take("crates.txt");
    for (const left = cratesOf(clone).map((name) => `crates/${name}`).sort().reverse(); left.length;) {
        const folder = /** @type {string} */ (left.pop());
        if (isFolder(`${clone.top}/${folder}`)) {
            take(`${folder}/`);
            const { sources, folders } = entriesOf(`${clone.top}/${folder}`);
            sources.sort().forEach((name) => take(`${folder}/${name}`));
            left.push(...folders.sort().reverse().map((name) => `${folder}/${name}`));
        }
    }
    return states;
}

/** @param {string} path @returns {boolean} */
function isFolder(path) {
    return statSync(path, { throwIfNoEntry: false })?.isDirectory() ?? false;
}

/**
 * Lists a program that was built from sources as they were; a list that can't be written is left as it is.
 * @param {Program} program @param {Listed} listed
 */
function writeList(program, listed) {
    const lines = [...listed.states].map(([place, { state, known }]) => `${place}\t${state}\t${known}\n`);
    try {
        writeWhole(program.list, `${TITLE}\nkit ${listed.kit}\n${lines.join("")}`);
    } catch {
        return;
    }
}

/**
 * Lists a program that was just built, with the states of its sources from before the build.
 * @param {Program} program @param {Listed["states"]} states @param {string} kit
 * @returns {Promise<Built>}
 */
export async function list(program, states, kit) {
    const { sha256Of } = await import("./hash.js");
    const sha256 = sha256Of(program.path);
    writeList(program, { kit, states: new Map([...states, [program.place, { state: stateOf(program.path), known: sha256 }]]) });
    return { program, isFresh: true, reason: "", isListed: true, sha256, kit };
}

/**
 * Lists a program by its SHA-256 alone: for one that will be another file where it is unpacked.
 * @param {Built} built
 */
export function listAlone({ program, sha256, kit }) {
    writeList(program, { kit, states: new Map([[program.place, { state: "-", known: sha256 }]]) });
}

/** @param {string} place @returns {boolean} whether it is a proof, or a folder of proofs */
function isOfProofs(place) {
    return place.includes("/proofs/");
}

/**
 * @param {Program} program @param {boolean} withProofs whether proofs are wanted too
 * @returns {Listed | null}
 */
function readList(program, withProofs) {
    try {
        const lines = readFileSync(program.list, "utf-8").split("\n");
        if (lines[0] !== TITLE || !lines[1].startsWith("kit ") || lines.at(-1)) {
            return null;
        }
        const states = new Map();
        for (const line of lines.slice(2, -1).filter((it) => withProofs || !isOfProofs(it))) {
            const [place, state, known, ...more] = line.split("\t");
            if (known === undefined || more.length) {
                return null;
            }
            states.set(place, { state, known });
        }
        return states.has(program.place) ? { kit: lines[1].slice(4), states } : null;
    } catch {
        return null;
    }
}

/**
 * The first path that isn't as the list has it; what only looks otherwise is listed as it looks now.
 * @param {Clone} clone @param {Program} program @param {Listed} listed
 * @returns {Promise<string>}
 */
async function differing(clone, program, listed) {
    let hasLooks = false;
    for (const [place, it] of listed.states) {
        const path = `${clone.top}/${place}`;
        try {
            const now = stateOf(path);
            if (now !== it.state) {
                const { sha256Of } = await import("./hash.js");
                if ((place.endsWith("/") ? namesIn(path) : sha256Of(path)) !== it.known) {
                    return place;
                }
                it.state = now;
                hasLooks = true;
            }
        } catch {
            return place;
        }
    }
    const whole = hasLooks && readList(program, true);
    if (whole) {
        writeList(program, { ...listed, states: new Map([...whole.states, ...listed.states]) });
    }
    return "";
}

/**
 * A source in a folder that is younger than the program, or "".
 * @param {string} folder @param {number} built
 * @returns {string}
 */
function younger(folder, built) {
    const { sources, folders } = entriesOf(folder);
    const found = sources.find((name) => statSync(`${folder}/${name}`).mtimeMs > built);
    return found ? `${folder}/${found}` : folders.map((name) => younger(`${folder}/${name}`, built)).find(Boolean) ?? "";
}

/**
 * Of a program without a list, a source that is younger than it.
 * @param {Clone} clone @param {Program} program
 * @returns {string}
 */
function changedSince(clone, program) {
    if (!hasSources(clone)) {
        return "";
    }
    const built = statSync(program.path).mtimeMs;
    for (const name of cratesOf(clone)) {
        const folder = `${clone.top}/crates/${name}`;
        const found = isFolder(folder) ? younger(folder, built) : "";
        if (found) {
            return found.slice(clone.top.length + 1);
        }
    }
    return statSync(`${clone.top}/crates.txt`).mtimeMs > built ? "crates.txt" : "";
}

/**
 * Whether there are sources: where railplan is installed there are none.
 * @param {Clone} clone
 * @returns {boolean}
 */
export function hasSources(clone) {
    return existsSync(`${clone.top}/crates.txt`);
}

/**
 * Whether a program is there, and can be started: as native code where this system runs such, as WebAssembly everywhere.
 * @param {Program} program
 * @returns {boolean}
 */
export function isThere(program) {
    try {
        accessSync(program.path, program.isWasm ? constants.R_OK : constants.X_OK);
        return (program.isWasm || RUNS_NATIVE) && !isFolder(program.path);
    } catch {
        return false;
    }
}

/**
 * What is known of a program.
 * @param {Clone} clone @param {Program} program @param {boolean} [withProofs] whether proofs are looked at too
 * @returns {Promise<Built>}
 */
export async function find(clone, program, withProofs = false) {
    const none = { program, isFresh: false, reason: "", isListed: false, sha256: "", kit: "" };
    if (!isThere(program)) {
        return none;
    }
    const listed = readList(program, withProofs);
    if (listed) {
        const changed = await differing(clone, program, listed);
        const reason = changed && `${changed.replace(/\/$/, "")} isn't as it was when the program was built`;
        const sha256 = listed.states.get(program.place)?.known ?? "";
        return { program, isFresh: !changed, reason, isListed: !changed, sha256, kit: listed.kit };
    }
    if (!program.isProved || program.isWasm) {
        return none;
    }
    const changed = changedSince(clone, program);
    return { ...none, isFresh: !changed, reason: changed && `${changed} is younger than the program` };
}

/**
 * What is known of the proved program: as native code, else as WebAssembly where that is the one that is fresh.
 * @param {Clone} clone @param {boolean} [withProofs] whether proofs are looked at too
 * @returns {Promise<Built>}
 */
export async function findProved(clone, withProofs = false) {
    const found = await find(clone, clone.proved, withProofs);
    const other = found.isFresh ? found : await find(clone, clone.wasm, withProofs);
    return other.isFresh ? other : found;
}

/**
 * What a run's context says of a program; its hash, where it isn't known yet, only if it is asked for.
 * @param {Built} built @param {boolean} asksHash
 * @returns {Promise<import("./context.js").Build>}
 */
export async function buildOf(built, asksHash) {
    const state = !built.program.isProved ? "unproved" : built.isListed ? "proved" : "unknown";
    const sha256 = built.sha256 || (asksHash ? (await import("./hash.js")).sha256Of(built.program.path) : "");
    return { state, sha256, kit: built.kit };
}
