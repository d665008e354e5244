/**
 * The scripts of pages and of the desk, and their styles. A script is packed once from its modules, and kept in out/shell/ by
 * their hash.
 */
import { mkdirSync, readFileSync } from "node:fs";
import { join } from "node:path";
import { NotBundled, bundled, bundledTogether } from "../engine/packed.js";
import { writeWhole } from "./files.js";
import { sumOfModules } from "./hash.js";
import { end } from "./say.js";

/** where scripts are kept, and the module with which each begins */
const KEPT = "out/shell";
const ENTRIES = { page: "page/opened.js", worker: "page/desk_worker.js", desk: "page/desk_opened.js", begin: "page/desk_begin.js" };
const KINDS = /** @type {(keyof typeof ENTRIES)[]} */ (Object.keys(ENTRIES));
/** how many scripts there are */
export const SCRIPTS = KINDS.length;

/** @param {string} shell the folder of the shell @returns {string} what the modules of pages are, as one hash */
const sumOf = (shell) => sumOfModules(shell, ["both", "page"]);

/** @param {string} name @returns {string} what a file has, or "" */
function read(name) {
    try {
        return readFileSync(name, "utf8");
    } catch {
        return "";
    }
}

/**
 * Keeps a script for the runs to come; where nothing may be written there each run packs it anew.
 * @param {string} folder
 * @param {string} name
 * @param {string} script
 */
function keep(folder, name, script) {
    try {
        mkdirSync(folder, { recursive: true });
        writeWhole(join(folder, name), script);
    } catch {
        return;
    }
}

/**
 * The script of pages.
 * @param {string} top the folder that has shell/ in it
 * @returns {string}
 */
export const scriptOf = (top) => orEnd(() => packedScript(top, "page"));

/**
 * The script of the worker that runs the program in a page.
 * @param {string} top
 * @returns {string}
 */
export const workerOf = (top) => orEnd(() => packedScript(top, "worker"));

/** @param {() => string} make @returns {string} where it can't be packed the run ends with 10 */
function orEnd(make) {
    try {
        return make();
    } catch (error) {
        if (error instanceof NotBundled) return end(10, error.message);
        throw error;
    }
}

/**
 * A script, kept by what its modules are.
 * @param {string} top
 * @param {keyof typeof ENTRIES} kind
 * @returns {string}
 * @throws {NotBundled}
 */
export function packedScript(top, kind) {
    const [folder, name] = [join(top, KEPT), `${kind}-${sumOf(join(top, "shell"))}.js`];
    const known = read(join(folder, name));
    if (known) return known;
    if (kind === "page" || kind === "desk") {
        const [page, desk] = bundledTogether([ENTRIES.page, ENTRIES.desk]), sum = name.slice(kind.length);
        keep(folder, `page${sum}`, page);
        keep(folder, `desk${sum}`, desk);
        return kind === "page" ? page : desk;
    }
    const script = bundled(ENTRIES[kind]);
    keep(folder, name, script);
    return script;
}

/**
 * Packs all scripts, or keeps that they are packed: what lacks for it shows before a long build.
 * @param {string} top
 * @throws {NotBundled}
 */
export function packAll(top) {
    for (const kind of KINDS) packedScript(top, kind);
}

/**
 * All scripts by their places below the top, as far as they are there or can be packed.
 * @param {string} top
 * @returns {Map<string, string>}
 */
export function packedScripts(top) {
    const sum = sumOf(join(top, "shell")), found = new Map();
    for (const kind of KINDS) {
        try {
            found.set(`${KEPT}/${kind}-${sum}.js`, packedScript(top, kind));
        } catch (error) {
            if (!(error instanceof NotBundled)) throw error;
        }
    }
    return found;
}

/**
 * The styles of pages and of drawings.
 * @param {string} top
 * @returns {{page: string, drawing: string}}
 */
export function stylesIn(top) {
    return { page: readFileSync(join(top, "shell/page/page.css"), "utf8"),
        drawing: readFileSync(join(top, "shell/page/drawing.css"), "utf8") };
}
