/**
 * Two scripts of the shell that have most of their modules in common, as texts with the same beginning: what both have comes first, and is
 * stored once where both are packed. esbuild splits them into modules; here each becomes a function that hands on what it exports.
 */
import { spawnSync } from "node:child_process";
import { mkdtempSync, readFileSync, readdirSync, rmSync } from "node:fs";
import { tmpdir } from "node:os";
import { basename, join } from "node:path";

/** @typedef {{name: string, body: string, needs: string[], later: string[]}} Part a module as esbuild wrote it, with what it imports at once
 *     and what later */

/** how esbuild writes imports and exports in one line, each name with the name that it gets behind `as` */
const IMPORT = /import(?:\{([^}]*)\}from)?"\.\/([^"]+)";/g, EXPORT = /export\{([^{}]*)\};(\s*(?:\/\*![^]*?\*\/\s*)*)$/, LATER = /import\("\.\/([^"]+)"\)/g;

/** @param {string} names @param {(name: string, as: string) => string} pair @returns {string} */
const paired = (names, pair) => names.split(",").filter(Boolean).map((it) => {
    const [name, as = name] = it.trim().split(/ +as +/);
    return pair(name, as);
}).join();

/**
 * A module as a function of those that it needs.
 * @param {string} name
 * @param {string} text
 * @returns {Part}
 */
export function partOf(name, text) {
    /** @type {string[]} */
    const needs = [], later = [...text.matchAll(LATER)].map((it) => it[1]);
    const inside = text.replace(IMPORT, (_, names, from) => {
        needs.push(from);
        return names ? `const{${paired(names, (it, as) => `${it}:${as}`)}}=MODULES["${from}"];` : "";
    }).replace(LATER, (_, from) => `Promise.resolve().then(()=>MODULES["${from}"])`)
        .replace(EXPORT, (_, names, notices) => `${notices}return{${paired(names, (it, as) => `${as}:${it}`)}};`);
    return { name, body: `MODULES["${name}"]=(()=>{${inside.trimEnd()}})();`, needs, later };
}

/**
 * The modules that a module needs, at once or later, each behind those that it needs at once.
 * @param {Map<string, Part>} parts
 * @param {string} first
 * @returns {Part[]}
 */
function inOrder(parts, first) {
    /** @type {Part[]} */
    const found = [], waiting = [first], seen = new Set();
    const add = (/** @type {string} */ name) => {
        const part = parts.get(name);
        if (!part || seen.has(name)) {
            return;
        }
        seen.add(name);
        part.needs.forEach(add);
        found.push(part);
        waiting.push(...part.later);
    };
    while (waiting.length) {
        add(/** @type {string} */ (waiting.shift()));
    }
    return found;
}

/**
 * Texts in which esbuild's modules have numbers for names: its own ones are made of where the sources lie, and the same sources are to give
 * the same bytes wherever that is.
 * @param {[string, string]} texts
 * @returns {[string, string]}
 */
function numbered(texts) {
    /** @type {Map<string, string>} */
    const numbers = new Map();
    const [one, other] = texts.map((text) => text.replace(/(?<=MODULES\[)"[\w.-]+-[0-9A-Z]{8}\.js"/g, (name) => {
        numbers.set(name, numbers.get(name) ?? `"${numbers.size + 1}"`);
        return /** @type {string} */ (numbers.get(name));
    }));
    return [one, other];
}

/**
 * The texts of two scripts.
 * @param {[string, string]} entries the modules with which they begin
 * @param {string[]} words what else esbuild is to do
 * @param {string} notice the first lines of both
 * @param {NodeJS.ProcessEnv} env
 * @returns {{texts: [string, string], why: string, isThere: boolean}} why it failed, or ""; and whether esbuild is there
 */
export function together(entries, words, notice, env) {
    const room = mkdtempSync(join(tmpdir(), "railplan-"));
    try {
        const ran = spawnSync("esbuild", [...entries, ...words, "--splitting", "--format=esm", `--outdir=${room}`], { encoding: "utf8", env });
        if (ran.error || ran.status !== 0) {
            return { texts: ["", ""], why: ran.stderr ?? "", isThere: !ran.error };
        }
        const parts = new Map(readdirSync(room).sort().map((/** @type {string} */ name) => [name, partOf(name, readFileSync(join(room, name), "utf8"))]));
        const [page, desk] = entries.map((it) => inOrder(parts, basename(it))), own = basename(entries[0]);
        const common = page.filter((it) => it.name !== own), inBoth = new Set(common.map((it) => it.name));
        const text = (/** @type {Part[]} */ rest) => `${notice}\n(()=>{const MODULES={};${[...common, ...rest].map((it) => it.body).join("\n")}})();\n`;
        const texts = numbered([text(page.filter((it) => it.name === own)), text(desk.filter((it) => !inBoth.has(it.name)))]);
        return { texts, why: "", isThere: true };
    } finally {
        rmSync(room, { recursive: true, force: true });
    }
}
