/**
 * What railplan needs where it has no clone: its launcher, shell, documents and examples, the program in each form that is
 * there, and what else comes of Debian's packages: the packed scripts of pages, and the XML reader. Installations and releases
 * are made of it.
 */
import { chmodSync, copyFileSync, existsSync, readdirSync, statSync, writeFileSync } from "node:fs";
import { dirname, join } from "node:path";
import { bash, zsh } from "../both/completions.js";
import { manPage } from "../both/manual.js";
import { VERSION } from "../both/version.js";
import { Clone, find } from "./built.js";
import { packedScripts } from "./bundle.js";
import { makeFolders } from "./files.js";

/** @typedef {import("./built.js").Built} Built */

/** the line by which the manual page is known */
export const MAN_MARK = '.\\" manual page of railplan, made by railplan install';
// what of a clone or of a release is needed, where it is there
const NEEDED = ["railplan", "railplan.cmd", "PROVED", "README.md", "CHANGES.md", "THEOREM.md", "shell", "docs", "examples"];
/** where Debian has the XML reader, what of it is needed, and where railplan carries it */
const READER = "/usr/share/nodejs/sax", READER_FILES = ["package.json", "lib/sax.js"], CARRIED = "shell/node_modules/sax";
/** where Debian says whose the XML reader is, which goes along with it; and where railplan carries that */
const READER_NOTICE = "/usr/share/doc/libjs-sax/copyright";
export const NOTICE = `${CARRIED}/copyright`;
const UNNEEDED = new Set(["tests", "types", "__pycache__", "check", "checking", "printed"]);

/**
 * The manual page and the completions, by their paths below a prefix.
 * @returns {Map<string, string>}
 */
export function texts() {
    return new Map([["share/man/man1/railplan.1", `${MAN_MARK}\n${manPage(VERSION)}`],
        ["share/bash-completion/completions/railplan", bash()], ["share/zsh/site-functions/_railplan", zsh()]]);
}

/**
 * Copies a file or a folder, with the rights that everybody has.
 * @param {string} from @param {string} to
 */
export function copy(from, to) {
    if (statSync(from).isDirectory()) {
        makeFolders(to);
        readdirSync(from).filter((/** @type {string} */ it) => !UNNEEDED.has(it))
            .forEach((/** @type {string} */ it) => copy(join(from, it), join(to, it)));
    } else {
        makeFolders(dirname(to));
        copyFileSync(from, to);
        chmodSync(to, statSync(from).mode & 0o111 ? 0o755 : 0o644);
    }
}

/**
 * Copies all but the programs; scripts that can't be packed here are packed where they are used.
 * @param {string} top @param {string} to
 */
export function copyShell(top, to) {
    NEEDED.filter((it) => existsSync(join(top, it))).forEach((it) => copy(join(top, it), join(to, it)));
    for (const [name, script] of packedScripts(top)) {
        makeFolders(dirname(join(to, name)));
        writeFileSync(join(to, name), script);
    }
    if (!existsSync(join(to, CARRIED)) && existsSync(READER)) {
        READER_FILES.forEach((name) => copy(join(READER, name), join(to, CARRIED, name)));
        if (existsSync(READER_NOTICE)) {
            copy(READER_NOTICE, join(to, NOTICE));
        }
    }
}

/**
 * Copies the programs that are fresh beside the one that is run: as native code and as WebAssembly.
 * @param {Clone} clone @param {string} to
 * @param {Built} built the one that is run
 * @returns {Promise<Built[]>} those in the new place
 */
export async function copyPrograms(clone, to, built) {
    const there = new Clone(to), copies = [];
    /** @type {("proved" | "wasm" | "quick" | "quickWasm")[]} */
    const forms = built.program.isProved ? ["proved", "wasm"] : ["quick", "quickWasm"];
    for (const form of forms) {
        const found = await find(clone, clone[form]);
        if (found.isFresh) {
            copy(found.program.path, there[form].path);
            chmodSync(there[form].path, 0o755);
            copies.push({ ...found, program: there[form] });
        }
    }
    return copies;
}
