/** Where the tests find the clone's files, and runs without a system's files. */
import { spawnSync } from "node:child_process";
import { existsSync, mkdtempSync, readFileSync, rmSync, writeFileSync } from "node:fs";
import { tmpdir } from "node:os";
import { fileURLToPath } from "node:url";
import { linesOf } from "../both/messages/telling.js";
import { ofLine } from "../both/places.js";
import { read } from "../both/words.js";

/** @typedef {import("../both/messages/telling.js").Run} Run */

export const TOP = fileURLToPath(new URL("../../", import.meta.url));
/** the proved program, or else the one without proofs; neither may be there */
export const PROGRAM = [`${TOP}crates/railplan_main/out/railplan_main`, `${TOP}crates/railplan_main/out/quick/railplan_main`]
    .find(existsSync) ?? "";
export const hasProgram = PROGRAM !== "";

/**
 * A file of the clone, a sign for each byte.
 * @param {string} name @returns {string}
 */
export function signs(name) {
    return readFileSync(TOP + name, "latin1");
}

/**
 * The lines that the program prints for a file.
 * @param {string | Uint8Array} data bytes, or a sign for each @param {string} [command]
 * @returns {string[]}
 */
export function printed(data, command = "graph") {
    const folder = mkdtempSync(`${tmpdir()}/railplan-`);
    try {
        writeFileSync(`${folder}/s.xml`, data, "latin1");
        return linesOf(spawnSync(PROGRAM, [command, `${folder}/s.xml`]).stdout);
    } finally {
        rmSync(folder, { recursive: true });
    }
}

/**
 * A text in which each edit's text is replaced at its first place.
 * @param {string} text @param {string[][]} edits @returns {string}
 */
export function edited(text, edits) {
    return edits.reduce((so, [old, now]) => {
        if (!so.includes(old)) {
            throw new Error(`no ${old}`);
        }
        return so.replace(old, () => now);
    }, text);
}

/**
 * A run over files in memory.
 * @param {string[]} words @param {string} output @param {Record<string, string>} files each with a sign for each byte
 * @param {{status?: number, graph?: string[]}} [more]
 * @returns {Run}
 */
export function runOver(words, output, files, more = {}) {
    const bytes = (/** @type {string} */ name) => (name in files ? new Uint8Array(Buffer.from(files[name], "latin1")) : null);
    const seen = {
        bytes,
        line: (/** @type {string} */ name, /** @type {number} */ number) => ofLine(name, bytes(name), number).text,
        kind: (/** @type {string} */ name) => /** @type {"other" | ""} */ (name in files ? "other" : ""),
        names: () => Object.keys(files),
        why: () => "",
    };
    return { line: read(words), status: more.status ?? 1, output: new TextEncoder().encode(output), called: "./railplan", seen,
        graph: async () => more.graph ?? [] };
}
