/** What a page carries: a script in one piece, bytes in base64, and what the browser may do with it. */
import { spawnSync } from "node:child_process";
import { createHash } from "node:crypto";
import { dirname, join } from "node:path";
import { fileURLToPath } from "node:url";
import { gzipSync } from "node:zlib";
import { together } from "./together.js";

const SHELL = dirname(dirname(fileURLToPath(import.meta.url)));
/** where Debian has the packages of node */
const PACKAGES = "/usr/share/nodejs";
/** the XML reader that is packed in; what of node it may use is left out */
const READER = ["--alias:#sax=sax", "--external:stream", "--external:string_decoder"];
/** what goes along with the XML reader wherever it is packed in, as its licence asks */
const READER_NOTICE = `/*! Packed in: the XML reader sax. Copyright (c) Isaac Z. Schlueter and contributors. The ISC licence:
Permission to use, copy, modify, and/or distribute this software for any purpose with or without fee is hereby granted, provided that the
above copyright notice and this permission notice appear in all copies. THE SOFTWARE IS PROVIDED "AS IS" AND THE AUTHOR DISCLAIMS ALL
WARRANTIES WITH REGARD TO THIS SOFTWARE INCLUDING ALL IMPLIED WARRANTIES OF MERCHANTABILITY AND FITNESS. IN NO EVENT SHALL THE AUTHOR BE
LIABLE FOR ANY SPECIAL, DIRECT, INDIRECT, OR CONSEQUENTIAL DAMAGES OR ANY DAMAGES WHATSOEVER RESULTING FROM LOSS OF USE, DATA OR PROFITS,
WHETHER IN AN ACTION OF CONTRACT, NEGLIGENCE OR OTHER TORTIOUS ACTION, ARISING OUT OF OR IN CONNECTION WITH THE USE OR PERFORMANCE OF THIS
SOFTWARE. */`;
export const NO_BUNDLER = "esbuild isn't there, which packs the script of a page. Install it: apt install esbuild";

/** A script couldn't be made. */
export class NotBundled extends Error {}

const WORDS = ["--bundle", "--minify", "--target=es2022", "--charset=utf8", "--log-level=error", ...READER];
const environment = () => ({ ...process.env, NODE_PATH: PACKAGES });

/**
 * A module of the shell with all that it imports, as one script.
 * @param {string} entry its path from shell/
 * @throws {NotBundled}
 */
export function bundled(entry) {
    const ran = spawnSync("esbuild", [join(SHELL, entry), ...WORDS, "--format=iife"], { encoding: "utf8", env: environment(), maxBuffer: 1 << 26 });
    if (ran.error) {
        throw new NotBundled(NO_BUNDLER);
    }
    if (ran.status !== 0) {
        throw new NotBundled(`${entry} couldn't be packed: ${ran.stderr}`);
    }
    return ran.stdout;
}

/**
 * Two modules of the shell that read XML, each with all that it imports as one script; what both have is at the beginning of both.
 * @param {[string, string]} entries
 * @returns {[string, string]}
 * @throws {NotBundled}
 */
export function bundledTogether(entries) {
    const [one, other] = entries.map((it) => join(SHELL, it)), { texts, why, isThere } = together([one, other], WORDS, READER_NOTICE, environment());
    if (!isThere) {
        throw new NotBundled(NO_BUNDLER);
    }
    if (why) {
        throw new NotBundled(`${entries.join(" and ")} couldn't be packed: ${why}`);
    }
    return texts;
}

/**
 * Bytes packed by gzip, in base64; the same bytes give the same text.
 * @param {Uint8Array} bytes
 */
export function packed(bytes) {
    const made = gzipSync(bytes, { level: 9 });
    // the system that packed them is no part of what is packed
    made[9] = 255;
    return made.toString("base64");
}

/** the source expression of a script or style, by its SHA-256
 * @param {string} text */
export function sourceOf(text) {
    return `'sha256-${createHash("sha256").update(text).digest("base64")}'`;
}

/**
 * Data for a script element: no part of it is taken for markup.
 * @param {unknown} data
 */
export function written(data) {
    return JSON.stringify(data).replaceAll("<", "\\u003c");
}
