/** PROVED: what a release was made of, in lines, and how whoever has it makes the same bytes again. */
import { createHash } from "node:crypto";
import { readFileSync } from "node:fs";
import { join } from "node:path";
import { VERSION } from "../both/version.js";
import { git } from "./gate_passed.js";

/** @typedef {{commit: string, time: number, kit: string, logic: string, sources: string, native: string, wasm: string,
 * proofs: string, tools: string}} Made what a release was made of: the commit and its time, the kit and its logic, one sum over
 * all sources, the SHA-256 of the program in both forms, the last line of its proofs, and what packed it */

/**
 * One sum over all files of the commit, as the line in PROVED makes it.
 * @param {string} top
 * @returns {string}
 */
export function sumOfSources(top) {
    const sumOf = (/** @type {Buffer | string} */ data) => createHash("sha256").update(data).digest("hex");
    const inOrder = (/** @type {string} */ one, /** @type {string} */ other) => Buffer.compare(Buffer.from(one), Buffer.from(other));
    const names = git(top, "ls-files", "-z").split("\0").filter(Boolean).sort(inOrder);
    return sumOf(names.map((name) => `${sumOf(readFileSync(join(top, name)))}  ${name}\n`).join(""));
}

/**
 * The text.
 * @param {Made} made
 * @returns {string}
 */
export function provedText({ commit, time, kit, logic, sources, native, wasm, proofs, tools }) {
    return `railplan ${VERSION}: what was proved, and how to make the same bytes again

version  ${VERSION}
commit   ${commit}
date     ${new Date(time * 1000).toISOString().slice(0, 10)}
kit      ${kit}
logic    ${logic}
sources  ${sources}
native   ${native}
wasm     ${wasm}
proofs   ${proofs}
tools    ${tools}

The gate of this commit passed: the kit checked every proof, and the program was built from what it proved.
THEOREM.md says what each answer means, and docs/trust/trusted.md what isn't proved. The line \`proofs\` is the
last one that the kit's command \`rt ci\` printed. All sums are SHA-256. \`native\` is the program for Linux
on 64-bit Intel and AMD processors, \`wasm\` the same program as WebAssembly, for Node on any other
system; it was tried on Linux alone.

To see that a release is whole, in its folder:

    sha256sum -c SHA256SUMS

To see which program you have, where it is installed or unpacked:

    railplan version

To make it again, on Debian with git and the kit that is named above, whose folder with rt is on the PATH:

    git checkout ${commit}
    git ls-files -z | LC_ALL=C sort -z | xargs -0 sha256sum | sha256sum
    .ci/run
    ./railplan release OUT

The second line prints the sum that \`sources\` has. The third proves and checks everything, which takes
long. The last writes the same files into OUT, byte for byte, if the tools are those that are named above.
`;
}
