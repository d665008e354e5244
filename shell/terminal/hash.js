/** The SHA-256 of files: apart, as most runs need none. */
import { createHash } from "node:crypto";
import { existsSync, readFileSync, readdirSync } from "node:fs";
import { join } from "node:path";

/** @param {string} name @returns {string} */
export function sha256Of(name) {
    return createHash("sha256").update(readFileSync(name)).digest("hex");
}

/**
 * One hash over all modules and styles of some folders of the shell, and of the folders in these, by their names and contents.
 * @param {string} shell the folder of the shell
 * @param {string[]} folders
 * @returns {string}
 */
export function sumOfModules(shell, folders) {
    const sum = createHash("sha256");
    const add = (/** @type {string} */ folder) => {
        const there = existsSync(join(shell, folder)) ? readdirSync(join(shell, folder), { withFileTypes: true }) : [];
        for (const it of there.sort((/** @type {{name: string}} */ one, /** @type {{name: string}} */ other) => one.name < other.name ? -1 : 1)) {
            if (it.isDirectory()) {
                add(`${folder}/${it.name}`);
            } else if (/\.(js|css|html)$/.test(it.name)) {
                sum.update(`${folder}/${it.name}\n`).update(readFileSync(join(shell, folder, it.name)));
            }
        }
    };
    folders.forEach(add);
    return sum.digest("hex");
}
