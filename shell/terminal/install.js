/**
 * Makes railplan a command of its own, which needs its clone no more: what it needs is copied into PREFIX/lib/railplan, with a
 * link in PREFIX/bin, the manual page and completions; and takes all of it away again. With DESTDIR the files go below that
 * folder, for who makes packages.
 */
import {
    existsSync, lstatSync, readFileSync, realpathSync, renameSync, rmSync, rmdirSync, symlinkSync, unlinkSync, writeFileSync,
} from "node:fs";
import { homedir } from "node:os";
import { dirname, join, relative, resolve } from "node:path";
import { list } from "./built.js";
import { MAN_MARK, copyPrograms, copyShell, texts } from "./carried.js";
import { makeFolders } from "./files.js";
import { programFor } from "./programs.js";
import { codeOf, end, say, why } from "./say.js";
import { MARK } from "../both/completions.js";

/** @typedef {import("./built.js").Built} Built */
/** @typedef {import("./programs.js").Asking} Asking */
/** @typedef {import("../both/words.js").Line} Line */

const LIB = "lib/railplan", LINK = "bin/railplan";
// the list of the folders that install made for its files, which tells its folder from those of others
const MADE = `${LIB}/made-by-install`;

/** @param {string} path @returns {any} */
function there(path) {
    return lstatSync(path, { throwIfNoEntry: false });
}

/**
 * whether install wrote this file
 * @param {string} path @returns {boolean}
 */
function isOurs(path) {
    const front = there(path)?.isFile() ? readFileSync(path).subarray(0, 200).toString("utf-8") : "";
    return front.includes(MAN_MARK) || front.includes(MARK);
}

/**
 * whether this is a link to the launcher of an installation, or of this clone
 * @param {string} link @param {string[]} targets @returns {boolean}
 */
function isOurLink(link, targets) {
    try {
        return there(link).isSymbolicLink() && targets.some((it) => existsSync(it) && realpathSync(link) === realpathSync(it));
    } catch {
        return false;
    }
}

/** The places of an installation: the prefix, and where its files are, which is below DESTDIR. */
class Places {
    /** @param {Line} line @param {string} top */
    constructor(line, top) {
        const named = (line.words[1] ?? "~/.local").replace(/^~(?=\/|$)/, homedir());
        this.prefix = resolve(named);
        this.root = process.env.DESTDIR ? join(resolve(process.env.DESTDIR), this.prefix) : this.prefix;
        this.link = join(this.root, LINK);
        this.lib = join(this.root, LIB);
        this.made = join(this.root, MADE);
        this.targets = [join(this.lib, "railplan"), join(top, "railplan")];
    }
}

/**
 * Ends the run where something of others would be written over.
 * @param {Places} places
 */
function refuseOthers({ root, link, lib, made, targets }) {
    if (there(link) && !isOurLink(link, targets)) {
        end(2, `${link} is there and isn't a link to this railplan. Name another folder, or delete it`);
    }
    const others = [...texts().keys()].map((name) => join(root, name)).filter((path) => there(path) && !isOurs(path));
    if (there(lib) && !there(made)) {
        others.push(lib);
    }
    if (others.length) {
        end(2, `${others[0]} is there, and railplan didn't make it. Name another folder, or delete it`);
    }
}

/**
 * Makes a folder and those above it; the folders that weren't there.
 * @param {string} path
 * @returns {string[]}
 */
function make(path) {
    const made = [];
    for (let folder = path; !existsSync(folder); folder = dirname(folder)) {
        made.unshift(folder);
    }
    makeFolders(path);
    return made;
}

/**
 * Copies what is needed beside what is there, and then in its place.
 * @param {Places} places @param {import("./built.js").Clone} clone @param {Built} built @param {string[]} made
 */
async function copyAll({ root, lib, made: list_ }, clone, built, made) {
    const part = `${lib}.${process.pid}`;
    try {
        copyShell(clone.top, part);
        for (const { program, isListed, kit } of await copyPrograms(clone, part, built)) {
            if (isListed) {
                await list(program, new Map(), kit);
            }
        }
        const former = existsSync(list_) ? readFileSync(list_, "utf-8") : "";
        writeFileSync(join(part, "made-by-install"), former + made.map((it) => `${relative(root, it) || "."}\n`).join(""));
        rmSync(lib, { recursive: true, force: true });
        renameSync(part, lib);
    } finally {
        rmSync(part, { recursive: true, force: true });
    }
}

/** @param {Asking} asking @param {Line} line @param {Places} places */
async function install(asking, line, places) {
    refuseOthers(places);
    const built = await programFor(asking, line);
    const { root, prefix, link, lib } = places;
    const files = [...texts()].map(([name, text]) => ({ path: join(root, name), text }));
    const made = [lib, link, ...files.map((it) => it.path)].flatMap((path) => make(dirname(path)));
    await copyAll(places, asking.clone, built, made);
    say(`${lib} has all that railplan needs`);
    rmSync(link, { force: true });
    symlinkSync(`../${LIB}/railplan`, link);
    say(`${link} is a link to ${join(prefix, LIB, "railplan")}`);
    for (const { path, text } of files) {
        writeFileSync(path, text);
        say(`${path} is written`);
    }
    const bin = join(prefix, "bin");
    if (!process.env.DESTDIR && !(process.env.PATH ?? "").split(":").includes(bin)) {
        say(`${bin} isn't on the PATH. Add this line to ~/.profile: PATH="${bin}:$PATH"`);
    }
}

/** @param {Places} places */
function uninstall({ root, prefix, link, lib, made, targets }) {
    const folders = existsSync(made) ? readFileSync(made, "utf-8").split("\n").filter(Boolean) : [];
    const found = isOurLink(link, targets) ? [link] : [];
    found.push(...[...texts().keys()].map((name) => join(root, name)).filter(isOurs));
    for (const path of found) {
        unlinkSync(path);
        say(`${path} is gone`);
    }
    if (there(made)) {
        rmSync(lib, { recursive: true });
        say(`${lib} is gone`);
    } else if (!found.length) {
        end(2, `nothing of railplan is in ${prefix}. Name the folder that install had`);
    }
    for (const folder of folders.reverse()) {
        try {
            rmdirSync(join(root, folder));
        } catch (error) {
            if (!["ENOTEMPTY", "ENOENT", "EEXIST"].includes(codeOf(error))) {
                throw error;
            }
        }
    }
}

/**
 * Runs install or uninstall.
 * @param {Asking} asking @param {Line} line
 * @returns {Promise<number>}
 */
export async function run(asking, line) {
    const places = new Places(line, asking.clone.top);
    try {
        if (line.command === "install") {
            await install(asking, line, places);
        } else {
            uninstall(places);
        }
    } catch (error) {
        if (!codeOf(error)) {
            throw error;
        }
        const { path } = /** @type {{path?: string}} */ (error);
        end(6, `${path ?? places.prefix}: ${why(error)}`);
    }
    return 0;
}
