/**
 * `release OUT`: of a clone whose gate passed, what users get: an archive for Node on any system, a Debian package, the
 * desk, what was proved, and the sums of all. Made again from the same commit it has the same bytes.
 */
import { spawnSync } from "node:child_process";
import {
    chmodSync, existsSync, lstatSync, lutimesSync, mkdirSync, mkdtempSync, readFileSync, readdirSync, rmSync, statSync,
    symlinkSync, writeFileSync,
} from "node:fs";
import { tmpdir } from "node:os";
import { dirname, join } from "node:path";
import { BuildFailed } from "../engine/compile.js";
import { Otherwise } from "../engine/kit.js";
import { NO_BUNDLER } from "../engine/packed.js";
import { VERSION } from "../both/version.js";
import { find, listAlone } from "./built.js";
import { deskOf, wasmFor } from "./browser_command.js";
import { SCRIPTS, packedScripts } from "./bundle.js";
import { NOTICE, copyPrograms, copyShell, texts } from "./carried.js";
import { git, needPassed } from "./gate_passed.js";
import { sha256Of } from "./hash.js";
import { provedText, sumOfSources } from "./proved_text.js";
import { end, say } from "./say.js";

/** @typedef {import("./built.js").Built} Built */
/** @typedef {import("./programs.js").Asking} Asking */

const NAME = `railplan-${VERSION}`, PACKAGE = `railplan_${VERSION}_amd64.deb`;
// where Debian's zsh looks for completions of packages
const ZSH = "share/zsh/site-functions", DEBIAN_ZSH = "share/zsh/vendor-completions";
const WINDOWS = "@echo off\r\nnode \"%~dp0railplan\" %*\r\n";

/**
 * Runs a command to its end; where it isn't there the run ends with the line that installs it.
 * @param {string[]} words @param {string} [cwd] @param {{[name: string]: string}} [more] of the environment
 * @returns {Buffer} what it printed
 */
function ran([command, ...words], cwd, more = {}) {
    const env = { ...process.env, ...more }, done = spawnSync(command, words, { cwd, env, maxBuffer: 1 << 28 });
    if (done.error) {
        const holder = command === "dpkg-deb" ? "dpkg" : command;
        return end(10, `${command} isn't there, which packs a release. Install it: apt install ${holder}`);
    }
    return done.status === 0 ? done.stdout : end(10, `${command} ended with ${done.status}: ${done.stderr.toString().trim()}`);
}

/** @param {string[]} words @returns {string} the number of its version, as a command says it, or "" */
function versionOf(...words) {
    const said = spawnSync(words[0], words.slice(1), { encoding: "utf8" }).stdout ?? "";
    return /\d+(\.\d+)*/.exec(said)?.[0] ?? "";
}

/** what packs a release, each with its version */
function tools() {
    const listed = [["node", process.version.slice(1)], ["esbuild", versionOf("esbuild", "--version")],
        ["wasm-opt", versionOf("wasm-opt", "--version")], ["tar", versionOf("tar", "--version")],
        ["gzip", versionOf("gzip", "--version")], ["dpkg-deb", versionOf("dpkg-deb", "--version")]];
    return listed.filter(([, version]) => version).map((it) => it.join(" ")).join(", ");
}

/**
 * Gives all below a folder the rights that everybody has, and one time.
 * @param {string} path @param {number} time
 */
function settle(path, time) {
    const there = lstatSync(path);
    if (there.isDirectory()) {
        readdirSync(path).forEach((/** @type {string} */ name) => settle(join(path, name), time));
    }
    if (!there.isSymbolicLink()) {
        chmodSync(path, there.isDirectory() || there.mode & 0o111 ? 0o755 : 0o644);
    }
    lutimesSync(path, time, time);
}

/** @param {string} path @param {string | Buffer} data */
function put(path, data) {
    mkdirSync(dirname(path), { recursive: true });
    writeFileSync(path, data);
}

/**
 * The folder that is packed: all that railplan needs, with both forms of its program.
 * @param {Asking} asking @param {string} to @param {Built} built @param {string} proved the text of PROVED
 */
async function fill({ clone }, to, built, proved) {
    copyShell(clone.top, to);
    (await copyPrograms(clone, to, built)).forEach(listAlone);
    put(join(to, "PROVED"), proved);
    put(join(to, "railplan.cmd"), WINDOWS);
    for (const [name, text] of texts()) {
        put(join(to, name), text);
    }
}

/** @param {string} room @param {number} time @returns {Buffer} the folder as an archive */
function archive(room, time) {
    settle(join(room, NAME), time);
    const words = ["--format=ustar", "--sort=name", `--mtime=@${time}`, "--owner=0", "--group=0", "--numeric-owner"];
    ran(["tar", ...words, "-cf", `${NAME}.tar`, NAME], room, { LC_ALL: "C" });
    return ran(["gzip", "-9nc", `${NAME}.tar`], room);
}

/** @param {string} path @returns {number} the bytes of all files below a folder */
function sizeOf(path) {
    const there = lstatSync(path);
    return there.isDirectory() ? readdirSync(path).map((/** @type {string} */ it) => sizeOf(join(path, it)))
        .reduce((/** @type {number} */ sum, /** @type {number} */ it) => sum + it, 0) : there.size;
}

/**
 * What Debian is to know of the package.
 * @param {string} maintainer @param {number} bytes
 */
const control = (maintainer, bytes) => `Package: railplan
Version: ${VERSION}
Architecture: amd64
Maintainer: ${maintainer}
Installed-Size: ${Math.ceil(bytes / 1024)}
Depends: nodejs (>= 18)
Section: science
Priority: optional
Description: track graphs and line schematics of railway stations, with proofs
 railplan reads the tracks of a station from a railML 2 file and draws their
 schematic: the best on a grid that you choose. Where it says so, it is proved
 that none is better.
`;

/**
 * Whose work is in the package, as far as that is stated.
 * @param {string} reader Debian's own text on the XML reader
 */
const copyright = (reader) => `railplan carries the XML reader sax, in /usr/lib/railplan/shell/node_modules/sax and packed into the scripts of its pages.
Of railplan itself no licence is stated here. What Debian says of the reader:

${reader}`;

/**
 * The folder of the archive as a Debian package.
 * @param {string} room @param {number} time @param {string} maintainer
 * @returns {Buffer}
 */
function debianPackage(room, time, maintainer) {
    const root = join(room, "debian"), lib = join(root, "usr/lib/railplan");
    mkdirSync(dirname(lib), { recursive: true });
    ran(["cp", "-a", join(room, NAME), lib]);
    for (const name of ["share", "railplan.cmd"]) {
        rmSync(join(lib, name), { recursive: true });
    }
    for (const [name, text] of texts()) {
        put(join(root, "usr", name.replace(ZSH, DEBIAN_ZSH)), text);
    }
    ran(["gzip", "-9n", join(root, "usr/share/man/man1/railplan.1")]);
    put(join(root, "usr/share/doc/railplan/copyright"), copyright(readFileSync(join(lib, NOTICE), "utf8")));
    mkdirSync(join(root, "usr/bin"));
    symlinkSync("../lib/railplan/railplan", join(root, "usr/bin/railplan"));
    put(join(root, "DEBIAN/control"), control(maintainer, sizeOf(join(root, "usr"))));
    settle(root, time);
    const words = ["--root-owner-group", "-Zgzip", "-z9", "--build", root, PACKAGE];
    ran(["dpkg-deb", ...words], room, { SOURCE_DATE_EPOCH: String(time) });
    return readFileSync(join(room, PACKAGE));
}

/** @param {string} out a folder that isn't there, or is empty; else the run ends with 2 */
function needEmpty(out) {
    if (!out || existsSync(out) && (!statSync(out).isDirectory() || readdirSync(out).length)) {
        end(2, out ? `${out} is there and isn't an empty folder. Name one that isn't there yet`
            : "release takes a folder for what it makes: release OUT");
    }
}

/**
 * The files of a release.
 * @param {Asking} asking @param {string} room
 * @returns {Promise<Map<string, string | Buffer>>}
 */
async function made(asking, room) {
    const { clone } = asking, { top } = clone;
    const built = await find(clone, clone.proved, true), passed = needPassed(clone, built), [kit, , logic = ""] = passed.kit.split(" ");
    if (packedScripts(top).size < SCRIPTS) {
        return end(10, NO_BUNDLER);
    }
    const wasm = await wasmFor(asking);
    if (!wasm.program.isProved) {
        return end(10, "the program as WebAssembly couldn't be made of the proved one, so nothing is released");
    }
    const time = Number(git(top, "log", "-1", "--format=%ct"));
    const proved = provedText({ commit: passed.commit, time, kit, logic, sources: sumOfSources(top), native: built.sha256,
        wasm: wasm.sha256, proofs: passed.proofs, tools: tools() });
    await fill(asking, join(room, NAME), built, proved);
    if (!existsSync(join(room, NAME, NOTICE))) {
        return end(10, "the XML reader sax isn't there, or Debian's text on its licence. Install them: apt install node-sax libjs-sax");
    }
    /** @type {Map<string, string | Buffer>} */
    const files = new Map([["PROVED", proved], ["railplan.html", deskOf(top, { ...wasm.program, kit: wasm.kit })]]);
    files.set(`${NAME}.tar.gz`, archive(room, time));
    files.set(PACKAGE, debianPackage(room, time, git(top, "log", "-1", "--format=%an <%ae>")));
    return files;
}

/**
 * Runs the command.
 * @param {Asking} asking @param {import("../both/words.js").Line} line
 * @returns {Promise<number>}
 */
export async function run(asking, line) {
    const out = line.words[1], room = mkdtempSync(join(tmpdir(), "railplan-release-"));
    needEmpty(out);
    try {
        for (const [name, data] of await made(asking, room)) {
            put(join(out, name), data);
        }
    } catch (error) {
        if (error instanceof BuildFailed || error instanceof Otherwise) {
            end(10, `${out} isn't made: ${error.message}`);
        }
        throw error;
    } finally {
        rmSync(room, { recursive: true, force: true });
    }
    const names = readdirSync(out).sort();
    put(join(out, "SHA256SUMS"), names.map((/** @type {string} */ name) => `${sha256Of(join(out, name))}  ${name}\n`).join(""));
    say(`${out} has ${names.join(", ")} and SHA256SUMS`);
    return 0;
}
