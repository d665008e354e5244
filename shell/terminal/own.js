/** What the launcher does itself: help, version, prove, install, folder and prepare. */
import { readFileSync } from "node:fs";
import { join } from "node:path";
import { FIRST_BUILD, UNPROVED_BUILD, find, findProved, hasSources, isThere } from "./built.js";
import { bytesOf } from "./bytes.js";
import { closeOutput, end, say, writeOutput } from "./say.js";
import { allCommands, ofCommand, overview, usage } from "../both/manual.js";
import { contextFor } from "./programs.js";
import { VERSION } from "../both/version.js";
import { COMMANDS, OWN } from "../both/words.js";
import { ownOptions } from "./own_options.js";

/** @typedef {import("./built.js").Clone} Clone */
/** @typedef {import("./programs.js").Asking} Asking */
/** @typedef {import("../both/words.js").Command} Command */
/** @typedef {import("../both/words.js").Line} Line */

/** the commands that take their words apart themselves */
const TAKING = ["folder", "stations", "prepare"];

/** how long builds take, in words */
export const TIMES = { first: FIRST_BUILD, quick: UNPROVED_BUILD };

/** @param {string} text @returns {number} */
function show(text) {
    writeOutput(bytesOf(text));
    closeOutput();
    return 0;
}

/**
 * Refuses words before the command that don't go with it.
 * @param {Line} line @param {Command} command @param {string} called @param {boolean} runs whether the command runs the program
 */
function refuseBefore(line, command, called, runs) {
    const fronts = line.frontWords.filter((it) => !runs || it !== "--unproved"), before = [...line.pages.keys(), line.lacking, ...fronts].find(Boolean);
    if (before) {
        end(2, `${before} doesn't go with ${command.word}: ${called} ${usage(command)}`);
    }
}

/**
 * Runs a command that takes its words apart by itself.
 * @param {Asking} asking @param {Line} line @param {string[]} given
 * @returns {Promise<number>}
 */
async function runTaking(asking, line, given) {
    if (line.command === "folder") {
        return (await import("./folder.js")).run(asking, given);
    }
    refuseBefore(line, /** @type {Command} */ (OWN.get(line.command)), asking.called, true);
    const contextOf = () => contextFor(asking, line);
    return line.command === "prepare" ? (await import("./prepare_command.js")).run(line, contextOf)
        : (await import("./stations_command.js")).run(await contextOf(), line);
}

/**
 * The help, or that of the command that is named.
 * @param {Line} line @param {string} called
 * @returns {Promise<number>}
 */
async function help(line, called) {
    const isHelp = line.command === "help";
    const [named = "", more] = isHelp ? line.words.slice(1) : line.words;
    if (!named || named === "--version") {
        return show(overview(called, TIMES));
    }
    const command = allCommands().get(named);
    if (!command) {
        const { unknownHelp } = await import("../both/messages/word_faults.js");
        return end(2, unknownHelp(named, called));
    }
    if (isHelp && more !== undefined) {
        end(2, `\`${more}\` is one name too many: ${called} ${usage(/** @type {Command} */ (OWN.get("help")))}`);
    }
    return show(ofCommand(command, called));
}

/**
 * The commit that a release was made from, as its PROVED says.
 * @param {Clone} clone
 * @returns {string[]}
 */
function commitOf({ top }) {
    try {
        return [`commit: ${/^commit +(.+)$/m.exec(readFileSync(join(top, "PROVED"), "utf-8"))?.[1] ?? ""}`];
    } catch {
        return [];
    }
}

/**
 * Version, program, whether it is proved, and the kit that proved it.
 * @param {Clone} clone @param {string} called
 * @returns {Promise<number>}
 */
async function version(clone, called) {
    const proved = await findProved(clone);
    const by = (/** @type {string} */ kit) => kit ? ` with ${kit}` : "";
    const lines = [`railplan ${VERSION}`];
    if (proved.isFresh && proved.isListed) {
        const from = hasSources(clone) ? " and built from these sources" : "";
        const as = proved.program.isWasm ? ", as WebAssembly" : "";
        lines.push(`program: proved${from}${by(proved.kit)}${as}`, ...commitOf(clone), `SHA-256: ${proved.sha256}`);
        const { reason } = await findProved(clone, true);
        lines.push(...reason ? [`proofs: ${reason}; ${called} prove proves what isn't proved yet`] : []);
        return show(`${lines.join("\n")}\n`);
    }
    const { sha256Of } = await import("./hash.js");
    if (proved.isFresh) {
        lines.push("program: not known to be proved: something else than railplan built it");
        lines.push(`SHA-256: ${sha256Of(clone.proved.path)}`);
        return show(`${lines.join("\n")}\n`);
    }
    const quick = await find(clone, clone.quick);
    const next = `the next run builds it without proofs, in ${UNPROVED_BUILD}`;
    if (quick.isFresh) {
        lines.push(`program: built from these sources without proofs${by(quick.kit)}`, `SHA-256: ${quick.sha256}`);
    } else if (isThere(clone.proved)) {
        lines.push(`program: not that of these sources: ${proved.reason}; ${next}`, `SHA-256: ${sha256Of(clone.proved.path)}`);
    } else {
        lines.push(`program: not built yet; ${next}`);
    }
    lines.push(`proofs: ${called} prove proves and builds it, in ${FIRST_BUILD}`);
    return show(`${lines.join("\n")}\n`);
}

/**
 * Proves and builds the program, unless it is there, and says what came of it.
 * @param {Asking} asking
 * @returns {Promise<number>}
 */
async function prove({ clone, called, signal }) {
    const { build } = await import("./building.js");
    try {
        await build(clone, signal);
    } catch (error) {
        if (signal.aborted) {
            say(`what is proved by now is kept: ${called} prove goes on from there`);
        }
        throw error;
    }
    return version(clone, called);
}

/**
 * Runs a command of the launcher itself.
 * @param {Asking} asking @param {Line} line @param {string[]} given
 * @returns {Promise<number>}
 */
export async function run(asking, line, given) {
    const { clone, called } = asking;
    if (line.asksHelp || line.command === "help") {
        return help(line, called);
    }
    if (line.isJson) {
        end(2, `--json doesn't go with ${line.command}: it is for ${[...COMMANDS.keys()].join(", ")}`);
    }
    if (TAKING.includes(line.command)) {
        return runTaking(asking, line, given);
    }
    const command = /** @type {Command} */ (OWN.get(line.command.replace(/^-+/, "")));
    refuseBefore(line, command, called, false);
    ownOptions(command, line.words.slice(1));
    switch (line.command) {
        case "prove":
            return prove(asking);
        case "install":
        case "uninstall":
            return (await import("./install.js")).run(asking, line);
        case "release":
            return (await import("./release_command.js")).run(asking, line);
        case "setup":
            return (await import("./setup_command.js")).run(clone);
        case "browser":
            return (await import("./browser_command.js")).run(asking, line);
        case "check-page":
            return (await import("./check_page_command.js")).run(await contextFor(asking, line), line);
        default:
            return version(clone, called);
    }
}
