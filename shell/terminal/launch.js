/** The launcher: from the words of a command line to the program's answer, and what is said of it. */
import { fileURLToPath } from "node:url";
import { COMMANDS, OWN, PAGE_WORDS, fault, read } from "../both/words.js";
import { quotedLine } from "../both/quoted.js";
import { ownWords } from "./bytes.js";
import { Clone } from "./built.js";
import * as files from "./files.js";
import { contextFor } from "./programs.js";
import { Ended, called, closeOutput, end, isTerminal, say, why, writeOutput } from "./say.js";
import { ignoredOf, listen } from "./signals.js";

/** @typedef {import("./context.js").Context} Context */
/** @typedef {import("../both/engine.js").Ran} Ran */
/** @typedef {import("../both/words.js").Line} Line */

const IGNORED = "--ignored=";
const SEARCHED = ["draw", "signals", "redraw", "explain", "graph"];
const JUDGES = ["verify", "check", "trim", "recheck"];

/**
 * Says what a run's end means where that isn't what was asked for, and what a drawing doesn't show; on a terminal also what a
 * judge's answer means.
 * @param {Line} line @param {{status: number, output: Uint8Array}} ran @param {Context} [context]
 * @param {import("../both/messages/seen.js").Seen} [seen] what is seen of the run's files
 */
export async function tell(line, ran, context, seen) {
    if (ran.status || SEARCHED.includes(line.command) || JUDGES.includes(line.command) && isTerminal()) {
        const telling = await import("./tell.js");
        await telling.tell(line, ran, context?.engine ?? null, context?.signal, seen);
    }
}

/**
 * Gives the answer of a run: as the program printed it, with what is said of it, or all of it as JSON.
 * @param {Line} line @param {{status: number, output: Uint8Array}} ran @param {Context} [context]
 * @param {import("../both/messages/seen.js").Seen} [seen] what is seen of the run's files
 * @param {() => void} [close] what is done behind the output, before more is said
 */
export async function giveAnswer(line, ran, context, seen, close = () => undefined) {
    if (line.isJson) {
        const { printAnswer } = await import("./json_answer.js");
        await printAnswer(line, ran, context, seen);
        return close();
    }
    writeOutput(ran.output);
    close();
    return tell(line, ran, context, seen);
}

/**
 * Before anything is built a fault of the words, or an input that can't be read, is answered as the program does.
 * @param {Line} line
 */
async function answerUnrun(line) {
    const wrong = fault(line.words);
    const answer = wrong ? { status: 2, text: wrong.line() } : files.unread(line);
    if (answer) {
        await giveAnswer(line, { status: answer.status, output: Buffer.from(`${answer.text}\n`) });
        end(answer.status);
    }
}

/**
 * Runs the program; a command that may take long is watched where somebody sees it.
 * @param {Context} context @param {Line} line
 * @returns {Promise<Ran>}
 */
export async function runProgram(context, line) {
    const { engine, signal } = context;
    if (!COMMANDS.get(line.command)?.takesLong || fault(line.words)) {
        return engine.run({ words: line.words, signal });
    }
    if (isTerminal()) {
        const { runWatched } = await import("./progress.js");
        return runWatched(context, line);
    }
    const ran = await engine.run({ words: line.words, signal });
    if (ran.wasStopped) {
        const { stopped } = await import("./progress.js");
        await stopped(line, ran);
    }
    return ran;
}

/**
 * The program's own answer to no words, which nobody should wait for.
 * @param {Line} line
 */
async function noWords(line) {
    await giveAnswer(line, { status: 2, output: Buffer.from("words 1 NoCommand 1\n") }, undefined, undefined, closeOutput);
    end(2);
}

/**
 * Ends a run whose words lack something before the program's words are looked at.
 * @param {Line} line
 */
async function refuseLacking(line) {
    if (!line.words.length && !line.pages.size && !line.lacking) {
        await noWords(line);
    }
    try {
        process.cwd();
    } catch {
        end(10, "the current folder isn't there any more. Go to another one: cd ~");
    }
    if (line.lacking) {
        const given = line.words.length > 1 ? quotedLine(line.words) : `${line.command || "draw"} FILE`;
        const value = PAGE_WORDS.get(line.lacking)?.value;
        end(2, `behind ${line.lacking} its value is missing: ${called()} ${line.lacking} ${value} ${given}`);
    }
}

/**
 * Runs the program's words, by way of pages where page words are among them.
 * @param {import("./programs.js").Asking} asking @param {Line} line
 * @returns {Promise<number>}
 */
async function runWords(asking, line) {
    if (line.pages.size && !fault(line.words)) {
        (await import("./page_command.js")).refuse(line);
    }
    if (line.pages.has("--html")) {
        // what pages need is looked for before a program is built
        (await import("./bundle.js")).scriptOf(asking.clone.top);
    }
    const context = await contextFor(asking, line);
    if (line.pages.size) {
        const { refuse, runPage } = await import("./page_command.js");
        refuse(line);
        return runPage(context, line);
    }
    const ran = await runProgram(context, line);
    if (!ran.wasStopped || line.isJson) {
        await giveAnswer(line, ran, context, undefined, closeOutput);
    }
    return ran.status;
}

/**
 * @param {Clone} clone @param {string[]} given @param {string[]} ignored the signals that are ignored
 * @returns {Promise<number>}
 */
async function run(clone, given, ignored) {
    const signal = listen(ignored), line = read(given);
    const asking = { clone, called: called(), signal, isApart: ignored.length > 0 };
    if (line.asksHelp || OWN.has(line.command) || line.command === "--version") {
        const own = await import("./own.js");
        // the words aren't the program's, so nothing is answered in its place before it is built
        return own.run({ ...asking, before: async () => undefined, behind: () => undefined }, line, given);
    }
    await refuseLacking(line);
    files.look(line);
    const programs = { ...asking, before: () => answerUnrun(line), behind: () => files.look(line) };
    if (fault(line.words) || !line.filesWritten.length) {
        return runWords(programs, line);
    }
    const { lock, unlock } = await import("./locks.js");
    const held = lock(line);
    try {
        return await runWords(programs, line);
    } finally {
        unlock(held);
    }
}

/**
 * Prints why the launcher ended a run, where JSON is asked for; on standard error it is said by then.
 * @param {string[]} given @param {number} status @param {string} sentence
 */
async function refused(given, status, sentence) {
    const line = read(given);
    if (line.isJson && sentence) {
        const { printRefusal } = await import("./json_answer.js");
        printRefusal(line, status, sentence);
    }
    return status;
}

/**
 * What an error says that isn't an end.
 * @param {unknown} error
 * @returns {string}
 */
function unforeseen(error) {
    const { code, syscall, path } = /** @type {{code?: string, syscall?: string, path?: string}} */ (error);
    if (code && syscall) {
        return `${path ?? "the system"}: ${why(error)}`;
    }
    const { name, message } = /** @type {Error} */ (error);
    return `this is a fault of the launcher itself, so nothing more is known: ${name}: ${message}`;
}

/**
 * The whole: the status with which the launcher ends.
 * @returns {Promise<number>}
 */
export async function main() {
    const { given } = ownWords();
    const mask = given[0]?.startsWith(IGNORED) ? given.splice(0, 1)[0].slice(IGNORED.length) : "";
    try {
        const top = fileURLToPath(new URL("../..", import.meta.url)).replace(/\/$/, "");
        return await run(new Clone(top), given, ignoredOf(mask));
    } catch (error) {
        if (error instanceof Ended) {
            return refused(given, error.status, error.sentence);
        }
        say(unforeseen(error));
        return refused(given, 10, unforeseen(error));
    }
}
