/**
 * railplan as a module for other programs of Node: it finds the program of its clone, installation or release, runs it over files in
 * memory, and gives the answers that `--json` prints. docs/formats/module.md shows how it is used.
 */
import { fileURLToPath } from "node:url";
import { answerOf } from "./both/answer.js";
import { ofLine } from "./both/places.js";
import { OWN, read } from "./both/words.js";
import { Clone, buildOf } from "./terminal/built.js";
import { engineOf, programThere } from "./terminal/programs.js";

/** @typedef {import("./both/answer.js").Answer} Answer */
/** @typedef {import("./both/engine.js").Engine} Engine */

const TOP = fileURLToPath(new URL("..", import.meta.url)).replace(/\/$/, "");
const decoder = new TextDecoder();

/**
 * What messages see of files in memory.
 * @param {Map<string, Uint8Array>} files
 * @returns {import("./both/messages/seen.js").Seen}
 */
function seenOf(files) {
    return {
        bytes: (name) => files.get(name) ?? null,
        line: (name, number) => ofLine(name, files.get(name) ?? null, number).text,
        kind: (name) => files.has(name) ? "other" : "",
        names: () => [...files.keys()],
        why: () => "",
    };
}

/** A program that was found, and what runs it. */
export class Railplan {
    /** @param {Engine} engine @param {import("./both/answer.js").Ran} program */
    constructor(engine, program) {
        this.engine = engine;
        /** which program it is: `state` is `proved`, `unproved` or `unknown` */
        this.program = program;
    }

    /**
     * Runs the program with its words, over files in memory.
     * @param {string[]} words as on a command line, without words of the launcher
     * @param {Map<string, Uint8Array>} [files] what the names among the words stand for; what the run writes is added
     * @param {AbortSignal} [signal] stops the run, whose status is then 130
     * @returns {Promise<Answer>} the object that `--json` prints; a fault of the words or of a file is in it, and no exception
     */
    async run(words, files = new Map(), signal) {
        const line = read(words), { engine } = this;
        if (line.words.length < words.length || OWN.has(line.command)) {
            throw new TypeError(`these are words of the launcher, and the program doesn't know them: ${words.join(" ")}`);
        }
        const { status, output, files: written } = await engine.run({ words, files, signal });
        written.forEach((data, name) => files.set(name, data));
        const graph = async () => {
            const ran = await engine.run({ words: ["graph", line.filesRead[0]?.word ?? ""], files, signal });
            return ran.status ? [] : decoder.decode(ran.output).split("\n").slice(0, -1);
        };
        return answerOf({ line, status, output, called: "railplan", seen: seenOf(files), graph }, this.program);
    }
}

/**
 * Finds the program: the proved one, or else the one without proofs. It builds none.
 * @param {{unproved?: boolean}} [asked] `unproved`: whether the one without proofs is wanted, also where a proved one is there
 * @returns {Promise<Railplan>}
 * @throws {Error} where no program of these sources is there
 */
export async function open(asked) {
    const built = await programThere(new Clone(TOP), asked?.unproved ?? false);
    if (!built) {
        throw new Error(`no program of these sources is built. This builds one: ${TOP}/railplan draw FILE`);
    }
    const engine = await engineOf(built.program, false);
    return new Railplan(engine, { ...await buildOf(built, true), form: engine.kind });
}
