/** What `--json` prints: the answer of a run as one object, in place of the program's text and of what is said of it. */
import { answerOf, refusalOf } from "../both/answer.js";
import { bytesOf } from "./bytes.js";
import { called, writeOutput } from "./say.js";
import { SEEN } from "./seen_files.js";
import { graphOf } from "./tell.js";

/** @typedef {import("./context.js").Context} Context */
/** @typedef {import("../both/words.js").Line} Line */

/** one object is printed, and no second one where a run that answered ends otherwise */
let isPrinted = false;

/** @param {import("../both/answer.js").Answer} answer */
function print(answer) {
    if (isPrinted) {
        return;
    }
    isPrinted = true;
    writeOutput(bytesOf(`${JSON.stringify(answer, null, 1)}\n`));
}

/**
 * Prints the answer of a run of the program, or of one whose words or files were refused before it.
 * @param {Line} line @param {{status: number, output: Uint8Array}} ran @param {Context} [context]
 * @param {import("../both/messages/seen.js").Seen} [seen] what is seen of the run's files
 */
export async function printAnswer(line, { status, output }, context, seen = SEEN) {
    const graph = () => graphOf(context?.engine ?? null, line.filesRead[0]?.word, context?.signal);
    const program = context ? { ...context.build, form: context.engine.kind } : null;
    print(await answerOf({ line, status, output, called: called(), seen, graph }, program));
}

/**
 * Prints why the launcher ended a run before the program.
 * @param {Line} line @param {number} status @param {string} sentence
 */
export function printRefusal(line, status, sentence) {
    print(refusalOf(line.words, status, sentence));
}
