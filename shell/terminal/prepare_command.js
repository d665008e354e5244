/** `prepare IN OUT`: writes a railML 2 file anew as railplan reads it, and says each change, or what would have to be
 * guessed. */
import { MOST_OF_LINE, lineTooLong, oneTwice } from "../both/file_kinds.js";
import { usage } from "../both/manual.js";
import { notesOf, unread } from "../both/messages/telling.js";
import { judge } from "../both/mending/judge.js";
import { isMarked, mended, withMark } from "../both/prepare.js";
import { quoted } from "../both/quoted.js";
import { File, OWN, read } from "../both/words.js";
import { front, isOneFile, refuseHyphen, refuseReplaced, refuseUnwritable, stateOf, writeWhole } from "./files.js";
import { ownOptions } from "./own_options.js";
import { called, end, say, why } from "./say.js";
import { SEEN } from "./seen_files.js";

const FRONT = 400;
const PREPARE = /** @type {import("../both/words.js").Command} */ (OWN.get("prepare"));

/**
 * Refuses to write over any file but one that prepare wrote, and over links, pipes, devices and folders.
 * @param {string} out @param {string} source
 */
function refuseOther(out, source) {
    const written = new File(out, "railml", true);
    refuseHyphen([written]);
    refuseReplaced(written);
    if (isOneFile(out, source)) {
        end(2, `${oneTwice(source, out)}. Name another one for what is mended`);
    }
    refuseUnwritable([written]);
    if (!stateOf(out)) {
        return;
    }
    let begun = new Uint8Array();
    try {
        begun = front(out, FRONT);
    } catch (error) {
        end(6, `${out} is there, and can't be read to see who wrote it: ${why(error)}. Name another file`);
    }
    if (begun.length && !isMarked(begun)) {
        end(2, `${out} is there, and nothing in it says that prepare wrote it. Name another file, or delete it`);
    }
}

/**
 * The file's bytes; what can't be read, or is too long, ends the run.
 * @param {string} source
 * @returns {Uint8Array}
 */
function readWhole(source) {
    let data = new Uint8Array();
    try {
        data = front(source, MOST_OF_LINE + 1);
    } catch {
        end(5, unread(source, SEEN, called()));
    }
    return data.length > MOST_OF_LINE ? end(1, lineTooLong(source)) : data;
}

/** @param {number} count @param {string} what @returns {string} */
function counted(count, what) {
    return `${count} ${what}${count === 1 ? "" : "s"}`;
}

/**
 * What the program says of a fault of what is mended, in words.
 * @param {import("../both/prepare.js").Prepared} it @param {string} fault its line
 * @returns {Promise<string>}
 */
async function faultInWords(it, fault) {
    const seen = { ...SEEN, bytes: () => it.data }, line = read(["graph", it.name]);
    const notes = await notesOf({ line, status: 1, output: Buffer.from(`${fault}\n`), called: called(), seen, graph: async () => [] });
    return notes.map((note) => note.text).join("; ") || fault;
}

/**
 * Judges what is mended by the program's own track graph; ends the run where it can't be shown that all is as it was.
 * @param {() => Promise<import("./context.js").Context>} contextOf @param {import("../both/prepare.js").Prepared} it
 * @returns {Promise<{fault: string, isLarge: boolean}>} the fault that the program finds in a file of which only the text was changed, in
 * words; and whether it is that it is too large for the program alone
 */
async function judged(contextOf, it) {
    const { engine, signal } = await contextOf(), judgement = await judge(engine, it, signal);
    if (!judgement) {
        return end(130, "stopped");
    }
    const { reason, fault, isLarge } = judgement, said = fault ? await faultInWords(it, fault) : "";
    if (reason) {
        end(1, `nothing is written: it can't be shown that each switch and crossing has the same legs and sides: ${reason}`);
    }
    if (fault && it.isRebuilt && !isLarge) {
        end(1, `nothing is written, as the program finds a fault in what is mended: ${said}`);
    }
    return { fault: said, isLarge };
}

/**
 * Writes what is mended, or a copy of what needn't be, and says which of the two it is.
 * @param {import("../both/prepare.js").Prepared} it @param {string} out @param {{fault: string, isLarge: boolean}} found what the program
 * finds in it
 */
function write(it, out, { fault, isLarge }) {
    try {
        writeWhole(out, it.changes.length ? withMark(it.data) : it.data);
    } catch (error) {
        end(6, `${out} couldn't be written: ${why(error)}`);
    }
    if (!it.changes.length) {
        say(`${out} is a copy of ${it.name}, as nothing in it is of a kind that prepare mends. ${it.called} draw `
            + `${quoted(it.name)} says whether something is wrong`);
        return;
    }
    const rest = isLarge ? `The program reads no file of this size, so this was judged by two readings of the launcher alone: by them each `
        + `switch and crossing has the legs and sides that ${it.name} says. ${it.called} stations ${quoted(out)} FOLDER cuts a line into `
        + "stations, and judges each by the program's track graph"
        : fault ? `The program still finds a fault in it: ${fault}`
        : `By the program's track graph each switch and crossing has the legs and sides that ${it.name} says. ${it.called} draw ${quoted(
            out)} draws it`;
    say(`${out} is written: ${counted(it.changes.length, "change")}. This is no part of what is proved. ${rest}`);
}

/**
 * @param {Map<string, string[]>} options
 * @returns {import("../both/prepare.js").Asked}
 */
function askedBy(options) {
    return { without: options.get("--without"), isOneKm: options.has("--one-km"), hands: options.get("--hands")?.at(-1) };
}

/**
 * Runs the command.
 * @param {import("../both/words.js").Line} line @param {() => Promise<import("./context.js").Context>} contextOf finds what runs
 * the program
 * @returns {Promise<number>} the status
 */
export async function run(line, contextOf) {
    const { names, options } = ownOptions(PREPARE, line.words.slice(1)), [source, out] = names;
    if (names.length !== 2) {
        end(2, `prepare takes a file and a name for what is mended: ${called()} ${usage(PREPARE)}`);
    }
    const data = readWhole(source);
    refuseOther(out, source);
    const it = mended(source, data, called(), askedBy(options));
    [...it.unfit ? [it.unfit] : [], ...it.changes, ...it.guesses, ...it.doubts].forEach((text) => say(text));
    if (it.unfit) {
        end(1, "nothing is written");
    }
    if (it.guesses.length) {
        end(1, `nothing is written: ${counted(it.guesses.length, "thing")} would have to be guessed`);
    }
    write(it, out, it.changes.length ? await judged(contextOf, it) : { fault: "", isLarge: false });
    return 0;
}
