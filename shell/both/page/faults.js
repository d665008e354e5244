/**
 * What a run ended with instead of an answer: the launcher's sentences, and the lines of the files that they are about.
 */
import { byCharacters } from "./numbers.js";

/** @typedef {import("./run.js").Input} Input */
/** @typedef {import("./run.js").Said} Said */
/** @typedef {{name: string, first: number, lines: string[], meant: number[]}} Excerpt lines of a file, the number of the first,
 * and the numbers of those that are meant */

const CONTEXT = 2;
const LONGEST = 300;
const BEGINS = ["the", "this", "there", "no", "a", "an", "it", "each"];

/** @type {(output: string) => string} the program's own line */
export const lineOf = (output) => output.split("\n").find(Boolean) ?? "";

/**
 * A sentence with its full stop; an id at its front stays as it is.
 * @param {string} text
 * @returns {string}
 */
export function ended(text) {
    const begun = BEGINS.includes(text.split(" ", 1)[0]) ? text[0].toUpperCase() + text.slice(1) : text;
    return /[.?!]$/.test(begun) ? begun : `${begun}.`;
}

/**
 * The lines around one; a long line is cut.
 * @param {string} name
 * @param {string[]} lines
 * @param {number} number
 * @returns {Excerpt}
 */
function excerpt(name, lines, number) {
    const first = Math.max(1, number - CONTEXT);
    const shown = lines.slice(first - 1, number + CONTEXT).map((it) => [...it.replace(/\r+$/, "")]);
    const cut = shown.map((it) => it.length <= LONGEST ? it.join("") : `${it.slice(0, LONGEST).join("")} …`);
    return { name, first, lines: cut, meant: [number] };
}

/**
 * An excerpt for each line that is meant, those that touch each other in one.
 * @param {Said[]} notes
 * @param {Input[]} inputs
 * @returns {Excerpt[]}
 */
export function excerpts(notes, inputs) {
    /** @type {Excerpt[]} */
    const found = [];
    const decoder = new TextDecoder("utf-8", { ignoreBOM: true });
    const texts = new Map(inputs.flatMap(({ facts, content }) => content ? [[facts.name, decoder.decode(content).split("\n")]]
        : []));
    const places = new Map(notes.filter((it) => it.file).map((it) => [`${it.line} ${it.file}`, it]));
    for (const { file, line } of [...places.values()].sort((one, other) => byCharacters(one.file, other.file)
        || one.line - other.line)) {
        const lines = texts.get(file);
        if (!lines) continue;
        const part = excerpt(file, lines, line);
        const last = found[found.length - 1];
        const end = last?.name === file ? last.first + last.lines.length : 0;
        if (part.first <= end) {
            last.lines.push(...part.lines.slice(end - part.first));
            last.meant.push(line);
        } else found.push(part);
    }
    return found;
}
