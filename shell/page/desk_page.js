/**
 * The page of an answer on the desk: the very text that `--html` writes, made here, shown in a frame and saved as it is.
 */
import { packed } from "../both/packing.js";
import { outline, smallOf } from "../both/page/kinds.js";
import { textOf } from "../both/page/record.js";
import { recorded, settingsOf } from "../both/page/recording.js";
import { NoPage } from "../both/page/texts.js";
import { pageText, stylesOf } from "../both/page/written.js";
import { PAGED, pageWords } from "../both/words.js";
import { digest, sha256 } from "./desk_engine.js";
import { stemOf } from "./desk_files.js";
import { element } from "./elements.js";

/** @typedef {import("../both/words.js").Line} Line */
/** @typedef {{page: string, drawing: string, script: string, worker: string}} Parts what pages are made of: their styles, their script,
 * and the script of the worker that runs the program */
/** @typedef {object} Maker what makes pages on the desk
 * @property {Parts} parts
 * @property {string} wasm the program as WebAssembly, packed
 * @property {string} program its SHA-256
 * @property {string} version
 * @property {boolean} isProved */
/** @typedef {{line: Line, status: number, output: Uint8Array, seen: import("../both/messages/seen.js").Seen}} Answered a run that ended */
/**
 * @typedef {{files: Map<string, Uint8Array>, pages: Map<string, string>, picture?: Uint8Array, hints?: string,
 *     ask: (words: string[]) => Promise<{status: number, output: Uint8Array}>}} Around its files, the words of its page, the program's
 *     picture, its hinted lines, packed, and further runs over the same files
 */

/**
 * What a browser is given to know a script or a style by.
 * @param {string} text
 * @returns {Promise<string>}
 */
async function sourceOf(text) {
    return `'sha256-${btoa(String.fromCharCode(...await digest(new TextEncoder().encode(text))))}'`;
}

/**
 * What a browser is given to know the scripts and styles of pages by, of a paper.
 * @param {Parts} parts
 * @param {string} paper
 * @returns {Promise<(text: string) => string>}
 */
export async function hashesOf({ script, worker, ...styles }, paper) {
    const known = new Map();
    for (const text of [script, ...stylesOf(styles, paper)]) known.set(text, await sourceOf(text));
    return (text) => known.get(text) ?? "";
}

/**
 * The page of a run, and its drawing as a small picture; both "" where its command has no page.
 * @param {Answered} answered
 * @param {Around} around
 * @param {Maker} maker
 * @returns {Promise<{text: string, small: string}>}
 */
export async function pageOf({ line, status, output, seen }, { files, pages, picture, hints = "", ask }, { parts, wasm, version, isProved }) {
    if (!PAGED.includes(line.command)) return { text: "", small: "" };
    const inputs = await Promise.all(line.filesRead.map(async ({ word }) => {
        const content = files.get(word) ?? null;
        const facts = { name: word, sha256: content ? await sha256(content) : "", size: content?.length ?? 0, date: null, why: "" };
        return { facts, content };
    }));
    const settings = settingsOf(pages), build = { state: /** @type {"proved" | "unproved"} */ (isProved ? "proved" : "unproved"), sha256: "" };
    const run = await recorded(line, { status, output }, { inputs, settings, build, version, date: Date.now() / 1000,
        page: `${stemOf(line.names[0])}.html`, frontWords: [...pages].flatMap(pageWords) }, { called: "railplan", seen, ask, sha256 });
    const { script, worker, ...styles } = parts, page = outline(run);
    const text = pageText(page, settings.paper, { ...styles, script, hashOf: await hashesOf(parts, settings.paper),
        picture: picture ? new TextDecoder().decode(picture) : "", data: await packed(new TextEncoder().encode(textOf(run.record))),
        carried: { program: wasm, worker, hints } });
    return { text, small: smallPicture(page, styles.drawing) };
}

/**
 * @param {import("../both/page/page.js").Page} page
 * @param {string} style
 */
function smallPicture(page, style) {
    try {
        return smallOf(page.drawn(), style);
    } catch (error) {
        if (error instanceof NoPage) return "";
        throw error;
    }
}

/**
 * A page in a frame of its own.
 * @param {string} text
 * @param {string} title
 */
export function framed(text, title) {
    const url = URL.createObjectURL(new Blob([text], { type: "text/html" }));
    return element("iframe", { class: "page", title, src: url });
}
