/**
 * A page that somebody handed over, judged as a whole. What it claims is judged by the reader's own program (page_check.js); and its
 * text is compared with the page that this version writes of the same run: only where the two are the same, to the byte, does the page
 * show what was judged.
 */
import { notShown } from "../messages/not_shown.js";
import { linesOf } from "../messages/telling.js";
import { read } from "../words.js";
import { carriedBy } from "./carried.js";
import { PAPERS } from "./columns.js";
import { outline } from "./kinds.js";
import { inWords, judgePage, sheetOf } from "./page_check.js";
import { Run } from "./run.js";
import { readSheet } from "./texts.js";
import { pageText } from "./written.js";

/** @typedef {import("./carried.js").Carried} Carried */
/** @typedef {import("./page_check.js").Verdict} Verdict */
/** @typedef {object} Own what this version's pages are made of
 * @property {string} page the style of pages
 * @property {string} drawing the style of drawings
 * @property {string} script
 * @property {string} worker the script of the worker that runs the program
 * @property {string} program the SHA-256 of this version's program as WebAssembly; "" where there is none to compare with
 * @property {(text: string) => string} hashOf what a browser is given to know a script or a style by */
/** @typedef {(paper: string) => Promise<Own>} OwnFor of a paper, as styles and what a browser knows them by depend on it */
/** @typedef {"right" | "wrong" | "open"} Word a claim holds, doesn't, or nobody judged it */
/**
 * @typedef {{carried: Carried, verdict: Verdict, sheet: Uint8Array | null, lines: [Word, string][], said: string}} Judgement of a page: its
 * sheet, each claim with its word, and all in a line
 */

const NOTES = "what it says that the drawing doesn't show", WITHOUT_SCRIPT = "what it shows without its script";
/** how a page's data begins */
const DATA = '<script type="application/json" class="data">';
/** the parts of a page by which it may show something else than its run, each with where it is in the text before its data */
const HEAD = /** @type {[string, RegExp][]} */ ([
    ["what it lets a browser do", /<meta http-equiv="Content-Security-Policy" content="[^"]*">/],
    ["its style", /<style>[^]*?<\/style><style class="drawing">[^]*?<\/style>/],
]);

/**
 * The program's picture of a sheet's drawing, as the program writes it: 40 to a column and a row, 20 around; names 6 above their nodes.
 * @param {string} sheet
 * @returns {string} SVG; "" where the sheet has no drawing
 */
export function pictureOf(sheet) {
    const { drawing, values } = readSheet(sheet);
    if (!drawing) return "";
    const x = (/** @type {number} */ column) => 20 + 40 * column, y = (/** @type {number} */ row) => 20 + 40 * (values.height - row);
    const lines = drawing.edges.map(({ points }) =>
        `<polyline points="${points.map(([column, row]) => `${x(column)},${y(row)}`).join(" ")}" fill="none" stroke="black"/>\n`);
    const texts = drawing.nodes.map(({ name, point: [column, row] }) => `<text x="${x(column)}" y="${y(row) - 6}">${name}</text>\n`);
    return `<svg xmlns="http://www.w3.org/2000/svg" viewBox="0 0 ${40 * values.width + 40} ${40 * values.height + 40}">\n`
        + `${lines.join("")}${texts.join("")}</svg>\n`;
}

/**
 * The text of a page before its data, in parts.
 * @param {string} text
 * @returns {Map<string, string>}
 */
function partsOf(text) {
    const found = new Map(HEAD.map(([name, form]) => [name, form.exec(text)?.[0] ?? ""]));
    return found.set(WITHOUT_SCRIPT, [...found.values()].reduce((rest, part) => rest.replace(part, ""), text));
}

/**
 * The pages that this version writes of a run: without the program's picture and with it, as either may be there.
 * @param {Carried} carried
 * @param {Own} own
 * @returns {string[]}
 */
function remade({ record, packed }, own) {
    const sheet = record.words[0] === "draw" ? sheetOf(record) : null, page = outline(new Run(record));
    const pictures = sheet ? ["", pictureOf(new TextDecoder().decode(sheet))] : [""];
    return pictures.map((picture) => pageText(page, record.settings.paper, { ...own, picture, data: packed.data,
        carried: packed.program ? { program: packed.program, worker: own.worker, hints: packed.hints } : null }));
}

/**
 * The page of what a page carries, as this version writes it, so that nothing of what was handed over is run.
 * @param {Carried} carried
 * @param {Own} own
 * @returns {string} "" where there is no page of its run
 */
export function shownBy(carried, own) {
    try {
        return remade({ ...carried, packed: { ...carried.packed, program: "" } }, own)[0];
    } catch {
        return "";
    }
}

/**
 * The parts of a page that aren't as this version writes them of its run, in words.
 * @param {Carried} carried
 * @param {Own} own
 * @returns {string[]}
 * @throws where its run has an output that no program gives, so that there is no page of it
 */
export function otherParts(carried, own) {
    const wanted = remade(carried, own).map((text) => partsOf(text.slice(0, text.indexOf(DATA))));
    const others = [...partsOf(carried.before)].filter(([name, text]) => !wanted.some((it) => it.get(name) === text)).map(([name]) => name);
    if (carried.script !== own.script) others.push("its script");
    if (carried.packed.program && carried.packed.worker !== own.worker) others.push("the script of its worker");
    return others;
}

/**
 * Whether the page says of its file what this version says.
 * @param {import("./run.js").RunRecord} record
 */
function hasOwnNotes(record) {
    const content = record.inputs[0]?.content, lines = linesOf(new TextEncoder().encode(record.output));
    return !content || JSON.stringify(notShown(content, read(record.words), lines, true)) === JSON.stringify(record.notShown);
}

/**
 * The parts of a page that are others; nothing where there is no page of its run.
 * @param {Carried} carried
 * @param {Own} own
 */
function partsOrNone(carried, own) {
    try {
        return otherParts(carried, own);
    } catch {
        return null;
    }
}

/**
 * Compares the page with the one that this version writes.
 * @param {Carried} carried
 * @param {Verdict} verdict to which what is found is added
 * @param {Own} own
 * @param {(bytes: Uint8Array) => Promise<string>} sha256
 */
async function compare(carried, { findings, open }, own, sha256) {
    const others = partsOrNone(carried, own), { program } = carried, sum = program ? await sha256(program) : "";
    if (!others) {
        findings.push({ what: "there is a page of the run that it carries", isRight: false });
    } else if (others.length === 0) {
        findings.push({ what: "it is built, to the byte, as this version builds the page of its run", isRight: true });
        findings.push({ what: `${NOTES} is what this version says of its file`, isRight: hasOwnNotes(carried.record) });
    } else if (others.join() === WITHOUT_SCRIPT) {
        findings.push({ what: `${WITHOUT_SCRIPT} is what its run gives`, isRight: false });
    } else {
        open.unshift(`what it shows when it is opened: this version makes otherwise ${others.join(", ")}`);
    }
    if (program && !own.program) {
        open.push("the program that it carries: there is none as WebAssembly here to compare it with");
    } else if (program && sum !== own.program) {
        open.push(`what it finds of itself: the program that it carries, SHA-256 ${sum}, isn't the one here, SHA-256 ${own.program}`);
    } else if (program) {
        findings.push({ what: `the program that it carries is the one here, SHA-256 ${sum}`, isRight: true });
    }
}

/**
 * Judges the text of a page.
 * @param {string} text
 * @param {OwnFor} ownFor
 * @param {import("../engine.js").Engine} engine the reader's program
 * @param {(bytes: Uint8Array) => Promise<string>} sha256
 * @returns {Promise<Judgement | null>} nothing where it isn't built as pages are, so that nothing of it can be judged
 */
export async function judgeWhole(text, ownFor, engine, sha256) {
    const carried = await carriedBy(text);
    if (!carried || !PAPERS.has(carried.record.settings.paper)) return null;
    const verdict = await judgePage(carried.record, carried.hints, engine, sha256);
    await compare(carried, verdict, await ownFor(carried.record.settings.paper), sha256);
    const { findings, open } = verdict;
    return {
        carried, verdict, sheet: sheetOf(carried.record), said: inWords(carried.record, verdict),
        lines: [...findings.map(({ what, isRight }) => /** @type {[Word, string]} */ ([isRight ? "right" : "wrong", what])),
            ...open.map((what) => /** @type {[Word, string]} */ (["open", what]))],
    };
}
