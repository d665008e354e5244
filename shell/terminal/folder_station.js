/** One station of a folder: it is drawn on a grid and then on larger ones, and what came of it is kept in a record. */
import { createHash } from "node:crypto";
import { existsSync, mkdtempSync, readFileSync, rmSync, statSync, writeFileSync } from "node:fs";
import { tmpdir } from "node:os";
import { join } from "node:path";
import { fileURLToPath } from "node:url";
import { longestChain, oddPicture } from "../both/messages/advice.js";
import { linesOf, notesOf } from "../both/messages/telling.js";
import { MOST_HINTS, grids, note } from "../both/folder_grids.js";
import { ENDINGS, FolderRecord, RECORDS, fileName, readRecord } from "../both/folder_record.js";
import { plain } from "../both/notes.js";
import { NoPage } from "../both/page/texts.js";
import { withHints } from "../both/page/written.js";
import { VERSION } from "../both/version.js";
import { read } from "../both/words.js";
import { packed } from "../engine/packed.js";
import { path } from "./bytes.js";
import { Refused, remove, stateOf, writeWhole } from "./files.js";
import { sha256Of, sumOfModules } from "./hash.js";
import { drawPage } from "./page_command.js";
import { SEEN } from "./seen_files.js";

/** @typedef {import("../both/folder_record.js").Kind} Kind */
/** @typedef {import("../both/engine.js").Ran} Ran */
/** @typedef {import("./context.js").Context} Context */

/** @typedef {object} Setting what holds for all stations of a run
 * @property {Context} context
 * @property {string} out the folder for what is made
 * @property {string[]} options those of draw, each with its value
 * @property {boolean} certifies */

/** The run was stopped, and with it all that draws. */
export class Stopped extends Error {}

/** what makes pages and says what they don't show, as one hash @type {string} */
let sumOfShell = "";

/** @returns {string} */
function shellSum() {
    if (!sumOfShell) {
        sumOfShell = sumOfModules(fileURLToPath(new URL("..", import.meta.url)), ["both", "page", "terminal", "engine"]);
    }
    return sumOfShell;
}

/**
 * What a station's files are made of: its file, the words, the program, the code of the pages and this version.
 * @param {Uint8Array} data @param {Setting} setting @param {boolean} certifies
 * @returns {string}
 */
function keyOf(data, { options, context }, certifies) {
    const known = JSON.stringify([options, certifies, context.build.sha256, context.wasm && sha256Of(context.wasm), shellSum(), VERSION]);
    return createHash("sha256").update(data).update(`\0${known}`).digest("hex");
}

/** @param {string} out @param {string} name @returns {string} */
function recordPath(out, name) {
    return join(out, RECORDS, `${name}.json`);
}

/**
 * The record of a station in a folder, or nothing where there is none.
 * @param {string} out @param {string} name
 * @returns {FolderRecord | null}
 */
export function recordIn(out, name) {
    try {
        return readRecord(readFileSync(path(recordPath(out, name)), "utf-8"));
    } catch {
        return null;
    }
}

/**
 * The run of a page that couldn't be made or written.
 * @param {unknown} error
 * @returns {Ran}
 */
function unwritten(error) {
    if (error instanceof NoPage || error instanceof Refused) {
        return { status: 6, output: new Uint8Array(), files: new Map(), seconds: 0, wasStopped: false };
    }
    throw error;
}

/** The drawing of one station, in a folder of its own until it is done. */
class Drawing {
    /** @param {string} station @param {string} name @param {Setting} setting @param {string} work */
    constructor(station, name, setting, work) {
        this.station = station;
        this.name = name;
        this.setting = setting;
        this.work = work;
    }

    /**
     * Where a file is until it is done; the page, which names itself, is where it belongs, and is written whole or not.
     * @param {Kind | "log"} kind
     * @returns {string}
     */
    place(kind) {
        return kind === "page" ? join(this.setting.out, fileName(this.name, kind)) : join(this.work, kind);
    }

    /** @param {...string} words @returns {Promise<Ran>} */
    async program(...words) {
        const { engine, signal } = this.setting.context;
        return whole(await engine.run({ words, signal }));
    }

    /** @param {[number, number]} grid @returns {string[]} */
    wordsOn([width, height]) {
        const { options } = this.setting;
        const kept = options.filter((_, at) => !["--width", "--height"].includes(options[at - at % 2]));
        return ["draw", this.station, "--width", String(width), "--height", String(height), ...kept];
    }

    /**
     * Draws on one grid after the other until there is a drawing, or another end than that there is none.
     * @param {string[]} graph
     * @returns {Promise<{ran: Ran, words: string[], grid: [number, number]}>}
     */
    async draw(graph) {
        const { context, options, certifies } = this.setting;
        const more = ["--svg", this.place("picture"), ...certifies ? ["--log", this.place("log")] : []];
        const how = {
            more, small: this.place("small"), sheetBeside: fileName(this.name, "sheet"),
            hintsBeside: certifies ? fileName(this.name, "hints") : "", isPlain: !certifies,
        };
        for (const left = grids(options, longestChain(graph)); ;) {
            const grid = /** @type {[number, number]} */ (left.shift()), words = this.wordsOn(grid);
            const ran = whole(await drawPage(context, read(["--html", this.place("page"), ...words]), how).catch(unwritten));
            if (ran.status !== 3 || !left.length) {
                return { ran, words, grid };
            }
        }
    }

    /**
     * Trims the log and checks what is left of it: what recheck answers.
     * @returns {Promise<string>}
     */
    async certify() {
        let ran = await this.program("trim", this.station, this.place("sheet"), this.place("log"), this.place("hints"));
        if (ran.status === 0) {
            ran = await this.program("recheck", this.station, this.place("sheet"), this.place("hints"));
        }
        return linesOf(ran.output).join("\n").trim() || `ended with ${ran.status}`;
    }

    /** puts the hinted lines into the page, by which it certifies itself, where they are few enough */
    carryHints() {
        const [page, hints] = [path(this.place("page")), path(this.place("hints"))];
        if (existsSync(hints) && existsSync(page) && this.setting.context.wasm) {
            const lines = packed(readFileSync(hints));
            if (lines.length <= MOST_HINTS) {
                writeFileSync(page, withHints(readFileSync(page, "utf-8"), lines));
            }
        }
    }

    /**
     * What the launcher would say of such an end.
     * @param {string[]} words @param {Ran} ran @param {string[]} graph
     * @returns {Promise<string>}
     */
    async said(words, { status, output }, graph) {
        const { called } = this.setting.context;
        const run = { line: read(words), status, output, called, seen: SEEN, graph: async () => graph };
        const picture = join(this.setting.out, fileName(this.name, "picture"));
        return [...await notesOf(run), ...oddPicture(picture, linesOf(output))].map(plain).join("");
    }

    /** @param {string} key @returns {Promise<FolderRecord>} */
    async record(key) {
        const began = performance.now(), asked = await this.program("graph", this.station);
        const graph = asked.status ? [] : linesOf(asked.output);
        const { ran, words, grid } = await this.draw(graph), { options, certifies, context: { build } } = this.setting;
        const record = new FolderRecord(this.name, key, { program: `${build.state} ${build.sha256}` }), hasSheet = note(record, ran.status, linesOf(ran.output), grid, options);
        if (hasSheet) {
            writeWhole(this.place("sheet"), ran.output);
            record.certified = certifies ? await this.certify() : "";
            this.carryHints();
        }
        record.said = await this.said(words, ran, graph);
        if (record.isRefused) {
            record.status = 8;
            record.said += `railplan: the certificate of ${this.station} was refused: ${record.certified}\n`;
        }
        record.seconds = Math.round((performance.now() - began) / 10) / 100;
        return record;
    }
}

/**
 * a run that wasn't stopped
 * @param {Ran} ran @returns {Ran}
 */
function whole(ran) {
    if (ran.wasStopped) {
        throw new Stopped();
    }
    return ran;
}

/**
 * which file there is and when it was written, to see whether it is another one by now
 * @param {string} name @returns {string}
 */
function written(name) {
    const there = stateOf(name);
    return there ? `${there.ino} ${there.mtimeMs}` : "";
}

/** whether what is there was made of the same, and is there still; a refused certificate is tried again
 * @param {FolderRecord} record @param {string[]} keys @param {string} out @returns {boolean} */
function isDone(record, keys, out) {
    return keys.includes(record.key) && !record.isRefused
        && record.files.every((it) => statSync(path(join(out, it)), { throwIfNoEntry: false })?.isFile());
}

/**
 * Moves what was made of a station where it belongs, and takes away what former runs made and this one didn't.
 * @param {Drawing} drawing @param {FolderRecord} record @param {FolderRecord | null} known @param {string} page the page as it
 * was
 */
function place(drawing, record, known, page) {
    for (const kind of ENDINGS.keys()) {
        const source = drawing.place(kind), made = fileName(drawing.name, kind), target = join(drawing.setting.out, made);
        if (existsSync(path(source)) && (kind !== "page" || written(source) !== page)) {
            if (source !== target) {
                writeWhole(target, readFileSync(path(source)));
            }
            record.files.push(made);
        } else if (known?.files.includes(made)) {
            remove(target);
        }
    }
}

/**
 * The record of a station; its files are where they belong when the record is.
 * @param {string} station @param {string} name @param {Setting} setting
 * @returns {Promise<FolderRecord>}
 */
export async function draw(station, name, setting) {
    const data = readFileSync(path(station)), key = keyOf(data, setting, setting.certifies);
    const known = recordIn(setting.out, name);
    // one with a certificate serves without --certify too, so none is taken away
    if (known && isDone(known, [key, keyOf(data, setting, true)], setting.out)) {
        return known;
    }
    const work = mkdtempSync(join(tmpdir(), "railplan-"));
    try {
        const drawing = new Drawing(station, name, setting, work), page = written(drawing.place("page"));
        const record = await drawing.record(key);
        place(drawing, record, known, page);
        writeWhole(recordPath(setting.out, name), JSON.stringify(record, null, 1));
        return record;
    } finally {
        rmSync(work, { recursive: true, force: true });
    }
}
