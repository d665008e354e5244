/** One station of several on the desk: drawn as `folder` draws it, on a grid and then on larger ones, with its page and certificate. */
import { MOST_HINTS, grids, note } from "../both/folder_grids.js";
import { FolderRecord, fileName } from "../both/folder_record.js";
import { longestChain } from "../both/messages/advice.js";
import { linesOf, notesOf } from "../both/messages/telling.js";
import { plain } from "../both/notes.js";
import { packed } from "../both/packing.js";
import { read } from "../both/words.js";
import { certified } from "./desk_certify.js";
import { stemOf } from "./desk_files.js";
import { seenOn } from "./desk_memory.js";
import { pageOf } from "./desk_page.js";

/** @typedef {import("../both/folder_record.js").Kind} Kind */
/** @typedef {import("../both/wasm_engine.js").WasmEngine} WasmEngine */
/** @typedef {import("./desk_files.js").Taken} Taken */
/** @typedef {object} Setting what holds for all stations
 * @property {string[]} options those of draw, each with its value
 * @property {boolean} certifies
 * @property {Map<string, string>} pages the words of pages
 * @property {import("./desk_page.js").Maker} maker
 * @property {AbortSignal} signal */
/** @typedef {{record: FolderRecord, files: Map<string, Uint8Array>}} Made what came of a station, and its files by their names */

const PICTURE = "picture.svg", LOG = "search.log";

/** The run was stopped. */
export class Stopped extends Error {}

/** One station while it is drawn. */
class Drawing {
    /** @param {Taken} file @param {Setting} setting @param {WasmEngine} engine */
    constructor(file, setting, engine) {
        this.file = file;
        this.setting = setting;
        this.engine = engine;
        this.stem = stemOf(file.name);
        /** @type {Map<string, Uint8Array>} */
        this.made = new Map();
    }

    /** @param {string[]} words @param {[string, Uint8Array][]} [more] further files */
    async program(words, more = []) {
        const files = new Map([[this.file.name, this.file.bytes], ...more]);
        const ran = await this.engine.run({ words, files, signal: this.setting.signal });
        if (ran.wasStopped) throw new Stopped();
        return ran;
    }

    /** @param {Kind} kind @param {Uint8Array} bytes */
    keep(kind, bytes) {
        this.made.set(fileName(this.stem, kind), bytes);
    }

    /**
     * Draws on one grid after the other.
     * @param {string[]} graph
     */
    async draw(graph) {
        const { options, certifies } = this.setting, more = ["--svg", PICTURE, ...certifies ? ["--log", LOG] : []];
        const kept = options.filter((_, at) => !["--width", "--height"].includes(options[at - at % 2]));
        for (const left = grids(options, longestChain(graph)); ;) {
            const grid = /** @type {[number, number]} */ (left.shift());
            const words = ["draw", this.file.name, "--width", String(grid[0]), "--height", String(grid[1]), ...kept];
            const ran = await this.program([...words, ...more]);
            if (ran.status !== 3 || !left.length) return { ran, words, grid };
        }
    }

    /**
     * Trims the log, and checks what is left of it.
     * @param {Uint8Array} sheet @param {Uint8Array} log
     * @returns {Promise<string>} what recheck answers
     */
    async certify(sheet, log) {
        const { said, hints } = await certified((words, files) => this.program(words, files), this.file.name, sheet, log);
        if (hints) this.keep("hints", hints);
        return said;
    }

    /**
     * Makes the page and the small picture.
     * @param {string[]} words
     * @param {import("../both/engine.js").Ran} ran
     */
    async page(words, ran) {
        const { pages, maker } = this.setting, files = new Map([[this.file.name, this.file.bytes]]);
        const found = this.made.get(fileName(this.stem, "hints")), hints = found ? await packed(found) : "";
        const { text, small } = await pageOf({ line: read(words), status: ran.status, output: ran.output, seen: seenOn(files) }, {
            files, pages, picture: ran.files.get(PICTURE), hints: hints.length <= MOST_HINTS ? hints : "", ask: (asked) => this.program(asked),
        }, maker);
        this.keep("page", new TextEncoder().encode(text));
        if (small) this.keep("small", new TextEncoder().encode(small));
    }

    /** @returns {Promise<Made>} */
    async whole() {
        const began = performance.now(), asked = await this.program(["graph", this.file.name]);
        const record = new FolderRecord(this.stem, "", { program: this.setting.maker.isProved ? "proved" : "unproved" });
        const graph = asked.status ? [] : linesOf(asked.output), { ran, words, grid } = await this.draw(graph), log = ran.files.get(LOG);
        if (note(record, ran.status, linesOf(ran.output), grid, this.setting.options)) {
            this.keep("sheet", ran.output);
            record.certified = log ? await this.certify(ran.output, log) : "";
        }
        const picture = ran.files.get(PICTURE);
        if (picture) this.keep("picture", picture);
        await this.page(words, ran);
        const seen = seenOn(new Map([[this.file.name, this.file.bytes]]));
        const notes = await notesOf({ line: read(words), status: ran.status, output: ran.output, called: "railplan", seen, graph: async () => graph });
        record.said = notes.map(plain).join("");
        if (record.isRefused) {
            Object.assign(record, { status: 8, said: `${record.said}railplan: the certificate of ${this.file.name} was refused: ${record.certified}\n` });
        }
        record.files = [...this.made.keys()];
        record.seconds = Math.round((performance.now() - began) / 10) / 100;
        return { record, files: this.made };
    }
}

/**
 * @param {Taken} file
 * @param {Setting} setting
 * @param {WasmEngine} engine
 * @returns {Promise<Made>}
 * @throws {Stopped}
 */
export function drawStation(file, setting, engine) {
    return new Drawing(file, setting, engine).whole();
}
