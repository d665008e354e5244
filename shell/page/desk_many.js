/** Several stations on the desk: all are drawn side by side, each is shown as it is done, and all is saved as one archive. */
import { archive } from "../both/archive.js";
import { fileName } from "../both/folder_record.js";
import { byName, certified, counts, stations, text as indexOf } from "../both/page/folder_index.js";
import { framed } from "./desk_page.js";
import { pictureOf } from "./desk_answer.js";
import { Stopped, drawStation } from "./desk_station_drawn.js";
import { button, element, sized } from "./elements.js";

/** @typedef {import("../both/wasm_engine.js").WasmEngine} WasmEngine */
/** @typedef {import("./desk_files.js").Taken} Taken */
/** @typedef {import("./desk_station_drawn.js").Made} Made */
/** @typedef {import("./desk_station_drawn.js").Setting} Setting */

/** so many stations are drawn side by side at most */
const MOST_WORKERS = 8;

/** Stations, and what came of them. */
export class Many {
    /**
     * @param {string} title
     * @param {Taken[]} files each of another name
     * @param {() => WasmEngine} start starts a program
     * @param {() => Omit<Setting, "signal" | "certifies">} setting what holds for all, as the form says it now
     * @param {(file: Taken) => void} choose puts a station alone on the desk
     * @param {import("../both/line/listing.js").Listed[]} line the stations of a line in their order, as the files are then
     */
    constructor(title, files, start, setting, choose, line) {
        this.title = title;
        this.line = line;
        this.files = line.length ? files : files.sort((one, other) => byName(one.name, other.name));
        this.start = start;
        this.setting = setting;
        this.choose = choose;
        /** @type {Map<string, Made>} */
        this.made = new Map();
        /** @type {AbortController | undefined} */
        this.stopping = undefined;
        this.certifies = element("input", { type: "checkbox", name: "certify" });
        this.run = button(`Draw all ${files.length}`, () => void this.drawAll(), "main");
        this.stop = button("Stop", () => this.stopping?.abort());
        this.far = element("p", { role: "status" });
        this.saved = element("p", {});
        this.page = element("div", {});
        this.rows = new Map(this.files.map((file) => [file.name, element("li", { class: "station" }, this.named(file))]));
        this.stop.disabled = true;
    }

    /** @param {Taken} file */
    named(file) {
        return element("p", {}, element("b", {}, file.name), ` ${sized(file.bytes.length)} `, button("Take it alone", () => this.choose(file)));
    }

    /** @returns {HTMLElement[]} what is shown */
    shown() {
        const certify = element("label", {}, this.certifies, " certify each: search with a log, trim and recheck it");
        return [element("h3", {}, `${this.title}: ${stations(this.files.length)}`), element("p", {},
            "They are drawn with the options of draw below, each on its grid and, where no drawing is lawful there, on larger ones."),
        element("div", { class: "row" }, certify, this.run, this.stop), this.far, this.saved,
        element("ul", { class: "stations" }, ...this.rows.values()), this.page];
    }

    /** draws those that aren't drawn yet */
    async drawAll() {
        const left = this.files.filter((it) => !this.made.has(it.name)), stopping = new AbortController();
        const setting = { ...this.setting(), certifies: this.certifies.checked, signal: stopping.signal };
        const workers = Math.min(MOST_WORKERS, navigator.hardwareConcurrency || 1, left.length);
        this.stopping = stopping;
        this.run.disabled = true;
        this.stop.disabled = false;
        this.say();
        const one = async () => {
            const engine = this.start();
            for (let file = left.shift(); file && !stopping.signal.aborted; file = left.shift()) {
                await this.draw(file, setting, engine);
            }
            engine.close();
        };
        await Promise.all(Array.from({ length: workers }, one));
        this.stopping = undefined;
        this.run.disabled = this.made.size === this.files.length;
        this.stop.disabled = true;
        this.say();
        this.save();
    }

    /** @param {Taken} file @param {Setting} setting @param {WasmEngine} engine */
    async draw(file, setting, engine) {
        const row = /** @type {HTMLElement} */ (this.rows.get(file.name));
        try {
            const made = await drawStation(file, setting, engine);
            this.made.set(file.name, made);
            row.replaceChildren(this.named(file), ...this.about(made));
        } catch (error) {
            if (error instanceof Stopped) return;
            row.replaceChildren(this.named(file), element("p", { class: "said bad" }, `It couldn't be drawn: ${error instanceof Error ? error.message : error}`));
        }
        this.say();
    }

    /** @param {Made} made @returns {HTMLElement[]} */
    about({ record, files }) {
        const small = files.get(fileName(record.name, "small")), page = files.get(fileName(record.name, "page"));
        const values = record.values.length ? `: height, bends, diagonal, width ${record.values.join(", ")}` : "";
        const proved = record.certified ? `; ${record.certified}` : "";
        const open = page ? [button(`Open the page of ${record.name}`, () => {
            this.page.replaceChildren(framed(new TextDecoder().decode(page), `The page of ${record.name}`));
            this.page.scrollIntoView();
        })] : [];
        const said = record.said ? [element("pre", {}, record.said)] : [];
        return [element("p", { class: record.isFault ? "said bad" : "said" }, `${record.end}${values}${proved}, ${record.seconds.toFixed(1)} s`), ...said,
            ...small ? [pictureOf(small, `The drawing of ${record.name}`)] : [], ...open];
    }

    /** says how far all are */
    say() {
        const records = [...this.made.values()].map((it) => it.record), count = certified(records);
        this.far.textContent = `${records.length} of ${stations(this.files.length)}${records.length ? `: ${counts(records)}` : ""}`
            + `${count ? `; ${count} with a certificate that was checked again` : ""}${this.stopping ? " .." : ""}`;
    }

    /** offers all that was made as one archive, with an index */
    save() {
        const made = [...this.made.values()], records = made.map((it) => it.record);
        if (!made.length) return;
        const files = new Map([["index.html", new TextEncoder().encode(indexOf(this.title, records, this.line))], ...made.flatMap((it) => [...it.files])]);
        const pieces = archive(files), name = `${this.title.replace(/[^\p{L}\p{N}._-]+/gu, "_")}.zip`;
        const size = pieces.reduce((sum, it) => sum + it.length, 0);
        const link = element("a", { href: URL.createObjectURL(new Blob(pieces, { type: "application/zip" })), download: name }, `${name} (${sized(size)})`);
        this.saved.replaceChildren("All that was made, with its index: ", link);
    }
}
