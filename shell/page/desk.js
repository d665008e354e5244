/** The desk: the whole program in a page. Files are chosen, a command is asked, and its answer is shown and can be saved. */
import { MOST_HINTS } from "../both/folder_grids.js";
import { packed } from "../both/packing.js";
import { judgedFile } from "../both/line/judged.js";
import { printable } from "../both/printable.js";
import { quotedLine } from "../both/quoted.js";
import { sheetPart } from "../both/page/texts.js";
import { pageWords, read } from "../both/words.js";
import { answerOf, pictureOf } from "./desk_answer.js";
import { certified } from "./desk_certify.js";
import { engineOf } from "./desk_engine.js";
import { chooser, dropped, stemOf, taken } from "./desk_files.js";
import { SLOTS, commandOf, formOf, pagesOf, slotsOf, wordsOf } from "./desk_form.js";
import { isPage, judgedPage } from "./desk_judged.js";
import { Many } from "./desk_many.js";
import { seenOn } from "./desk_memory.js";
import { framed, pageOf } from "./desk_page.js";
import { CUT, LOG, PICTURE, Search } from "./desk_search.js";
import { whatWasRead } from "./desk_station.js";
import { button, element, sized } from "./elements.js";

/** @typedef {import("../both/wasm_engine.js").WasmEngine} WasmEngine */
/** @typedef {import("./desk_files.js").Taken} Taken */
/** @typedef {import("./desk_form.js").Slot} Slot */
/** @typedef {{start: () => WasmEngine, reader: import("./desk_reading.js").Reader, maker: import("./desk_page.js").Maker, example: string}} Tools
 * what starts a program, what reads files, what makes pages, and the text of the example */

/** the commands in the order of the work */
const ORDER = ["draw", "signals", "explain", "front", "redraw", "verify", "check", "trim", "recheck", "graph"];

/** @param {string} id */
const part = (id) => /** @type {HTMLElement} */ (document.getElementById(id));

/** The files, the command that is asked, and the run that goes on. */
export class Desk {
    /** @param {Tools} tools */
    constructor(tools) {
        this.tools = tools;
        this.engines = { main: tools.start(), second: tools.start() };
        /** @type {Map<Slot, Taken>} */
        this.placed = new Map();
        this.command = "draw";
        this.form = formOf(this.command);
        /** @type {Search | undefined} */
        this.search = undefined;
        this.chosen = element("div", { class: "row", role: "group", "aria-label": "commands" });
        this.what = element("p", {});
        this.slots = element("ul", { class: "slots" });
        this.formPlace = element("div", {});
        this.commandLine = element("p", { class: "command", "aria-label": "the same in a terminal" });
        this.start = button("Run", () => void this.run(), "main");
        this.stop = button("Stop", () => this.search?.halt());
        this.far = element("p", { role: "status" });
        this.station = element("div", { "aria-live": "polite" });
        this.shown = element("div", {});
    }

    /** puts the desk's parts into the page */
    build() {
        part("files").append(this.dropPlace(), this.station);
        part("asked").append(this.chosen, this.what, this.slots, this.formPlace, element("p", {}, "The same in a terminal:"), this.commandLine,
            element("div", { class: "row" }, this.start, this.stop), this.far);
        part("answer").append(this.shown);
        this.choose("draw");
    }

    /** where files are dropped or chosen */
    dropPlace() {
        const example = button("Take the example", () => this.begin({ name: "station.xml", bytes: new TextEncoder().encode(this.tools.example) }));
        const take = (/** @type {File[]} */ files) => void this.take(files);
        const drop = element("div", { class: "drop" },
            element("p", {}, "Drop a railML file here, several, a folder of them, or a page that railplan wrote. Or choose:"),
            element("div", { class: "row" }, element("label", { class: "field" }, element("span", {}, "files"), chooser("choose the station, or several", take, "several")),
                element("label", { class: "field" }, element("span", {}, "a folder"), chooser("choose a folder of stations", take, "folder")), example));
        this.hearDrops(drop, take);
        return drop;
    }

    /**
     * Takes what is dropped anywhere on the desk, which a browser would open in its place.
     * @param {HTMLElement} drop what shows that files may be dropped
     * @param {(files: File[]) => void} take
     */
    hearDrops(drop, take) {
        const hasFiles = (/** @type {DragEvent} */ event) => event.dataTransfer?.types.includes("Files") ?? false;
        document.addEventListener("dragover", (event) => {
            if (!hasFiles(event)) return;
            event.preventDefault();
            drop.classList.add("over");
        });
        document.addEventListener("dragleave", (event) => !event.relatedTarget && drop.classList.remove("over"));
        document.addEventListener("drop", (event) => {
            if (!event.dataTransfer || !hasFiles(event)) return;
            event.preventDefault();
            drop.classList.remove("over");
            const why = "What was dropped can't be read here. Choose the files or the folder in a field above instead";
            void dropped(event.dataTransfer).then(take, (error) => this.refuse(`${why}: ${error?.message ?? error}`));
        });
    }

    /** @param {string} said */
    refuse(said) {
        this.station.replaceChildren(element("p", { class: "said bad" }, printable(said)));
    }

    /**
     * Takes files: a station, a page, or several stations.
     * @param {File[]} given
     */
    async take(given) {
        /** @type {Taken[]} */
        const files = [];
        for (const it of given) {
            try {
                files.push(await taken(it));
            } catch {
                return this.refuse(`${it.name} can't be read`);
            }
        }
        if (!files.length) {
            return this.refuse("There is no file whose name ends in .xml or .railml");
        }
        if (files.length > 1) {
            return this.several("stations", files);
        }
        return isPage(files[0].bytes) ? this.judge(files[0]) : this.begin(files[0]);
    }

    /** takes away what was made of another station, and stops a run of it, so that no drawing is taken for this station's */
    clear() {
        this.search?.end();
        this.many?.stopping?.abort();
        this.many = undefined;
        this.placed.clear();
        this.station.replaceChildren();
        this.shown.replaceChildren();
        this.far.textContent = "";
        this.renew();
    }

    /**
     * Begins with a station, and says what was read of it.
     * @param {Taken} file
     */
    begin(file) {
        const former = this.placed.get("former");
        this.clear();
        if (former) this.placed.set("former", former);
        this.place("station", file.name, file.bytes);
        this.station.replaceChildren(element("p", {}, `${printable(file.name)} is being read ..`));
        const hands = { reader: this.tools.reader, engine: this.engines.second, use: (/** @type {Taken} */ it) => this.begin(it),
            cut: (/** @type {import("./desk_reading.js").Cut} */ cut, /** @type {string} */ name) => void this.cut(cut, name) };
        const isStill = () => this.placed.get("station")?.bytes === file.bytes;
        void whatWasRead(file, hands).catch((error) => [element("p", { class: "said bad" }, `It couldn't be read: ${error.message}`)])
            .then((nodes) => isStill() && this.station.replaceChildren(...nodes));
    }

    /**
     * Judges a page that somebody else made, and takes its files.
     * @param {Taken} page
     */
    async judge(page) {
        this.clear();
        this.station.replaceChildren(element("p", {}, `${printable(page.name)} is being judged ..`));
        const { shown, judged } = await judgedPage(page.name, page.bytes, this.engines.second, this.tools.maker);
        const [file] = judged?.carried.record.inputs ?? [];
        if (file?.content) {
            this.place("station", file.facts.name.replace(/^.*\//, ""), file.content);
            if (judged?.sheet) this.place("sheet", `${this.stem}.sheet`, judged.sheet);
            if (judged?.carried.hints) this.place("hints", `${this.stem}.hints`, judged.carried.hints);
        }
        this.station.replaceChildren(element("p", {}, `${printable(page.name)} was judged; what it carries is taken apart here.`));
        this.shown.replaceChildren(...shown);
    }

    /**
     * Takes several stations, to draw them all.
     * @param {string} title
     * @param {Taken[]} files
     * @param {import("../both/line/listing.js").Listed[]} [line] the stations of a line in their order
     */
    several(title, files, line = []) {
        this.clear();
        const names = new Set(), named = files.map(({ name, bytes }) => {
            const at = name.lastIndexOf(".");
            let own = name;
            for (let number = 2; names.has(own); number++) own = `${name.slice(0, at)}_${number}${name.slice(at)}`;
            names.add(own);
            return { name: own, bytes };
        });
        this.many = new Many(title, named, this.tools.start, () => {
            const form = this.command === "draw" ? this.form : formOf("draw");
            return { options: wordsOf("draw", form, () => "", "").slice(2), pages: pagesOf(form), maker: this.tools.maker };
        }, (file) => this.begin(file), line);
        this.choose("draw");
        this.shown.replaceChildren(...this.many.shown());
    }

    /**
     * Takes the stations of a line, each judged by the program's own track graph.
     * @param {import("./desk_reading.js").Cut} cut
     * @param {string} name the line's file
     */
    async cut({ said, files, whole }, name) {
        const good = [], notes = [...said];
        for (const file of files) {
            const { bytes, reason } = await judgedFile(this.engines.second, whole, file);
            reason ? notes.push(`${file.name}.xml isn't taken: ${reason}`) : good.push({ name: `${file.name}.xml`, bytes });
        }
        if (good.length) {
            this.several(stemOf(name), good, files.map((it) => it.listed));
        }
        this.station.replaceChildren(element("p", {}, `${printable(name)} was cut into stations. This is no part of what is proved.`),
            element("ul", {}, ...notes.map((it) => element("li", {}, printable(it)))));
    }

    /**
     * Puts a file in its place; no two files of a run have one name.
     * @param {Slot} slot
     * @param {string} name
     * @param {Uint8Array} bytes
     */
    place(slot, name, bytes) {
        const isTaken = [...this.placed].some(([other, it]) => other !== slot && it.name === name);
        this.placed.set(slot, { name: isTaken ? `${slot}_${name}` : name, bytes });
        this.renew();
    }

    /**
     * Takes the file that was chosen for a place.
     * @param {Slot} slot
     * @param {File[]} files
     */
    async fill(slot, [file]) {
        if (file) {
            const { name, bytes } = await taken(file);
            this.place(slot, name, bytes);
        }
    }

    /** @param {string} command */
    choose(command) {
        this.command = command;
        this.form = formOf(command);
        this.form.addEventListener("input", () => this.renew());
        this.formPlace.replaceChildren(this.form);
        this.chosen.replaceChildren(...ORDER.map((word) => {
            const made = button(word, () => this.choose(word));
            made.setAttribute("aria-pressed", String(word === command));
            return made;
        }));
        this.what.textContent = `${command} ${commandOf(command).what}.`;
        this.renew();
    }

    get stem() {
        return stemOf(this.placed.get("station")?.name ?? "station");
    }

    /** the words of the run, without the files that the desk has written beside */
    words() {
        return wordsOf(this.command, this.form, (slot) => this.placed.get(slot)?.name ?? slot.toUpperCase(), `${this.stem}.hints`);
    }

    /** shows what is there now */
    renew() {
        const slots = slotsOf(this.command);
        this.slots.replaceChildren(...slots.map((slot) => {
            const it = this.placed.get(slot), there = it ? `${it.name}, ${sized(it.bytes.length)}` : "not there yet";
            return element("li", {}, `${SLOTS.get(slot)}: `, element("b", {}, there), ...(slot === "station" ? []
                : [" ", chooser(`choose ${SLOTS.get(slot)}`, (files) => void this.fill(slot, files))]));
        }));
        const pages = pagesOf(this.form), page = pages.size ? ["--html", `${this.stem}.html`, ...[...pages].flatMap(pageWords)] : [];
        this.commandLine.textContent = `railplan ${quotedLine([...page, ...this.words()])}`;
        this.start.disabled = this.search !== undefined || !slots.every((slot) => this.placed.has(slot));
        this.stop.disabled = this.search === undefined;
    }

    /** runs the command, and shows its answer */
    async run() {
        const given = this.words(), pages = pagesOf(this.form), options = commandOf(this.command).options;
        const station = this.placed.get("station");
        const beside = [["--svg", PICTURE], ["--log", LOG]].filter(([option]) => options.includes(option)).flat();
        const files = new Map(slotsOf(this.command).map((slot) => {
            const it = /** @type {Taken} */ (this.placed.get(slot));
            return [it.name, it.bytes];
        }));
        const search = new Search(this.engines, [...given, ...beside], files, {
            far: (said) => { this.far.textContent = said; },
            found: (found) => {
                const what = `The best drawing of ${station?.name} so far; the search goes on`;
                this.shown.replaceChildren(...(found.picture && this.placed.get("station") === station ? [pictureOf(found.picture, what)] : []));
            },
        });
        this.search = search;
        this.shown.replaceChildren();
        this.renew();
        try {
            const ran = await search.run();
            // another station took its place meanwhile: this answer isn't its
            if (this.placed.get("station") === station) {
                await this.show(given, pages, files, ran, search);
            }
        } finally {
            this.search = undefined;
            this.renew();
        }
    }

    /**
     * @param {string[]} words
     * @param {Map<string, string>} pages the words of pages that are chosen
     * @param {Map<string, Uint8Array>} files
     * @param {import("./desk_search.js").Ran} ran
     * @param {Search} search
     */
    async show(words, pages, files, ran, search) {
        const station = this.placed.get("station"), best = CUT.has(ran.status) ? search.best : undefined, output = best?.sheet ?? ran.output;
        const picture = best?.picture ?? ran.files.get(PICTURE), log = best?.log ?? ran.files.get(LOG), hints = ran.files.get(`${this.stem}.hints`);
        const isSheet = words[0] === "draw" && (best !== undefined || [0, 3, 4].includes(ran.status));
        /** @type {[string, Uint8Array, string][]} */
        const saved = [];
        const keep = (/** @type {Slot | ""} */ slot, /** @type {string} */ ending, /** @type {Uint8Array | undefined} */ bytes, type = "text/plain") => {
            if (bytes?.length) {
                saved.push([`${this.stem}.${ending}`, bytes, type]);
                if (slot) {
                    this.place(slot, `${this.stem}.${ending}`, bytes);
                }
            }
        };
        keep("", "svg", picture, "image/svg+xml");
        keep(isSheet ? "sheet" : "", isSheet ? "sheet" : `${words[0]}.txt`, output);
        keep(isSheet ? "log" : "", isSheet ? "log" : `${words[0]}.log`, log);
        keep("hints", "hints", hints);
        const run = { line: read(words), status: ran.status, output, trap: ran.trap, seen: seenOn(files), graph: () => this.graph(files) };
        const stopped = best ? [element("p", {}, "The search ended before its end. This is the last drawing that was drawn by then.")] : [];
        const ask = (/** @type {string[]} */ further) => this.engines.second.run({ words: further, files });
        const certificate = pages.has("--certify") && log && !CUT.has(ran.status) ? await this.certify(files, output, log) : undefined;
        keep("hints", "hints", certificate?.hints);
        const carried = certificate?.hints ? await packed(certificate.hints) : "";
        const page = CUT.has(ran.status) && !best ? "" : (await pageOf(best ? { ...run, status: 4 } : run,
            { files, pages, picture, hints: carried.length <= MOST_HINTS ? carried : "", ask }, this.tools.maker)).text;
        const answer = await answerOf(run, { picture: page ? undefined : picture, saved: page
            ? [[`${this.stem}.html`, new TextEncoder().encode(page), "text/html"], ...saved] : saved });
        if (this.placed.get("station") !== station) {
            return;
        }
        const noted = certificate ? [element("p", { class: "certificate" }, `Its log was trimmed, and what is left of it checked: ${certificate.said}.`)] : [];
        this.shown.replaceChildren(...stopped, ...noted, answer, ...(page ? [framed(page, `The page of ${words.join(" ")}`)] : []));
        this.far.textContent = `${ran.seconds.toFixed(2)} s`;
    }

    /**
     * Trims the log of a search, and checks what is left of it.
     * @param {Map<string, Uint8Array>} files @param {Uint8Array} output @param {Uint8Array} log
     */
    certify(files, output, log) {
        const name = this.placed.get("station")?.name ?? "", sheet = new TextEncoder().encode(sheetPart(new TextDecoder().decode(output)));
        return certified((words, more) => this.engines.second.run({ words, files: new Map([...files, ...more]) }), name, sheet, log);
    }

    /**
     * The lines of the station's track graph; none where it has a fault.
     * @param {Map<string, Uint8Array>} files
     */
    async graph(files) {
        const name = this.placed.get("station")?.name ?? "", ran = await this.engines.second.run({ words: ["graph", name], files });
        return ran.status === 0 ? new TextDecoder().decode(ran.output).split("\n").slice(0, -1) : [];
    }
}
