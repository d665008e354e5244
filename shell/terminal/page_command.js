/**
 * A run from the words of `--html` to its page: inputs are read once, the program gets copies, the page is written whole.
 */
import { mkdtempSync, readFileSync, rmSync, writeFileSync } from "node:fs";
import { tmpdir } from "node:os";
import { packed, sourceOf } from "../engine/packed.js";
import { MOST_HINTS } from "../both/folder_grids.js";
import { best } from "../both/messages/advice.js";
import { linesOf } from "../both/messages/telling.js";
import { PAGES, dxfOf, outline, smallOf } from "../both/page/kinds.js";
import { textOf } from "../both/page/record.js";
import { recorded, settingsOf } from "../both/page/recording.js";
import { INPUTS } from "../both/page/run.js";
import { NoPage, sheetIn, sheetPart } from "../both/page/texts.js";
import { pageText, stylesOf } from "../both/page/written.js";
import { ofLine } from "../both/places.js";
import { quotedLine } from "../both/quoted.js";
import { VERSION } from "../both/version.js";
import { COMMANDS, PAGE_WORDS, fault, pageWords } from "../both/words.js";
import { scriptOf, stylesIn, workerOf } from "./bundle.js";
import { Output, Refused, hashed, isOneFile, readOnce, reread } from "./files.js";
import { giveAnswer, runProgram } from "./launch.js";
import { Ended, called, end, isTerminal, say } from "./say.js";
import { SEEN } from "./seen_files.js";

/** @typedef {import("../both/engine.js").Engine} Engine */
/** @typedef {import("../both/engine.js").Ran} Ran */
/** @typedef {import("../both/page/facts.js").FileFacts} FileFacts */
/** @typedef {import("../both/page/page.js").Page} Page */
/** @typedef {import("../both/page/run.js").Run} Run */
/** @typedef {import("../both/words.js").Line} Line */
/** @typedef {import("./context.js").Context} Context */
/** @typedef {object} How what else a run of a page has
 * @property {string[]} [more] words of the run that the page doesn't show
 * @property {string} [small] a file for a small picture of the drawing, for an index
 * @property {string} [sheetBeside] the sheet's file beside the page
 * @property {string} [hintsBeside] the file of hinted lines beside the page
 * @property {boolean} [isPlain] whether the page carries no program to check itself by */

const USE = "a page is asked for by --html FILE and the words of draw, signals, front, explain, redraw or verify";
const SMALL = "small";

/** @type {(word: string) => boolean} whether a page word names a file */
const isOfFile = (word) => PAGE_WORDS.get(word)?.kind !== undefined;

/**
 * Ends a run whose page words have a fault.
 * @param {Line} line
 */
export function refuse(line) {
    for (const [word, value] of line.pages) {
        const choices = PAGE_WORDS.get(word)?.choices;
        if (choices && !choices.includes(value)) end(2, `${word} ${value}: it is one of ${choices.join(", ")}`);
    }
    const files = [...line.pages].filter(([word]) => isOfFile(word));
    const [[first]] = line.pages;
    if (PAGE_WORDS.has(line.command)) end(2, `${line.command} comes twice. Leave out one of the two`);
    if (!files.length) end(2, `${first} needs --html FILE`);
    const taken = COMMANDS.has(line.command) ? undefined : files.find(([, name]) => COMMANDS.has(name));
    if (taken) end(2, asName(line, taken));
    const other = [...line.pages.keys()].find((word) => PAGE_WORDS.get(word)?.commands?.includes(line.command) === false);
    if (other && PAGES.has(line.command)) {
        end(2, `${other} is a word of ${PAGE_WORDS.get(other)?.commands?.join(" and ")}${other === "--sheet" ? `; ${elsewhere(line)}` : ""}`);
    }
    if (files.some(([, name]) => !name) || COMMANDS.has(line.command) && !PAGES.has(line.command) || !line.command) end(2, USE);
}

/** @param {Line} line @returns {string} where the sheet is of a command that has no word for it */
function elsewhere({ command }) {
    return command === "draw" ? "what draw prints is its sheet" : `${command} makes no sheet`;
}

/** @param {Line} line @param {[string, string]} taken @returns {string} that a command is the name behind a page word */
function asName(line, [word, name]) {
    const given = `${called()} ${word} ${PAGE_WORDS.get(word)?.value} ${quotedLine([name, ...line.words])}`;
    return `\`${name}\` was taken for the name of the file that ${word} writes. Name that file first: ${given}`;
}

/** @type {(facts: {name: string, sha256?: string, size?: number, date?: number | null, why?: string}) => FileFacts} */
const whole = ({ name, sha256 = "", size = 0, date = null, why = "" }) => ({ name, sha256, size, date, why });

/** @type {(output: Uint8Array) => string} */
const textOfOutput = (output) => new TextDecoder("utf-8", { ignoreBOM: true }).decode(output);

/** @returns {number} the time of the run, or the one that the environment sets for builds that are to be the same again */
function dateOf() {
    const given = process.env.SOURCE_DATE_EPOCH ?? "";
    return /^\d+$/.test(given) ? Number(given) : Date.now() / 1000;
}

/** The files that a page's run writes. */
class Outputs {
    /** @param {[string, string][]} named each with the word that asks for it */
    constructor(named) {
        /** @type {Map<string, Output>} */
        this.all = new Map();
        for (const [word, name] of named) {
            try {
                this.all.set(word, new Output(name));
            } catch (error) {
                this.drop();
                throw error;
            }
        }
    }

    drop() {
        for (const output of this.all.values()) output.drop();
    }

    /** @returns {string} which of the files that were asked for aren't there */
    said() {
        const [all, lacking] = [[...this.all.values()], [...this.all.values()].filter((it) => !it.isWritten)];
        if (!all.length) return "nothing is written";
        const names = (lacking.length ? lacking : all).map((it) => it.name);
        const verb = names.length > 1 ? "are" : "is";
        return `${names.join(" and ")} ${verb}${lacking.length ? "n't" : ""} written`;
    }
}

/** A run whose page is written. */
class PageRun {
    /** @param {Context} context @param {Line} line @param {How} how */
    constructor(context, line, how) {
        this.context = context;
        this.line = line;
        this.how = how;
        const files = [...line.pages].filter(([word]) => isOfFile(word));
        this.script = line.pages.has("--html") ? scriptOf(context.top) : "";
        this.styles = stylesIn(context.top);
        this.outputs = new Outputs([...files, .../** @type {[string, string][]} */ (how.small ? [[SMALL, how.small]] : [])]);
        this.folder = mkdtempSync(`${tmpdir()}/railplan-`);
        /** @type {import("../both/page/run.js").Input[]} */
        this.inputs = [];
        /** @type {Map<number, string>} the copies of inputs, by their places among the words */
        this.copies = new Map();
        /** @type {Map<string, string>} and by their names */
        this.copyOf = new Map();
        // what certifies the page, packed
        this.hints = "";
    }

    end() {
        this.outputs.drop();
        rmSync(this.folder, { recursive: true, force: true });
    }

    /** Reads the inputs once, and copies them; words that have a fault are left as they are. */
    async readInputs() {
        const { line } = this;
        const [read, written] = [line.filesRead, line.filesWritten.filter((it) => it.at >= 0)].map((it) =>
            it.map(({ word }) => word));
        const isOne = written.some((it, at) => [...read, ...written.slice(0, at)].some((other) => isOneFile(it, other)));
        if (fault(line.words) || isOne) return;
        for (const [number, at] of line.places.slice(0, INPUTS.get(line.command)).entries()) {
            const name = line.words[at];
            const same = this.inputs.find((it) => it.facts.name === name);
            const { facts, content } = same ?? await readOnce(name);
            this.inputs.push({ facts: whole(facts), content });
            if (content && !same) {
                writeFileSync(`${this.folder}/${number}`, content);
                this.copyOf.set(name, `${this.folder}/${number}`);
            }
            const copy = this.copyOf.get(name);
            if (copy) this.copies.set(at, copy);
        }
    }

    /** @returns {boolean} whether the program is asked for its own picture, for those who run no script */
    get asksForPicture() {
        const { line, how } = this;
        const words = [...line.words, ...how.more ?? []];
        return this.script !== "" && line.command === "draw" && !fault(line.words) && !words.includes("--svg");
    }

    /** @returns {boolean} whether the page is to carry what certifies it */
    get certifies() {
        return this.line.pages.has("--certify") && !fault(this.line.words);
    }

    /** @returns {Engine} the program, which gets copies of the inputs */
    get engine() {
        const { context, copies, how } = this;
        const own = this.certifies && !this.line.options.has("--log") ? ["--log", `${this.folder}/log`] : [];
        const more = [...how.more ?? [], ...this.asksForPicture ? ["--svg", `${this.folder}/picture`] : [], ...own];
        return { kind: context.engine.kind, run: (job) =>
            context.engine.run({ ...job, words: [...job.words.map((word, at) => copies.get(at) ?? word), ...more] }) };
    }

    /** @param {string[]} words @returns {Promise<Ran>} a further run, over copies by their names */
    ask(words) {
        const { engine, signal } = this.context;
        return engine.run({ words: words.map((word) => this.copyOf.get(word) ?? word), signal });
    }

    /** @returns {import("../both/messages/seen.js").Seen} what messages see: the files as they were read */
    get seen() {
        const contents = new Map(this.inputs.flatMap(({ facts, content }) => content ? [[facts.name, content]] : []));
        return { ...SEEN, bytes: (name) => contents.get(name) ?? SEEN.bytes(name), line: (name, number) => {
            const content = contents.get(name);
            return content ? ofLine(name, content, number).text : SEEN.line(name, number);
        } };
    }

    /** @returns {Engine} what messages ask the program by */
    get asking() {
        return { kind: this.context.engine.kind, run: ({ words }) => this.ask(words) };
    }

    /** @param {Ran} ran @returns {Promise<Run>} the run as its page needs it */
    async #runOf(ran) {
        const { line, context, how, inputs, seen } = this;
        const front = [...line.pages].filter(([word]) => word !== "--html").flatMap(pageWords);
        const run = await recorded(line, ran, {
            inputs, settings: settingsOf(line.pages),
            build: { state: context.build.state, sha256: context.build.sha256 }, version: VERSION, date: dateOf(),
            page: line.pages.get("--html") ?? "", sheetBeside: how.sheetBeside ?? "", hintsBeside: how.hintsBeside ?? "",
            frontWords: [...front, ...line.isUnproved ? ["--unproved"] : []],
        }, { called: context.called, seen, ask: (words) => this.ask(words), sha256 });
        const log = line.options.get("--log");
        if (log && run.isAnswered) run.record.log = whole(await hashed(log));
        return run;
    }

    /** @param {Run} run @param {Page} page @returns {string} the page as a text */
    #html(run, page) {
        const svg = this.asksForPicture ? `${this.folder}/picture` : this.line.options.get("--svg") ?? "";
        const picture = run.isAnswered && svg ? textOfOutput(reread(svg) ?? new Uint8Array()) : "";
        return pageText(page, run.record.settings.paper, { ...this.styles, script: this.script, picture, hashOf: sourceOf,
            data: packed(Buffer.from(textOf(run.record))), carried: this.#carried() });
    }

    /** @returns {import("../both/page/written.js").Carried | null} the program as WebAssembly, where it is there */
    #carried() {
        const { context, line, how } = this;
        if (!context.wasm || line.pages.has("--plain") || how.isPlain) return this.hints ? { program: "", worker: "", hints: this.hints } : null;
        return { program: packed(readFileSync(context.wasm)), worker: workerOf(context.top), hints: this.hints };
    }

    /**
     * Trims the search's log, and checks what is left of it, which goes into the page.
     * @param {Ran} ran
     */
    async certify(ran) {
        const { line, folder } = this, [sheet, log, hints] = ["sheet", "log", "hints"].map((it) => `${folder}/${it}`), file = line.names[0];
        if (!this.certifies || ![0, 3, 4].includes(ran.status) || ran.wasStopped) return;
        writeFileSync(sheet, sheetPart(textOfOutput(ran.output)));
        const trimmed = await this.ask(["trim", file, sheet, line.options.get("--log") ?? log, hints]);
        const checked = trimmed.status === 0 ? await this.ask(["recheck", file, sheet, hints]) : trimmed;
        const said = linesOf(checked.output).join(" ").trim() || `ended with ${checked.status}`, found = reread(hints);
        const isClaim = said !== "certified 0" || ran.status === 3, lines = checked.status === 0 && isClaim && found ? packed(found) : "";
        this.hints = lines.length <= MOST_HINTS ? lines : "";
        say(checked.status !== 0 ? `the page carries no certificate: ${trimmed.status === 0 ? "recheck" : "trim"} says ${said}`
            : !isClaim ? "the search settled nothing, so the page carries no certificate"
                : this.hints ? `the page carries its certificate, which was checked: ${said}` : "the page's certificate is too long for it, and isn't there");
    }

    /** @param {Ran} ran makes the page, and writes each file that is asked for */
    async write(ran) {
        await this.certify(ran);
        const run = await this.#runOf(ran);
        const page = outline(run);
        const [, drawing] = stylesOf(this.styles, run.record.settings.paper);
        const made = new Map([["--html", () => this.#html(run, page)], ["--dxf", () => dxfOf(page.drawn())],
            ["--csv", () => page.drawn().objects?.csv() ?? ""], ["--sheet", () => sheetIn(textOfOutput(ran.output))],
            [SMALL, () => smallOf(page.drawn(), drawing)]]);
        for (const [word, output] of this.outputs.all) {
            const text = made.get(word)?.();
            if (text) output.write(text);
            else if (word !== SMALL) say(`there is no drawing, so ${output.name} isn't written`);
        }
    }
}

/** @param {Uint8Array} bytes @returns {Promise<string>} */
async function sha256(bytes) {
    const { createHash } = await import("node:crypto");
    return createHash("sha256").update(bytes).digest("hex");
}

/**
 * Writes the files of a run; the status where they can't be made.
 * @param {PageRun} run
 * @param {Ran} ran
 * @returns {Promise<number>}
 */
async function written(run, ran) {
    try {
        await run.write(ran);
        return 0;
    } catch (error) {
        if (!(error instanceof NoPage || error instanceof Refused)) throw error;
        say(error instanceof NoPage ? `there is no page of this run: ${error.message}` : error.message);
        return error instanceof NoPage ? 6 : error.status;
    }
}

/**
 * A run of a page that prints nothing.
 * @param {Context} context
 * @param {Line} line
 * @param {How} [how]
 * @returns {Promise<Ran>}
 */
export async function drawPage(context, line, how = {}) {
    const run = new PageRun(context, line, how);
    try {
        await run.readInputs();
        const ran = await run.engine.run({ words: line.words, signal: context.signal });
        if (!ran.wasStopped && ran.status <= 128) await run.write(ran);
        return ran;
    } finally {
        run.end();
    }
}

/**
 * Gives the answer; 6 where it can't be written, of which the sentence is said by then.
 * @param {Line} line @param {Ran} ran @param {Context} context @param {import("../both/messages/seen.js").Seen} seen
 * @returns {Promise<number>}
 */
async function give(line, ran, context, seen) {
    try {
        await giveAnswer(line, ran, context, seen);
        return 0;
    } catch (error) {
        if (error instanceof Ended) return error.status;
        throw error;
    }
}

/**
 * Says where the page is, and on a terminal what the search found.
 * @param {Line} line
 * @param {Ran} ran
 */
function sayPage(line, { status, output }) {
    const [page, lines] = [line.pages.get("--html"), linesOf(output)];
    if (!page) return;
    if (line.command === "explain" && status === 0 && lines.some((it) => it.startsWith("law "))) {
        say(`${page} has all of it, with a drawing without each of the laws`);
    } else if (isTerminal()) {
        const found = best(lines);
        say(found ? `${found}. Open ${page}` : `open ${page}`);
    }
}

/**
 * The whole: the status of the run, or of what couldn't be done for its page.
 * @param {Context} context
 * @param {Line} line
 * @param {How} [how]
 * @returns {Promise<number>}
 */
export async function runPage(context, line, how = {}) {
    /** @type {PageRun | null} */
    let run = null;
    try {
        run = new PageRun(context, line, how);
        await run.readInputs();
        const ran = await runProgram({ ...context, engine: run.engine }, line);
        if (ran.wasStopped || ran.status > 128) {
            say(run.outputs.said());
            if (line.isJson) await give(line, ran, context, run.seen);
            return ran.status;
        }
        const ended = await give(line, ran, { ...context, engine: run.asking }, run.seen);
        const failed = await written(run, ran);
        if (failed) return failed;
        if (ended) say(run.outputs.said());
        else sayPage(line, ran);
        return ended || ran.status;
    } catch (error) {
        if (!(error instanceof Refused)) throw error;
        return end(error.status, error.message);
    } finally {
        run?.end();
    }
}
