/**
 * What a page claims, judged anew: its file, its sheet and its hinted lines are given to a program, and each claim is compared
 * with what that program says now. So a reader needs to believe neither the page nor who made it, but the program that judges.
 */
import { NoPage, readSheet, sheetPart } from "./texts.js";

/** @typedef {import("../engine.js").Engine} Engine */
/** @typedef {import("./run.js").RunRecord} RunRecord */
/** @typedef {{what: string, isRight: boolean}} Finding a claim in words, and whether it holds */

/** The program that judges couldn't: it had no memory, was stopped, or ended otherwise than it should. */
export class Unjudged extends Error {}
/**
 * @typedef {object} Verdict
 * @property {"lawful" | "unlawful" | "none" | "unjudged"} drawing what the program says of the drawing, where there is one
 * @property {string} claim what the sheet's ending claims besides, in words, or "" where it claims nothing
 * @property {"certified" | "refused" | "unjudged"} best whether the hinted lines certify that
 * @property {Finding[]} findings each claim that was looked at
 * @property {string[]} open what the page claims and nobody judged
 */

const FILE = "station.xml", SHEET = "station.sheet", HINTS = "station.hints";
/** how a run of a judge ends that has judged: what was asked for, a file with a fault, or a refusal */
const JUDGED = new Set([0, 1, 3, 4, 8]);
/** the commands whose second file is a sheet of the first */
const OF_SHEET = new Set(["verify", "check", "trim", "recheck"]);
const LAWFUL = /^lawful (\d+ \d+ \d+ \d+)$/;
const decoder = new TextDecoder("utf-8", { ignoreBOM: true }), encoder = new TextEncoder();

/**
 * The sheet that a run's page shows; nothing where its command has none that verify takes.
 * @param {RunRecord} record
 */
export function sheetOf(record) {
    const [command] = record.words;
    if (command === "draw" || command === "signals") {
        return record.output.startsWith("railplan ") ? encoder.encode(sheetPart(record.output)) : null;
    }
    return OF_SHEET.has(command) ? record.inputs[1]?.content ?? null : null;
}

/** One page, while it is judged. */
class Judging {
    /**
     * @param {RunRecord} record
     * @param {Uint8Array | null} hints
     * @param {Engine} engine
     * @param {(bytes: Uint8Array) => Promise<string>} sha256
     */
    constructor(record, hints, engine, sha256) {
        this.record = record;
        this.hints = hints;
        this.engine = engine;
        this.sha256 = sha256;
        this.file = record.inputs[0]?.content ?? null;
        this.sheet = sheetOf(record);
        /** @type {Verdict} */
        this.verdict = { drawing: "unjudged", claim: "", best: "unjudged", findings: [], open: [] };
    }

    /**
     * @param {string} what
     * @param {boolean} isRight
     */
    find(what, isRight) {
        this.verdict.findings.push({ what, isRight });
    }

    /**
     * @param {string[]} words
     * @returns {Promise<string>} what the program prints
     */
    async ask(words) {
        const files = new Map(/** @type {[string, Uint8Array | null][]} */ ([[FILE, this.file], [SHEET, this.sheet], [HINTS, this.hints]])
            .filter(([name, bytes]) => words.includes(name) && bytes !== null));
        const ran = await this.engine.run({ words, files: /** @type {Map<string, Uint8Array>} */ (files) });
        if (!JUDGED.has(ran.status)) {
            throw new Unjudged(`the program that judges ended with ${ran.status}`);
        }
        return decoder.decode(ran.output);
    }

    async judge() {
        const { record, file, sheet } = this;
        if (!file) {
            this.find("the page has its railML file", false);
            return this.verdict;
        }
        this.find("the file is the one of the SHA-256 that the page names", await this.isNamed(file, 0));
        const graph = await this.ask(["graph", FILE]);
        this.find("the track graph is the file's", graph === (record.graphs[0] ?? null));
        if (sheet) {
            await this.judgeSheet(sheet);
        }
        this.leaveOpen();
        return this.verdict;
    }

    /**
     * whether an input has the SHA-256 that the page names
     * @param {Uint8Array} content @param {number} number
     */
    async isNamed(content, number) {
        return await this.sha256(content) === this.record.inputs[number]?.facts.sha256;
    }

    /** says what of the page isn't judged */
    leaveOpen() {
        const [command] = this.record.words, { open } = this.verdict;
        if (command === "signals") {
            open.push("where the signals are");
        } else if (command !== "draw" && command !== "verify" && !(command === "recheck" && this.hints)) {
            open.push(`the answer of ${command}`);
        }
        open.push("the command line, names and dates");
    }

    /**
     * The sheet's parts; nothing where it isn't one.
     * @param {Uint8Array} sheet
     */
    partsOf(sheet) {
        try {
            return readSheet(decoder.decode(sheet));
        } catch (error) {
            if (!(error instanceof NoPage)) {
                throw error;
            }
            this.find("the sheet is a sheet", false);
            return null;
        }
    }

    /** @param {Uint8Array} sheet */
    async judgeSheet(sheet) {
        const parts = this.partsOf(sheet), { record, verdict } = this;
        if (!parts) {
            return;
        }
        const { drawing, values, order, ending } = parts, isOwn = record.words[0] === "recheck";
        verdict.claim = claimOf(order, ending);
        if (OF_SHEET.has(record.words[0])) {
            this.find("the sheet is the one of the SHA-256 that the page names", await this.isNamed(sheet, 1));
        } else if (record.sheetHash) {
            this.find("the sheet is the one of the SHA-256 that the page names", await this.sha256(sheet) === record.sheetHash);
        }
        if (record.words[0] === "verify") {
            this.find("the program's answer is the one that the page shows", await this.ask(["verify", FILE, SHEET]) === record.output);
        }
        if (drawing) {
            const answer = (await this.ask(["verify", FILE, SHEET])).trim(), found = LAWFUL.exec(answer);
            verdict.drawing = found ? "lawful" : "unlawful";
            this.find(`the drawing is lawful${found ? "" : `: ${answer}`}`, found !== null);
            if (found) {
                const claimed = ["height", "bends", "diagonal", "width"].map((it) => values[it]).join(" ");
                this.find("its values are its own", found[1] === claimed);
            }
        } else {
            verdict.drawing = ending[0] === "none" ? "none" : "unjudged";
        }
        if (this.hints) {
            if (isOwn) {
                this.find("the hinted lines are those of the SHA-256 that the page names", await this.isNamed(this.hints, 2));
            }
            const printed = await this.ask(["recheck", FILE, SHEET, HINTS]), answer = printed.trim();
            if (isOwn) {
                this.find("the program's answer is the one that the page shows", printed === record.output);
            }
            const settled = `certified ${ending[0] === "none" ? 0 : settledBy(order, ending)}`;
            verdict.best = answer === settled ? "certified" : "refused";
            if (!isOwn) {
                this.find(`the hinted lines certify what the sheet claims${answer === settled ? "" : `: ${answer}`}`, answer === settled);
            }
        }
    }
}

/**
 * Judges a page.
 * @param {RunRecord} record the page's run
 * @param {Uint8Array | null} hints the hinted lines that the page carries
 * @param {Engine} engine the program that judges
 * @param {(bytes: Uint8Array) => Promise<string>} sha256
 * @returns {Promise<Verdict>}
 */
export function judgePage(record, hints, engine, sha256) {
    return new Judging(record, hints, engine, sha256).judge();
}

/**
 * in how many criteria a sheet claims that no drawing is better
 * @param {string[]} order @param {string[]} ending
 */
const settledBy = (order, ending) => ending[0] === "best" ? order.length : Number(ending[1] ?? 0);

/**
 * What a sheet's ending claims of all drawings.
 * @param {string[]} order @param {string[]} ending
 */
function claimOf(order, ending) {
    const settled = settledBy(order, ending);
    if (ending[0] === "none") {
        return "no drawing keeps the laws on this grid";
    }
    return settled ? `none better in ${order.slice(0, settled).join(", ")}` : "";
}

/** how each verdict reads */
const DRAWING = { lawful: "lawful: checked here", unlawful: "not lawful: checked here", none: "", unjudged: "" };
const BEST = { certified: "certified here", refused: "its hints don't certify it", unjudged: "not certified here" };
const MAKER = new Map(Object.entries({
    proved: "made by a program whose proofs passed: as its maker says", unproved: "made by a program without proofs: as its maker says",
}));
const UNKNOWN = "made by a program of which nothing is known";

/**
 * What was found, in a line.
 * @param {RunRecord} record
 * @param {Verdict} verdict
 */
export function inWords(record, { drawing, claim, best, findings }) {
    const wrong = findings.filter((it) => !it.isRight).map((it) => it.what);
    const claimed = claim ? `${claim}: ${BEST[best]}` : "the search stopped, and claims nothing more";
    const parts = [DRAWING[drawing], claimed, MAKER.get(record.build?.state) ?? UNKNOWN].filter(Boolean);
    return wrong.length ? `don't use this page: it isn't so that ${wrong.join("; that ")}` : parts.join(" · ");
}
