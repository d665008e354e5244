/** `railplan folder IN OUT`: draws each station of a folder, several side by side, and makes one page of them. */
import { accessSync, constants, lstatSync, readFileSync, readdirSync } from "node:fs";
import { basename, extname, join } from "node:path";
import { FolderRecord, ENDINGS, RECORDS, SMALL, fileName } from "../both/folder_record.js";
import { oneTwice } from "../both/file_kinds.js";
import { LISTING, readListing } from "../both/line/listing.js";
import * as index from "../both/page/folder_index.js";
import { bar } from "../both/searched.js";
import { read } from "../both/words.js";
import { processors } from "./building.js";
import { path, textOf } from "./bytes.js";
import { beginsAs, front, isOneFile, makeFolders, stateOf, writeWhole } from "./files.js";
import { readFolderWords } from "./folder_words.js";
import { contextFor } from "./programs.js";
import { NativeEngine } from "./native_engine.js";
import { codeOf, end, isTerminal, say, why, writeError } from "./say.js";
import { Stopped, draw, recordIn } from "./folder_station.js";

/** @typedef {import("./folder_words.js").Asked} Asked */
/** @typedef {import("./folder_station.js").Setting} Setting */
/** @typedef {import("./programs.js").Asking} Asking */
/** @typedef {import("../both/folder_record.js").Kind} Kind */

const ENDINGS_READ = [".xml", ".railml"];
const UNPROVED = "--unproved";
// so many names are said at the most
const LISTED = 5;

// ---- the stations

/** @param {string} folder @returns {string[]} the plain files in a folder, by their names */
function filesIn(folder) {
    /** @type {Uint8Array[]} */
    const names = readdirSync(path(folder), { encoding: "buffer" });
    return names.map(textOf).filter((it) => stateOf(join(folder, it))?.isFile()).sort(index.byName);
}

/** @param {string} name @returns {boolean} */
function isRead(name) {
    return ENDINGS_READ.includes(extname(name).toLowerCase());
}

/** @param {string} name @returns {string} the name without its ending */
function stem(name) {
    return basename(name, extname(name));
}

/**
 * The railML files of a folder by the names of what is made of them: without the ending, but where that is the name of what is
 * made of another file, or of the page of all.
 * @param {string} folder
 * @returns {Map<string, string>}
 */
export function stations(folder) {
    const there = stateOf(folder);
    if (!there?.isDirectory()) {
        end(5, `${folder} ${there ? "is no folder" : "isn't there"}. Name a folder with railML files`);
    }
    const found = filesIn(folder).filter(isRead);
    if (!found.length) {
        end(5, `${folder} has no file *.xml or *.railml`);
    }
    const taken = ["index", ...found.map(stem), ...found];
    const isAlone = (/** @type {string} */ name) => taken.filter((it) => it === name).length === 1;
    return new Map(found.map((it) => [isAlone(stem(it)) ? stem(it) : it, join(folder, it)]));
}

/** @param {string} folder @returns {string} that files aren't drawn, as their names don't end as those of railML files */
function passedOver(folder) {
    const found = filesIn(folder).filter((it) => !isRead(it) && !it.startsWith(".") && it !== LISTING);
    return found.length ? `passed over, as they don't end in .xml or .railml: ${some(found)}` : "";
}

/** @param {string} folder @returns {import("../both/line/listing.js").Listed[]} the stations of a line in their order, where they are listed there */
function listingIn(folder) {
    try {
        return readListing(readFileSync(path(join(folder, LISTING)), "utf-8"));
    } catch {
        return [];
    }
}

/** @param {string[]} names @returns {string} the first of some names, and how many more there are */
function some(names) {
    return names.slice(0, LISTED).join(", ") + (names.length > LISTED ? ` and ${names.length - LISTED} more` : "");
}

// ---- the folder for what is made

/**
 * @param {string} name @param {string} kind
 * @returns {boolean} whether a file that is there is empty, or begins as one of its kind
 */
function mayReplace(name, kind) {
    if (!lstatSync(path(name)).isFile()) {
        return false;
    }
    try {
        const begun = front(name, 32);
        return !begun.length || beginsAs(begun, kind);
    } catch (error) {
        return end(6, `${name} can't be read: ${why(error)}`);
    }
}

/**
 * Ends the run where something else would be written over.
 * @param {string} out @param {string[]} names
 */
function refuseOthers(out, names) {
    const kinds = [...ENDINGS.keys()];
    const listed = names.flatMap((name) => kinds.map((kind) => ({ place: join(out, fileName(name, kind)), kind })));
    for (const { place, kind } of [...listed, { place: join(out, "index.html"), kind: "page" }]) {
        let there;
        try {
            there = lstatSync(path(place), { throwIfNoEntry: false });
        } catch {
            continue;
        }
        if (there && !mayReplace(place, kind)) {
            end(2, `${place} is there, and railplan didn't make it. Name another folder, or delete it`);
        }
    }
}

/** @param {string} out */
export function makeFolder(out) {
    const there = stateOf(out);
    if (there && !there.isDirectory()) {
        end(6, `${out} is a file. Name a folder, or one that isn't there yet`);
    }
    try {
        [RECORDS, SMALL].forEach((name) => makeFolders(join(out, name)));
    } catch (error) {
        end(6, `${out} can't be made: ${why(error)}`);
    }
    try {
        accessSync(path(out), constants.W_OK | constants.X_OK);
    } catch {
        end(6, `${out} can't be written: you haven't the right to make files in it`);
    }
}

// ---- the run

/** How far the run is, on a terminal, and the faults in the order of the stations, as soon as those before are done. */
export class Shown {
    /** @param {string[]} names @param {(text: string) => void} [write] @param {boolean} [onTerminal] */
    constructor(names, write = writeError, onTerminal = isTerminal()) {
        this.total = names.length;
        this.left = [...names];
        this.done = 0;
        this.faults = 0;
        this.began = performance.now();
        /** @type {Map<string, FolderRecord>} */
        this.ended = new Map();
        this.write = write;
        this.onTerminal = onTerminal;
    }

    /** @param {FolderRecord} record */
    take(record) {
        this.done++;
        this.ended.set(record.name, record);
        this.faults += Number(record.isFault);
        while (this.left.length && this.ended.has(this.left[0])) {
            this.say(/** @type {string} */ (this.left.shift()));
        }
    }

    /** @param {string} name */
    say(name) {
        const record = this.ended.get(name);
        if (record?.isFault) {
            this.clear();
            this.write(record.said || `railplan: ${name} ended with ${record.status}\n`);
        }
    }

    /** Says those that are done behind one that isn't. */
    sayRest() {
        this.left.forEach((name) => this.say(name));
        this.left = [];
    }

    show() {
        if (this.onTerminal) {
            const faults = this.faults ? ` · ${this.faults} refused` : "", seconds = (performance.now() - this.began) / 1000;
            const done = `${bar(this.done, this.total)} ${this.done} of ${this.total} stations${faults}`;
            this.write(`\r${done} · ${seconds.toFixed(0)} s\x1b[K`);
        }
    }

    clear() {
        if (this.onTerminal) {
            this.write("\r\x1b[K");
        }
    }
}

/**
 * Draws stations, so many side by side. A station's own faults are in its record; another fault ends the run.
 * @param {Map<string, string>} listed @param {Setting} setting @param {number} count
 * @returns {Promise<{records: FolderRecord[], wasStopped: boolean}>}
 */
async function drawSome(listed, setting, count) {
    const left = [...listed], shown = new Shown([...listed.keys()]);
    /** @type {FolderRecord[]} */
    const records = [];
    /** @type {unknown} */
    let fault = null;
    const one = async () => {
        for (let next = left.shift(); next; next = left.shift()) {
            try {
                const record = await draw(next[1], next[0], setting);
                records.push(record);
                shown.take(record);
            } catch (error) {
                fault ??= error;
                left.length = 0;
            }
        }
    };
    const timer = setInterval(() => shown.show(), 500);
    await Promise.all(Array.from({ length: count }, one));
    clearInterval(timer);
    if (fault) {
        shown.sayRest();
    }
    shown.clear();
    if (fault && !(fault instanceof Stopped)) {
        throw fault;
    }
    return { records, wasStopped: fault !== null };
}

/**
 * How many stations ended how, and how many have a certificate.
 * @param {FolderRecord[]} records
 * @returns {string}
 */
function summary(records) {
    const certified = index.certified(records), ended = records.length ? `: ${index.counts(records)}` : "";
    return index.stations(records.length) + ended + (certified ? `, ${certified} with a certificate` : "");
}

/**
 * @param {string} out @param {string[]} names @returns {string[]} the stations of former runs of which there are files still
 * beside the small picture, and no railML file any more
 */
function leftOver(out, names) {
    const former = filesIn(join(out, RECORDS)).filter((it) => it.endsWith(".json")).map((it) => it.slice(0, -5));
    return former.filter((name) => !names.includes(name)
        && recordIn(out, name)?.files.some((it) => it !== fileName(name, "small") && stateOf(join(out, it))));
}

/**
 * the engine apart from the terminal
 * @param {import("../both/engine.js").Engine} engine
 */
function quietly(engine) {
    const how = { isApart: true, isQuiet: true };
    return engine instanceof NativeEngine ? new NativeEngine(engine.program, { ...engine.how, ...how }) : engine;
}

/**
 * @param {Asking} asking @param {Asked} asked @param {Map<string, string>} listed
 * @param {string[]} unproved the word that asks for the program without its proofs, if it is there
 */
async function drawListed(asking, asked, listed, unproved) {
    // as a run of draw that is asked for a page: the hash of the program is needed
    const context = await contextFor(asking, read([...unproved, "--html", "index.html", "draw", "x"]));
    const quiet = quietly(context.engine);
    const { out, options, certifies, jobs } = asked;
    try {
        return await drawSome(listed, { context: { ...context, engine: quiet }, out, options, certifies }, jobs);
    } catch (error) {
        const { path: place } = /** @type {{path?: string}} */ (error);
        return codeOf(error) ? end(6, `${place ?? out}: ${why(error)}`) : Promise.reject(error);
    }
}

/**
 * Says that the run was stopped, and what is done by then.
 * @param {Asked} asked @param {number} count @param {number} done
 * @returns {number}
 */
function stopped(asked, count, done) {
    const more = asked.shard.parts > 1 ? "" : ", and writes index.html at its end", are = done === 1 ? "is" : "are";
    say(`stopped; of ${index.stations(count)} ${done} ${are} done. The same line goes on from there${more}`);
    return 130;
}

/**
 * Draws a folder, and makes the page of all; an interrupt ends all programs, and leaves the stations that are done.
 * @param {Asking} asking @param {string[]} given
 * @returns {Promise<number>}
 */
export async function run(asking, given) {
    const { called } = asking, asked = readFolderWords(given.filter((it) => it !== UNPROVED), called, processors()), { from, out, shard } = asked;
    const all = stations(from), names = [...all.keys()], began = performance.now();
    const ofPart = [...names].sort(index.byName).filter((_, at) => at % shard.parts === shard.part - 1);
    const listed = new Map(ofPart.map((name) => [name, /** @type {string} */ (all.get(name))]));
    if (isOneFile(from, out)) {
        end(2, `${oneTwice(from, out, "folder")}. Name another one for what is drawn, as ${join(from, "drawn")}`);
    }
    refuseOthers(out, names);
    makeFolder(out);
    const others = passedOver(from);
    if (others) {
        say(others);
    }
    const drawn = asked.joins ? { records: [], wasStopped: false } : await drawListed(asking, asked, listed, given.filter((it) => it === UNPROVED));
    if (drawn.wasStopped) {
        return stopped(asked, listed.size, drawn.records.length);
    }
    const seconds = () => `in ${((performance.now() - began) / 1000).toFixed(0)} s`;
    if (shard.parts > 1 && !asked.joins) {
        say(`${summary(drawn.records)}, ${seconds()}. ${called} folder --join ${from} ${out} makes the page of all parts`);
        return index.worst(drawn.records);
    }
    const records = names.map((name) => recordIn(out, name) ?? new FolderRecord(name));
    try {
        writeWhole(join(out, "index.html"), index.text(`Stations of ${basename(from) || from}`, records, listingIn(from)));
    } catch (error) {
        end(6, `${join(out, "index.html")} couldn't be written: ${why(error)}`);
    }
    const former = leftOver(out, names);
    if (former.length) {
        say(`left in ${out} from former runs, as ${from} has no such station any more: ${some(former)}`);
    }
    say(`${summary(records)}, ${seconds()}. Open ${join(out, "index.html")}`);
    return index.worst(records);
}
