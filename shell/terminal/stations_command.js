/**
 * `stations IN OUT`: writes one railML 2 file for each station of a line, each judged by the program's own track graph before.
 */
import { mkdirSync, readdirSync } from "node:fs";
import { join } from "node:path";
import { LISTING, listingText } from "../both/line/listing.js";
import { whyOther, wholeOf } from "../both/line/judged.js";
import { mendedLine } from "../both/line/mended.js";
import { micrometres } from "../both/line/network.js";
import { cutsOf } from "../both/line/stations.js";
import { unread } from "../both/messages/telling.js";
import { MOST_OF_LINE, lineTooLong } from "../both/file_kinds.js";
import { quoted } from "../both/quoted.js";
import { OWN } from "../both/words.js";
import { front, writeWhole } from "./files.js";
import { finderOf } from "./finding.js";
import { ownOptions } from "./own_options.js";
import { called, end, say, why } from "./say.js";
import { SEEN } from "./seen_files.js";

/** @typedef {import("../both/engine.js").Engine} Engine */
/** @typedef {import("../both/line/stations.js").StationFile} StationFile */

const STATIONS = /** @type {import("../both/words.js").Command} */ (OWN.get("stations"));
const USE = "stations takes the file of a line and a folder for its stations";

/**
 * A number of kilometres of an option, in micrometres.
 * @param {Map<string, string[]>} options
 * @param {string} name
 */
function kilometres(options, name) {
    const given = options.get(name)?.at(-1), value = given === undefined ? undefined : micrometres(given);
    if (given !== undefined && value === undefined) {
        end(2, `${name} ${given}: it is a number of kilometres, as 12.5`);
    }
    return value === undefined ? undefined : value * 1000;
}

/**
 * @param {Map<string, string[]>} options
 * @returns {import("../both/line/grouping.js").Asked}
 */
function partOf(options) {
    const low = kilometres(options, "--from"), high = kilometres(options, "--to");
    if ((low === undefined) !== (high === undefined)) {
        end(2, "--from KM and --to KM go together");
    }
    return {
        range: low === undefined || high === undefined ? null : { low: Math.min(low, high), high: Math.max(low, high) },
        tracks: options.get("--tracks")?.filter(Boolean),
    };
}

/**
 * The elements of the file, mended as prepare mends it.
 * @param {string} name
 */
function readLine(name) {
    let data = new Uint8Array();
    try {
        data = front(name, MOST_OF_LINE + 1);
    } catch {
        end(5, unread(name, SEEN, called()));
    }
    if (data.length > MOST_OF_LINE) {
        end(1, lineTooLong(name));
    }
    const it = mendedLine(name, data, called());
    it.guesses.forEach((text) => say(text));
    if (it.unfit) {
        say(it.unfit);
        end(1, "nothing is written");
    }
    it.changes.slice(0, 3).forEach((text) => say(text));
    if (it.changes.length > 3) {
        say(`and ${it.changes.length - 3} more changes of this kind, as ${called()} prepare says them`);
    }
    return it.document;
}

/**
 * Refuses a folder that has one of the files already: what is there isn't written over.
 * @param {string} out
 * @param {string[]} names of the files, without their endings
 */
function refuseThere(out, names) {
    try {
        mkdirSync(out, { recursive: true });
        const there = new Set(readdirSync(out)), found = [...names.map((it) => `${it}.xml`), LISTING].find((it) => there.has(it));
        if (found) {
            end(2, `${join(out, found)} is there already. Name an empty folder`);
        }
    } catch (error) {
        if (error instanceof Error && "code" in error) {
            end(6, `${out}: ${why(error)}`);
        }
        throw error;
    }
}

/**
 * Writes the list of the stations in their order, by which the index of a folder has them.
 * @param {string} out
 * @param {import("../both/line/listing.js").Listed[]} listed those that are written
 */
function writeListing(out, listed) {
    try {
        writeWhole(join(out, LISTING), listingText(listed));
    } catch (error) {
        end(6, `${join(out, LISTING)} couldn't be written: ${why(error)}`);
    }
}

/**
 * The stations of a file, and what each is held against.
 * @param {string} source
 * @param {import("../both/line/grouping.js").Asked} part
 */
function stationsIn(source, part) {
    const document = readLine(source);
    if (document.trouble) {
        end(1, `${source}: line ${document.trouble.line}: ${document.trouble.what}`);
    }
    return { document, cuts: cutsOf(document, part) };
}

/**
 * What comes of each thing, in their order, while it is worked on some of those behind it.
 * @template T
 * @template R
 * @param {Iterable<T>} things @param {number} count on how many it is worked at once @param {(it: T) => Promise<R>} work
 * @returns {AsyncGenerator<[T, R]>}
 */
async function* ahead(things, count, work) {
    /** @type {[T, Promise<R>][]} */
    const begun = [];
    for (const it of things) {
        const made = work(it);
        // one that fails is waited for in its turn
        made.catch(() => null);
        begun.push([it, made]);
        if (begun.length === count) {
            const [first, done] = /** @type {[T, Promise<R>]} */ (begun.shift());
            yield [first, await done];
        }
    }
    for (const [it, made] of begun) {
        yield [it, await made];
    }
}

/**
 * Writes a station's file.
 * @param {string} name
 * @param {Uint8Array} bytes
 * @param {StationFile} file
 */
function writeStation(name, bytes, file) {
    try {
        writeWhole(name, bytes);
    } catch (error) {
        end(6, `${name} couldn't be written: ${why(error)}`);
    }
    say(`${name}: ${file.title}, ${file.points.length} switches and crossings${file.notes.length ? `; ${file.notes.join("; ")}` : ""}`);
}

/**
 * Writes each station's file that is as in the whole file, while the next ones are cut and looked into.
 * @param {{engine: Engine, signal: AbortSignal}} context
 * @param {ReturnType<typeof stationsIn>} line
 * @param {string} out
 * @returns {Promise<import("../both/line/listing.js").Listed[]>} those that are written
 */
async function writeStations({ engine, signal }, { document, cuts }, out) {
    const whole = wholeOf(document), finder = finderOf(engine, cuts.names.length, signal), written = [];
    const looked = (/** @type {StationFile} */ file) => {
        const bytes = new TextEncoder().encode(file.text);
        return finder.found(`${file.name}.xml`, bytes).then((found) => ({ bytes, found }));
    };
    try {
        for await (const [file, { bytes, found }] of ahead(cuts.files(), 2 * finder.count, looked)) {
            const name = join(out, `${file.name}.xml`);
            if (found.wasStopped) {
                end(130, "stopped");
            }
            const reason = whyOther(whole, file, bytes, found);
            if (reason) {
                say(`${name} isn't written (${file.title}, ${file.points.length} switches and crossings): ${reason}`);
                continue;
            }
            writeStation(name, bytes, file);
            written.push(file.listed);
        }
    } finally {
        finder.close();
    }
    return written;
}

/**
 * Runs the command.
 * @param {{engine: Engine, signal: AbortSignal}} context
 * @param {import("../both/words.js").Line} line
 * @returns {Promise<number>}
 */
export async function run(context, line) {
    const { names, options } = ownOptions(STATIONS, line.words.slice(1)), isList = options.has("--list"), part = partOf(options);
    if (names.length !== 2 && !(isList && names.length === 1)) {
        end(2, `${USE}: ${called()} stations IN OUT`);
    }
    const [source, out] = names, found = stationsIn(source, part), { cuts } = found, count = cuts.names.length;
    if (isList) {
        const files = [...cuts.files()];
        files.forEach((it) => say(`${it.name}: ${it.title}, ${it.points.length} switches and crossings`));
        cuts.closing().forEach((text) => say(text));
        return 0;
    }
    refuseThere(out, cuts.names);
    const written = await writeStations(context, found, out);
    writeListing(out, written);
    cuts.closing().forEach((text) => say(text));
    say(`${written.length} of ${count} files are written. ${called()} folder ${quoted(out)} DRAWN draws them all`);
    const isAsked = part.range !== null || part.tracks !== undefined;
    return written.length < count || !count || !cuts.isWhole && !isAsked ? 1 : 0;
}
