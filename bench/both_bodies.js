#!/usr/bin/env node
/**
 * Seeded runs of the native program and of the same as WebAssembly under node: `both_bodies.js PROGRAM MODULE.wasm [COUNT [FIRST SEED]]`.
 * Each seed gives words and files: a station of cases/stations, examples or of a random line, drawings and logs of it, all of them whole or
 * changed by chance, and words that may be wrong. Status, output and each file that is left are to be the same. It prints how many runs
 * ended with each status, and each run that differs, and ends with 1 where one does.
 */
import { readFileSync, readdirSync } from "node:fs";
import { fileURLToPath } from "node:url";
import { runWasm } from "../shell/both/wasm_host.js";
import { NativeEngine } from "../shell/terminal/native_engine.js";
import { numbers } from "../shell/tests/random_line.js";

/** @typedef {ReturnType<typeof numbers>} Chance */
/** @typedef {Map<string, Uint8Array>} Files */

const TOP = fileURLToPath(new URL("..", import.meta.url)), MOST_BYTES = 6000;
const USUAL = 20_000, LOG = "search.log", SHEET = "station.sheet", HINTS = "station.hints", STATION = "station.xml", FORMER = "former.xml";
const PIECES = ["\0", "\n", "\r\n", " ", "\xff", "<", ">", "&", '"', "=", "/", "-", "+", ".", "0", "1", "64", "65", "128", "129", "4294967296",
    "18446744073709551616", "&#0;", "r ", "l ", "m ", "q "].map((it) => Uint8Array.from(it, (letter) => letter.charCodeAt(0)));
/** words of each command, and what it needs */
const COMMANDS = new Map(Object.entries({
    graph: [STATION], draw: [STATION], signals: [STATION], explain: [STATION], front: [STATION, "height,width"], verify: [STATION, SHEET],
    check: [STATION, SHEET, LOG], trim: [STATION, SHEET, LOG, "new.hints"], recheck: [STATION, SHEET, HINTS], redraw: [STATION, FORMER, SHEET],
}));
const SEARCHES = new Set(["draw", "signals", "explain", "front", "redraw"]);

/** @template T @param {Chance} chance @param {T[]} all @returns {T} */
const some = (chance, all) => all[chance(all.length)];

/** @returns {Uint8Array[]} the stations, each with at most so many bytes that a run is short */
function stations() {
    const folders = ["examples", "cases/stations"].map((it) => `${TOP}/${it}`);
    const names = folders.flatMap((folder) => readdirSync(folder).filter((it) => it.endsWith(".xml")).map((it) => `${folder}/${it}`));
    return names.sort().map((it) => new Uint8Array(readFileSync(it))).filter((it) => it.length <= MOST_BYTES);
}

/** @param {Chance} chance @param {Uint8Array} bytes @returns {Uint8Array} with one change */
function changed(chance, bytes) {
    const at = chance(bytes.length + 1), to = Math.min(bytes.length, at + some(chance, [1, 1, 2, 8, 40, 200]));
    const other = chance(bytes.length + 1), piece = some(chance, [some(chance, PIECES), bytes.subarray(other, other + to - at), new Uint8Array(0)]);
    return Uint8Array.from([...bytes.subarray(0, at), ...piece, ...bytes.subarray(chance(3) ? to : at)]);
}

/** @param {Chance} chance @param {Uint8Array} bytes whole three times in five, else with up to three changes */
function maybe(chance, bytes) {
    let found = bytes;
    for (let left = Math.max(0, chance(5) - 2); left; left--) found = changed(chance, found);
    return found;
}

/** @param {Chance} chance @param {string} command @returns {string[]} options of a command, of which some are wrong */
function options(chance, command) {
    const found = SEARCHES.has(command) ? ["--conflicts", String(some(chance, [0, 1, 5, 60, 200]))] : [];
    const more = [["--width", String(some(chance, [4, 8, 12, 40]))], ["--height", String(some(chance, [0, 1, 3, 8]))], ["--least", "2"],
        ["--order", some(chance, ["width,height,bends,diagonal", "bends,height,diagonal,width", "height"])], ["--svg", "picture.svg"],
        ["--log", "new.log"], ["--width", "999"], ["--colour", "red"], ["--height"]];
    // the last three are wrong, and rare
    for (let left = chance(4); left && SEARCHES.has(command); left--) found.push(...some(chance, chance(12) ? more.slice(0, -3) : more));
    return found;
}

/** @param {Uint8Array | undefined} one @param {Uint8Array | undefined} other */
const isSame = (one, other) => one !== undefined && other !== undefined && Buffer.compare(one, other) === 0;

/** Both bodies of the program. */
class Both {
    /** @param {string} program @param {WebAssembly.Module} module */
    constructor(program, module) {
        this.native = new NativeEngine(program, { isQuiet: true });
        this.module = module;
        /** @type {Map<string, Files>} of each station and grid what draw and trim leave */
        this.made = new Map();
        this.stations = stations();
    }

    /** @param {Chance} chance @returns {Promise<Files>} a station with its drawing, log and hints */
    async drawn(chance) {
        const number = chance(this.stations.length), budget = some(chance, ["0", "3", "300"]), key = `${number} ${budget}`, known = this.made.get(key);
        if (known) return known;
        const files = new Map([[STATION, this.stations[number]], [FORMER, some(chance, this.stations)]]);
        const ran = await this.native.run({ words: ["draw", STATION, "--conflicts", budget, "--log", LOG], files });
        files.set(SHEET, ran.output).set(LOG, ran.files.get(LOG) ?? new Uint8Array(0));
        const trimmed = await this.native.run({ words: ["trim", STATION, SHEET, LOG, HINTS], files });
        files.set(HINTS, trimmed.files.get(HINTS) ?? new Uint8Array(0));
        this.made.set(key, files);
        return files;
    }

    /** @param {number} seed @returns {Promise<{status: number, differs: string}>} how both ended, and in what they differ */
    async run(seed) {
        const chance = numbers(seed * 2654435761 + 11), whole = await this.drawn(chance), command = some(chance, [...COMMANDS.keys()]);
        const names = COMMANDS.get(command) ?? [], words = [command, ...names, ...options(chance, command)];
        if (!chance(40)) words.splice(chance(words.length + 1), chance(2), "x");
        const files = new Map([...whole].filter(([name]) => names.includes(name) && chance(50)).map(([name, bytes]) => [name, maybe(chance, bytes)]));
        const one = await this.native.run({ words, files }), other = runWasm(this.module, words, files);
        const left = [...new Set([...one.files.keys(), ...other.files.keys()])];
        const differs = one.status !== other.status ? `status ${one.status} and ${other.status} ${other.trap}`
            : !isSame(one.output, other.output) ? "what is printed"
                : left.filter((name) => !isSame(one.files.get(name), other.files.get(name))).join(", ");
        return { status: one.status, differs: differs && `seed ${seed}, ${words.join(" ")}: ${differs}` };
    }
}

const [, , program = "", wasm = "", count = String(USUAL), first = "1"] = process.argv;
if (!program || !wasm) throw new Error("both_bodies.js PROGRAM MODULE.wasm [COUNT [FIRST SEED]]");
const both = new Both(program, new WebAssembly.Module(readFileSync(wasm))), began = performance.now();
/** @type {Map<string, number>} */
const ended = new Map();
let differing = 0;
for (let seed = Number(first); seed < Number(first) + Number(count); seed++) {
    const { status, differs } = await both.run(seed);
    ended.set(String(status), (ended.get(String(status)) ?? 0) + 1);
    if (differs) process.stdout.write(`${differs}\n`);
    differing += differs ? 1 : 0;
}
const statuses = [...ended].sort(([one], [other]) => Number(one) - Number(other)).map(([status, times]) => `${times} with ${status}`).join(", ");
process.stdout.write(`${count} runs in ${((performance.now() - began) / 1000).toFixed(0)} s: ${statuses}; ${differing} differ\n`);
process.exitCode = differing ? 1 : 0;
