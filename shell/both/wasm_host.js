/**
 * The program as WebAssembly, over files in memory: what its five calls answer, and one run from its words to its end.
 */

/** @typedef {import("./engine.js").Ran} Ran */

/** the numbers of Linux, in which the program asks and is answered */
const NO_ENTRY = -2, BAD_FILE = -9, IS_THERE = -17, IS_FOLDER = -21, NO_ROOM = -28;
const ACCESS = 3, READS = 0, WRITES = 1, CREATES = 0o100, ALONE = 0o200, EMPTIES = 0o1000, AT_END = 0o2000;
/** the status of a run that the machine stopped: a check failed, or the stack had no room */
const TRAPPED = 134;

/** A file in memory, which grows as it is written. */
class MemoryFile {
    /** @param {Uint8Array} [bytes] */
    constructor(bytes = new Uint8Array(0)) {
        this.room = bytes;
        this.length = bytes.length;
    }

    get bytes() {
        return this.room.subarray(0, this.length);
    }

    /**
     * @param {number} at the place of the first byte
     * @param {Uint8Array} bytes
     */
    write(at, bytes) {
        const end = at + bytes.length;
        if (end > this.room.length) {
            const grown = new Uint8Array(Math.max(end, 2 * this.room.length, 4096));
            grown.set(this.bytes);
            this.room = grown;
        }
        this.room.set(bytes, at);
        this.length = Math.max(this.length, end);
    }
}

/**
 * One name for all spellings of a path; names are as the words have them, so no folder is above the first.
 * @param {string} name
 */
export function plainName(name) {
    /** @type {string[]} */
    const parts = [];
    for (const part of name.split("/")) {
        if (part === "..") {
            parts.pop();
        } else if (part !== "" && part !== ".") {
            parts.push(part);
        }
    }
    return (name.startsWith("/") ? "/" : "") + parts.join("/");
}

/** What the program's calls of its host do, over files in memory. */
export class Host {
    /**
     * @param {string[]} words
     * @param {Map<string, Uint8Array>} files by their plain names
     * @param {(name: string, piece: Uint8Array) => void} seen is given each piece that is written; the output's name is ""
     */
    constructor(words, files, seen) {
        const encoder = new TextEncoder();
        this.words = ["railplan", ...words].map((word) => encoder.encode(word));
        this.files = new Map([...files].map(([name, bytes]) => [name, new MemoryFile(bytes)]));
        this.written = new Set();
        this.output = new MemoryFile();
        this.seen = seen;
        this.open = new Map([
            [0, { name: "", file: new MemoryFile(), at: 0, flags: READS }],
            [1, { name: "", file: this.output, at: 0, flags: WRITES | AT_END }],
            [2, { name: "", file: new MemoryFile(), at: 0, flags: WRITES | AT_END }],
        ]);
        /** @type {WebAssembly.Memory | undefined} */
        this.memory = undefined;
    }

    /**
     * @param {number} at
     * @param {number} length
     */
    part(at, length) {
        return new Uint8Array(/** @type {WebAssembly.Memory} */ (this.memory).buffer, at >>> 0, length >>> 0);
    }

    /** the calls by the names under which the module asks for them */
    get calls() {
        return {
            open: this.openFile.bind(this), read: this.readFile.bind(this), write: this.writeFile.bind(this),
            close: this.closeFile.bind(this), word: this.giveWord.bind(this),
        };
    }

    /**
     * @param {number} at where the name begins
     * @param {number} length
     * @param {number} flags
     */
    openFile(at, length, flags) {
        const given = new TextDecoder().decode(this.part(at, length).slice());
        const name = plainName(given);
        if (name === "" || name === "/") {
            return given === "" ? NO_ENTRY : IS_FOLDER;
        }
        let file = this.files.get(name);
        if (!file && !(flags & CREATES)) {
            return NO_ENTRY;
        }
        if (file && flags & CREATES && flags & ALONE) {
            return IS_THERE;
        }
        if (!file) {
            file = new MemoryFile();
            this.files.set(name, file);
        }
        if ((flags & ACCESS) !== READS) {
            this.written.add(name);
        }
        if (flags & EMPTIES) {
            file.room = new Uint8Array(0);
            file.length = 0;
        }
        let number = 3;
        while (this.open.has(number)) {
            number++;
        }
        this.open.set(number, { name, file, at: 0, flags });
        return number;
    }

    /**
     * @param {number} number
     * @param {number} into
     * @param {number} length
     */
    readFile(number, into, length) {
        const it = this.open.get(number);
        if (!it || (it.flags & ACCESS) === WRITES) {
            return BAD_FILE;
        }
        const bytes = it.file.bytes.subarray(it.at, it.at + (length >>> 0));
        this.part(into, bytes.length).set(bytes);
        it.at += bytes.length;
        return bytes.length;
    }

    /**
     * @param {number} number
     * @param {number} from
     * @param {number} length
     */
    writeFile(number, from, length) {
        const it = this.open.get(number);
        if (!it || (it.flags & ACCESS) === READS) {
            return BAD_FILE;
        }
        const bytes = this.part(from, length);
        const at = it.flags & AT_END ? it.file.length : it.at;
        try {
            it.file.write(at, bytes);
        } catch (error) {
            if (!(error instanceof RangeError)) {
                throw error;
            }
            return NO_ROOM;
        }
        it.at = at + bytes.length;
        if (number !== 2) {
            this.seen(it.name, bytes);
        }
        return bytes.length;
    }

    /** @param {number} number */
    closeFile(number) {
        return this.open.delete(number) ? 0 : BAD_FILE;
    }

    /**
     * a word of the command line; -1 where there is none, -2 where it has no room
     * @param {number} number
     * @param {number} into
     * @param {number} room
     */
    giveWord(number, into, room) {
        const word = this.words[number >>> 0];
        if (!word) {
            return -1;
        }
        const fits = word.subarray(0, room >>> 0);
        this.part(into, fits.length).set(fits);
        return fits.length < word.length ? -2 : word.length;
    }
}

/**
 * Runs the program once, from its words to its end, over files in memory. Where it ends with 7 or is stopped by the machine it
 * leaves no files.
 * @param {WebAssembly.Module} module railplan.wasm, compiled
 * @param {string[]} words
 * @param {Map<string, Uint8Array>} files by the names that the words have
 * @param {(name: string, piece: Uint8Array) => void} [seen] is given what is written, piece by piece; the piece is the
 * program's own memory, so who keeps it copies it
 * @returns {Ran & {trap: string, memory: number}} with what stopped it, if anything did, and the bytes of its memory
 */
export function runWasm(module, words, files, seen = () => undefined) {
    const began = performance.now();
    const host = new Host(words, new Map([...files].map(([name, bytes]) => [plainName(name), bytes])), seen);
    let status = TRAPPED, trap = "";
    try {
        const instance = new WebAssembly.Instance(module, { host: host.calls });
        host.memory = /** @type {WebAssembly.Memory} */ (instance.exports.memory);
        const main = /** @type {(count: number, at: bigint) => number} */ (instance.exports.main);
        status = main(0, 0n) & 255;
    } catch (error) {
        trap = String(error);
    }
    const isWhole = trap === "" && status !== 7;
    const named = new Map([...files.keys(), ...words].map((name) => [plainName(name), name]));
    const left = isWhole ? [...host.written].map((name) => /** @type {const} */ ([named.get(name) ?? name, host.files.get(name)])) : [];
    return {
        status, trap, output: host.output.bytes, wasStopped: false,
        files: new Map(left.map(([name, file]) => [name, /** @type {MemoryFile} */ (file).bytes])),
        seconds: (performance.now() - began) / 1000, memory: host.memory ? host.memory.buffer.byteLength : 0,
    };
}
