/**
 * The words of a command line: the tables of commands, names and options by word, and a command line taken apart. Nothing here
 * judges what the program judges. `fault` is for the time before a program is there, and a test holds it to the program's own
 * answers.
 */
import table from "./commands.js";
import kinds from "./mending_kinds.js";

/** @typedef {{word: string, what: string, kind: string, isWritten?: boolean}} Name a name of a command; a file is read, or
 * written by the run */
/** @typedef {object} Option an option: how help writes its value, what it is, and what it takes: a number (low, high, usual),
 * an order, a file of a kind that the run writes, one of a few words (choices), a shard or nothing
 * @property {string} word
 * @property {string} [value]
 * @property {string} what
 * @property {string} takes
 * @property {number} [low]
 * @property {number} [high]
 * @property {string} [usual]
 * @property {string} [kind]
 * @property {string[]} [choices]
 * @property {string[]} [commands] the commands that a page word is for, where it isn't for all that have pages */
/** @typedef {object} Command a command: what it does in a line and in more, lines to type, and whether it may run for long
 * @property {string} word
 * @property {string} what
 * @property {string} more
 * @property {Name[]} names
 * @property {string[]} options
 * @property {string[]} examples
 * @property {boolean} takesLong */

/** @param {string | string[] | undefined} text @returns {string} */
function whole(text) {
    return Array.isArray(text) ? text.join(" ") : text ?? "";
}

/** @param {any[]} listed @returns {Map<string, Command>} */
function commandsOf(listed) {
    return new Map(listed.map((it) => {
        const command = { ...it, what: whole(it.what), more: whole(it.more), takesLong: !!it.takesLong };
        return [it.word, command];
    }));
}

/** @param {any[]} listed @returns {Map<string, Option>} */
function optionsOf(listed) {
    return new Map(listed.map((it) => [it.word, { ...it, what: whole(it.what) }]));
}

export const COMMANDS = commandsOf(table.commands);
export const OPTIONS = optionsOf(table.options);
/** words that say which program is run and how it answers; they count before and behind the command */
export const FRONT_WORDS = optionsOf(table.frontWords);
/** words that belong to pages */
export const PAGE_WORDS = optionsOf(table.pageWords);
/** commands of the launcher itself: the program doesn't know them */
export const OWN = commandsOf(table.own);
export const OWN_OPTIONS = optionsOf(table.ownOptions);
/** the commands that have pages */
export const PAGED = table.paged;
export const CRITERIA = table.criteria;
/** @type {{word: string, found: string, written: string}[]} the kinds of changes that prepare makes */
export const KINDS = kinds;

const FILE_KINDS = new Set(["railml", "sheet", "log", "hints", "folder"]);

/**
 * The page words that a command has.
 * @param {string} command
 * @returns {Option[]}
 */
export function pageWordsOf(command) {
    return PAGED.includes(command) ? [...PAGE_WORDS.values()].filter((it) => it.commands?.includes(command) ?? true) : [];
}

/**
 * A page word as it is typed: with its value, where it has one.
 * @param {[string, string]} page
 * @returns {string[]}
 */
export function pageWords([word, value]) {
    return PAGE_WORDS.get(word)?.takes === "nothing" ? [word] : [word, value];
}

/** @param {Name} name @returns {boolean} */
export function isFileName(name) {
    return FILE_KINDS.has(name.kind);
}

/** A file that the words name: its word, its kind, whether the run writes it, and its place among the program's words, from 0;
 * of a page word it is -1. */
export class File {
    /** @param {string} word @param {string} kind @param {boolean} isWritten @param {number} [at] */
    constructor(word, kind, isWritten, at = -1) {
        this.word = word;
        this.kind = kind;
        this.isWritten = isWritten;
        this.at = at;
    }
}

/** A fault of the words: its number, its name, and its position, counted from 1. */
export class Fault {
    /** @param {number} number @param {number} position */
    constructor(number, position) {
        this.number = number;
        this.position = position;
    }

    get name() {
        return table.faults[this.number - 1];
    }

    line() {
        return `words ${this.number} ${this.name} ${this.position}`;
    }
}

/**
 * The places of the names and of the options of a command's words; the word behind an option is its value.
 * @param {string[]} words
 * @returns {{names: number[], options: Map<string, number>}}
 */
export function parts(words) {
    /** @type {number[]} */
    const names = [];
    /** @type {Map<string, number>} */
    const options = new Map();
    for (let at = 1; at < words.length; at++) {
        if (!words[at].startsWith("--")) {
            names.push(at);
            continue;
        }
        if (!options.has(words[at])) {
            options.set(words[at], at);
        }
        at++;
    }
    return { names, options };
}

/** A command line, taken apart: the program's words, the values of page words, a page word that lacks its value, and whether
 * `--unproved`, `--json` and `--help` are among the words. */
export class Line {
    /** @param {string[]} [words] */
    constructor(words = []) {
        this.words = words;
        /** @type {Map<string, string>} */
        this.pages = new Map();
        this.lacking = "";
        this.isUnproved = false;
        this.isJson = false;
        this.asksHelp = false;
    }

    /** its command, or "" */
    get command() {
        return this.words[0] ?? "";
    }

    /** the places of the names among the program's words */
    get places() {
        return parts(this.words).names;
    }

    get names() {
        return this.places.map((at) => this.words[at]);
    }

    /** the value of each option; of one that comes again the first */
    get options() {
        const there = [...parts(this.words).options].filter(([, at]) => at + 1 < this.words.length);
        return new Map(there.map(([word, at]) => [word, this.words[at + 1]]));
    }

    get filesRead() {
        return this.files().filter((it) => !it.isWritten);
    }

    /** the files that the program writes, and those that pages write */
    get filesWritten() {
        const written = this.files().filter((it) => it.isWritten);
        for (const [word, name] of this.pages) {
            const kind = PAGE_WORDS.get(word)?.kind;
            if (kind && name) {
                written.push(new File(name, kind, true));
            }
        }
        return written;
    }

    /**
     * each file that the program's words name
     * @returns {File[]}
     */
    files() {
        const command = COMMANDS.get(this.command);
        if (!command) {
            return [];
        }
        const { names, options } = parts(this.words);
        const found = command.names.map((name, number) => ({ name, at: names[number] }))
            .filter(({ name, at }) => isFileName(name) && this.words[at])
            .map(({ name, at }) => new File(this.words[at], name.kind, !!name.isWritten, at));
        for (const word of command.options) {
            const kind = OPTIONS.get(word)?.kind;
            const at = (options.get(word) ?? this.words.length) + 1;
            if (kind && this.words[at]) {
                found.push(new File(this.words[at], kind, true, at));
            }
        }
        return found;
    }

    /** the page words, `--html` before all, and the front words: what comes before the program's words */
    get before() {
        const pages = [...this.pages].sort(([one], [other]) => Number(one !== "--html") - Number(other !== "--html"));
        return [...pages.flatMap(pageWords), ...this.frontWords];
    }

    /** which front words were given */
    get frontWords() {
        return [...this.isUnproved ? ["--unproved"] : [], ...this.isJson ? ["--json"] : []];
    }

    /** what comes before the program's words, then these */
    inOrder() {
        return [...this.before, ...this.lacking ? [this.lacking] : [], ...this.words];
    }
}

/**
 * Takes a command line apart. Page words count before and behind the command; the word behind a program's option is its
 * value, whatever it is.
 * @param {string[]} given
 * @returns {Line}
 */
export function read(given) {
    const line = new Line();
    for (let at = 0; at < given.length; at++) {
        const word = given[at], hasCommand = line.words.length > 0;
        if (PAGE_WORDS.has(word) && !line.pages.has(word) && !OWN.get(line.command)?.options.includes(word)) {
            if (PAGE_WORDS.get(word)?.takes === "nothing") {
                line.pages.set(word, "");
            } else if (at + 1 < given.length) {
                line.pages.set(word, given[++at]);
            } else {
                line.lacking = word;
            }
        } else if (word === "--unproved") {
            line.isUnproved = true;
        } else if (word === "--json") {
            line.isJson = true;
        } else if (word === "--help" || word === "-h" && !hasCommand) {
            line.asksHelp = true;
        } else if (hasCommand && word.startsWith("--")) {
            line.words.push(...given.slice(at, at + 2));
            at++;
        } else {
            line.words.push(word);
        }
    }
    return line;
}

// ---- the faults of the words, as the program finds them

/**
 * Whether a text is a canonical decimal in its range.
 * @param {string} text @param {number} low @param {number} high
 * @returns {boolean}
 */
export function isNumber(text, low, high) {
    return /^(0|[1-9][0-9]*)$/.test(text) && Number(text) >= low && Number(text) <= high;
}

/** @param {string} text @param {number} least @param {number} most @returns {boolean} */
function isOrder(text, least, most) {
    const listed = text.split(",");
    return listed.every((it) => CRITERIA.includes(it)) && new Set(listed).size === listed.length
        && listed.length >= least && listed.length <= most;
}

/** @param {Option} option @param {string} value @returns {boolean} */
export function allows(option, value) {
    if (option.takes === "number") {
        return isNumber(value, option.low ?? 0, option.high ?? 0);
    }
    return option.takes === "order" ? isOrder(value, 1, 4) : value !== "";
}

/** @param {Name} name @param {string} value @returns {boolean} */
export function mayBe(name, value) {
    if (name.kind === "pair") {
        return isOrder(value, 2, 2);
    }
    return name.kind === "number" ? isNumber(value, 0, table.mostSeed) : value !== "";
}

/**
 * The fault of the program's words as the program finds it: of ExtraWord, UnknownOption, RepeatedOption and BadValue the
 * leftmost counts, at one place that with the least number; then MissingName; then BadValue for two names that are equal.
 * @param {string[]} words
 * @returns {Fault | null}
 */
export function fault(words) {
    if (!words.length) {
        return new Fault(1, 1);
    }
    const command = COMMANDS.get(words[0]);
    if (!command) {
        return new Fault(2, 1);
    }
    const seen = new Set();
    let count = 0;
    for (let at = 1; at < words.length; at++) {
        const word = words[at];
        if (word.startsWith("--")) {
            const number = optionFault(command, seen, word, words[at + 1]);
            if (number) {
                return new Fault(number, at + (number === 7 && at + 1 < words.length ? 2 : 1));
            }
            seen.add(word);
            at++;
        } else if (count === command.names.length) {
            return new Fault(4, at + 1);
        } else if (!mayBe(command.names[count++], word)) {
            return new Fault(7, at + 1);
        }
    }
    return count < command.names.length ? new Fault(3, words.length + 1) : equalNames(words);
}

/**
 * The number of an option's fault, or 0.
 * @param {Command} command @param {Set<string>} seen @param {string} word @param {string | undefined} value
 * @returns {number}
 */
function optionFault(command, seen, word, value) {
    const option = OPTIONS.get(word);
    if (!option || !command.options.includes(word)) {
        return 5;
    }
    if (seen.has(word)) {
        return 6;
    }
    return value === undefined || !allows(option, value) ? 7 : 0;
}

/**
 * A file that is written has the name of another file of the run: the later one's place, the least such.
 * @param {string[]} words
 * @returns {Fault | null}
 */
function equalNames(words) {
    const files = new Line(words).files();
    const places = files.flatMap((one) => files
        .filter((other) => one.isWritten && one.at !== other.at && one.word === other.word)
        .map((other) => Math.max(one.at, other.at)));
    return places.length ? new Fault(7, Math.min(...places) + 1) : null;
}
