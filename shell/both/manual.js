/**
 * What railplan says of itself: the help, the help of a command, the manual page. All of it is made from the table of words.
 */
import { COMMANDS, FRONT_WORDS, KINDS, OPTIONS, OWN, OWN_OPTIONS, PAGED, PAGE_WORDS, pageWordsOf } from "./words.js";
import { table, wrapped } from "./wrapped.js";

/** @typedef {import("./words.js").Command} Command */
/** @typedef {import("./words.js").Option} Option */
/**
 * @typedef {{first: string, quick: string}} Times how long it takes to prove and build the program, and to build it without
 * proofs
 */

const TITLE = "railplan: track graphs and line schematics of railway stations, with proofs";
const COLUMNS = 80;

/** @type {[string, string[]][]} */
const GROUPS = [
    ["Drawings", ["draw", "signals", "redraw", "folder"]],
    ["Questions", ["front", "explain", "graph", "verify"]],
    ["Certificates", ["check", "trim", "recheck"]],
    ["Files", ["prepare", "stations", "browser", "check-page", "make", "trial"]],
    ["railplan itself", ["help", "version", "prove", "setup", "install", "uninstall", "release"]],
];

const BRACKETS = "in brackets what counts without them";

// how a run ends, by its status
/** @type {[string, string][]} */
export const ENDINGS = [
    ["0", "what was asked for was printed"],
    ["1", "an input was refused"],
    ["2", "the words have a fault, or a file of the run is in the way"],
    ["3", "no drawing is lawful on this grid"],
    ["4", "the search isn't finished, or the log needs too much room"],
    ["5", "a file couldn't be read"],
    ["6", "the output or a file couldn't be written"],
    ["7", "there was no memory"],
    ["8", "verify, check, trim, recheck: a law is broken; check, trim, recheck: the log is refused"],
    ["10", "the program couldn't be built or started"],
    ["130", "the run was stopped"],
];

// what of the environment counts
/** @type {[string, string][]} */
const SETTINGS = [
    ["PATH", "where rt of the Rattle kit, esbuild and wasm-opt are looked for"],
    ["TMPDIR", "where files of a run are made and locks are, in place of /tmp"],
    ["NO_COLOR", "if it isn't empty, standard error has no colours"],
    ["DESTDIR", "install, uninstall: the folder in front of PREFIX"],
    ["SOURCE_DATE_EPOCH", "the date of pages, in seconds since 1970"],
];

/**
 * All commands, those of the launcher itself behind the program's.
 * @returns {Map<string, Command>}
 */
export function allCommands() {
    return new Map([...COMMANDS, ...OWN]);
}

/**
 * The command with its names.
 * @param {Command} command
 * @returns {string}
 */
function form(command) {
    return [command.word, ...command.names.map((it) => it.word)].join(" ");
}

/**
 * The same, and that it has options.
 * @param {Command} command
 * @returns {string}
 */
export function usage(command) {
    return form(command) + (command.options.length ? " [OPTIONS]" : "");
}

/**
 * What an option is, with what it takes and what counts without it.
 * @param {Option} option
 * @returns {string}
 */
function saidOf({ what, takes, low, high, usual = "", choices }) {
    if (takes === "number") {
        return `${what}, ${low} to ${high} (${/^\d+$/.test(usual) ? usual : `without it ${usual}`})`;
    }
    const listed = choices ? `: ${choices.slice(0, -1).join(", ")} or ${choices.at(-1)}` : "";
    return what + listed + (usual ? ` (${usual})` : "");
}

/**
 * The options of a command but those of pages.
 * @param {Command} command
 * @returns {Option[]}
 */
export function optionsOf(command) {
    return command.options.map((it) => /** @type {Option} */ (OPTIONS.get(it) ?? OWN_OPTIONS.get(it)));
}

/** @param {Iterable<Option>} options @returns {[string, string][]} */
function optionRows(options) {
    return [...options].map((it) => [`${it.word} ${it.value ?? ""}`.trimEnd(), saidOf(it)]);
}

/** @param {[string, string][]} rows @param {number} [column] @returns {string[]} */
function rowsOf(rows, column = 20) {
    return table(rows, 2, column, COLUMNS);
}

/** @param {string} text @returns {string} */
function sentence(text) {
    return `${text.slice(0, 1).toUpperCase()}${text.slice(1)}.`;
}

/**
 * The help.
 * @param {string} called how the launcher is called @param {Times} times
 * @returns {string}
 */
export function overview(called, times) {
    const commands = allCommands(), draw = /** @type {Command} */ (COMMANDS.get("draw"));
    const lines = [TITLE, "", "Begin with", `  ${called} --html station.html draw examples/station.xml`,
        "and open station.html. The first run builds the program without its proofs, in", `${times.quick}.`,
        `  ${called} prove`, `proves it, which takes ${times.first}.`,
        `  ${called} help COMMAND`, "says more of a command, with an example."];
    for (const [title, listed] of GROUPS) {
        const rows = listed.map((word) => /** @type {Command} */ (commands.get(word)));
        lines.push("", title, ...rowsOf(rows.map((it) => [form(it), it.what]), 31));
    }
    lines.push("", `Options of draw, ${BRACKETS}; the others have some`, ...rowsOf(optionRows(optionsOf(draw))));
    lines.push("", `Pages of ${PAGED.slice(0, -1).join(", ")} and ${PAGED.at(-1)}; no part of what is proved`);
    lines.push(...rowsOf(optionRows(PAGE_WORDS.values())));
    lines.push("", "Before the command", ...rowsOf(optionRows(FRONT_WORDS.values())), "", "A run ends with", ...rowsOf(ENDINGS, 7));
    lines.push("", "Of the environment", ...rowsOf(SETTINGS));
    lines.push("", "README.md says more, and docs/formats has every text and every fault.");
    return `${lines.join("\n")}\n`;
}

/**
 * The help of one command.
 * @param {Command} command @param {string} called
 * @returns {string}
 */
export function ofCommand(command, called) {
    const lines = [`${called} ${usage(command)}`, "", ...wrapped(sentence(command.what), COLUMNS)];
    if (command.more) {
        lines.push("", ...wrapped(command.more, COLUMNS));
    }
    if (command.names.length) {
        lines.push("", ...rowsOf(command.names.map((it) => [it.word, it.what])));
    }
    if (command.options.length) {
        lines.push("", `Options, ${BRACKETS}`, ...rowsOf(optionRows(optionsOf(command))));
    }
    if (command.word === "prepare") {
        lines.push("", "Kinds of changes", ...rowsOf(KINDS.map(({ word, found, written }) => [word, `${found}; written as ${written}`])));
    }
    if (PAGED.includes(command.word)) {
        lines.push("", "Pages", ...rowsOf(optionRows(pageWordsOf(command.word))));
    }
    lines.push("", command.examples.length === 1 ? "Example" : "Examples");
    lines.push(...command.examples.map((it) => `  ${called} ${it}`));
    return `${lines.join("\n")}\n`;
}

// ---- the manual page

/** @param {string} text @returns {string} */
function escaped(text) {
    return text.replaceAll("\\", "\\e").replaceAll("-", "\\-");
}

/** @param {[string, string][]} rows @returns {string[]} */
function manRows(rows) {
    return rows.flatMap(([word, said]) => [".TP", `\\fB${escaped(word)}\\fR`, escaped(said)]);
}

/**
 * The manual page, as troff.
 * @param {string} version
 * @returns {string}
 */
export function manPage(version) {
    const commands = [...allCommands().values()];
    const lines = [`.TH RAILPLAN 1 "" "railplan ${version}"`, ".SH NAME", escaped(`railplan - ${TITLE.split(": ")[1]}`),
        ".SH SYNOPSIS", "\\fBrailplan\\fR \\fICOMMAND\\fR \\fIWORDS\\fR..", ".SH COMMANDS"];
    lines.push(...manRows(commands.map((it) => [usage(it), sentence(it.what) + (it.more ? ` ${it.more}` : "")])));
    lines.push(".SH OPTIONS", ...manRows(optionRows(OPTIONS.values())));
    lines.push(".SH OPTIONS OF FOLDER", ...manRows(optionRows(OWN_OPTIONS.values())));
    lines.push(".SH PAGES", ...manRows(optionRows(PAGE_WORDS.values())));
    lines.push(".SH BEFORE THE COMMAND", ...manRows(optionRows(FRONT_WORDS.values())));
    lines.push(".SH EXAMPLES", ".nf", ...commands.flatMap((it) => it.examples.map((line) => escaped(`railplan ${line}`))));
    lines.push(".fi", ".SH EXIT STATUS", ...manRows(ENDINGS), ".SH ENVIRONMENT", ...manRows(SETTINGS), ".SH SEE ALSO", "README.md and docs/formats of the clone.");
    return `${lines.join("\n")}\n`;
}
