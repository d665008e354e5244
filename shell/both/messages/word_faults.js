/** What a fault of the words means: what was typed, what was meant, and the line to type. */
import { oneTwice, OWN_NAME } from "../file_kinds.js";
import { near } from "../near.js";
import { quotedLine } from "../quoted.js";
import { allows, COMMANDS, CRITERIA, fault, FRONT_WORDS, mayBe, OPTIONS, OWN, PAGE_WORDS, parts } from "../words.js";

/** @typedef {import("../words.js").Option} Option */
/** @typedef {import("./seen.js").Seen} Seen */
/** @typedef {{given: string[], at: number, called: string, seen: Pick<Seen, "kind">, before?: string[]}} Fault the program's
 * words, the place of the one that is wrong, how the launcher is called, what is there by a name, and the page words and
 * `--unproved`, which come before the words in a line to type */

/** what the number behind an option counts */
const COUNTED = new Map([["--width", "columns"], ["--height", "rows"], ["--least", "columns"], ["--conflicts", "clauses"]]);
/** commands that take one station */
const OF_ONE_STATION = ["draw", "signals", "graph", "explain"];
const DASHES = ["-", "—", "–"];
/** words that other programs have, and what says the same here */
const ELSEWHERE = new Map([["-V", "--version says the version"], ["-v", "--version says the version"],
    ["-?", "--help says all"], ["/?", "--help says all"]]);

/** @param {Option} option @returns {string} what its value is, in words */
function takes({ word, takes: kind, low, high = 0 }) {
    if (kind === "number") {
        return `a number of ${COUNTED.get(word)}, ${low} to ${high}${high > 999 ? ", in digits alone" : ""}`;
    }
    return kind === "file" ? "the name of a file"
        : "one to four of height, bends, diagonal and width, with commas and no blanks between them";
}

/** @param {string} word @returns {string} */
function shown(word) {
    return word ? `\`${word}\`` : "an empty word";
}

/** @param {string} word @returns {string} the command that was meant; one that has half of the letters is another one */
function nearCommand(word) {
    return near(word.toLowerCase(), [...COMMANDS.keys(), ...OWN.keys()], 0.7);
}

/**
 * A command with its names.
 * @param {string} command @param {string} called
 * @returns {string}
 */
export function usage(command, called) {
    return [called, command, ...COMMANDS.get(command)?.names.map((it) => it.word) ?? []].join(" ");
}

/**
 * A line to type.
 * @param {string} called @param {string[]} line
 * @returns {string}
 */
export function typed(called, line) {
    return `${called} ${quotedLine(line)}`;
}

/** @param {Fault} it @param {string[]} line @returns {string} the line to type, with the page words of this run */
function typedAgain({ called, before = [] }, line) {
    return typed(called, [...before, ...line]);
}

/** @param {string} command @returns {string[]} */
function optionsOf(command) {
    return COMMANDS.get(command)?.options ?? [];
}

/** @param {Fault} it @returns {string} */
function noCommand({ called }) {
    return `a command is missing: ${called} draw FILE draws a station, and ${called} help says all commands`;
}

/** @param {Fault} it @returns {string} */
function unknownCommand(it) {
    const { given, called, seen } = it, [word] = given;
    const other = ELSEWHERE.get(word);
    if (other) {
        return `${shown(word)} is no command: ${called} ${other}`;
    }
    if (word.startsWith("-")) {
        return optionFirst(it);
    }
    const there = word ? seen.kind(word) : "";
    if (there === "folder") {
        return `${shown(word)} is a folder, and a command is missing: ${typed(called, ["folder", word])} OUT draws each `
            + "station in it";
    }
    if (there) {
        const line = ["draw", ...fault(["draw", ...given]) ? [word] : given];
        return `${shown(word)} is a file, and a command is missing before it: ${typedAgain(it, line)}`;
    }
    const meant = nearCommand(word);
    return `${shown(word)} is no command`
        + (meant ? `. Did you mean ${typedAgain(it, [meant, ...given.slice(1)])}` : `: ${called} help says all commands`);
}

/** @param {Fault} it @returns {string} */
function optionFirst(it) {
    const { given, called } = it, [word] = given, isKnown = OPTIONS.has(word), at = given.findIndex((other) => COMMANDS.has(other));
    if (at >= 0 && isKnown) {
        return `the command comes first: ${typedAgain(it, [...given.slice(at), ...given.slice(0, at)])}`;
    }
    const meant = near(word.toLowerCase(), [...PAGE_WORDS.keys(), ...FRONT_WORDS.keys(), "--help", "--version"], 0.7);
    return `${shown(word)} is no command, and no word that is known before one`
        + (meant ? `. Did you mean \`${meant}\`?` : isKnown ? `: ${called} draw FILE ${word} ..` : `: ${called} help says all`);
}

/** @param {Fault} it @returns {string} */
function missingName({ given, called }) {
    const [command] = given;
    const lacking = COMMANDS.get(command)?.names.slice(parts(given).names.length) ?? [];
    const count = lacking.length === 1 ? "one name more" : `${lacking.length} names more`;
    return `${command} needs ${count}: ${lacking.map((it) => `${it.word}, ${it.what}`).join(" and ")}. `
        + `${usage(command, called)}`;
}

/** @param {Fault} it @returns {string} */
function extraWord(it) {
    const { given, at, called } = it, [command] = given, word = given[at];
    if (word === "-h") {
        return `${shown(word)} was taken for a name: ${called} ${command} --help says what ${command} takes`;
    }
    if (DASHES.includes(word[0]) && word.length > 1) {
        const known = optionsOf(command), meant = near(`--${word.replace(/^[-—–]+|[-—–]+$/g, "")}`.toLowerCase(), known);
        return `${shown(word)} was taken for a name: an option begins with two hyphens`
            + (meant ? `, as ${meant}` : `. ${command} has ${known.join(", ") || "no options"}`);
    }
    if (CRITERIA.includes(word.replace(/^,+|,+$/g, "")) && given[at - 2] === "--order") {
        return `the criteria are one word with commas between them${didYouMean({ ...it, at: at - 1 })}`;
    }
    if (OF_ONE_STATION.includes(command)) {
        return `${shown(word)} is one name too many: one run takes one station. Many are drawn by ${called} folder IN OUT`;
    }
    return `${shown(word)} is one name too many: ${usage(command, called)}`;
}

/** @param {Fault} it @returns {string} */
function unknownOption(it) {
    const { given, at } = it, word = given[at], [command] = given, known = optionsOf(command), equals = word.indexOf("=");
    if (equals >= 0 && known.includes(word.slice(0, equals))) {
        const line = [...given.slice(0, at), word.slice(0, equals), word.slice(equals + 1), ...given.slice(at + 1)];
        return `an option and its value are two words: ${typedAgain(it, line)}`;
    }
    if (PAGE_WORDS.has(word)) {
        return `${word} comes twice. Leave out one of the two`;
    }
    if (word === "--") {
        return `${command} has no option --: names need none before them`;
    }
    const having = [...COMMANDS.values()].filter((it) => it.options.includes(word)).map((it) => it.word);
    const meant = having.length ? "" : near(word.toLowerCase(), [...known, ...PAGE_WORDS.keys(), "--help"]);
    if (meant) {
        return `${command} has no option ${word}. Did you mean `
            + `${typedAgain(it, [...given.slice(0, at), meant, ...given.slice(at + 1)])}`;
    }
    const listed = `${command} has ${known.length ? `the options ${known.join(", ")}` : "no options"}`;
    return having.length ? `${word} is an option of ${having.join(" and ")}; ${listed}` : `${command} has no option ${word}: `
        + `${listed}`;
}

/** @param {string} word @returns {string} the criteria that were meant; "" where it isn't clear */
function meantCriteria(word) {
    const found = word.replaceAll(";", ",").split(",").map((it) => near(it.trim().toLowerCase(), CRITERIA));
    return found.every(Boolean) && new Set(found).size === found.length ? found.join(",") : "";
}

/**
 * The word with the criteria behind it that belong to it, as where there are blanks between them; and the place behind these.
 * @param {string[]} given @param {number} at
 * @returns {{text: string, behind: number}}
 */
function withCriteria(given, at) {
    let text = given[at], behind = at + 1;
    while (behind < given.length && (text.endsWith(",") || CRITERIA.includes(given[behind].replace(/^,+/, "")))) {
        text = `${text.replace(/,+$/, "")},${given[behind].replace(/^,+|,+$/g, "")}`;
        behind++;
    }
    return { text, behind };
}

/** @param {Fault} it @returns {string} */
function didYouMean(it) {
    const { given, at } = it, { text, behind } = withCriteria(given, at), meant = meantCriteria(text);
    return meant && meant !== given[at]
        ? `. Did you mean ${typedAgain(it, [...given.slice(0, at), meant, ...given.slice(behind)])}` : "";
}

/** @param {Fault} it @returns {string} */
function badPair(it) {
    const { given, at } = it, word = given[at], next = given[at + 1];
    if (CRITERIA.includes(word) && CRITERIA.includes(next)) {
        return "the two criteria are one word with a comma between them: "
            + typedAgain(it, [...given.slice(0, at), `${word},${next}`, ...given.slice(at + 2)]);
    }
    const isTwo = withCriteria(given, at).text.split(",").length === 2;
    return `${shown(word)} is no pair: write two of height, bends, diagonal and width with a comma between them, as `
        + "height,width"
        + (isTwo ? didYouMean(it) : "");
}

/**
 * A value that an option doesn't take; that of a number which is written otherwise than the program reads it is named.
 * @param {Fault} it @param {Option} option
 * @returns {string}
 */
function wrongValue(it, option) {
    const { given, at } = it, word = given[at], asRead = /^\+?0*(\d+)$/.exec(word)?.[1] ?? "";
    if (option.takes === "number" && asRead !== word && allows(option, asRead)) {
        return `${shown(word)} isn't how a number is written here, without a sign and without a 0 before it: `
            + typedAgain(it, [...given.slice(0, at), asRead, ...given.slice(at + 1)]);
    }
    return `${shown(word)} is no value of ${option.word}, which takes ${takes(option)}`
        + (option.word === "--order" ? didYouMean(it) : "");
}

/** @param {Fault} it @returns {string} */
function badValue(it) {
    const { given, at } = it, word = given[at] ?? "", { names, options } = parts(given);
    const optionAt = (/** @type {number} */ place) => OPTIONS.get([...options].find(([, there]) => there === place)?.[0] ?? "");
    const own = optionAt(at), before = optionAt(at - 1);
    if (own && at + 1 >= given.length) {
        return `behind ${word} its value is missing, ${takes(own)}`;
    }
    if (before && !allows(before, word)) {
        return wrongValue(it, before);
    }
    const name = names.includes(at) ? COMMANDS.get(given[0])?.names[names.indexOf(at)] : undefined;
    if (name && !mayBe(name, word)) {
        return name.kind === "pair" ? badPair(it) : `${shown(word)} can't be ${name.word}, which is ${name.what}`;
    }
    return `${oneTwice(word, word)}: ${OWN_NAME}`;
}

/** @type {Map<string, (it: Fault) => string>} what is said of each fault */
export const WORDS = new Map([
    ["NoCommand", noCommand],
    ["UnknownCommand", unknownCommand],
    ["MissingName", missingName],
    ["ExtraWord", extraWord],
    ["UnknownOption", unknownOption],
    ["RepeatedOption", ({ given, at }) => `${given[at]} comes twice. Leave out one of the two`],
    ["BadValue", badValue],
]);

/**
 * What is said of the words' fault.
 * @param {string} name the fault's @param {Fault} it
 * @returns {string}
 */
export function sentence(name, it) {
    return /** @type {(it: Fault) => string} */ (WORDS.get(name))(it);
}

/**
 * That help has nothing on a word.
 * @param {string} word @param {string} called
 * @returns {string}
 */
export function unknownHelp(word, called) {
    const meant = nearCommand(word);
    return `${shown(word)} is no command${meant ? `. Did you mean ${called} help ${meant}` : `: ${called} help says all`}`;
}
