/** Completions for bash and zsh, made from the table of words. */
import { allCommands, optionsOf } from "./manual.js";
import { CRITERIA, FRONT_WORDS, OPTIONS, OWN_OPTIONS, PAGE_WORDS, pageWordsOf } from "./words.js";

/** @typedef {import("./words.js").Command} Command */
/** @typedef {import("./words.js").Option} Option */

/** the line by which a file of completions is known */
export const MARK = "# completions of railplan, made by railplan install";

const HELP = { word: "--help" };

/**
 * The options of a command, those of pages among them.
 * @param {Command} command
 * @returns {Option[]}
 */
function allOf(command) {
    return [...optionsOf(command), ...pageWordsOf(command.word)];
}

/** @returns {Option[]} */
function allOptions() {
    return [...OPTIONS.values(), ...PAGE_WORDS.values(), ...OWN_OPTIONS.values()];
}

/** @returns {string} */
function pairs() {
    return CRITERIA.flatMap((one) => CRITERIA.filter((other) => other !== one).map((other) => `${one},${other}`)).join(" ");
}

/** @param {{word: string}[]} options @param {string} sign @returns {string} */
function wordsOf(options, sign) {
    return options.map((it) => it.word).join(sign);
}

/**
 * Completions for bash.
 * @returns {string}
 */
export function bash() {
    const commands = [...allCommands().values()], words = commands.map((it) => it.word);
    const choices = allOptions().filter((it) => it.choices)
        .map((it) => `        ${it.word}) COMPREPLY=($(compgen -W "${it.choices?.join(" ")}" -- "$word")); return ;;`);
    const options = commands.map((it) => `        ${it.word}) listed="${wordsOf([...allOf(it), HELP], " ")}" ;;`);
    const first = [...words, ...PAGE_WORDS.keys(), ...FRONT_WORDS.keys(), "--help", "--version"].join(" ");
    return `${MARK}
_railplan() {
    local word=\${COMP_WORDS[COMP_CWORD]} before=\${COMP_WORDS[COMP_CWORD - 1]} command= listed= it
    for it in "\${COMP_WORDS[@]:1:COMP_CWORD - 1}"; do
        case $it in ${words.join("|")}) command=$it; break ;; esac
    done
    case $before in
        ${wordsOf(allOptions().filter((it) => ["number", "shard"].includes(it.takes)), "|")}) return ;;
        --order) COMPREPLY=($(compgen -W "${CRITERIA.join(" ")}" -- "$word")); return ;;
${choices.join("\n")}
        ${wordsOf(allOptions().filter((it) => it.takes === "file"), "|")}) COMPREPLY=($(compgen -f -- "$word")); return ;;
        help) COMPREPLY=($(compgen -W "${words.join(" ")}" -- "$word")); return ;;
    esac
    case $command in
        '') listed="${first}" ;;
${options.join("\n")}
    esac
    if [[ -z $command || $word == -* ]]; then
        COMPREPLY=($(compgen -W "$listed" -- "$word"))
    elif [[ $command == front && $word != */* ]]; then
        COMPREPLY=($(compgen -f -- "$word") $(compgen -W "${pairs()}" -- "$word"))
    else
        COMPREPLY=($(compgen -f -- "$word"))
    fi
}
complete -o filenames -F _railplan railplan
`;
}

/** @param {string} text @returns {string} */
function quoted(text) {
    return text.replaceAll("'", "'\\''").replaceAll("[", "(").replaceAll("]", ")").replaceAll(":", "\\:");
}

/** @param {Option} option @returns {string} */
function zshOption({ word, value, what, takes, choices }) {
    const actions = new Map([["file", "_files"], ["order", `(${CRITERIA.join(" ")})`], ["word", `(${choices?.join(" ")})`]]);
    return `'${word}[${quoted(what)}]${value ? `:${quoted(value)}:${actions.get(takes) ?? ""}` : ""}'`;
}

/** @param {Command} command @returns {string} */
function zshLine(command) {
    if (command.word === "help") {
        return "        (help) _describe command commands ;;";
    }
    const names = command.word === "front" ? `'*:pair or file:(${pairs()})'` : "'*:file:_files'";
    return `        (${command.word}) _arguments ${[...allOf(command).map(zshOption), names].join(" ")} ;;`;
}

/**
 * Completions for zsh.
 * @returns {string}
 */
export function zsh() {
    const commands = [...allCommands().values()];
    const first = [...PAGE_WORDS.values(), ...FRONT_WORDS.values()].map(zshOption).join(" ");
    return `#compdef railplan
${MARK}
_railplan() {
    local -a commands
    commands=(
${commands.map((it) => `        '${it.word}:${quoted(it.what)}'`).join("\n")}
    )
    local command= it
    for it in \${words[2,CURRENT-1]}; do
        case $it in (${commands.map((it) => it.word).join("|")}) command=$it; break ;; esac
    done
    case $command in
        ('') _arguments ${first} '*: :->command'; _describe command commands ;;
${commands.map(zshLine).join("\n")}
    esac
}
_railplan "$@"
`;
}
