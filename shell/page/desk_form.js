/** The form of a command, out of the table of words: a place for each file that it reads, and a field for each option. */
import { COMMANDS, OPTIONS, PAGED, PAGE_WORDS } from "../both/words.js";
import { element } from "./elements.js";

/** @typedef {import("../both/words.js").Command} Command */
/** @typedef {import("../both/words.js").Option} Option */
/** @typedef {"station" | "former" | "sheet" | "log" | "hints"} Slot a place for a file on the desk */

/** what each place is for */
export const SLOTS = new Map(/** @type {[Slot, string][]} */ ([
    ["station", "the station, a railML 2 file"], ["former", "the former station, a railML 2 file"],
    ["sheet", "a drawing as a text, a sheet"], ["log", "a log of the search"], ["hints", "hinted lines of a log, as trim writes them"],
]));

/**
 * The command of a word.
 * @param {string} word
 */
export function commandOf(word) {
    return /** @type {Command} */ (COMMANDS.get(word));
}

/**
 * The place of each file that a command reads, in the order of its names.
 * @param {string} word
 * @returns {Slot[]}
 */
export function slotsOf(word) {
    let stations = 0;
    return commandOf(word).names.filter((it) => !it.isWritten && it.kind !== "pair").map((it) => {
        stations += it.kind === "railml" ? 1 : 0;
        return it.kind !== "railml" ? /** @type {Slot} */ (it.kind) : stations > 1 ? "former" : "station";
    });
}

/**
 * The field of an option.
 * @param {Option} option
 */
function fieldOf(option) {
    const isNumber = option.takes === "number";
    const limits = isNumber ? { min: option.low ?? 0, max: option.high ?? 0 } : {};
    const input = element("input", { type: isNumber ? "number" : "text", name: option.word, placeholder: option.usual ?? "", ...limits });
    return element("label", { class: "field" }, element("span", {}, `${option.word.slice(2)}: ${option.what}`), input);
}

/**
 * The choice of a word of pages; nothing is chosen where what is usual counts.
 * @param {Option} option
 */
function choiceOf({ word, what, usual = "", choices = [] }) {
    const rest = choices.filter((it) => it !== usual).map((it) => element("option", { value: it }, it));
    const select = element("select", { name: word }, element("option", { value: "" }, usual), ...rest);
    return element("label", { class: "field" }, element("span", {}, `${word.slice(2)}: ${what}`), select);
}

/** @returns {Option[]} the words of pages of which one of several is chosen */
const pageChoices = () => [...PAGE_WORDS.values()].filter((it) => it.choices);

/**
 * the words of pages that a command has without a value
 * @param {string} command
 * @returns {Option[]}
 */
const pageFlags = (command) => [...PAGE_WORDS.values()].filter((it) => it.takes === "nothing" && it.commands?.includes(command));

/** @param {Option} option a word without a value */
function flagOf({ word, what }) {
    return element("label", { class: "field" }, element("span", {}, `${word.slice(2)}: ${what}`), element("input", { type: "checkbox", name: word }));
}

/**
 * The words of pages that are chosen, each with its value; "" for one that has none.
 * @param {HTMLFormElement} form
 * @returns {Map<string, string>}
 */
export function pagesOf(form) {
    const given = new FormData(form), chosen = pageChoices().map(({ word }) => /** @type {[string, string]} */ ([word, String(given.get(word) ?? "")]));
    const flags = [...PAGE_WORDS.keys()].filter((word) => given.get(word) === "on").map((word) => /** @type {[string, string]} */ ([word, ""]));
    return new Map([...chosen.filter(([, value]) => value !== ""), ...flags]);
}

/**
 * The fields of a command: two criteria where it compares two, its options that name no file, and what is chosen of its page.
 * @param {string} word
 */
export function formOf(word) {
    const command = commandOf(word), form = element("form", { class: "row" });
    if (command.names.some((it) => it.kind === "pair")) {
        const input = element("input", { type: "text", name: "pair", value: "height,width" });
        form.append(element("label", { class: "field" }, element("span", {}, "two criteria, with a comma between them"), input));
    }
    const options = command.options.map((it) => /** @type {Option} */ (OPTIONS.get(it))).filter((it) => it.takes !== "file");
    form.append(...options.map(fieldOf), ...PAGED.includes(word) ? [...pageChoices().map(choiceOf), ...pageFlags(word).map(flagOf)] : []);
    form.addEventListener("submit", (event) => event.preventDefault());
    return form;
}

/**
 * The words of a command: its names, and the options whose fields have a value.
 * @param {string} word
 * @param {HTMLFormElement} form
 * @param {(slot: Slot) => string} nameOf the name of the file in a place
 * @param {string} written the name of the file that the command writes, where it names one
 */
export function wordsOf(word, form, nameOf, written) {
    const command = commandOf(word), slots = slotsOf(word), given = new FormData(form);
    const names = command.names.map((it) => it.kind === "pair" ? String(given.get("pair") ?? "").trim()
        : it.isWritten ? written : nameOf(/** @type {Slot} */ (slots.shift())));
    const options = command.options.flatMap((it) => {
        const value = String(given.get(it) ?? "").trim();
        return value === "" ? [] : [it, value];
    });
    return [word, ...names, ...options];
}
