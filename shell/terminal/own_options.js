/** The words of a command of the launcher's own: names, and options with their values. */
import { usage } from "../both/manual.js";
import { OWN_OPTIONS } from "../both/words.js";
import { called, end } from "./say.js";

/** @typedef {import("../both/words.js").Command} Command */

/**
 * Takes words apart; those that the command doesn't take end the run. An option that is there again counts once more.
 * @param {Command} command @param {string[]} words those behind the command
 * @returns {{names: string[], options: Map<string, string[]>}} the names, and the values of each option, "" of one that takes none
 */
export function ownOptions(command, words) {
    /** @type {string[]} */
    const names = [];
    /** @type {Map<string, string[]>} */
    const options = new Map();
    const form = `${called()} ${usage(command)}`;
    for (let at = 0; at < words.length; at++) {
        const word = words[at], option = command.options.includes(word) ? OWN_OPTIONS.get(word) : undefined;
        if (!option && word.startsWith("-") && word.length > 1) {
            end(2, `${command.word} has no option ${word}: ${form}`);
        }
        if (!option) {
            names.push(word);
            continue;
        }
        const value = option.takes === "nothing" ? "" : words[++at] ?? end(2, `behind ${word} its value is missing`);
        const wrong = option.choices && value.split(",").find((it) => !option.choices?.includes(it));
        if (wrong !== undefined) {
            end(2, `${word}: \`${wrong}\` isn't one of ${option.choices?.join(", ")}`);
        }
        options.set(word, [...options.get(word) ?? [], ...value.split(",")]);
    }
    if (names.length > command.names.length) {
        end(2, `\`${names[command.names.length]}\` is one name too many: ${form}`);
    }
    return { names, options };
}
