/** The words of `folder`: the two folders, and how the stations are drawn. */
import { sentence } from "../both/messages/word_faults.js";
import { near } from "../both/near.js";
import { OPTIONS, OWN, OWN_OPTIONS, fault, isNumber } from "../both/words.js";
import { end } from "./say.js";
import { SEEN } from "./seen_files.js";

/** @typedef {object} Asked what is asked of a folder
 * @property {string} from
 * @property {string} out
 * @property {number} jobs how many stations are drawn side by side
 * @property {boolean} certifies
 * @property {{part: number, parts: number}} shard
 * @property {boolean} joins
 * @property {string[]} options those of draw, each with its value */

const FORM = "folder IN OUT [-j N] [--certify] [--shard I/N] [--join] [options of draw]";
const DRAW_OPTIONS = (OWN.get("folder")?.options ?? []).filter((it) => OPTIONS.has(it));
const MOST_PARTS = 100000;

/** @param {string} text @returns {Asked["shard"] | null} */
function shardOf(text) {
    const [part, parts, ...more] = text.split("/");
    const isShard = parts !== undefined && !more.length && isNumber(parts, 1, MOST_PARTS) && isNumber(part, 1, Number(parts));
    return isShard ? { part: Number(part), parts: Number(parts) } : null;
}

/**
 * Takes the words apart: names, options with their values, and words that folder hasn't.
 * @param {string[]} given
 */
function parted(given) {
    /** @type {string[]} */
    const names = [], extra = [];
    /** @type {Map<string, string | undefined>} */
    const options = new Map();
    for (let at = 0; at < given.length; at++) {
        const [, word, joined] = /^(--[^=]+)=(.*)$/s.exec(given[at]) ?? /^(-j)(.+)$/s.exec(given[at]) ?? ["", given[at]];
        const known = OWN.get("folder")?.options.includes(word), isFlag = known && OWN_OPTIONS.get(word)?.takes === "nothing";
        if (known && (isFlag || joined !== undefined)) {
            options.set(word, joined ?? "");
        } else if (known) {
            const next = given[at + 1];
            const isValue = next !== undefined && !/^-[^\d]/.test(next);
            options.set(word, isValue ? next : undefined);
            at += Number(isValue);
        } else if (word.startsWith("-") && word.length > 1 || names.length === 2) {
            extra.push(given[at]);
        } else {
            names.push(word);
        }
    }
    return { names, extra, options };
}

/** @param {string} word @returns {string} which option of folder was meant, where that is clear */
function meantBy(word) {
    const known = OWN.get("folder")?.options ?? [], [front] = word.toLowerCase().split("=");
    const meant = near(front, [...known, "--jobs"], 0.7).replace("--jobs", "-j"), value = OWN_OPTIONS.get(meant)?.value;
    return meant && `. Did you mean ${meant}${value ? ` ${value}` : ""}`;
}

/**
 * What the words of folder ask for; a fault of them ends the run.
 * @param {string[]} given all words of the run @param {string} called @param {number} processors
 * @returns {Asked}
 */
export function readFolderWords(given, called, processors) {
    if (given[0] !== "folder") {
        end(2, `${given[0]} doesn't go with folder, which makes a page of each station. ${called} ${FORM}`);
    }
    const { names, extra, options } = parted(given.slice(1));
    const refuse = (/** @type {string} */ said) => end(2, `${said}: ${called} ${FORM}`);
    const unknown = extra.find((it) => it.startsWith("-"));
    if (unknown) {
        refuse(`folder has no option ${unknown}${meantBy(unknown)}`);
    }
    for (const [word, value] of options) {
        if (value === undefined) {
            refuse(`behind ${word} its value is missing`);
        }
    }
    const most = OWN_OPTIONS.get("-j")?.high ?? 1, jobs = options.get("-j") ?? String(processors);
    if (!isNumber(jobs, 1, most)) {
        refuse(`-j: \`${jobs}\` is no number of stations, 1 to ${most}`);
    }
    const part = options.get("--shard") ?? "1/1";
    const shard = shardOf(part) ?? refuse(`--shard: \`${part}\` is no part: write I/N, as 1/4 for the first of four`);
    if (names.length < 2) {
        refuse(names.length ? "OUT is missing" : "IN and OUT are missing");
    }
    if (extra.length) {
        refuse(`folder has no word \`${extra.join(" ")}\``);
    }
    const asked = DRAW_OPTIONS.flatMap((word) => options.has(word) ? [word, options.get(word) ?? ""] : []);
    const words = ["draw", "x", ...asked], wrong = fault(words);
    if (wrong) {
        end(2, sentence(wrong.name, { given: words, at: wrong.position - 1, called, seen: SEEN }));
    }
    const certifies = options.has("--certify"), joins = options.has("--join");
    return { from: names[0], out: names[1], jobs: Number(jobs), certifies, shard, joins, options: asked };
}
