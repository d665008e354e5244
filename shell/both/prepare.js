/**
 * A railML 2 file written anew as railplan reads it, where the file itself says what is missing. It is no part of what is
 * proved. Each kind of change has a word in the table of commands, and can be left out. All else stays to the byte. Where it would have to
 * guess it says so.
 */
import { countAsOne } from "./mending/one_count.js";
import { exchangeIncoming, takeRadii } from "./mending/hands.js";
import { mendEnds, mendLegs, mendOutside } from "./mending/places.js";
import { mendIds, mendRefs } from "./mending/names.js";
import { mendJoins } from "./mending/joins.js";
import { mendMileages, mendNumbers, mendOffsets, noteLacking } from "./mending/numbers.js";
import { mendRailml3 } from "./railml3/prepared.js";
import { mendDoctype, mendEncoding, mendPrefix, refuseNoXml, refuseRoot, refuseText } from "./mending/texts.js";
import { Guess, Prepared, Unfit } from "./mending/prepared.js";

export { asRead } from "./mending/numbers.js";
export { Prepared };

export const MARK = "prepared by railplan; no part of what is proved";

/** @typedef {(it: Prepared) => void} Step */
/** @typedef {{without?: Iterable<string>, isOneKm?: boolean, hands?: string}} Asked kinds of changes that are left out; whether
 * tracks that are
 * joined are to have one mileage; and from where the producer sees hands */

/** @type {Map<string, Step>} what makes each kind of change */
const STEPS = new Map([["encoding", mendEncoding], ["doctype", mendDoctype], ["railml3", mendRailml3],
    ["prefix", mendPrefix], ["numbers", mendNumbers],
    ["offsets", mendOffsets], ["ids", mendIds], ["refs", mendRefs], ["ends", mendEnds], ["legs", mendLegs], ["outside", mendOutside],
    ["mileages", mendMileages], ["joins", mendJoins]]);
/** the kinds that change more than texts and mileages */
export const STRUCTURAL = ["railml3", "ids", "refs", "ends", "legs", "outside", "joins"];
/** @type {Map<string, Step>} what --hands takes */
export const HANDS = new Map([["along", exchangeIncoming], ["radii", takeRadii]]);
/** @type {(Step | string)[]} in which order a file is looked at and changed; the words are kinds, or what has to be asked for */
const ORDER = [refuseNoXml, "encoding", refuseText, "doctype", "railml3", "prefix", refuseRoot, noteSource, "numbers", "offsets", "ids", "refs",
    "ends", "legs", "outside",
    "--one-km", "mileages", "joins", "--hands", noteLacking];

/** @param {Asked} asked @returns {Step[]} */
function stepsOf({ without = [], isOneKm = false, hands = "" }) {
    const left = new Set(without), steps = new Map([...STEPS].filter(([word]) => !left.has(word)));
    const byHand = HANDS.get(hands);
    if (isOneKm) {
        steps.set("--one-km", countAsOne);
    }
    if (byHand) {
        steps.set("--hands", byHand);
    }
    return ORDER.flatMap((it) => (typeof it === "string" ? steps.get(it) ?? [] : it));
}

/** @type {Step} keeps the elements as they were before any of them changed */
function noteSource(it) {
    it.source = it.document;
}

/**
 * The file with a comment that says who wrote it, behind a byte order mark and the declaration.
 * @param {Uint8Array} data
 * @returns {Uint8Array}
 */
export function withMark(data) {
    const text = new TextDecoder("utf-8", { ignoreBOM: true }).decode(data);
    if (isMarked(data)) {
        return data;
    }
    const [front, mark, declared] = /** @type {RegExpExecArray} */ (/^(\ufeff?)(<\?xml[^>]*\?>)?/.exec(text));
    const comment = `<!-- ${MARK} -->`, rest = text.slice(front.length);
    return new TextEncoder().encode(declared ? `${front}\n${comment}${rest}` : `${mark}${comment}\n${rest}`);
}

/**
 * Whether a file says at its begin that prepare wrote it.
 * @param {Uint8Array} data
 * @returns {boolean}
 */
export function isMarked(data) {
    return new TextDecoder().decode(data.subarray(0, 400)).includes(MARK);
}

/**
 * The file as it is to be, with what was changed and what would have to be guessed.
 * @param {string} name @param {Uint8Array} data @param {string} called how the launcher is called @param {Asked} [asked]
 * @returns {Prepared}
 */
export function mended(name, data, called, asked = {}) {
    const it = new Prepared(name, data, called);
    try {
        stepsOf(asked).forEach((step) => step(it));
    } catch (error) {
        if (error instanceof Guess) {
            it.guesses.push(error.message);
        } else if (error instanceof Unfit) {
            it.unfit = error.message;
        } else {
            throw error;
        }
    }
    return it;
}
