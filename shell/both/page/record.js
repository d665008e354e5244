/**
 * The record of a run as a text, which a page carries, and back.
 */

import { Run } from "./run.js";

/** @typedef {import("./run.js").Input} Input */
/** @typedef {import("./run.js").RunRecord} RunRecord */
/** @typedef {{text: string} | {bytes: string} | null} Content a file's UTF-8 as a text, or other bytes by their numbers */

/** @param {Uint8Array | null} content @returns {Content} */
function contentOf(content) {
    if (!content) return null;
    try {
        return { text: new TextDecoder("utf-8", { fatal: true, ignoreBOM: true }).decode(content) };
    } catch {
        return { bytes: [...content].map((it) => String.fromCharCode(it)).join("") };
    }
}

/** @param {Content} content @returns {Uint8Array | null} */
function bytesOf(content) {
    if (!content) return null;
    return "text" in content ? new TextEncoder().encode(content.text)
        : Uint8Array.from(content.bytes, (it) => it.charCodeAt(0));
}

/**
 * @param {RunRecord} record
 * @returns {string}
 */
export function textOf(record) {
    return JSON.stringify({ ...record, options: [...record.options], drawings: [...record.drawings],
        inputs: record.inputs.map(({ facts, content }) => ({ facts, content: contentOf(content) })) });
}

/**
 * Whether a record has all that a run has, each of its kind.
 * @param {RunRecord} record
 */
function isWhole(record) {
    const kindOf = (/** @type {unknown} */ it) => (Array.isArray(it) ? "list" : it instanceof Map ? "map" : typeof it);
    const { log, date, ...wanted } = new Run({ words: [], output: "" }).record;
    const isAlike = /** @type {(keyof typeof wanted)[]} */ (Object.keys(wanted)).every((key) => kindOf(record[key]) === kindOf(wanted[key]));
    return isAlike && typeof record.log === "object" && (record.date === null || Number.isFinite(record.date))
        && [...record.words, ...record.names].every((it) => typeof it === "string")
        && record.inputs.every(({ facts }) => typeof facts?.sha256 === "string" && typeof facts.name === "string");
}

/**
 * @param {string} text
 * @returns {RunRecord}
 * @throws where it is none
 */
export function recordOf(text) {
    const given = JSON.parse(text);
    const record = { ...given, options: new Map(given.options), drawings: new Map(given.drawings),
        inputs: given.inputs.map((/** @type {{facts: Input["facts"], content: Content}} */ { facts, content }) =>
            ({ facts, content: bytesOf(content) })) };
    if (!isWhole(record)) throw new TypeError("no record of a run");
    return record;
}
