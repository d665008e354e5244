/** What a fault of a log or of hinted lines means, and why check, trim and recheck refuse one. */
import { savedOtherwise } from "./saved_otherwise.js";
import { lineOf, wrongFile } from "./sheet_faults.js";

/** @typedef {import("../notes.js").Note} Note */
/** @typedef {import("./seen.js").Seen} Seen */

const ENDING = "Was the file copied to its end, and did its search end?";

export const LOG = new Map([
    ["Header", "a log begins with the line railplan-log 1"],
    ["Form", `this is no line of a log, or it isn't whole. ${ENDING}`],
    ["Number", "a number in this line isn't written as digits alone, or is out of range: variables are 1 to 1073741823"],
    ["Twice", "one variable comes twice in this line"],
]);
export const HINTS = new Map([
    ["Header", "hinted lines begin with the line railplan-hints 1"],
    ["Form", `this is no hinted line, or it isn't whole. ${ENDING}`],
    ["Number", "a number in this line isn't written as digits alone, or is out of range: variables and clauses are 1 to "
        + "1073741823, caps at most 65535"],
    ["Twice", "one variable comes twice among the literals of this line"],
    ["Range", "a cap is greater than its criterion can be, or the sheet's order doesn't have this criterion"],
]);
/** refusals of check, trim and recheck; the log may be whole and yet be of another station */
export const REFUSALS = new Map([
    ["Room", "there is no room for this line: the log needs more clauses than are kept. A search on a smaller grid has a "
        + "shorter log"],
    ["Differs", "this line isn't the one that this file and sheet call for. Is the log of another file, sheet or grid?"],
    ["NewVar", "this line names a variable that no formula line before it has"],
    ["WrongQuery", "this line doesn't answer the question before it"],
    ["NotImplied", "this line doesn't follow from the lines before it, so the log shows nothing from here on"],
    ["NotNew", "this line says nothing that isn't known by then"],
    ["BadHint", "the hints of this line don't show it: each clause named leaves one literal open, and the last leaves none"],
    ["Lacks", ""],
]);

/**
 * A fault of the text.
 * @param {Seen} seen @param {string} name @param {"log" | "hints"} table @param {string} fault @param {number} number
 * @param {string} usage the line to type
 * @returns {Note[]}
 */
export function notes(seen, name, table, fault, number, usage) {
    const place = lineOf(seen, name, number), isFirst = number === 1;
    const other = isFirst ? wrongFile(seen, name, table === "log" ? "a log" : "hinted lines", usage) : "";
    const said = (table === "log" ? LOG : HINTS).get(fault) ?? "";
    const otherwise = ["Header", "Form"].includes(fault) ? savedOtherwise(seen, place) : "";
    return [{ text: isFirst && !place.text ? "the file is empty" : other || otherwise || said, place }];
}

/**
 * A line that check, trim or recheck refuses.
 * @param {Seen} seen @param {string} name @param {string} refusal @param {number} number
 * @returns {Note[]}
 */
export function refused(seen, name, refusal, number) {
    return [{ text: REFUSALS.get(refusal) ?? "", place: lineOf(seen, name, number) }];
}

/**
 * A log that certifies what the sheet claims, and is too large for trim.
 * @param {string} name
 * @returns {Note[]}
 */
export function withoutHints(name) {
    return [{ text: `${name} certifies what the sheet claims, but has more variables or words than hints are found in, so nothing `
        + "was written. Hand over the log as it is: check reads it" }];
}

/**
 * Lines that are all right and don't show what the sheet claims.
 * @param {string} name @param {number} place which criterion of the order isn't shown, from 1; 0 of a sheet without a drawing
 * @param {string[]} order @param {boolean} claimsNone
 * @returns {Note[]}
 */
export function lacks(name, place, order, claimsNone) {
    const said = `${name}: its lines are all right, but don't show that`;
    if (!place || claimsNone) {
        return [{ text: `${said} no drawing is lawful, as the sheet claims. Did the search end?` }];
    }
    return [{ text: `${said} the sheet's ${order[place - 1] ?? `criterion ${place}`} is the least, as the sheet claims. Is the `
        + "log that of this sheet, and did its search end?" }];
}
