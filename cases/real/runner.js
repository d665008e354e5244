/**
 * Runs the program over all kinds of files, before and after prepare, and holds what it says against the truth. No file that is
 * drawn may have a branch on a wrong side, or be misleading, in silence; and no remedy that is said may be wrong.
 */
import { argv, exit } from "node:process";
import { availableParallelism, cpus } from "node:os";
import { Edits } from "../../shell/both/edits.js";
import { judge } from "../../shell/both/mending/judge.js";
import { mended } from "../../shell/both/prepare.js";
import { NativeEngine } from "../../shell/terminal/native_engine.js";
import { habits } from "./habits.js";
import { judged } from "./judged.js";
import { kinds } from "./kinds.js";
import { kinds3 } from "./kinds3.js";
import { preparedAsSaid, remedied } from "./remedies.js";
import { NAME, WARNINGS, graphOf, saidOf, saidOfDrawn } from "./said.js";
import { UNMENDED } from "./unmended.js";

/** @typedef {import("./kinds.js").Kind} Kind */
/** @typedef {{isDrawn: boolean, wrong: string[], said: string[], fault: string}} Outcome what came of a file: whether it is
 * drawn, what isn't as on
 * the ground, and what is said */

/** so many remedies one after another are followed */
const MOST_STEPS = 60;
const [, , program, part = ""] = argv;
if (!program) {
    console.error("cases/real/run PROGRAM [PART OF A NAME]");
    exit(2);
}
const engine = new NativeEngine(program), decoder = new TextDecoder();

/**
 * What comes of a file.
 * @param {Kind} kind @param {Uint8Array} data @param {{known?: (id: string) => string, isAsked?: boolean, mayBeTurned?: boolean}} more
 * @returns {Promise<Outcome>}
 */
async function outcomeOf(kind, data, { known, isAsked = false, mayBeTurned = false } = {}) {
    const ran = await graphOf(engine, data), text = decoder.decode(ran.output);
    if (ran.status) {
        return { isDrawn: false, wrong: [], said: await saidOf(engine, ["draw", NAME], data, ran.status, ran.output), fault: text.trim() };
    }
    const { wrong, misordered, elsewhere } = judged(text, kind.truth, known, mayBeTurned);
    return { isDrawn: true, wrong: [...wrong, ...misordered, ...isAsked ? [] : elsewhere], said: await saidOfDrawn(engine, data), fault: "" };
}

/**
 * What of an outcome isn't as it is to be.
 * @param {Kind} kind @param {Outcome} outcome @param {string} when @param {boolean} isDrawn what is to come of it
 * @returns {string[]}
 */
function failures(kind, outcome, when, isDrawn) {
    const silent = outcome.wrong.length && !outcome.said.some((it) => WARNINGS.test(it));
    return [...outcome.isDrawn === isDrawn ? [] : [`${when} it is ${outcome.isDrawn ? "drawn" : `refused: ${outcome.fault}`}`],
        ...silent ? [`${when} it is wrong, and nothing is said: ${outcome.wrong[0]}`] : [],
        ...when === "before prepare" && outcome.isDrawn && kind.says && !outcome.said.some((it) => kind.says?.test(it))
            ? [`${when} ${kind.says} isn't said`] : []];
}

/** @param {string[]} words @returns {import("../../shell/both/prepare.js").Asked} */
function askedBy(words) {
    return { isOneKm: words.includes("--one-km"), hands: words[words.indexOf("--hands") + 1 || words.length] };
}

/**
 * Whether the judge sees that the hand of the first switch is exchanged in what is mended.
 * @param {import("../../shell/both/prepare.js").Prepared} it
 */
async function isSeen(it) {
    const text = decoder.decode(it.data), hands = /(<switch (?:(?!<\/switch)[^])*? course=)(["'])(left|right)/;
    const changed = text.replace(hands, (_, front, sign, hand) => `${front}${sign}${hand === "left" ? "right" : "left"}`);
    const other = Object.assign(Object.create(it), { edits: new Edits(it.name, new TextEncoder().encode(changed)), read: null });
    const judgement = changed === text ? null : await judge(engine, other);
    return !judgement || judgement.reason !== "" || judgement.fault !== "";
}

/**
 * What comes of a file by prepare: nothing is written where something would have to be guessed, or the judge refuses it.
 * @param {Kind} kind
 * @returns {Promise<{outcome: Outcome, failed: string[]}>}
 */
async function prepared(kind) {
    const asked = askedBy(kind.asked), it = mended(NAME, kind.data, "railplan", asked), refused = (/** @type {string} */ fault) =>
        ({ outcome: { isDrawn: false, wrong: [], said: [...it.guesses, it.unfit].filter(Boolean), fault }, failed: [] });
    if (it.unfit || it.guesses.length) {
        return refused("something would have to be guessed");
    }
    const failed = [], again = mended(NAME, it.data, "railplan", { isOneKm: asked.isOneKm });
    if (again.changes.length || !Buffer.from(again.data).equals(it.data)) {
        failed.push(`mended twice more is changed: ${again.changes[0] ?? "bytes"}`);
    }
    if (!it.changes.length && !Buffer.from(it.data).equals(kind.data)) {
        failed.push("nothing is said, and bytes are changed");
    }
    const judgement = await judge(engine, it);
    if (judgement?.reason) {
        failed.push(`it isn't written, as ${judgement.reason}`);
    }
    if (!judgement?.fault && !await isSeen(it)) {
        failed.push("a hand that is exchanged in what is mended isn't seen");
    }
    const known = (/** @type {string} */ id) => it.renamed.get(id) ?? id;
    const outcome = await outcomeOf(kind, it.data,
        { known, isAsked: kind.asked.length > 0 || it.made.size > 0, mayBeTurned: asked.isOneKm });
    return { outcome, failed };
}

/** @typedef {{steps: number, outcome: Outcome}} Done what came of a file by so many remedies */

/**
 * What comes of a file by what is said of it, once and again: by what is said to write, or by what prepare is said to write.
 * @param {Kind} kind @param {Outcome} today @param {boolean} isByPrepare
 * @returns {Promise<Done>}
 */
async function byRemedies(kind, today, isByPrepare) {
    let outcome = today, data = kind.data, steps = 0, known = (/** @type {string} */ id) => id;
    for (; !outcome.isDrawn && steps < MOST_STEPS; steps++) {
        const before = known, made = isByPrepare ? preparedAsSaid(data, outcome.said) : null;
        const text = isByPrepare ? "" : remedied({ text: decoder.decode(data), truth: kind.truth, odd: kind.odd }, outcome.said);
        if (!made && !text) {
            break;
        }
        data = made?.data ?? new TextEncoder().encode(text);
        known = (id) => before(made?.known(id) ?? id);
        // where one track alone is right, and all others are counted the other way, the whole may be seen from the other side
        outcome = await outcomeOf(kind, data, { known, isAsked: true, mayBeTurned: isByPrepare || askedBy(kind.asked).isOneKm });
    }
    return { steps, outcome };
}

/** @typedef {{kind: Kind, today: Outcome, after: Outcome, by: Record<"hand" | "prepare", Done>, failed: string[]}} Result */

/**
 * What of a file's remedies isn't as it is to be: each is followed, none has a side wrong, and of a refused file a remedy that is said
 * leads to a drawing, or it is known that there is none.
 * @param {Kind} kind @param {Outcome} today @param {Done[]} done
 * @returns {string[]}
 */
function failuresOf(kind, today, done) {
    const wrong = done.filter(({ steps, outcome }) => steps && outcome.isDrawn && outcome.wrong.length);
    const isMended = done.some(({ outcome }) => outcome.isDrawn), known = UNMENDED.has(kind.name);
    return [...wrong.map(({ outcome }) => `what is said has it wrong: ${outcome.wrong[0]}`),
        ...today.isDrawn || isMended !== known ? [] : [isMended ? `it has a remedy, and unmended.js says that it has none: ${UNMENDED.get(kind.name)}`
            : `no remedy that is said leads to a drawing: ${today.said[0]}`]];
}

/** @param {Kind} kind @returns {Promise<Result>} */
async function tried(kind) {
    const today = await outcomeOf(kind, kind.data), { outcome: after, failed } = await prepared(kind);
    const by = { hand: await byRemedies(kind, today, false), prepare: await byRemedies(kind, today, true) };
    return { kind, today, after, by, failed: [...failures(kind, today, "before prepare", kind.today === "drawn"),
        ...failures(kind, after, "after prepare", kind.after === "drawn"), ...failed,
        ...failuresOf(kind, today, [by.hand, by.prepare])] };
}

/** @param {Outcome} outcome @returns {string} */
function word({ isDrawn, wrong, fault }) {
    return isDrawn ? (wrong.length ? "drawn otherwise" : "drawn") : `refused: ${fault.split(" ")[2] ?? fault}`;
}

const all = [...kinds(), ...habits(), ...kinds3()].filter((it) => it.name.includes(part));
/** @type {Result[]} */
const results = new Array(all.length);
let next = 0;
await Promise.all(Array.from({ length: Math.min(2, (availableParallelism ?? (() => cpus().length))()) }, async () => {
    for (let at = next++; at < all.length; at = next++) {
        results[at] = await tried(all[at]);
    }
}));
for (const { kind, today, after, by, failed } of results) {
    const [first = ""] = today.said.filter((it) => !today.isDrawn || WARNINGS.test(it));
    const asked = kind.asked.length ? ` (${kind.asked.join(" ")})` : "";
    const [hand, line] = [by.hand, by.prepare].map(({ steps, outcome }) =>
        (steps ? `${word(outcome)} in ${steps} ${steps === 1 ? "step" : "steps"}` : "-"));
    console.log(
        `${kind.name} | ${word(today)} | ${word(after)}${asked} | ${hand} | ${line} | ${first.length > 110 ? `${first.slice(0, 107)}...` : first}`);
    failed.forEach((it) => console.log(`    FAILED: ${it}`));
}
const failed = results.filter((it) => it.failed.length).length;
const [before, behind] = [results.filter((it) => it.today.isDrawn && !it.today.wrong.length),
    results.filter((it) => it.after.isDrawn && !it.after.wrong.length)];
console.log(`${before.length} of ${results.length} files are drawn as on the ground, and by prepare ${behind.length}`);
const refused = results.filter((it) => !it.today.isDrawn), of = (/** @type {(it: Result) => boolean} */ isSo) => refused.filter(isSo).length;
console.log(`of ${refused.length} refused files ${of((it) => it.by.hand.outcome.isDrawn)} are drawn by what is said to write, `
    + `${of((it) => it.by.prepare.outcome.isDrawn)} by what prepare is said to write, and ${of((it) => UNMENDED.has(it.kind.name))} have no `
    + "remedy");
console.log(`${results.length - failed} passed, ${failed} failed`);
process.exitCode = failed ? 1 : 0;
