/**
 * Whether what is mended says of each switch and crossing what the file said: what lies at its points and by each of its legs,
 * and to which hand. What the file said is read here; what is mended is read by the program, as its track graph.
 */
import { linesOf } from "../messages/telling.js";
import { readGraph } from "../page/texts.js";
import * as railml from "../railml.js";
import { surroundingsOfGraph, Walked } from "../surroundings.js";
import { asRead } from "./numbers.js";
import { Prepared } from "./prepared.js";

/** @typedef {import("../engine.js").Engine} Engine */
/** @typedef {import("../page/texts.js").Graph} Graph */

/** so far a switch may be moved, in metres */
const MOVED = 0.6;
const MEASURED = [...railml.ENDS, ...railml.POINTS, "signal"];

/** faults by which the program says that a file is larger than what it reads */
const TOO_LARGE = /^(long 1|topology \d+ TooMany\b.*|graph \d+ TooMany(Nodes|Edges)\b.*)$/;

/** @param {Prepared} it @param {import("../surroundings.js").Surroundings} around what lies around each in what is mended
 * @returns {string} the first switch or crossing that isn't as it was, with why */
function differing(it, around) {
    const old = (/** @type {string} */ id) => it.renamed.get(id) ?? id;
    const here = new Map([...around].map(([id, around]) => [old(id), around.map(old).join(", ")]));
    const there = it.known?.around ?? new Map([...new Walked(/** @type {railml.Document} */ (it.source)).all()]
        .map(([id, around]) => [id, [around]]));
    for (const [id, ways] of there) {
        const wanted = ways.map(([toe, ...legs]) => [toe, ...it.exchanged.has(id) ? legs.reverse() : legs].join(", "));
        if (!wanted.includes(here.get(id) ?? "")) {
            return `${id} has ${wanted.join(" or ")} around it in the file, and ${here.get(id) ?? "isn't there"} in what would be written`;
        }
    }
    return here.size === there.size ? "" : "there would be other switches or crossings";
}

/** @param {railml.Document} document @returns {Map<string, number>} the mileages that a file writes, with their offsets */
function givenOf(document) {
    return new Map(document.elements.filter((it) => MEASURED.includes(it.name) && it.attributes.has("absPos")).map((it) => {
        const [own, offset] = ["absPos", "absPosOffset"].map((name) => Number(asRead(it.attributes.get(name) ?? "") || 0));
        return [it.id, own + offset];
    }));
}

/** @param {Prepared} it @param {[string, number][]} found the mileages of switches and crossings in what is mended
 * @returns {string} the first switch, crossing or signal that is elsewhere */
function elsewhere(it, found) {
    const source = /** @type {railml.Document} */ (it.source), given = it.known?.given ?? givenOf(source), written = givenOf(it.document);
    const ends = it.known?.signals ?? new Walked(source).signals();
    const old = (/** @type {string} */ id) => it.renamed.get(id) ?? id;
    const points = found.map(([id, at]) => /** @type {const} */ ([old(id), at]));
    const signals = [...ends.keys()].map((id) => /** @type {const} */ ([id, written.get(id)]));
    const moved = it.isRecounted ? undefined : [...points, ...signals]
        .find(([id, at]) => given.has(id) && Math.abs(Number(given.get(id)) - Number(at)) > MOVED);
    if (moved) {
        return `${moved[0]} would be at another mileage, ${moved[1]}`;
    }
    const now = new Walked(it.document).signals();
    for (const [id, between] of ends) {
        const here = now.get(id)?.split(" and ").map((name) => it.made.get(name) ?? old(name));
        if (!here || here.every((name) => !between.split(" and ").includes(name))) {
            return `signal ${id} would be on another piece of track`;
        }
    }
    return "";
}

/**
 * The first switch or crossing of what is mended that isn't as it was, by readings of both files: for a file that is too large for the
 * program, in which no three-way switch was written as two.
 * @param {Prepared} it
 * @returns {string} "" where all are as they were, else which one isn't, and why
 */
export function otherInFile(it) {
    return it.made.size ? `${[...it.made.values()][0]} would be two switches, which the program's track graph alone can judge`
        : differing(it, new Walked(it.document).all());
}

/**
 * The same, and whether a switch, crossing or signal is elsewhere.
 * @param {Prepared} it
 * @returns {string}
 */
function judgedByReading(it) {
    const points = it.document.tracks().flatMap(railml.points);
    return otherInFile(it) || elsewhere(it, points.flatMap((one) => {
        const at = railml.mileage(one);
        return at ? [/** @type {[string, number]} */ ([one.id, at.toNumber()])] : [];
    }));
}

/** @typedef {Pick<Prepared, "known" | "renamed" | "made" | "isRebuilt">} Kept what a file that is mended elsewhere is to be judged by */

/**
 * What to keep of a file that is judged where it wasn't mended, as a worker hands it on.
 * @param {Prepared} it
 * @returns {Kept}
 */
export function toJudge({ known, source, renamed, made, isRebuilt }) {
    return { known: known ?? (source && knownOfFile(source)), renamed, made, isRebuilt };
}

/**
 * What a file says of each switch and crossing, kept without the file.
 * @param {railml.Document} source
 * @returns {import("../railml3/around.js").Known}
 */
function knownOfFile(source) {
    const walked = new Walked(source);
    return { around: new Map([...walked.all()].map(([id, around]) => [id, [around]])), given: givenOf(source), signals: walked.signals() };
}

/** @typedef {{reason: string, fault: string, isLarge: boolean}} Judgement why what is mended isn't to be written, the fault that the
 * program finds in it, and whether that is its size alone, so that two readings of this launcher judged it */

/**
 * Judges what is mended before it is written.
 * @param {Engine} engine @param {Prepared} it @param {AbortSignal} [signal]
 * @returns {Promise<Judgement | null>} null where the run was stopped
 */
export async function judge(engine, it, signal) {
    const ran = await engine.run({ words: ["graph", "mended.xml"], files: new Map([["mended.xml", it.data]]), signal });
    if (ran.wasStopped) {
        return null;
    }
    const text = new TextDecoder().decode(ran.output);
    const isJudged = it.source !== null || it.known !== null;
    if (ran.status) {
        const fault = linesOf(ran.output).at(-1) ?? `status ${ran.status}`, isLarge = TOO_LARGE.test(fault);
        return { reason: isLarge && it.source ? judgedByReading(it) : "", fault, isLarge };
    }
    const graph = readGraph(text);
    return { reason: isJudged ? differing(it, surroundingsOfGraph(graph, it.made)) || elsewhere(it, pointsOf(graph)) : "", fault: "",
        isLarge: false };
}

/** @param {Graph} graph @returns {[string, number][]} the mileages of its switches and crossings */
function pointsOf(graph) {
    return graph.nodes.filter((node) => node.kind === "switch" || node.kind === "crossing")
        .map((node) => /** @type {[string, number]} */ ([node.name, Number(node.mileage)]));
}

/**
 * Why what is mended of a file that says of itself what lies around its switches can't be used.
 * @param {Engine} engine @param {string} name @param {Uint8Array} data what is mended @param {Kept} kept
 * @returns {Promise<string>} "" where the program's track graph has each switch and crossing as the file has it
 */
export async function whyUnfit(engine, name, data, kept) {
    const judgement = await judge(engine, Object.assign(new Prepared(name, data, "railplan"), kept));
    return !judgement ? "it was stopped"
        : judgement.reason ? `it can't be shown that each switch and crossing has the same legs and sides: ${judgement.reason}`
        : judgement.fault && kept.isRebuilt ? `the program finds a fault in what would be written: ${judgement.fault}` : "";
}
