/** A file's text as it is read: UTF-8, without a DOCTYPE, without a prefix. */
import { declaredIn, declaring, textOf } from "../encodings.js";
import { noXml, root, unfinished, withoutPrefix } from "../messages/text_faults.js";
import { quoted } from "../quoted.js";
import { Guess, Unfit } from "./prepared.js";

/** @typedef {import("./prepared.js").Prepared} Prepared */
/** @typedef {import("../edits.js").Edit} Edit */

const PREFIXED = ["railml", "infrastructure", "tracks", "track", "trackTopology"];
const DOCTYPE = /<!DOCTYPE[^[>]*(\[[^]*?\])?[ \t-\r]*>(\r?\n)?/;
const encoder = new TextEncoder();

/** @param {Prepared} it */
export function mendEncoding(it) {
    const { text, name, guess } = textOf(it.data);
    if (guess) {
        throw new Guess(guess);
    }
    const declared = declaredIn(text);
    if (name || declared && declared.toUpperCase() !== "UTF-8") {
        it.changes.push(`${name || declared} is written as UTF-8`);
        it.become(encoder.encode(declaring(text, "UTF-8")));
    }
}

/** @param {Prepared} it */
export function mendDoctype(it) {
    const found = DOCTYPE.exec(it.edits.signs), [first] = it.document.elements;
    if (!found || first && found.index > first.place) {
        return;
    }
    if (found[0].includes("<!ENTITY")) {
        throw new Guess(`${it.at(found.index)}: the DOCTYPE has entities, which stand for texts, and none is read. Save the file with a `
            + "program that writes these texts in their places, and leave the DOCTYPE out");
    }
    it.changes.push(`${it.at(found.index)}: the DOCTYPE is taken out: nothing in it is read`);
    it.replace([{ begun: found.index, ended: found.index + found[0].length, text: "" }]);
}

/** @param {Prepared} it @returns {Map<string, string>} the prefixes of elements that are read without one, with their
 * namespaces */
function prefixesOf(it) {
    const { elements } = it.document, names = new Set(elements.map((element) => element.name));
    const used = [...names].map((name) => name.split(":")).filter(([, local]) => PREFIXED.includes(local));
    if (!used.length) {
        return new Map();
    }
    const spaces = new Map(elements.flatMap((element) => [...element.attributes])
        .filter(([key]) => key.startsWith("xmlns:")).map(([key, value]) => [key.slice(6), value]));
    return new Map(used.map(([prefix]) => prefix).sort().map((prefix) => [prefix, spaces.get(prefix) ?? ""]));
}

/** @param {Prepared} it @param {Map<string, string>} found refuses where it isn't clear which elements are meant */
function refuseUnclear(it, found) {
    const { elements } = it.document, [prefix] = found.keys(), isOne = found.size === 1;
    const isInside = elements.slice(1).some((element) => element.attributes.has("xmlns"));
    const areBoth = elements[0].attributes.has("xmlns") && elements.some((element) => PREFIXED.includes(element.name));
    if (!isOne || isInside || areBoth) {
        const others = isOne ? " and there is another namespace without a prefix" : "";
        throw new Guess(`elements have the prefix ${[...found.keys()].join(", ")}${others}, so it isn't clear which elements `
            + "are meant" + (isOne ? `. ${withoutPrefix(prefix, it.name)}` : ""));
    }
}

/** @param {Prepared} it */
export function mendPrefix(it) {
    const found = prefixesOf(it), { elements } = it.document, [first] = elements;
    if (!found.size) {
        return;
    }
    refuseUnclear(it, found);
    const [[prefix, space]] = found, front = `${prefix}:`, another = first.attributes.get("xmlns");
    const having = elements.filter((element) => element.name.startsWith(front)), size = encoder.encode(front).length;
    const edits = [...having.map((element) => element.place + 1), ...it.edits.allOf(`</${front}`).map((place) => place + 2)]
        .map((place) => ({ begun: place, ended: place + size, text: "" }));
    if (another !== undefined && another !== space) {
        edits.push(...givingPrefix(it, another));
    }
    if (another !== undefined) {
        edits.push({ .../** @type {{begun: number, ended: number}} */ (it.edits.valueIn(first.place, "xmlns")), text: space });
    } else if (space) {
        const place = first.place + 1 + encoder.encode(first.name).length;
        edits.push({ begun: place, ended: place, text: ` xmlns="${space}"` });
    }
    it.replace(edits);
    it.changes.push(`the prefix ${front} is taken off ${having.length} elements`);
}

/** @param {Prepared} it @param {string} space @returns {Edit[]} that the elements without a prefix have one of their own */
function givingPrefix(it, space) {
    const { elements } = it.document, [first] = elements, plain = elements.filter((element) => !element.name.includes(":"));
    const taken = new Set(elements.flatMap((element) => [...element.attributes.keys()]));
    let prefix = "own";
    while (taken.has(`xmlns:${prefix}`)) {
        prefix += "_";
    }
    if (plain.length) {
        it.changes.push(`the prefix ${prefix}: is given to ${plain.length} elements of the namespace ${space}, which had none`);
    }
    const place = first.place + 1 + encoder.encode(first.name).length;
    return [...plain.flatMap((element) => it.edits.naming(element, `${prefix}:${element.name}`)),
        { begun: place, ended: place, text: ` xmlns:${prefix}="${space}"` }];
}

// ---- what can't be mended

/** @param {Prepared} it refuses an empty file, packed ones, and what else has no tag where XML begins */
export function refuseNoXml(it) {
    const other = noXml(it.data), isEmpty = it.data.every((byte) => byte === 32 || byte >= 9 && byte <= 13);
    if (other || isEmpty) {
        throw new Unfit(`${it.at(0)}: ${isEmpty ? unfinished(it.data) : `this file is ${other}`}`);
    }
}

/** @param {Prepared} it leaves what isn't XML to the program, which says what is wrong */
export function refuseText(it) {
    const { trouble } = it.document;
    if (trouble) {
        throw new Unfit(`${it.at(trouble.place)}: this isn't XML: ${trouble.what}. ${it.called} graph ${quoted(it.name)} says `
            + "more");
    }
}

/** @param {Prepared} it refuses another kind of XML */
export function refuseRoot(it) {
    const [first] = it.document.elements, { name, data, called } = it;
    if (!["railml", "infrastructure"].includes(first.name)) {
        throw new Unfit(`${it.at(first.place)}: ${root({ name, data, place: first.place, called })}`);
    }
}
