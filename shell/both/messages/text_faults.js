/** What a fault of a railML file's text means, and what to do about it. */
import { ofByte } from "../places.js";
import { quoted } from "../quoted.js";
import { read } from "../railml.js";

/** @typedef {import("../notes.js").Note} Note */
/** @typedef {{name: string, data: Uint8Array, place: number, called: string}} Fault a file's name and bytes, the byte of the
 * fault, and how the launcher is called */

const utf8 = new TextDecoder();
// one sign for each byte
const single = new TextDecoder("latin1");
const TAG_SHOWN = 200;
const FRONT = 4096;
// an attribute in a text of single bytes, of which some are no blank that would be one as a sign
const ATTRIBUTE = /([^ \t-\r=<>"']+)[ \t-\r]*=[ \t-\r]*(?:"[^"<]*"|'[^'<]*')/g;
const REFERENCE = /&(?!(?:lt|gt|amp|apos|quot|#[0-9]+|#x[0-9a-fA-F]+);)/;

/** how files begin that are no XML, and what to do with them */
const OTHERS = [["PK", "a packed archive. Unpack it, and name the railML file in it"],
    ["\x1f\x8b", "a packed file. Unpack it first"],
    ["%PDF", "a PDF. Export the station as railML 2"], ["{", "JSON, as it seems. Export the station as railML 2"],
    ["[", "JSON, as it seems. Export the station as railML 2"]];

/** @param {Fault} it @param {RegExp} form @returns {string | undefined} what a tag at the fault's place has of a form */
function named({ data, place }, form) {
    return form.exec(utf8.decode(data.subarray(place, place + TAG_SHOWN)))?.[1];
}

/** @param {Fault} it @returns {string} the line that mends the file */
function prepared({ name, called }) {
    return `${called} prepare ${quoted(name)} NEW.xml`;
}

/** @param {Uint8Array} data @returns {number} where the text begins, behind a byte order mark and blanks */
function begun(data) {
    let at = data[0] === 0xef && data[1] === 0xbb && data[2] === 0xbf ? 3 : 0;
    while (at < data.length && (data[at] === 32 || data[at] >= 9 && data[at] <= 13)) {
        at++;
    }
    return at;
}

/**
 * What a file is that has no tag where an XML file begins.
 * @param {Uint8Array} data
 * @returns {string}
 */
export function noXml(data) {
    const at = begun(data), front = single.decode(data.subarray(at, at + 8));
    if (front.startsWith("<")) {
        return "";
    }
    const kind = OTHERS.find(([begins]) => front.startsWith(begins))?.[1];
    return kind ?? (data.subarray(0, FRONT).includes(60) ? ""
        : "no XML: no tag is in its first 4,096 bytes. Is it the right file?");
}

/** @param {Fault} it @returns {string} */
function notUtf8(it) {
    const other = noXml(it.data);
    if (other) {
        return `this file is ${other}`;
    }
    const [one, two] = it.data;
    const isUtf16 = one === 0xff && two === 0xfe || one === 0xfe && two === 0xff || it.data.subarray(0, 4).includes(0);
    const found = isUtf16 ? "the file is UTF-16, and only UTF-8 is read" : "from here on the file isn't UTF-8";
    return `${found}. ${prepared(it)} writes it anew as UTF-8, from UTF-16 and Latin-1`;
}

/** @param {Fault} it @returns {string} */
function encoding(it) {
    const other = named(it, /encoding\s*=\s*["']([^"'<>]*)/) ?? "another encoding";
    return `the file says that it is ${other}, and only UTF-8 is read. ${prepared(it)} writes it anew as UTF-8`;
}

/** @param {Fault} it @returns {string} */
function markup({ data, place }) {
    const other = noXml(data);
    if (other) {
        return `this file is ${other}`;
    }
    return data[place] === 60
        ? "this isn't XML. Look in this tag for a `<` inside a value (write &lt;), a value without quotes, or two attributes "
        + "with no blank between them"
        : "nothing but comments may come before the first element. Delete this text";
}

/** @param {Fault} it @returns {string} */
function doctype(it) {
    if (named(it, /^<!DOCTYPE\s+(html)\b/i)) {
        return `this is a page for browsers, and a railML file is read here. If railplan wrote it, ${it.called} check-page `
            + `${quoted(it.name)} judges it`;
    }
    return "a DOCTYPE isn't read, and railML needs none. Delete it";
}

/** @param {Fault} it @returns {string} */
function endTag(it) {
    const opened = read(it.data.subarray(0, it.place)).open.at(-1), ending = named(it, /^<\/([^\s>]*)/) ?? "";
    return opened ? `</${ending}> comes before <${opened.name}> is closed. Close that one first, or delete the tag that is too `
        + "many"
        : `no element is open here, so </${ending}> ends nothing. Delete it`;
}

/** @param {Fault} it @returns {{place: number, name: string}} where in a tag an attribute comes again, and its name */
function secondAttribute({ data, place }) {
    const seen = new Set(), tag = single.decode(data.subarray(place, data.indexOf(62, place) + 1));
    for (const it of tag.matchAll(ATTRIBUTE)) {
        const at = place + (it.index ?? 0);
        if (seen.has(it[1])) {
            return { place: at, name: utf8.decode(data.subarray(at, at + it[1].length)) };
        }
        seen.add(it[1]);
    }
    return { place, name: "" };
}

/** @param {Fault} it @returns {string} */
function repeatedAttribute(it) {
    const twice = secondAttribute(it).name;
    return `this tag has ${twice ? `the attribute ${twice}` : "one attribute"} twice. Delete one of the two`;
}

/**
 * How a prefix is taken off where another namespace has none, so that prepare can't say which elements are meant.
 * @param {string} prefix @param {string} name the file's
 * @returns {string}
 */
export function withoutPrefix(prefix, name) {
    const taken = quoted(`s#<(/?)${prefix}:#<\\1#g`);
    return `Where the elements without one are the producer's own, this takes it off: sed -E ${taken} ${quoted(name)} > `
        + "NEW.xml";
}

/**
 * What a file's first element says that it is.
 * @param {Fault} it
 * @returns {string}
 */
export function root(it) {
    const first = named(it, /^<([^\s/>]*)/) ?? "", at = first.lastIndexOf(":"), local = first.slice(at + 1);
    if (local === "railML") {
        return `this is railML 3, which isn't read as it is. Export the infrastructure as railML 2, or ${prepared(it)} `
            + "writes it so, where it says enough. That was tried on files of our own making alone";
    }
    if (at >= 0 && ["railml", "infrastructure"].includes(local)) {
        if (read(it.data).elements.some((element) => element.attributes.has("xmlns"))) {
            return `the elements have the prefix ${first.split(":")[0]}:, and another namespace has none (xmlns). Names are `
                + `read without a prefix. ${withoutPrefix(first.split(":")[0], it.name)}`;
        }
        return `the elements have the prefix ${first.split(":")[0]}:, and names are read without one. ${prepared(it)} takes it `
            + "off";
    }
    return `the first element is ${first}, so the file isn't railML 2: that begins with railml or infrastructure`;
}

/**
 * That a file ends too early.
 * @param {Uint8Array} data
 * @returns {string}
 */
export function unfinished(data) {
    if (begun(data) === data.length) {
        return "the file is empty. Was it copied or exported to its end?";
    }
    const opened = read(data).open.at(-1);
    const where = opened ? ` before <${opened.name}> is closed` : " before its first element";
    return `the file ends${where}. Was it copied or exported to its end?`;
}

/** @param {Fault} it @returns {string} */
function noInfrastructure(it) {
    const below = read(it.data).root?.children.map((child) => child.name) ?? [];
    const prefixed = below.find((name) => name.endsWith(":infrastructure"));
    if (prefixed) {
        return `the element ${prefixed} has a prefix, and names are read without one. ${prepared(it)} takes it off`;
    }
    const only = below.length ? `: it has only ${[...new Set(below)].join(", ")}` : "";
    return `the file is railML, but has no infrastructure${only}. Export the infrastructure too`;
}

/** @type {Map<string, (it: Fault) => string>} what is said of each fault */
export const TEXT = new Map([
    ["NotUtf8", notUtf8],
    ["Encoding", encoding],
    ["Doctype", doctype],
    ["Markup", markup],
    ["Entity", () => "this & begins no reference. Write &amp; for the sign &. Besides it &lt; &gt; &apos; &quot; and numbers "
        + "as &#233; are read"],
    ["EndTag", endTag],
    ["RepeatedAttribute", repeatedAttribute],
    ["Root", root],
    ["Unfinished", ({ data }) => unfinished(data)],
    ["AfterRoot", () => "the first element is closed by now, and only comments may follow it. Delete what follows"],
    ["Depth", () => "this element is the 65th that is open, one in another, and 64 are read. Is a tag before it never closed?"],
    ["NoInfrastructure", noInfrastructure],
]);

/** @param {string} fault @param {Fault} it @returns {number} the byte that the fault is about, as far as it can be seen */
function finer(fault, it) {
    if (fault === "Entity") {
        const found = single.decode(it.data.subarray(it.place)).search(REFERENCE);
        return it.place + Math.max(found, 0);
    }
    return fault === "RepeatedAttribute" ? secondAttribute(it).place : it.place;
}

/**
 * What is said of a fault at a byte of the text.
 * @param {string} fault @param {Fault} it
 * @returns {Note[]}
 */
export function notes(fault, it) {
    const { name, data, place } = it;
    const text = /** @type {(it: Fault) => string} */ (TEXT.get(fault))(it);
    const opened = ["EndTag", "Unfinished", "Depth"].includes(fault) ? read(data.subarray(0, place)).open.at(-1) : undefined;
    return [{ text, place: ofByte(name, data, finer(fault, it)) },
        ...opened ? [{ text: `<${opened.name}> is opened here`, place: ofByte(name, data, opened.place) }] : []];
}
