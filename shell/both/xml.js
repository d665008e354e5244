/**
 * An XML file read tag by tag, each with the byte where it begins. sax takes the text apart; what sax lets pass and XML forbids
 * is refused here. Reading stops at the first fault, and says where it is and what is wrong.
 */
import sax from "#sax";

/** @typedef {object} Handler what is called for each part of a file
 * @property {(place: number, name: string, attributes: Map<string, string>) => void} open
 * @property {(ended: number) => void} close with the byte behind the element
 * @property {(text: string) => void} text */
/** @typedef {{place: number, line: number, what: string}} Trouble where reading stopped before the end: the byte and the line,
 * and what is wrong there */

const INVALID = "not well-formed (invalid token)";
const JUNK = "junk after document element";
// what sax says of a fault, by how it begins, and what is said here
const SENTENCES = [["Unexpected close tag", "mismatched tag"], ["Unmatched closing tag", INVALID],
    ["Non-whitespace before", "syntax error"], ["Text data outside", JUNK], ["Invalid character entity", "undefined entity"]];
// what is no character of XML
const FOREIGN = /[\0-\x08\x0b\x0c\x0e-\x1f\ufffe\uffff]/;
const ATTRIBUTE = /\s+([^\s=<>"'/]+)\s*=\s*(?:"([^"<]*)"|'([^'<]*)')/gy;
const REFERENCE = /&(?:#([0-9]+)|#x([0-9a-fA-F]+)|([^;]*));/g;
// what text between tags mustn't have
const WRONG_TEXT = /]]>|&(?!(?:lt|gt|amp|apos|quot|#[0-9]+|#x[0-9a-fA-F]+);)/;
const ENTITIES = new Map([["lt", "<"], ["gt", ">"], ["amp", "&"], ["apos", "'"], ["quot", "\""]]);
const DECLARATION =
    /^version\s*=\s*(["'])[\w.:-]+\1(\s+encoding\s*=\s*(["'])[A-Za-z][\w.-]*\3)?(\s+standalone\s*=\s*(["'])(yes|no)\5)?\s*$/;

class Stop extends Error {
    /** @param {number} place @param {string} what */
    constructor(place, what) {
        super(what);
        this.place = place;
    }
}

/**
 * The text of some bytes as far as they are of an encoding.
 * @param {Uint8Array} data @param {string} [encoding]
 * @returns {string}
 */
export function validText(data, encoding = "utf-8") {
    const decoded = (/** @type {number} */ length, /** @type {boolean} */ stream) =>
        new TextDecoder(encoding, { fatal: true, ignoreBOM: true }).decode(data.subarray(0, length), { stream });
    try {
        return decoded(data.length, false);
    } catch {
        let good = 0;
        for (let bad = data.length + 1; bad - good > 1;) {
            const middle = (good + bad) >> 1;
            try {
                decoded(middle, true);
                good = middle;
            } catch {
                bad = middle;
            }
        }
        return decoded(good, true);
    }
}

/** Turns places among a text's characters into bytes; places that rise are counted on. */
class Bytes {
    /** @param {string} text @param {boolean} isPlain whether each character is one byte */
    constructor(text, isPlain) {
        this.text = text;
        this.isPlain = isPlain;
        this.at = 0;
        this.byte = 0;
    }

    /** @param {number} at @returns {number} */
    of(at) {
        if (this.isPlain) {
            return at;
        }
        if (at < this.at) {
            this.at = this.byte = 0;
        }
        for (; this.at < at; this.at++) {
            const code = this.text.charCodeAt(this.at);
            // each half of a pair has two of its four bytes
            this.byte += code < 0x80 ? 1 : code < 0x800 || code >= 0xd800 && code < 0xe000 ? 2 : 3;
        }
        return this.byte;
    }
}

/**
 * a value of an attribute: blanks are blanks, and references are what they stand for
 * @param {string} raw @returns {string | null} null where a reference means nothing
 */
function valueOf(raw) {
    const value = raw.replace(/\r\n|[\t\r\n]/g, " ");
    if (!value.includes("&")) {
        return value;
    }
    let isRight = true;
    const read = value.replace(REFERENCE, (_, decimal, hexadecimal, name) => {
        const code = decimal ? parseInt(decimal, 10) : parseInt(hexadecimal, 16);
        const sign = name === undefined ? code <= 0x10ffff ? String.fromCodePoint(code) : "" : ENTITIES.get(name) ?? "";
        isRight &&= sign !== "" && !FOREIGN.test(sign) && !(code >= 0xd800 && code < 0xe000);
        return sign;
    });
    return isRight ? read : null;
}

/** Names as they were read first: a file has few, each many times, and a text that is kept once takes less memory. */
class Names {
    constructor() {
        /** @type {Map<string, string>} */
        this.known = new Map();
    }

    /** @param {string} name @returns {string} */
    first(name) {
        const known = this.known.get(name);
        if (known === undefined) {
            this.known.set(name, name);
        }
        return known ?? name;
    }
}

/**
 * The attributes of a tag, whose text begins at a place of the file's.
 * @param {string} tag @param {string} name @param {number} begun @param {Names} names
 * @returns {Map<string, string>}
 */
function attributesOf(tag, name, begun, names) {
    const found = new Map();
    ATTRIBUTE.lastIndex = 1 + name.length;
    let ended = ATTRIBUTE.lastIndex;
    for (let it = ATTRIBUTE.exec(tag); it; it = ATTRIBUTE.exec(tag)) {
        const value = valueOf(it[2] ?? it[3]), called = names.first(it[1]);
        if (found.has(called)) {
            throw new Stop(begun + ended + it[0].search(/\S/), "duplicate attribute");
        }
        if (value === null) {
            throw new Stop(begun + ended + it[0].indexOf("&"), "undefined entity");
        }
        found.set(called, value);
        ended = ATTRIBUTE.lastIndex;
    }
    if (!/^\s*\/?>$/.test(tag.slice(ended))) {
        throw new Stop(begun + ended, INVALID);
    }
    return found;
}

/** What sax hears of, with what it lets pass refused. */
class Listener {
    /** @param {any} parser @param {string} text @param {Bytes} bytes @param {Handler} handler */
    constructor(parser, text, bytes, handler) {
        this.parser = parser;
        this.text = text;
        this.bytes = bytes;
        this.handler = handler;
        this.names = new Names();
        this.depth = 0;
        this.hasRoot = false;
        // where the last tag, comment or the like ended
        this.ended = 0;
        parser.onerror = (/** @type {Error} */ error) => this.stop(error.message);
        parser.onopentag = (/** @type {{name: string}} */ tag) => this.open(tag.name);
        parser.onclosetag = () => this.close();
        parser.ontext = parser.oncdata = (/** @type {string} */ it) => handler.text(it.replace(/\r\n?/g, "\n"));
        parser.onopencdata = () => this.between(this.depth > 0 && this.isWritten("<![CDATA["));
        parser.onclosecdata = () => {
            this.ended = parser.position;
        };
        parser.oncomment = () => this.between(true);
        parser.onsgmldeclaration = () => this.between(false);
        parser.ondoctype = () => this.between(this.isWritten("<!DOCTYPE"));
        parser.onprocessinginstruction = (/** @type {{name: string, body: string}} */ it) => this.instruct(it.name, it.body);
    }

    /** where the tag, comment or the like begins that sax is in */
    get begun() {
        return this.parser.startTagPosition - 1;
    }

    /** @param {string} front @returns {boolean} whether it begins so */
    isWritten(front) {
        return this.text.startsWith(front, this.begun);
    }

    /** @param {string} said what sax says of a fault @returns {never} */
    stop(said) {
        const what = SENTENCES.find(([front]) => said.startsWith(front))?.[1] ?? INVALID;
        throw new Stop(what === "mismatched tag" ? this.begun + 2 : this.parser.position - 1, what);
    }

    /** @param {boolean} isRight refuses what is here, where it isn't right, and what the text before it mustn't have */
    between(isRight) {
        const wrong = this.text.slice(this.ended, this.begun).search(WRONG_TEXT);
        refuse(this.ended + wrong, wrong < 0);
        refuse(this.begun, isRight);
        this.ended = this.parser.position;
    }

    /** @param {string} name */
    open(name) {
        this.between(true);
        refuse(this.begun, !this.hasRoot || this.depth > 0, JUNK);
        refuse(this.begun + 1, this.isWritten(`<${name}`));
        const written = this.text.slice(this.begun, this.parser.position);
        this.handler.open(this.bytes.of(this.begun), this.names.first(name), attributesOf(written, name, this.begun, this.names));
        this.hasRoot = true;
        this.depth++;
    }

    close() {
        this.between(true);
        refuse(this.begun + 2, !/^<\/\s/.test(this.text.slice(this.begun, this.begun + 3)));
        this.depth--;
        this.handler.close(this.bytes.of(this.parser.position));
    }

    /** @param {string} name @param {string} body of a processing instruction */
    instruct(name, body) {
        this.between(/^[^\s\d.<>-]/.test(name));
        if (name.toLowerCase() === "xml") {
            const isFirst = this.begun === (this.text.startsWith("\ufeff") ? 1 : 0);
            refuse(this.begun, isFirst && name === "xml", "XML or text declaration not at start of entity");
            refuse(this.begun, DECLARATION.test(body), "XML declaration not well-formed");
        }
    }
}

/** @param {number} place @param {boolean} isRight @param {string} [what] */
function refuse(place, isRight, what = INVALID) {
    if (!isRight) {
        throw new Stop(place, what);
    }
}

/**
 * Why a text ends before its first element is closed.
 * @param {any} parser @param {string} text
 * @returns {Stop | null}
 */
function unfinished(parser, text) {
    const { BEGIN, BEGIN_WHITESPACE, TEXT } = sax.STATE;
    if (![BEGIN, BEGIN_WHITESPACE, TEXT].includes(parser.state)) {
        return new Stop(parser.startTagPosition - 1, "unclosed token");
    }
    return parser.sawRoot && parser.closedRoot ? null : new Stop(text.length, "no element found");
}

/**
 * Reads a file.
 * @param {Uint8Array} data @param {Handler} handler
 * @returns {Trouble | null}
 */
export function parse(data, handler) {
    const text = validText(data), bytes = new Bytes(text, text.length === data.length);
    const foreign = text.search(FOREIGN);
    const read = foreign < 0 ? text : text.slice(0, foreign);
    const parser = sax.parser(true, { strictEntities: true });
    new Listener(parser, text, bytes, handler);
    let stop;
    try {
        parser.write(read);
        parser.flush();
        const isWhole = foreign < 0 && bytes.of(text.length) === data.length;
        stop = isWhole ? unfinished(parser, text) : new Stop(read.length, INVALID);
    } catch (error) {
        stop = error instanceof Stop ? error : new Stop(parser.position - 1, INVALID);
    }
    if (!stop) {
        return null;
    }
    const line = text.slice(0, stop.place).split("\n").length;
    return { place: bytes.of(stop.place), line, what: stop.message };
}
