/**
 * HTML and SVG as elements. What is text is escaped here and nowhere else, so that no name of a file can become markup.
 */
import { spelled } from "./letters.js";

const VOID = new Set(["meta", "input", "br", "hr", "col", "img"]);
// what is in these elements is no markup: it is written as it is, and must not end the element
const BARE = new Set(["script", "style"]);
// characters that no XML may have; U+000A and U+0009 are no such ones
const FORBIDDEN = /[\x00-\x08\x0b-\x1f\x7f\ud800-\udfff\ufffe\uffff]/gu;

// what would end such an element, or hide its end; a script that has this line in it has none of them
const ENDING = /<\/(?:script|style)|<[!]--|<[s]cript/i;

/** @typedef {string | number | boolean | null | undefined} Value */
/** @typedef {{ [name: string]: Value }} Attributes */
/** @typedef {Element | string | null | undefined} Leaf */
/** @typedef {Leaf | any[]} Child a list of children, however deep, is written as what is in it */

/** An element: its name, its attributes and its children. */
export class Element {
    /**
     * @param {string} tag
     * @param {Attributes} attributes one that is null or false isn't there, and one that is true has its own name as value
     * @param {Child[]} children
     */
    constructor(tag, attributes, children) {
        this.tag = tag;
        this.attributes = attributes;
        this.children = children;
    }

    /**
     * @param {...Child} children
     * @returns {Element}
     */
    add(...children) {
        this.children.push(...children);
        return this;
    }

    /**
     * The element and those within it.
     * @returns {IterableIterator<Element>}
     */
    *all() {
        yield this;
        for (const child of flat(this.children)) if (child instanceof Element) yield* child.all();
    }

    /**
     * The text within it.
     * @returns {string}
     */
    text() {
        return flat(this.children).map((it) => it instanceof Element ? it.text() : it).join("");
    }

    /** @returns {string} */
    toString() {
        /** @type {string[]} */
        const parts = [];
        write(this, parts);
        return parts.join("");
    }
}

/**
 * An element with these attributes and children.
 * @param {string} tag
 * @param {Attributes} [attributes]
 * @param {...Child} children
 * @returns {Element}
 */
export function element(tag, attributes = {}, ...children) {
    return new Element(tag, attributes, children);
}

/**
 * The elements and texts of a list of lists.
 * @param {Child[]} children
 * @returns {(Element | string)[]}
 */
export function flat(children) {
    const all = /** @type {(Element | string | null | undefined)[]} */ (children.flat(Infinity));
    return /** @type {(Element | string)[]} */ (all.filter((it) => it !== null && it !== undefined));
}

/**
 * The attributes that are there, each with its text.
 * @param {Element} one
 * @returns {[string, string][]}
 */
export function given(one) {
    return Object.entries(one.attributes).filter(([, value]) => value !== null && value !== undefined && value !== false)
        .map(([name, value]) => [name, written(value === true ? name : String(value))]);
}

/**
 * A text as a page has it: characters that no page may have are spelled.
 * @param {string} text
 * @returns {string}
 */
export function written(text) {
    return text.replace(FORBIDDEN, spelled);
}

/** @type {(text: string) => string} */
const inText = (text) => text.replaceAll("&", "&amp;").replaceAll("<", "&lt;").replaceAll(">", "&gt;");

/** @type {(text: string) => string} */
const inValue = (text) => inText(text).replaceAll('"', "&quot;").replaceAll("\n", "&#10;").replaceAll("\t", "&#9;");

/**
 * @param {Element} one
 * @param {string[]} parts
 */
function write(one, parts) {
    parts.push(`<${one.tag}`, ...given(one).map(([name, text]) => ` ${name}="${inValue(text)}"`), ">");
    if (VOID.has(one.tag)) return;
    if (BARE.has(one.tag)) parts.push(bare(one));
    else {
        for (const child of flat(one.children)) {
            if (child instanceof Element) write(child, parts);
            else parts.push(inText(written(child)));
        }
    }
    parts.push(`</${one.tag}>`);
}

/**
 * The text of a script or a style; one that could end the element, or hide its end, is no such text.
 * @param {Element} one
 * @returns {string}
 */
function bare(one) {
    const text = one.text();
    if (ENDING.test(text) || text.search(FORBIDDEN) >= 0) throw new Error(`the text of a ${one.tag} would end it`);
    return text;
}

/**
 * The text of a page.
 * @param {Element} root
 * @returns {string}
 */
export function document(root) {
    return `<!DOCTYPE html>\n${root}\n`;
}
