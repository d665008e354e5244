/** Elements of a file as text again. */

/** @typedef {import("../railml.js").Element} Element */

const REFERENCES = new Map([["&", "&amp;"], ["<", "&lt;"], [">", "&gt;"], ['"', "&quot;"], ["\n", "&#10;"], ["\t", "&#9;"], ["\r", "&#13;"]]);

/**
 * The text of an attribute's value.
 * @param {string} text
 */
export function escaped(text) {
    return text.replace(/[&<>"\n\t\r]/g, (it) => REFERENCES.get(it) ?? it);
}

/**
 * Attributes as they stand in a tag.
 * @param {Map<string, string>} attributes
 */
export function tagText(attributes) {
    return [...attributes].map(([name, value]) => ` ${name}="${escaped(value)}"`).join("");
}

/**
 * An element with all that is in it, and further attributes.
 * @param {Element} it
 * @param {Map<string, string>} [more]
 * @returns {string}
 */
export function elementText(it, more = new Map()) {
    const inner = it.children.map((below) => elementText(below)).join("") || escaped(it.text);
    return `<${it.name}${tagText(new Map([...it.attributes, ...more]))}${inner ? `>${inner}</${it.name}>` : "/>"}`;
}
