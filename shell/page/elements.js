/** Elements of a page in a browser. Text is always text, never markup. */

/**
 * @template {keyof HTMLElementTagNameMap} Name
 * @param {Name} name
 * @param {Partial<Record<string, string | boolean | number>>} attributes a `false` one is left out
 * @param {(Node | string)[]} children
 * @returns {HTMLElementTagNameMap[Name]}
 */
export function element(name, attributes, ...children) {
    const made = document.createElement(name);
    for (const [key, value] of Object.entries(attributes)) {
        if (value !== false && value !== undefined) {
            made.setAttribute(key, value === true ? "" : String(value));
        }
    }
    made.append(...children);
    return made;
}

/**
 * A button that does something.
 * @param {string} text
 * @param {() => void} does
 * @param {string} [kind] its class
 */
export function button(text, does, kind = "") {
    const made = element("button", { type: "button", class: kind || false }, text);
    made.addEventListener("click", does);
    return made;
}

/**
 * A link that saves bytes under a name.
 * @param {string} name
 * @param {Uint8Array} bytes
 * @param {string} type
 */
export function saving(name, bytes, type) {
    const link = element("a", { href: URL.createObjectURL(new Blob([bytes], { type })), download: name }, `${name} (${sized(bytes.length)})`);
    return link;
}

/**
 * a number of bytes, to be read
 * @param {number} bytes
 */
export function sized(bytes) {
    return bytes < 100_000 ? `${bytes.toLocaleString("en")} bytes` : `${(bytes / 1_000_000).toFixed(1)} MB`;
}
