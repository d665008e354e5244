/**
 * Numbers as texts. A number half way between two texts becomes the one whose last digit is even, wherever a page is made.
 */

/**
 * A number with so many decimals.
 * @param {number} number
 * @param {number} digits
 * @returns {string}
 */
export function fixed(number, digits) {
    const text = number.toFixed(digits);
    const halves = Math.abs(number) * 2 ** (digits + 1);
    const isHalfWay = Number.isInteger(halves) && halves % 2 === 1;
    if (!isHalfWay || Number(text.at(-1)) % 2 === 0) return text;
    // toFixed goes away from zero there
    return text.slice(0, -1) + (Number(text.at(-1)) - 1);
}

/**
 * A number of a picture, with at most two decimals.
 * @param {number} number
 * @returns {string}
 */
export function shown(number) {
    const text = fixed(number, 2).replace(/\.?0+$/, "");
    return text === "-0" || text === "" ? "0" : text;
}

/**
 * A whole number with commas between thousands.
 * @param {number} number
 * @returns {string}
 */
export function grouped(number) {
    return String(number).replace(/\B(?=(\d{3})+$)/g, ",");
}

/**
 * How two texts are ordered: by their characters' numbers.
 * @param {string} one
 * @param {string} other
 * @returns {number}
 */
export function byCharacters(one, other) {
    const [left, right] = [[...one], [...other]];
    for (let at = 0; at < left.length && at < right.length; at += 1) {
        if (left[at] !== right[at]) return Number(left[at].codePointAt(0)) - Number(right[at].codePointAt(0));
    }
    return left.length - right.length;
}
