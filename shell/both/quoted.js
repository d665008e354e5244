/** Words as a shell reads them. */

/**
 * A word that a shell reads as it is here.
 * @param {string} word
 * @returns {string}
 */
export function quoted(word) {
    return /^[\w@%+=:,./-]+$/.test(word) ? word : `'${word.replaceAll("'", "'\"'\"'")}'`;
}

/**
 * A line that a shell takes apart into these words.
 * @param {string[]} words
 * @returns {string}
 */
export function quotedLine(words) {
    return words.map(quoted).join(" ");
}
