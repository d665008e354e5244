/** Text in lines of a width, and rows of a word and what is said of it. */

/**
 * The lines of a text, parted at blanks.
 * @param {string} text @param {number} width
 * @returns {string[]}
 */
export function wrapped(text, width) {
    /** @type {string[]} */
    const lines = [];
    for (const word of text.split(/\s+/).filter(Boolean)) {
        const last = lines.length - 1;
        if (lines.length && lines[last].length + 1 + word.length <= width) {
            lines[last] += ` ${word}`;
        } else {
            lines.push(word);
        }
    }
    return lines;
}

/**
 * Rows of a word and what is said of it, wrapped; a word that is too long has a line of its own.
 * @param {[string, string][]} rows @param {number} front blanks before a word @param {number} column where what is said begins
 * @param {number} width
 * @returns {string[]}
 */
export function table(rows, front, column, width) {
    return rows.flatMap(([word, said]) => {
        const left = " ".repeat(front) + word;
        const [first, ...more] = wrapped(said, width - column);
        if (first === undefined) {
            return [left];
        }
        const isLong = left.length > column - 2;
        const begin = isLong ? [left, " ".repeat(column) + first] : [left.padEnd(column) + first];
        return [...begin, ...more.map((it) => " ".repeat(column) + it)];
    });
}
