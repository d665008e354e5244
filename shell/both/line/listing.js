/**
 * The stations of a line in their order, as `stations` leaves them beside its files in stations.csv: for the index of a folder, and for people.
 * A field with a comma, a quote or a line feed is in quotes, and a quote in it is written twice.
 */

/** @typedef {object} Listed a station of a line
 * @property {string} name its file's name, without an ending
 * @property {string} title
 * @property {number} from its least mileage in km
 * @property {number} to its greatest
 * @property {string[]} leads the titles of the stations to which its tracks lead */

/** what the list is called beside the files, and its first line */
export const LISTING = "stations.csv";
const HEAD = "file,station,from km,to km,leads to";
const FIELD = /("(?:[^"]|"")*"|[^",\n]*)(,|\n|$)/y;

/** @param {string} text */
function field(text) {
    return /[",\n]/.test(text) ? `"${text.replaceAll('"', '""')}"` : text;
}

/**
 * @param {Listed[]} stations
 * @returns {string}
 */
export function listingText(stations) {
    const rows = stations.map(({ name, title, from, to, leads }) => [name, title, from.toFixed(3), to.toFixed(3), leads.join("; ")].map(field).join(","));
    return [HEAD, ...rows, ""].join("\n");
}

/** @param {string} text @returns {string[][]} the fields of each line */
function rowsOf(text) {
    /** @type {string[][]} */
    const rows = [];
    for (let at = 0, row = /** @type {string[]} */ ([]); at < text.length;) {
        FIELD.lastIndex = at;
        const found = FIELD.exec(text);
        if (!found || !found[0]) {
            return [];
        }
        row.push(found[1].startsWith('"') ? found[1].slice(1, -1).replaceAll('""', '"') : found[1]);
        at += found[0].length;
        if (found[2] !== ",") {
            rows.push(row);
            row = [];
        }
    }
    return rows;
}

/**
 * The stations that a list has.
 * @param {string} text
 * @returns {Listed[]} none where it is no such list
 */
export function readListing(text) {
    const [head = [], ...rows] = rowsOf(text.replaceAll("\r\n", "\n"));
    const isList = head.join() === HEAD && rows.every((row) => row.length === head.length && row.slice(2, 4).every((it) => it && Number.isFinite(Number(it))));
    return isList ? rows.map(([name, title, from, to, leads]) => ({
        name, title, from: Number(from), to: Number(to), leads: leads ? leads.split("; ") : [],
    })) : [];
}
