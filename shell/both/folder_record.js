/** What came of a station of a folder: what it was made of, how its run ended, and which files there are. */

/** @typedef {"page" | "picture" | "small" | "sheet" | "hints"} Kind */

/** @type {[Kind, string][]} */
const LISTED = [["page", ".html"], ["picture", ".svg"], ["small", ".svg"], ["sheet", ".sheet"], ["hints", ".hints"]];
/** the files that are left of a station, by their kinds: how their names end */
export const ENDINGS = new Map(LISTED);
/** folders of their own: for records, and for the small pictures of the page of all */
export const RECORDS = "records", SMALL = "small";

/**
 * Where a station's file of a kind is in the folder for what is made.
 * @param {string} name @param {Kind} kind
 * @returns {string}
 */
export function fileName(name, kind) {
    return (kind === "small" ? `${SMALL}/` : "") + name + ENDINGS.get(kind);
}

/** The record of a station. */
export class FolderRecord {
    /** @param {string} name @param {string} [key] @param {Partial<FolderRecord>} [more] */
    constructor(name, key = "", more = {}) {
        this.name = name;
        this.key = key;
        this.status = 4;
        this.end = "";
        /** @type {number[]} */
        this.values = [];
        /** @type {number[]} */
        this.grid = [];
        /** @type {string[]} */
        this.order = [];
        this.certified = "";
        /** what is known of the program that drew it: proved, unproved or unknown, and its SHA-256 */
        this.program = "";
        this.seconds = 0;
        this.said = "";
        /** @type {string[]} */
        this.files = [];
        this.isLarger = false;
        Object.assign(this, more);
    }

    /** whether there is a certificate, and recheck doesn't accept it */
    get isRefused() {
        return this.certified !== "" && !this.certified.startsWith("certified");
    }

    /** whether the run ended otherwise than with a drawing, without one, or without an end */
    get isFault() {
        return ![0, 3, 4].includes(this.status);
    }
}

/**
 * A record as it was written, or nothing where it is none.
 * @param {string} text
 * @returns {FolderRecord | null}
 */
export function readRecord(text) {
    const fields = /** @type {(keyof FolderRecord)[]} */ (Object.keys(new FolderRecord("")));
    try {
        const it = JSON.parse(text), empty = new FolderRecord("");
        const isLike = (/** @type {any} */ one, /** @type {any} */ other) => typeof one === typeof other
            && Array.isArray(one) === Array.isArray(other);
        const isWhole = Object.keys(it).length === fields.length && fields.every((field) => isLike(it[field], empty[field]));
        return isWhole ? new FolderRecord(it.name, it.key, it) : null;
    } catch {
        return null;
    }
}
