/**
 * Where a page comes from: files and their hashes, the program and its proofs, and the command that checks it again.
 */
import { quoted } from "../quoted.js";
import { element } from "./markup.js";
import { grouped } from "./numbers.js";

/** @typedef {import("./markup.js").Child} Child */
/** @typedef {import("./markup.js").Element} Element */
/** @typedef {object} FileFacts a file as the run read or wrote it: its name, its hash, its bytes and its date in seconds; no
 * hash where it wasn't read
 * @property {string} name
 * @property {string} sha256
 * @property {number} size
 * @property {number | null} date
 * @property {string} why why it has no hash */
/** @typedef {{state: "proved" | "unproved" | "unknown", sha256: string}} Build what the launcher knows of the program */
/** @typedef {object} Provenance what the title block says
 * @property {string} title
 * @property {Build} build
 * @property {string} version
 * @property {number | null} date
 * @property {[string, FileFacts][]} files
 * @property {string[]} madeBy
 * @property {string[]} check
 * @property {string} needs */

const SENTENCES = { proved: "All proofs of the program had passed before it was built, as the maker of this page says.",
    unproved: "The program was built without its proofs: what it says is a first look.",
    unknown: "Whether the program's proofs passed isn't known here." };
const BADGES = { proved: "proved program", unproved: "not proved: first look", unknown: "proofs not known" };

/** @type {(build: Build) => string} */
export const badgeOfBuild = ({ state }) => BADGES[state];

/** @type {(date: number) => string} */
const day = (date) => `${new Date(date * 1000).toISOString().slice(0, 16).replace("T", " ")} UTC`;

/** @type {(text: string) => Element} */
export const code = (text) => element("code", {}, text);

/**
 * A command; an option isn't broken behind its first hyphen.
 * @param {string[]} words
 * @returns {Element}
 */
export function command(words) {
    const parts = words.map((word, at) => [at ? " " : "", word.startsWith("--") ? element("span", {}, word) : quoted(word)]);
    return element("code", { class: "command" }, ...parts);
}

/** @type {(title: string, isWide: boolean, ...children: Child[]) => Element} */
const cell = (title, isWide, ...children) =>
    element("div", { class: isWide ? "cell wide" : "cell" }, element("h3", {}, title), ...children);

/**
 * A file's cell: its name, date, size and hash.
 * @param {string} title
 * @param {FileFacts} file
 * @param {string} shownName
 * @returns {Element}
 */
function ofFile(title, file, shownName) {
    return cell(title, true, element("p", {}, code(shownName), file.sha256 ? `, ${grouped(file.size)} bytes` : ""),
        file.date === null ? null : element("p", {}, `of ${day(file.date)}`),
        file.sha256 ? element("p", {}, "SHA-256 ", code(file.sha256)) : element("p", {}, file.why));
}

/**
 * A field to be filled in by hand, or on the screen before it is printed.
 * @param {string} title
 * @returns {Element}
 */
function blank(title) {
    return cell(title, false, element("input", { type: "text", "aria-label": title, class: "blank" }));
}

/**
 * The title block.
 * @param {Provenance} facts
 * @param {(text: string) => string} show
 * @returns {Element}
 */
export function block(facts, show) {
    const { build, version, date, madeBy, check, needs } = facts;
    return element("section", { class: "block", "aria-label": "title block" },
        cell("Station", false, element("p", { class: "station" }, show(facts.title))),
        facts.files.map(([title, file]) => ofFile(title, file, show(file.name))),
        cell("Program", true, element("p", {}, SENTENCES[build.state]),
            build.sha256 ? element("p", {}, "SHA-256 ", code(build.sha256)) : null,
            version ? element("p", {}, "Version ", version) : null),
        cell("Date", false, element("p", {}, date === null ? "" : day(date))), blank("Revision"), blank("Checked by"),
        cell("Made by", true, element("p", {}, command(madeBy))),
        check.length ? cell("Check it again", true, element("p", {}, command(check)), element("p", {}, needs)) : null);
}
