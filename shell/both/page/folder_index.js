/** The page of a folder: each station with its small drawing, those of a line in its order, others with faults first. */
import { fileName } from "../folder_record.js";
import { Element, document, element } from "./markup.js";

/** @typedef {import("../folder_record.js").FolderRecord} FolderRecord */
/** @typedef {import("../folder_record.js").Kind} Kind */
/** @typedef {import("../line/listing.js").Listed} Listed */
/** @typedef {import("./markup.js").Child} Child */

// statuses from the best to the worst; and what a run that ended so is called
const WORST = [0, 3, 4, 8, 5, 1, 2, 7, 6, 10];
const CALLED = new Map([[0, "best"], [1, "refused"], [3, "no drawing"], [4, "stopped"], [5, "unread"], [6, "unwritten"],
    [7, "no memory"], [8, "broken"], [10, "not started"]]);
const ROWS = new Map([[0, "good"], [3, "open"], [4, "open"]]);

const RULES = `
body{font:15px/1.4 system-ui,sans-serif;margin:2em auto;max-width:90em;padding:0 1em;color:#222;background:#fff}
table{border-collapse:collapse;width:100%}th{text-align:left;font-weight:600}
td,th{border-top:1px solid #ccc;padding:.5em .6em;vertical-align:top}td p{margin:0 0 .3em}
td.drawing{width:46%;max-width:34em}img{max-width:100%;max-height:8em;background:#fff;vertical-align:bottom}
pre{margin:0 0 .5em;overflow-x:auto;font-size:12px}.line{color:#777;font-size:12px}
.fault td{background:#fdecea}.open td{background:#fff6dd}.badge{border:1px solid #2a7a2a;color:#2a7a2a;border-radius:.6em;
padding:0 .5em;white-space:nowrap}.number{white-space:nowrap}.between td{text-align:center;font-style:italic}
@media print{body{margin:0;max-width:none}tr{break-inside:avoid}}
@media (prefers-color-scheme:dark){body{background:#1b1b1b;color:#ddd}a{color:#8ab4f8}.fault td{background:#43211e}
.open td{background:#3d3520}.badge{color:#7ac77a;border-color:#7ac77a}.line{color:#aaa}}
`;
const HEADS = ["station", "drawing", "end", "height, bends, diagonal, width", "grid", "checked", "time"];

/** @param {number} status @returns {number} */
function rank(status) {
    const place = WORST.indexOf(status);
    return place < 0 ? WORST.length : place;
}

/**
 * by their code points, as names are sorted elsewhere
 * @param {string} one @param {string} other @returns {number}
 */
export function byName(one, other) {
    const these = [...one], those = [...other];
    const at = these.findIndex((sign, number) => sign !== those[number]);
    return at < 0 ? these.length - those.length : at >= those.length ? 1
        : (these[at].codePointAt(0) ?? 0) - (those[at].codePointAt(0) ?? 0);
}

/**
 * The worst status of some stations.
 * @param {FolderRecord[]} records
 * @returns {number}
 */
export function worst(records) {
    return records.reduce((found, it) => rank(it.status) > rank(found) ? it.status : found, 0);
}

/**
 * So many stations.
 * @param {number} count
 * @returns {string}
 */
export function stations(count) {
    return count === 1 ? `${count} station` : `${count} stations`;
}

/** @param {FolderRecord} record @returns {string} */
function called({ status, end }) {
    return status === 4 && !end ? "not drawn yet" : CALLED.get(status) ?? `ended with ${status}`;
}

/**
 * what leads to a file of the station from the page; nothing where there is none
 * @param {FolderRecord} record @param {Kind} kind
 */
function address({ name, files }, kind) {
    const file = fileName(name, kind);
    return files.includes(file) ? file.split("/").map(quoted).join("/") : null;
}

/** @param {string} name @returns {string} */
function quoted(name) {
    const byte = (/** @type {string} */ sign) => `%${(sign.charCodeAt(0) & 0xff).toString(16).toUpperCase()}`;
    // bytes that are no UTF-8 are lone surrogates
    return name.split(/([\udc80-\udcff])/u).map((part, number) => number % 2 ? byte(part)
        : encodeURIComponent(part).replace(/[!'()*]/g, byte)).join("");
}

/**
 * a link to a file of the station; what is to be its text alone where there is none
 * @param {FolderRecord} record @param {Child} what @param {Kind} kind @returns {Child}
 */
function link(record, what, kind) {
    const href = address(record, kind);
    return href ? element("a", { href }, what) : what;
}

/**
 * the certificate: which values recheck found to be the least, or that there is no drawing
 * @param {FolderRecord} record @returns {Element | string}
 */
function badge(record) {
    const [word, count] = record.certified.split(" ");
    if (word !== "certified") {
        return record.certified;
    }
    if (count === "0" && record.end !== "end none") {
        return "claims nothing";
    }
    const what = record.end === "end none" ? "no drawing" : record.order.slice(0, Number(count)).join(", ");
    const title = "what is left of the search's log was checked again";
    return element("a", { href: address(record, "hints"), class: "badge", title }, `certified: ${what}`);
}

/**
 * whether a line that was said is a line of a file, or the mark below it
 * @param {string} line @returns {boolean}
 */
function isExcerpt(line) {
    return /^ *\d+ *$/.test(line.slice(0, 5)) && line.slice(5, 8) === " | "
        || line.startsWith("      | ");
}

/**
 * sentences as text, and lines of files as they are
 * @param {string} text @returns {Element[]}
 */
function said(text) {
    const lines = text.replace(/\n+$/, "");
    /** @type {{isCode: boolean, lines: string[]}[]} */
    const groups = [];
    for (const line of lines ? lines.split("\n") : []) {
        const isCode = isExcerpt(line), last = groups.at(-1);
        if (last?.isCode === isCode) {
            last.lines.push(line);
        } else {
            groups.push({ isCode, lines: [line] });
        }
    }
    return groups.flatMap((it) => it.isCode ? [element("pre", {}, it.lines.join("\n"))]
        : it.lines.map((line) => element("p", {}, line)));
}

/**
 * the small drawing, which leads to the page, and what is said of the run
 * @param {FolderRecord} record @returns {Child[]}
 */
function shown(record) {
    const src = address(record, "small");
    const picture = src && element("img", { src, alt: `the drawing of ${record.name}`, loading: "lazy" });
    return [picture ? link(record, picture, "page") : null, said(record.said)];
}

/**
 * the station's name, which leads to its page, and its sheet
 * @param {FolderRecord} record @returns {Child[]}
 */
function links(record) {
    const sheet = address(record, "sheet") ? [element("br"), link(record, "sheet", "sheet")] : [];
    return [link(record, record.name, "page"), ...sheet];
}

/**
 * how the run ended, and the program's own line where that says more
 * @param {FolderRecord} record @returns {Child[]}
 */
function ended(record) {
    const isMore = ![0, 3].includes(record.status) && record.end;
    return [called(record), isMore ? [element("br"), element("span", { class: "line" }, record.end)] : null];
}

/** @param {FolderRecord} record @returns {Element} */
function row(record) {
    const kind = ROWS.get(record.status) ?? "fault", [width, height] = record.grid;
    const larger = record.isLarger ? ", larger than asked for" : "";
    const grid = kind !== "fault" && record.grid.length ? `columns 0 to ${width}, rows 0 to ${height}${larger}` : "";
    return element("tr", { class: kind },
        element("td", {}, links(record)), element("td", { class: "drawing" }, shown(record)), element("td", {}, ended(record)),
        element("td", { class: "number" }, record.values.join(", ")), element("td", { class: "number" }, grid),
        element("td", {}, badge(record)),
        element("td", { class: "number" }, record.seconds ? `${record.seconds.toFixed(1)} s` : ""));
}

/**
 * How many stations ended how, and how many of these on a larger grid, as 47 best (2 of them on a larger grid than asked for),
 * 3 refused.
 * @param {FolderRecord[]} records
 * @returns {string}
 */
export function counts(records) {
    /** @type {Map<string, FolderRecord[]>} */
    const kinds = new Map();
    for (const it of [...records].sort((one, other) => rank(one.status) - rank(other.status))) {
        kinds.set(called(it), [...kinds.get(called(it)) ?? [], it]);
    }
    return [...kinds].map(([kind, found]) => `${found.length} ${kind}${larger(found)}`).join(", ");
}

/**
 * how many of these have a drawing on a larger grid
 * @param {FolderRecord[]} records @returns {string}
 */
function larger(records) {
    const count = records.filter((it) => it.isLarger && it.values.length).length;
    return count ? ` (${count < records.length ? `${count} of them ` : ""}on a larger grid than asked for)` : "";
}

/**
 * How many have a certificate that claims something, and that recheck accepted.
 * @param {FolderRecord[]} records
 * @returns {number}
 */
export function certified(records) {
    return records.filter((it) => badge(it) instanceof Element).length;
}

const PROGRAMS = new Map([["proved", "a program all of whose proofs had passed"], ["unproved", "a program without proofs: a first look"],
    ["unknown", "a program that isn't known to be proved"]]);

/**
 * By which programs they were drawn, each with its SHA-256, and how many by each where there are several.
 * @param {FolderRecord[]} records @returns {Element[]}
 */
function programs(records) {
    const found = [...new Set(records.map((it) => it.program).filter(Boolean))];
    return found.map((program) => {
        const [state, sum] = program.split(" "), count = records.filter((it) => it.program === program).length;
        return element("p", {}, `${found.length > 1 ? `${stations(count)}: drawn` : "Drawn"} by ${PROGRAMS.get(state) ?? PROGRAMS.get("unknown")}`,
            sum ? [" (SHA-256 ", element("code", {}, sum), ")"] : null, ".");
    });
}

/**
 * The row between two stations of a line that come one behind the other: how far it is between them, where one leads to the other.
 * @param {Listed | undefined} before @param {Listed} here @returns {Element | null}
 */
function between(before, here) {
    if (!before) {
        return null;
    }
    const isJoined = before.leads.includes(here.title) || here.leads.includes(before.title), open = here.from - before.to;
    const far = isJoined ? `open line${open > 0 ? `, ${open.toFixed(1)} km` : ""}` : "no track leads from the one to the other";
    return element("tr", { class: "between" }, element("td", { colspan: String(HEADS.length) }, `${before.title} – ${here.title}: ${far}`));
}

/**
 * The rows of the stations: those of a line in its order with the open line between them, then all others, faults first.
 * @param {FolderRecord[]} records @param {Listed[]} line
 * @returns {(Element | null)[]}
 */
function rows(records, line) {
    const listed = line.filter((it) => records.some((record) => record.name === it.name)), names = new Set(listed.map((it) => it.name));
    const others = records.filter((it) => !names.has(it.name))
        .sort((one, other) => rank(other.status) - rank(one.status) || byName(one.name, other.name));
    return [...listed.flatMap((it, at) => [between(listed[at - 1], it), row(/** @type {FolderRecord} */ (records.find(({ name }) => name === it.name)))]),
        ...others.map(row)];
}

/**
 * The page of all stations.
 * @param {string} title @param {FolderRecord[]} records
 * @param {Listed[]} [line] the stations of a line in their order
 * @returns {string}
 */
export function text(title, records, line = []) {
    const table = element("table", {}, element("thead", {}, element("tr", {}, HEADS.map((it) => element("th", {}, it)))),
        element("tbody", {}, rows(records, line)));
    const count = certified(records);
    const summary = `${counts(records)}.${count ? ` ${count} with a certificate that was checked again.` : ""}`;
    const metas = [{ charset: "utf-8" }, { name: "generator", content: "railplan" },
        { name: "viewport", content: "width=device-width" }].map((it) => element("meta", it));
    const head = element("head", {}, metas, element("title", {}, title), element("style", {}, RULES));
    const body = element("body", {}, element("h1", {}, stations(records.length)), element("p", {}, summary), programs(records), table);
    return document(element("html", { lang: "en" }, head, body));
}
