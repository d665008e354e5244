/** Ids as they are read, and refs that name what a connection belongs to. */
import { knownOf } from "../messages/topology_faults.js";
import * as railml from "../railml.js";

/** @typedef {import("./prepared.js").Prepared} Prepared */
/** @typedef {import("../railml.js").Element} Element */

/** an id has no more bytes */
const MOST = 64;
/** of a long id so many letters are kept */
const KEPT = 40;
// what the program refuses in an id, each of it once
const REFUSED = /[\u0000-\u0020\u007f-\u00a0]/g;
const encoder = new TextEncoder();

/** @param {string} id @returns {boolean} */
function isRead(id) {
    return encoder.encode(id).length <= MOST && id.search(REFUSED) < 0;
}

/** @param {string} id @returns {string} the begin of an id, of no more bytes than are read, so that a number has room behind it */
function front(id) {
    let kept = [...id].slice(0, KEPT);
    while (encoder.encode(kept.join("")).length > KEPT) {
        kept = kept.slice(0, -1);
    }
    return kept.join("");
}

/** @param {string} id @param {Set<string>} taken @returns {string} an id that is read, and that nothing has */
function readable(id, taken) {
    const plain = id.replace(REFUSED, "_");
    if (isRead(plain) && !taken.has(plain)) {
        return plain;
    }
    let number = 1;
    while (taken.has(`${front(plain)}~${number}`)) {
        number++;
    }
    return `${front(plain)}~${number}`;
}

/**
 * An id that nothing in the file has yet: the one that is wanted, or with a number behind it.
 * @param {Set<string>} taken @param {string} wanted
 * @returns {string}
 */
export function freshId(taken, wanted) {
    let id = readable(wanted, new Set());
    for (let number = 2; taken.has(id); number++) {
        id = readable(`${wanted}~${number}`, new Set());
    }
    taken.add(id);
    return id;
}

/** @param {railml.Document} document @returns {Set<string>} */
export function idsOf(document) {
    return new Set(document.elements.map((it) => it.id).filter(Boolean));
}

/** @param {Prepared} it writes ids anew that are too long or have blanks, where they are given and wherever they are named */
export function mendIds(it) {
    const { document } = it, listed = railml.withIds(document).filter((element) => element.id && !isRead(element.id));
    if (!listed.length) {
        return;
    }
    const counts = new Map();
    listed.forEach(({ id }) => counts.set(id, (counts.get(id) ?? 0) + 1));
    // an id that is there twice stays: nothing says which of the two a ref means
    const taken = idsOf(document), anew = new Map();
    for (const element of listed.filter(({ id }) => counts.get(id) === 1)) {
        const id = readable(element.id, taken);
        taken.add(id);
        anew.set(element.id, id);
        it.renamed.set(id, element.id);
        it.changed(element, `the id "${element.id}" is written as ${id}`);
    }
    it.replace(document.elements.flatMap((element) => [...element.attributes].flatMap(([name, value]) => {
        const id = name === "id" || /(^r|R)efs?$/.test(name) ? anew.get(value) : undefined;
        return id === undefined ? [] : [it.edits.setting(element, name, id)];
    })));
}

/** @param {Element} owner @returns {Element[]} the connections of a switch, an end or a track */
export function connectionsOf(owner) {
    const spots = owner.name === "track" ? railml.ENDS.flatMap((name) => railml.endOf(owner, name) ?? []) : [owner];
    return spots.flatMap((spot) => spot.named("connection"));
}

/**
 * The connection that a connection refers to: by its id, or by that of what it belongs to, where one of its connections refers back.
 * @param {Map<string, Element>} known the connections by their ids @param {Map<string, Element>} owners what has connections, by its id
 * @param {Element} connection
 * @returns {Element | undefined}
 */
export function partnerOf(known, owners, connection) {
    const ref = connection.attributes.get("ref") ?? "", owner = owners.get(ref);
    if (known.has(ref) || !owner) {
        return known.get(ref);
    }
    const names = [connection.id, connection.parent?.id, connection.above("track")?.id];
    const back = connectionsOf(owner).filter((other) => other !== connection && names.includes(other.attributes.get("ref") ?? ""));
    return back.length === 1 ? back[0] : undefined;
}

/** @param {Prepared} it writes the id of a connection in place of that of the switch, the end or the track that it belongs to */
export function mendRefs(it) {
    const { document } = it, dangling = railml.dangling(document);
    if (!dangling.length) {
        return;
    }
    const known = railml.byId(document), { owners } = knownOf(document);
    it.replace(dangling.flatMap((connection) => {
        const meant = partnerOf(known, owners, connection), ref = connection.attributes.get("ref") ?? "";
        if (!meant) {
            return [];
        }
        it.isRebuilt = true;
        it.changed(
            connection,
            `ref="${meant.id}" is written at the connection ${connection.id}: it named ${railml.what(
            /** @type {Element} */ (owners.get(ref)))}, `
            + "and this is the connection there that refers back");
        return [it.edits.setting(connection, "ref", meant.id)];
    }));
}
