/** What messages ask of the files of a run, where the files are on the desk. */
import { ofLine } from "../both/places.js";

/**
 * @param {Map<string, Uint8Array>} files by their names
 * @returns {import("../both/messages/seen.js").Seen}
 */
export function seenOn(files) {
    return {
        bytes: (name) => files.get(name) ?? null,
        line: (name, number) => ofLine(name, files.get(name) ?? null, number).text,
        kind: (name) => (files.has(name) ? "other" : ""),
        names: () => [...files.keys()],
        why: () => "",
    };
}
