/** What explain answers, with names in place of numbers, and the switch or crossing from which an order comes. */
import * as railml from "../railml.js";
import { TrackGraph } from "../track_graph.js";
import { hand } from "./graph_faults.js";
import { atNode, byMileage } from "./law_words.js";

/** @typedef {import("./sheet_faults.js").Party} Party */

/** The names of a track graph's nodes and edges, as the program numbers them. */
export class Named {
    /** @param {string[]} graph the lines of a track graph */
    constructor(graph) {
        const fields = graph.map((line) => line.split(" "));
        /** @type {Map<string, string[]>} */
        this.nodes = new Map(fields.filter((it) => it[0] === "node").map((it) => [it[1], it.slice(2)]));
        /** @type {Map<string, string[]>} */
        this.edges = new Map(fields.filter((it) => it[0] === "edge").map((it) => [it[1], it.slice(2, 5)]));
    }

    /** @param {Party} party @returns {string} */
    party({ kind, number }) {
        if (kind === "node") {
            return this.nodes.get(number)?.[0] ?? `node ${number}`;
        }
        const found = this.edges.get(number);
        if (!found) {
            return `edge ${number}`;
        }
        const [track, ...ends] = found;
        const [west, east] = ends.map((it) => this.nodes.get(it)?.[0] ?? it);
        return `${track} from ${west} to ${east}`;
    }

    /** @param {number} number @param {Party[]} parties @returns {string} what a law asks of its parties */
    law(number, parties) {
        const [one, other = ""] = parties.map((it) => this.party(it));
        const [known, known_] = [0, 1].map((at) => this.nodes.get(parties[at]?.number) ?? []);
        switch (number) {
            case 2:
                return byMileage({ name: one, mileage: known.at(-1) ?? "" }, { name: other, mileage: known_.at(-1) ?? "" });
            case 4:
                return atNode(one, known[1] ?? "", known.at(-2) ?? "");
            case 5:
                return `${one} and ${other} lie apart`;
            case 6:
                return `${one} lies above ${other}`;
            case 7:
                return `${one} and ${other} don't cross`;
            default:
                return `${one} ${other}`;
        }
    }
}

/**
 * The switch or crossing by which one edge lies above another; for standard error and for pages.
 * @param {TrackGraph} graph @param {number} upper @param {number} lower
 * @returns {string}
 */
export function origin(graph, upper, lower) {
    const fork = graph.origins(upper, lower)[0];
    return fork ? `, by the ${railml.what(fork.node)} (${hand(fork)})` : "";
}

/**
 * The laws of the answer, each with its parties by name.
 * @param {string[]} said the answer's lines @param {Uint8Array | null} data the file @param {string[]} lines its track graph's
 * @returns {import("../notes.js").Note[]}
 */
export function laws(said, data, lines) {
    const listed = said.filter((it) => it.startsWith("law ")).map((it) => it.split(" "));
    if (!listed.length || !data) {
        return [];
    }
    const named = new Named(lines), graph = new TrackGraph(railml.read(data));
    const found = listed.map(([, law, ...fields]) => {
        /** @type {Party[]} */
        const parties = [];
        for (let at = 0; at + 1 < fields.length; at += 2) {
            parties.push({ kind: fields[at], number: fields[at + 1] });
        }
        const by = law === "6" ? origin(graph, Number(parties[0].number), Number(parties[1].number)) : "";
        return `\n  law ${law}: ${named.law(Number(law), parties)}${by}`;
    });
    return [{ text: `no drawing on this grid meets these laws together:${found.join("")}` }];
}
