/** The file of a line or a network in files of one station each, and what is to be said of it. Nothing is judged here. */
import { Cutting } from "./cutting.js";
import { listed, stationsOf } from "./grouping.js";
import { escaped } from "./writing.js";
import { Network, mileageOf } from "./network.js";
import { signals } from "../railml.js";

/** @typedef {import("./listing.js").Listed} Listed */
/** @typedef {import("../railml.js").Document} Document */
/** @typedef {import("../railml.js").Element} Element */
/**
 * A station's file: its name without an ending, its title, its text, the ids of its switches and crossings, of what each of its
 * tracks was made, what was cut, and its place in the line.
 * @typedef {{name: string, title: string, text: string, points: string[], origins: Map<string, string[]>, notes: string[], listed: Listed}}
 *     StationFile
 */

/**
 * A name for a file that isn't taken yet.
 * @param {string} wanted
 * @param {Set<string>} taken
 */
function fileName(wanted, taken) {
    const base = wanted.normalize("NFC").replace(/[^\p{L}\p{N}._-]+/gu, "_").replace(/^[._]+/, "") || "station";
    let name = base;
    for (let number = 2; taken.has(name.toLowerCase()); number++) {
        name = `${base}_${number}`;
    }
    taken.add(name.toLowerCase());
    return name;
}

/** A line that is cut into its stations one after another, so that the file of one can be worked on while the next is cut. */
class Cuts {
    /**
     * @param {Document} document
     * @param {import("./grouping.js").Asked} asked
     */
    constructor(document, asked) {
        this.network = new Network(document);
        this.fault = this.network.fault();
        const { stations, said } = this.fault ? { stations: [], said: [`nothing can be cut: ${this.fault}`] } : stationsOf(this.network, asked);
        this.stations = stations;
        /** what is to be said of all, but for what lacks in the files */
        this.said = said;
        this.stationOf = new Map(stations.flatMap((station) => station.points.map((it) => /** @type {const} */ ([it, station]))));
        /** @type {Set<string>} */
        const taken = new Set();
        /** of each file, without an ending */
        this.names = stations.map(({ name }) => fileName(name, taken));
        /** @type {Set<Element>} the tracks of which a file has a piece */
        this.tracks = new Set();
        /** @type {Set<string>} the ids of signals that a file has, as they are written */
        this.signals = new Set();
        const points = this.fault ? [] : [...this.network.points(), ...this.network.left()];
        /** how many switches and crossings there are, and the ids of those that no station has */
        this.count = points.length;
        this.left = points.filter((it) => !this.stationOf.has(it)).map((it) => it.id);
        this.isWhole = !this.fault && this.left.length === 0;
    }

    /** @returns {Generator<StationFile>} the files in the order of their mileages */
    *files() {
        for (const [at, station] of this.stations.entries()) {
            yield this.file(station, this.names[at]);
        }
    }

    /**
     * @param {import("./grouping.js").Station} station
     * @param {string} name
     * @returns {StationFile}
     */
    file(station, name) {
        const cutting = new Cutting(this.network, station, this.stationOf), { title, points } = station, text = cutting.text();
        const kilometres = points.map((it) => mileageOf(it)).filter((it) => it !== undefined).map((it) => Number(it) / 1e9);
        const [from, to] = kilometres.length ? [Math.min(...kilometres), Math.max(...kilometres)] : [0, 0];
        [...cutting.kept, ...cutting.cut.keys()].forEach((piece) => this.tracks.add(piece.track));
        for (const [, id] of text.matchAll(/<signal [^>]*?\bid="([^"]*)"/g)) {
            this.signals.add(id);
        }
        return { name, title, text, points: points.map((it) => it.id), origins: cutting.origins, notes: [...cutting.notes],
            listed: { name, title, from, to, leads: [...cutting.leads] } };
    }

    /** @returns {string[]} what is to be said of all once each file is cut */
    closing() {
        const { network, stations, left } = this;
        if (this.fault) {
            return this.said;
        }
        const others = [...network.tracks.keys()].filter((it) => !this.tracks.has(it)).map((it) => it.attributes.get("name") || it.id);
        const lost = network.document.tracks().flatMap(signals).map((it) => it.id).filter((id) => !this.signals.has(escaped(id)));
        const rest = left.length ? `; in no file: ${listed(left)}` : "";
        return [...this.said,
            ...others.length ? [`${others.length} ${others.length === 1 ? "track is" : "tracks are"} in no file: ${listed(others)}`] : [],
            ...lost.length ? [`${lost.length} ${lost.length === 1 ? "signal is" : "signals are"} in no file: ${listed(lost)}`] : [],
            `${stations.length} ${stations.length === 1 ? "file" : "files"} with ${this.count - left.length} of ${this.count} switches and `
                + `crossings${rest}`];
    }
}

/**
 * A line that is to be cut into its stations.
 * @param {Document} document
 * @param {import("./grouping.js").Asked} asked
 * @returns {Cuts}
 */
export function cutsOf(document, asked) {
    return new Cuts(document, asked);
}

/**
 * Cuts a line into its stations.
 * @param {Document} document
 * @param {import("./grouping.js").Asked} asked
 * @returns {{files: StationFile[], said: string[], isWhole: boolean}} the files in the order of their mileages, what is to be said of all,
 *     and whether each switch and crossing of the file is in one
 */
export function cutLine(document, asked) {
    const cuts = cutsOf(document, asked), files = [...cuts.files()];
    return { files, said: cuts.closing(), isWhole: cuts.isWhole };
}
