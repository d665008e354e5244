/**
 * Files of random lines: main tracks with stations of loops, crossovers and stubs. Tracks may be cut at the borders of
 * stations, and some count against the mileage. On which side each branch lies is known before the file is written.
 */

/**
 * @typedef {{id: string, at: number, name: string, orientation: string, course: string, connection: string, ref: string}} Point
 */
/** @typedef {{id: string, from: number, to: number, isTurned: boolean, points: Point[], begin: string, end: string}} Track */

/**
 * Numbers that look random, and are the same each time.
 * @param {number} seed
 */
export function numbers(seed) {
    let state = seed >>> 0;
    return (/** @type {number} */ below) => {
        state = (Math.imul(state, 1664525) + 1013904223) >>> 0;
        return (state >>> 10) % below;
    };
}

/** One line, as it is built. */
class Line {
    /** @param {number} seed */
    constructor(seed) {
        this.some = numbers(seed * 2654435761 + 7);
        this.count = 2 + this.some(5);
        this.mains = 1 + this.some(3);
        this.gap = 3000 + 1000 * this.some(5);
        /** @type {Track[]} */
        this.tracks = [];
        /**
         * @type {Map<string, {legs: "east" | "west", side: "upper" | "lower"}>} of each switch, where the legs lie, and the
         * branch
         */
        this.truth = new Map();
        this.namesPoints = this.some(2) === 0;
        for (let number = 0; number < this.mains; number++) {
            this.addMain(number);
        }
        for (let station = 0; station < this.count; station++) {
            this.addStation(station);
        }
    }

    /** @param {number} number of the main track; the greater one lies below */
    addMain(number) {
        const length = this.count * this.gap + 2000, isCut = this.some(2) === 0, isTurned = this.some(4) === 0;
        const borders = [0, ...(isCut ? Array.from({ length: this.count - 1 }, (_, at) => (at + 1) * this.gap) : []), length];
        borders.slice(1).forEach((to, at) => {
            const id = isCut ? `M${number}_${at}` : `M${number}`, from = borders[at];
            const west = at === 0 ? "" : `M${number}_${at - 1}.east`, east = at + 2 === borders.length ? "" : `M${number}_${at + 1}.west`;
            this.tracks.push({ id, from, to, isTurned, points: [], begin: isTurned ? east : west, end: isTurned ? west : east });
        });
    }

    /**
     * @param {number} number
     * @param {number} at
     */
    main(number, at) {
        return /** @type {Track} */ (this.tracks.find((it) => it.id.match(/^M(\d+)/)?.[1] === String(number) && it.from <= at && at < it.to));
    }

    /**
     * Puts a switch into a main track.
     * @param {number} number
     * @param {number} at
     * @param {string} id
     * @param {"east" | "west"} legs
     * @param {"upper" | "lower"} side
     * @param {string} ref
     */
    addSwitch(number, at, id, legs, side, ref) {
        const track = this.main(number, at), isLeft = (legs === "east") === (side === "upper");
        const orientation = (legs === "east") !== track.isTurned ? "outgoing" : "incoming";
        track.points.push({ id, at, name: id, orientation, course: isLeft ? "left" : "right", connection: `${id}.branch`, ref });
        this.truth.set(id, { legs, side });
    }

    /**
     * A track between two switches, or from one to a buffer stop.
     * @param {string} id
     * @param {number} from
     * @param {number} to
     * @param {string} west
     * @param {string} east
     */
    addBranch(id, from, to, west, east) {
        const isTurned = this.some(4) === 0;
        this.tracks.push({ id, from, to, isTurned, points: [], begin: isTurned ? east : west, end: isTurned ? west : east });
    }

    /** @param {number} station */
    addStation(station) {
        let at = station * this.gap + 500;
        const parts = 1 + this.some(4);
        for (let part = 0; part < parts; part++) {
            const id = `${station}_${part}`, number = this.some(this.mains), kind = this.some(3), length = 100 + 10 * this.some(40);
            if (kind === 0 && number + 1 < this.mains) {
                const isFalling = this.some(2) === 0, [west, east] = isFalling ? [number, number + 1] : [number + 1, number];
                this.addSwitch(west, at, `a${id}`, "east", isFalling ? "lower" : "upper", `X${id}.west`);
                this.addSwitch(east, at + 60, `b${id}`, "west", isFalling ? "upper" : "lower", `X${id}.east`);
                this.addBranch(`X${id}`, at, at + 60, `a${id}.branch`, `b${id}.branch`);
            } else if (kind === 1) {
                const side = this.outer(number), legs = this.some(2) ? "east" : "west", from = legs === "east" ? at : at + length;
                this.addSwitch(number, from, `c${id}`, legs, side, `S${id}.${legs === "east" ? "west" : "east"}`);
                this.addBranch(`S${id}`, at, at + length, legs === "east" ? `c${id}.branch` : "", legs === "east" ? "" : `c${id}.branch`);
            } else {
                const side = this.outer(number);
                this.addSwitch(number, at, `d${id}`, "east", side, `L${id}.west`);
                this.addSwitch(number, at + length, `e${id}`, "west", side, `L${id}.east`);
                this.addBranch(`L${id}`, at, at + length, `d${id}.branch`, `e${id}.branch`);
            }
            at += length + 80;
        }
    }

    /**
     * The side of a main track on which a branch crosses no other one.
     * @param {number} number
     * @returns {"upper" | "lower"}
     */
    outer(number) {
        return number === 0 ? "upper" : number === this.mains - 1 ? "lower" : this.some(2) ? "upper" : "lower";
    }

    /**
     * @param {Track} track
     * @param {number} at
     */
    place(track, at) {
        return `pos="${track.isTurned ? track.to - at : at - track.from}" absPos="${at + 10_000}"`;
    }

    /**
     * @param {Track} track
     * @param {string} name
     * @param {string} joined
     * @param {string} side
     * @param {number} at
     */
    end(track, name, joined, side, at) {
        const id = `${track.id}.${side}`;
        const inner = joined ? `<connection id="${id}" ref="${joined}"/>` : `<openEnd id="${id}.open"/>`;
        return `<${name} id="${track.id}.${name}" ${this.place(track, at)}>${inner}</${name}>`;
    }

    /** @param {Track} track */
    trackText(track) {
        const points = track.points.map((it) => {
            const named = this.namesPoints ? ` ocpStationRef="ocp${Math.floor(it.at / this.gap)}"` : "";
            return `<switch id="${it.id}" ${this.place(track, it.at)}${named}><connection id="${it.connection}" ref="${it.ref}" `
                + `course="${it.course}" orientation="${it.orientation}"/></switch>`;
        });
        const [west, east] = track.isTurned ? ["trackEnd", "trackBegin"] : ["trackBegin", "trackEnd"];
        const ends = new Map([[west, this.end(track, west, track.isTurned ? track.end : track.begin, "west", track.from)],
            [east, this.end(track, east, track.isTurned ? track.begin : track.end, "east", track.to)]]);
        return `<track id="${track.id}"><trackTopology>${ends.get("trackBegin")}${ends.get("trackEnd")}`
            + `${points.length ? `<connections>${points.join("")}</connections>` : ""}</trackTopology></track>`;
    }

    text() {
        const stations = Array.from({ length: this.count }, (_, at) => `<ocp id="ocp${at}" name="Station &lt;${at}&gt;" code="S/${at}"/>`);
        return `<?xml version="1.0"?><railml xmlns="http://www.railml.org/schemas/2013"><infrastructure id="i"><tracks>`
            + `${this.tracks.map((it) => this.trackText(it)).join("\n")}</tracks><operationControlPoints>${stations.join("")}`
            + `</operationControlPoints></infrastructure></railml>\n`;
    }
}

/**
 * @param {number} seed
 * @returns {{text: string, truth: Map<string, {legs: "east" | "west", side: "upper" | "lower"}>}}
 */
export function randomLine(seed) {
    const line = new Line(seed);
    return { text: line.text(), truth: line.truth };
}
