/**
 * Tracks as they lie on the ground: how far along the line, and which lies left of which. From this both a file and the truth
 * beside it are written. Nothing of the shell is used here, so that a fault of the shell can't be in both.
 *
 * East is where places along the line grow, and upper is left of that. Lengths are in metres.
 */

/** @typedef {"east" | "west"} Way */
/** @typedef {"upper" | "lower"} Side */
/** @typedef {"open" | "bufferStop" | "nothing" | {text: string} | {to: Switch} | {to: Crossing} | {to: Track}} End how a track
 * ends, or what it is joined to; `text` is written as it is, with `{id}` for the id of a connection */
/** @typedef {object} Placed something at a place of a track, in a list of a group
 * @property {string} group
 * @property {string} list
 * @property {string} element
 * @property {number} at
 * @property {Record<string, string>} attributes */

/** A track, from west to east. One that is turned is counted from its east end. */
export class Track {
    /** @param {string} id @param {string} name @param {number} from @param {number} to @param {number} lateral how far left */
    constructor(id, name, from, to, lateral) {
        this.id = id;
        this.name = name;
        this.from = from;
        this.to = to;
        this.lateral = lateral;
        /** @type {Record<Way, End>} */
        this.ends = { west: "open", east: "open" };
        this.isTurned = false;
        /** @type {(Switch | Crossing)[]} */
        this.points = [];
        /** @type {Placed[]} */
        this.objects = [];
        this.type = "mainTrack";
        /** @type {string[]} mileage changes, as they are written */
        this.jumps = [];
    }

    /** @param {number} at @returns {number} */
    positionOf(at) {
        return this.isTurned ? this.to - at : at - this.from;
    }

    /** @param {string} name trackBegin or trackEnd @returns {Way} */
    wayOf(name) {
        return (name === "trackBegin") !== this.isTurned ? "west" : "east";
    }

    /** @param {Way} way @returns {string} */
    endAt(way) {
        return (way === "west") !== this.isTurned ? "trackBegin" : "trackEnd";
    }

    /** @param {Way} way @returns {string} the id of the connection there */
    connectionAt(way) {
        return `${this.id}_c${this.endAt(way) === "trackBegin" ? "b" : "e"}`;
    }
}

/** A switch on a track: to which way its legs lead, and on which side of the other leg its branch lies. */
export class Switch {
    /** @param {string} id @param {string} name @param {Track} track @param {number} at @param {Way} legs @param {Side} side */
    constructor(id, name, track, at, legs, side) {
        this.id = id;
        this.name = name;
        this.track = track;
        this.at = at;
        this.legs = legs;
        this.side = side;
        /** @type {Track | Switch | string} the branch, or the id of the connection that it is joined to */
        this.branch = "";
        this.connection = `c_${id}`;
        /** @type {Record<string, string>} */
        this.attributes = {};
        /** @type {Record<string, string>} of its connection */
        this.more = {};
        this.course = "";
    }
}

/** A crossing on a track, with the two tracks of the other path. That path rises where it goes to the left towards the east. */
export class Crossing {
    /** @param {string} id @param {string} name @param {Track} track @param {number} at @param {Track} west @param {Track} east
     * @param {boolean} rises */
    constructor(id, name, track, at, west, east, rises) {
        this.id = id;
        this.name = name;
        this.track = track;
        this.at = at;
        this.paths = { west, east };
        this.rises = rises;
        this.type = "simpleCrossing";
    }

    /** @param {Way} way @returns {string} the id of the connection of the path there */
    connectionAt(way) {
        return `c_${this.id}_${way}`;
    }
}

/** @typedef {object} Truth what is so on the ground
 * @property {Map<string, {legs: Way, leaves: string[], toe: string}>} switches of each where its legs lead, to which point or
 * end each leads from the upper one to the lower one, and to which its points do
 * @property {Map<string, Record<Way, string[]>>} crossings of each what lies there, from the upper to the lower
 * @property {Map<string, number>} laterals of each track
 * @property {Map<string, number>} places of each switch and crossing along the line
 * @property {Map<string, number>} mileages of each switch and crossing
 * @property {Map<string, number>} ends the mileages of each track's begin and end, as `begin ID` and `end ID`
 * @property {Map<string, Side>} sides on which side of the other leg the branch of a switch lies
 * @property {Set<string>} turned the tracks whose mileage falls from begin to end */

/** @param {Way} way @returns {Way} */
export function other(way) {
    return way === "east" ? "west" : "east";
}

/** Tracks with their switches and crossings. */
export class Ground {
    /** @param {string} [title] @param {(kind: string, number: number, hint: string) => string} [idOf] how a producer makes ids */
    constructor(title = "Station", idOf = (kind, number, hint) => `${kind}_${hint || number}`) {
        this.title = title;
        this.id = "inf";
        this.idOf = idOf;
        /** @type {Track[]} */
        this.tracks = [];
        /** @type {{id: string, name: string, at: number, code: string}[]} operational points */
        this.operationalPoints = [];
        this.count = 0;
        /** @type {Set<string>} */
        this.ids = new Set();
        /** @type {(track: Track, at: number) => number} the mileage of a place */
        this.mileage = (track, at) => at;
        /** @type {Truth | null} what was so before tracks were cut */
        this.known = null;
    }

    /** @param {string} kind @param {string} [hint] @returns {string} */
    fresh(kind, hint = "") {
        this.count++;
        const wanted = this.idOf(kind, this.count, hint), id = this.ids.has(wanted) ? `${wanted}_${this.count}` : wanted;
        this.ids.add(id);
        return id;
    }

    /**
     * @param {string} name @param {number} from @param {number} to @param {number} lateral
     * @param {{west?: End, east?: End, isTurned?: boolean, type?: string}} [more]
     * @returns {Track}
     */
    track(name, from, to, lateral, more = {}) {
        const it = new Track(this.fresh("tr"), name, from, to, lateral);
        it.ends = { west: more.west ?? "open", east: more.east ?? "open" };
        it.isTurned = more.isTurned ?? false;
        it.type = more.type ?? it.type;
        this.tracks.push(it);
        return it;
    }

    /**
     * @param {Track} track @param {number} at @param {Track | null} branch @param {Way} legs @param {string} [name] @param {Side} [side]
     * @returns {Switch}
     */
    switch(track, at, branch, legs, name = "", side) {
        const id = this.fresh("sw", name.replaceAll(" ", ""));
        const it = new Switch(id, name || `W${this.count}`, track, at, legs,
            side ?? (branch && branch.lateral > track.lateral ? "upper" : "lower"));
        it.connection = this.fresh("c");
        if (branch) {
            it.branch = branch;
            branch.ends[other(legs)] = { to: it };
            branch[legs === "east" ? "from" : "to"] = at;
        }
        track.points.push(it);
        return it;
    }

    /**
     * A crossover from one track, where it is further west, to another one.
     * @param {Track} one @param {number} west @param {Track} two @param {number} east @param {{isDirect?: boolean}} more
     * @returns {Switch[]}
     */
    crossover(one, west, two, east, { isDirect = false } = {}) {
        if (isDirect) {
            const side = two.lateral > one.lateral ? "upper" : "lower";
            const first = this.switch(one, west, null, "east", "", side);
            const second = this.switch(two, east, null, "west", "", side === "upper" ? "lower" : "upper");
            [first.branch, second.branch] = [second, first];
            return [first, second];
        }
        const between = this.track(`${one.name}-${two.name}`, west, east, (one.lateral + two.lateral) / 2, { type: "connectingTrack" });
        return [this.switch(one, west, between, "east"), this.switch(two, east, between, "west")];
    }

    /** @param {Track} west @param {Track} east joins two tracks end to end */
    joint(west, east) {
        west.ends.east = { to: east };
        east.ends.west = { to: west };
    }

    /**
     * @param {Track} track @param {number} at @param {Track} west @param {Track} east the tracks of the other path @param {string} [name]
     * @param {boolean} [rises]
     * @returns {Crossing}
     */
    crossing(track, at, west, east, name = "", rises = east.lateral > west.lateral) {
        const it = new Crossing(this.fresh("cr", name.replaceAll(" ", "")), name || "Kr", track, at, west, east, rises);
        west.ends.east = { to: it };
        east.ends.west = { to: it };
        west.to = east.from = at;
        track.points.push(it);
        return it;
    }

    /** @param {string} id @param {string} name @param {number} at @param {string} code @param {Track[]} tracks on which it lies */
    operationalPoint(id, name, at, code, tracks) {
        this.operationalPoints.push({ id, name, at, code });
        tracks.forEach((it) => this.place(it, "trackTopology", "crossSections", "crossSection", at, { ocpRef: id, type: "station" }));
    }

    /** @param {Track} track @param {number} at @param {string} name @param {boolean} isEast whether trains to the east see it
     * @param {Record<string, string>} [more] */
    signal(track, at, name, isEast, more = {}) {
        this.place(track, "ocsElements", "signals", "signal", at, { name, dir: isEast !== track.isTurned ? "up" : "down", ...more });
    }

    /** @param {Track} track @param {string} group @param {string} list @param {string} element @param {number} at
     * @param {Record<string, string>} [attributes] */
    place(track, group, list, element, at, attributes = {}) {
        track.objects.push({ group, list, element, at, attributes });
    }

    // ---- what is so

    /** @param {Track} track @param {number} at @param {Way} way @param {boolean} [isIncluded] @returns {string} the next switch or
     * crossing on the way, or the end with how far left it lies */
    next(track, at, way, isIncluded = false) {
        const ahead = track.points.filter((it) => (isIncluded && it.at === at) || (way === "east" ? it.at > at : it.at < at))
            .sort((one, two) => (way === "east" ? one.at - two.at : two.at - one.at));
        if (ahead.length) {
            return ahead[0].id;
        }
        const end = track.ends[way], to = typeof end === "object" && "to" in end ? end.to : null;
        return !to ? `end ${track.lateral}` : to instanceof Track ? this.next(to, way === "east" ? to.from : to.to, way, true) : to.id;
    }

    /** @param {Switch} it @returns {string} where its branch leads */
    branchOf({ branch, legs }) {
        return branch instanceof Track ? this.next(branch, legs === "east" ? branch.from : branch.to, legs, true)
            : branch instanceof Switch ? branch.id : "end";
    }

    /** @returns {Truth} */
    truth() {
        if (this.known) {
            return this.known;
        }
        const points = this.tracks.flatMap((track) => track.points);
        const switches = points.flatMap((it) => {
            if (it instanceof Crossing) {
                return [];
            }
            const straight = this.next(it.track, it.at, it.legs), branch = this.branchOf(it);
            const leaves = it.side === "upper" ? [branch, straight] : [straight, branch];
            return [/** @type {const} */ ([it.id, { legs: it.legs, leaves, toe: this.next(it.track, it.at, other(it.legs)) }])];
        });
        const crossings = points.flatMap((it) => (it instanceof Crossing
            ? [/** @type {const} */ ([it.id, { west: this.around(it, "west"), east: this.around(it, "east") }])] : []));
        return { switches: new Map(switches), crossings: new Map(crossings),
            laterals: new Map(this.tracks.map((it) => [it.id, it.lateral])), places: new Map(points.map((it) => [it.id, it.at])),
            mileages: new Map(points.map((it) => [it.id, this.mileage(it.track, it.at)])),
            sides: new Map(points.flatMap((it) => ("side" in it ? [/** @type {const} */ ([it.id, it.side])] : []))),
            ends: new Map(this.tracks.flatMap((it) => [it.from, it.to].map((at) => /** @type {const} */ (
                [`${(at === it.from) !== it.isTurned ? "begin" : "end"} ${it.id}`, this.mileage(it, at)])))),
            turned: new Set(this.tracks.filter((it) => it.isTurned).map((it) => it.id)) };
    }

    /** @param {Crossing} it @param {Way} way @returns {string[]} what lies there, from the upper to the lower */
    around(it, way) {
        const path = it.paths[way], own = this.next(it.track, it.at, way);
        const through = this.next(path, way === "west" ? path.to : path.from, way);
        return (way === "east") === it.rises ? [through, own] : [own, through];
    }

    // ---- other models of the same ground

    /**
     * Cuts each track at its switches, as edge models have it; the switch is at the end of the piece from which it is reached by
     * its points, or at the begin of its leg. The truth is the same.
     * @param {"end" | "begin"} where
     */
    cutAtSwitches(where) {
        const known = this.truth();
        this.tracks = this.tracks.flatMap((track) => {
            const cuts = [...new Set(track.points.map((it) => it.at))].filter((at) => at > track.from && at < track.to)
                .sort((one, two) => one - two);
            const bounds = [track.from, ...cuts, track.to];
            return cuts.length ? this.parted(track, bounds, where) : [track];
        });
        this.known =
            { ...known, laterals: new Map([...known.laterals, ...this.tracks.map((it) => /** @type {const} */ ([it.id, it.lateral]))]),
            turned: new Set(this.tracks.filter((it) => it.isTurned).map((it) => it.id)) };
    }

    /** @param {Track} track @param {number[]} bounds @param {"end" | "begin"} where @returns {Track[]} */
    parted(track, bounds, where) {
        const parts = bounds.slice(1).map((to, at) => {
            const part = new Track(`${track.id}.${at + 1}`, track.name, bounds[at], to, track.lateral);
            return Object.assign(part, { isTurned: track.isTurned, type: track.type });
        });
        parts.slice(1).forEach((it, at) => this.joint(parts[at], it));
        parts[0].ends.west = track.ends.west;
        parts[parts.length - 1].ends.east = track.ends.east;
        for (const it of track.points) {
            const isPoints = "legs" in it ? it.legs === "east" : true;
            const part = parts.find((one) => (isPoints === (where === "end") ? one.to : one.from) === it.at);
            it.track = part ?? parts[0];
            it.track.points.push(it);
        }
        track.objects.forEach((it) => parts.find((one) => it.at >= one.from && it.at <= one.to)?.objects.push(it));
        this.rejoin(track, parts);
        return parts;
    }

    /** @param {Track} track @param {Track[]} parts gives what was joined to a track to its first and last part */
    rejoin(track, parts) {
        const [first, last] = [parts[0], parts[parts.length - 1]];
        for (const one of this.tracks) {
            for (const it of one.points) {
                if ("branch" in it && it.branch === track) {
                    it.branch = it.legs === "east" ? first : last;
                } else if ("paths" in it) {
                    it.paths.west = it.paths.west === track ? last : it.paths.west;
                    it.paths.east = it.paths.east === track ? first : it.paths.east;
                }
            }
        }
    }
}
