/** Numbers of metres as they are read, and mileages that the file itself says. */
import { Decimal } from "../decimal.js";
import { knownOf, lacks, leadsNowhere, wrongCourse, wrongOrientation } from "../messages/topology_faults.js";
import { betweenPlaces } from "../one_mileage.js";
import * as railml from "../railml.js";

/** @typedef {import("./prepared.js").Prepared} Prepared */
/** @typedef {import("../railml.js").Element} Element */
/** @typedef {import("../edits.js").Edit} Edit */

const READ_AS = /^\s*[+-]?(\d{1,9}(\.\d{0,6})?|\.\d{1,6})\s*$/;
/** so many ids are compared, to say what a ref that leads nowhere may mean */
const COMPARED = 200_000;
const MEASURED = [...railml.ENDS, ...railml.POINTS, "signal"];
const NUMBERS = ["pos", "absPos", "absPosOffset"];
const GREATEST = /** @type {Decimal} */ (Decimal.of("1e9"));
const METRE = /** @type {Decimal} */ (Decimal.of("1"));
const TENTH = 10n;

/**
 * A number of metres as railplan reads it; "" where it isn't clear which number it is.
 * @param {string} text
 * @returns {string}
 */
export function asRead(text) {
    const hasOneComma = text.split(",").length === 2 && !text.includes(".");
    const number = Decimal.of(hasOneComma ? text.replace(",", ".") : text);
    return number && number.absolute().compare(GREATEST) < 0 ? number.toFixed(6).replace(/\.?0+$/, "").replace(/^-0$/, "0") : "";
}

/** @param {Element[]} elements @returns {boolean} whether some number has a comma that can't part thousands, so that those of
 * the file part decimals */
function hasDecimalCommas(elements) {
    return elements.some((it) => NUMBERS.some((name) =>
        /^[+-]?((0|\d{4,}),\d+|\d+,(\d{1,2}|\d{4,}))$/.test((it.attributes.get(name) ?? "").trim())));
}

/** @param {Prepared} it */
export function mendNumbers(it) {
    const { elements } = it.document, areDecimal = hasDecimalCommas(elements);
    /** @type {Edit[]} */
    const edits = [];
    for (const element of elements.filter((other) => MEASURED.includes(other.name) && other.above("track"))) {
        for (const name of NUMBERS) {
            const given = element.attributes.get(name), isRead = given === undefined || READ_AS.test(given);
            const place = isRead ? null : it.edits.valueIn(element.place, name);
            if (given === undefined || !place) {
                continue;
            }
            const written = asRead(given), plain = given.trim();
            const said = `${name}="${given}" of ${railml.what(element)}`;
            if (!areDecimal && /^[+-]?\d{1,3},\d{3}$/.test(plain)) {
                it.guess(element, `${said} may be ${written} or ${plain.replaceAll(",", "")}`);
            } else if (!written) {
                it.guess(element, `${said} is no number of metres that is clear`);
            } else {
                edits.push({ ...place, text: written });
                it.changed(element, `${said} is written as ${written}`);
            }
        }
    }
    it.replace(edits);
}

/** @param {Prepared} it adds absPosOffset to absPos, which is what railML means by it */
export function mendOffsets(it) {
    const measured = it.document.tracks().flatMap((track) => [...railml.placesOf(track), ...railml.signals(track)]);
    it.replace(measured.flatMap((element) => {
        const own = railml.metres(element.attributes.get("absPos")), offset = railml.metres(element.attributes.get("absPosOffset"));
        if (!own || !offset) {
            return [];
        }
        const sum = asRead(String(own.plus(offset)));
        it.changed(element, `absPos="${sum}" is written at ${railml.what(element)}, with its absPosOffset added`);
        it.isRebuilt ||= !offset.isZero();
        return [it.edits.setting(element, "absPos", sum), ...it.edits.leavingOut(element, "absPosOffset")];
    }));
}

// ---- mileages

/** @param {Element} element @param {string} name @returns {Decimal | null} */
function metresOf(element, name) {
    return Decimal.of(asRead(element.attributes.get(name) ?? ""));
}

/**
 * Whether the mileage of the track's end, by its length, speaks against that of its begin; rounding and rails that were
 * measured along a curve don't.
 * @param {Prepared} it @param {Element} begin @param {Decimal} mileage
 */
function doubtEnd(it, begin, mileage) {
    const track = begin.above("track"), end = track && railml.endOf(track, "trackEnd");
    const own = end && metresOf(end, "absPos"), begun = metresOf(begin, "pos"), ended = end && metresOf(end, "pos");
    if (!own || !begun || !ended) {
        return;
    }
    const length = ended.minus(begun).absolute();
    const apart = own.minus(mileage).absolute().minus(length).absolute();
    const isFar = apart.compare(METRE) > 0 && new Decimal(false, apart.digits * TENTH, apart.scale).compare(length) > 0;
    if (isFar) {
        it.doubts.push(`${it.at(begin.place)}: ${railml.what(begin)} is at ${mileage} and the end at ${own}, but the track is `
            + `${length} m long. One of the three may be wrong: look at them`);
    }
}

/**
 * Which begins are asked again once a begin has its mileage: those that are joined to its track.
 * @param {Map<string, Element>} connections by their ids @param {Element[]} begins those without a mileage
 * @returns {Map<Element, Element[]>}
 */
function asking(connections, begins) {
    const found = new Map(begins.map((begin) => [begin, /** @type {Element[]} */ ([])]));
    for (const begin of begins) {
        for (const connection of begin.named("connection")) {
            const track = connections.get(connection.attributes.get("ref") ?? "")?.above("track");
            const other = track && railml.endOf(track, "trackBegin");
            other && found.get(other)?.push(begin);
        }
    }
    return found;
}

/** @param {Prepared} it writes what the file says, as long as that says more */
export function mendMileages(it) {
    const { document } = it, connections = railml.byId(document), edits = /** @type {Edit[]} */ ([]);
    const begins = railml.lacking(document).filter(({ name }) => name === "absPos").map(({ element }) => element);
    const again = asking(connections, begins);
    /** @type {Map<Element, string>} */
    const written = new Map();
    for (let round = begins; round.length;) {
        const found = round.flatMap((begin) => {
            const known = railml.joinedMileage(connections, begin, written), mileage = known ? asRead(String(known.mileage)) : "";
            return known && mileage ? [{ begin, from: known.element, mileage }] : [];
        });
        for (const { begin, from, mileage } of found) {
            written.set(begin, mileage);
            doubtEnd(it, begin, /** @type {Decimal} */ (Decimal.of(mileage)));
            edits.push(it.edits.setting(begin, "absPos", mileage));
            it.changed(begin, `absPos="${mileage}" is written at ${railml.what(begin)}, as ${railml.what(from)} has, to which it is `
                + "joined");
        }
        const next = new Set(found.flatMap(({ begin }) => again.get(begin) ?? []));
        round = [...next].filter((begin) => !written.has(begin)).sort((one, other) => one.place - other.place);
    }
    it.isRebuilt ||= edits.length > 0;
    it.replace(edits);
    mendSignals(it);
}

/** @param {Prepared} it writes the mileage of signals where that of their track falls: without absPos it is counted as if it
 * rose */
function mendSignals(it) {
    it.replace(it.document.tracks().flatMap((track) => {
        const ends = railml.ENDS.map((name) => railml.endOf(track, name)), [begun, ended] = ends.map((end) => end && railml.mileage(end));
        if (!begun || !ended || ended.compare(begun) >= 0) {
            return [];
        }
        const mileageAt = betweenPlaces(track);
        return railml.signals(track).filter((signal) => !signal.attributes.has("absPos")).flatMap((signal) => {
            const mileage = asRead(String(mileageAt(signal) ?? ""));
            if (!mileage) {
                return [];
            }
            it.changed(
                signal, `absPos="${mileage}" is written at ${railml.what(signal)}: the mileage of track ${track.id} falls, and it lies `
                + "between two places that have theirs");
            return [it.edits.setting(signal, "absPos", mileage)];
        });
    }));
}

// ---- what lacks

/** @param {Prepared} it lists what elements must have and the file doesn't say, what leads nowhere, and hands and ways that
 * aren't read */
export function noteLacking(it) {
    const { document } = it, connections = railml.connections(document);
    const known = knownOf(document), count = known.connections.length;
    const found = [
        ...railml.lacking(document).map(({ element, name }) =>
            ({ element, said: name === "absPos" ? unknownMileage(element) : lacks(element, name) })),
        ...railml.dangling(document).map((element, number) =>
            ({ element, said: leadsNowhere(element, number * count < COMPARED ? known : { ...known, connections: [] }) })),
        ...connections.filter(railml.hasNoHand).map((element) => ({ element, said: wrongCourse(element, element.id) })),
        ...connections.filter(railml.hasNoWay).map((element) => ({ element, said: wrongOrientation(element, element.id) })),
    ];
    found.sort((one, other) => one.element.place - other.element.place || (one.said < other.said ? -1 : 1));
    found.forEach(({ element, said }) => it.guess(element, said));
}

/** @param {Element} begin @returns {string} */
function unknownMileage(begin) {
    return `${railml.what(begin)} has no absPos, and is joined to no point whose mileage the file says. It isn't counted back `
        + "from other points of its track, as a mileage may jump. Write its absPos";
}
