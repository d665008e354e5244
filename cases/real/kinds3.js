/** Stations as railML 3, each with what is so on the ground. */
import { Ground } from "./ground.js";
import { kind, loopStation } from "./kind.js";
import { written3 } from "./writer3.js";

/** @typedef {import("./kinds.js").Kind} Kind */
/** @typedef {import("./kinds.js").More} More */
/** @typedef {import("./writer3.js").Style3} Style3 */

/**
 * @param {string} name @param {string} about @param {Ground} ground @param {Partial<Style3>} [style] @param {More} [more]
 * @returns {Kind}
 */
function kind3(name, about, ground, style = {}, more = {}) {
    const data = written3(ground, style);
    return { ...kind(`railML-3-${name}`, about, new Ground(), {}, { today: "refused", truth: ground.truth(), ...more }), data };
}

/** @returns {Ground} seven tracks with ladders at both ends */
function yard() {
    const ground = new Ground("Rangierbahnhof");
    let before = ground.track("1", 0, 3000, 0);
    for (let number = 2; number < 8; number++) {
        const next = ground.track(String(number), 0, 0, 4.5 * (number - 1));
        ground.switch(before, 200 + 60 * number, next, "east", `W${number}`);
        ground.switch(before, 2800 - 60 * number, next, "west", `W${number + 20}`);
        before = next;
    }
    return ground;
}

/** @returns {Ground} tracks that end at buffer stops */
function terminus() {
    const ground = new Ground("Kopfbahnhof"), end = /** @type {const} */ ({ east: "bufferStop" });
    const one = ground.track("1", 0, 1000, 0, end), two = ground.track("2", 0, 1000, -4.5, end);
    ground.crossover(one, 300, two, 360);
    ground.switch(one, 500, ground.track("3", 0, 700, 4.5, end), "east", "W9");
    return ground;
}

/** @param {number} number @returns {Ground} two main tracks with crossovers both ways, and loops and stubs beside them */
function double(number) {
    const ground = new Ground(`Bahnhof ${number}`), one = ground.track("1", 5000, 8000, 0), two = ground.track("2", 5000, 8000, -4.5);
    ground.crossover(one, 5200, two, 5260);
    ground.crossover(two, 7700, one, 7760);
    const loop = ground.track("3", 0, 0, -9);
    ground.switch(two, 5400 + 10 * number, loop, "east", "W3");
    ground.switch(two, 7400 - 10 * number, loop, "west", "W4");
    const upper = ground.track("4", 0, 0, 4.5);
    ground.switch(one, 5500, upper, "east", "W5");
    ground.switch(one, 7300, upper, "west", "W6");
    const stub = ground.track("5", 5600, 0, 9, { west: "bufferStop" });
    ground.switch(upper, 6000 + 100 * number, stub, "west", "W7");
    if (number % 2) {
        ground.switch(loop, 6800, ground.track("6", 0, 7100, -13.5, { east: "bufferStop" }), "east", "W8");
    }
    return ground;
}

/** @returns {Ground} signals on tracks that are cut, some in their middle */
function signalled() {
    const { ground, one, two } = loopStation();
    for (const [at, name, isEast] of /** @type {[number, string, boolean][]} */ ([[12100, "A", true], [12500, "B", true],
        [13350, "C", false]])) {
        ground.signal(one, at, `${name}1`, isEast, { isEast: String(isEast) });
        ground.signal(two, at, `${name}2`, isEast, { isEast: String(isEast) });
    }
    return ground;
}

/** @returns {Ground} two crossovers that cross each other */
function scissors() {
    const ground = new Ground("Doppelter Gleiswechsel"), one = ground.track("1", 0, 1000, 0), two = ground.track("2", 0, 1000,
        -4.5);
    const down = ground.track("d", 300, 400, -2), [west, east] = [ground.track("uw", 300, 0, -3), ground.track("ue", 0, 400,
        -1)];
    ground.switch(one, 300, down, "east", "W1");
    ground.switch(two, 400, down, "west", "W2");
    ground.switch(two, 300, west, "east", "W3", "upper");
    ground.switch(one, 400, east, "west", "W4", "lower");
    ground.crossing(down, 350, west, east, "Kr", true);
    return ground;
}

/** @returns {Ground} two lines that cross, and nothing else */
function crossed() {
    const ground = new Ground("Kreuzung"), one = ground.track("1", 2000, 3000, 0);
    ground.crossing(one, 2500, ground.track("2w", 2000, 0, -4.5), ground.track("2e", 0, 3000, 4.5), "Kr1");
    return ground;
}

/** @returns {Ground} the branch of one track crosses the other on the level */
function level() {
    const ground = new Ground("Abzweig"), one = ground.track("1", 0, 2000, 0), two = ground.track("2", 0, 2000, -4.5);
    const west = ground.track("Bw", 0, 0, -2), east = ground.track("Be", 0, 1900, 8);
    ground.crossover(one, 100, two, 160);
    ground.switch(two, 500, west, "east", "W2");
    ground.crossing(one, 700, west, east, "Kr1", true);
    return ground;
}

const REFUSED = /** @type {const} */ ({ after: "refused" });

/** @returns {Kind[]} */
export function kinds3() {
    const plain = () => loopStation().ground, slip = (/** @type {string} */ text) =>
        text.replace('type="ordinarySwitch"', 'type="doubleSwitchCrossing"');
    return [
        kind3("loop", "a loop and crossovers, coordinates falling in half of the elements", plain()),
        kind3("rising", "the same, all coordinates rising, railML 3.1", plain(), { version: "3.1", isFalling: () => false }),
        kind3("falling", "the same, all coordinates falling", plain(), { isFalling: () => true }),
        kind3("yard", "a yard of seven tracks", yard()),
        kind3("terminus", "buffer stops", terminus(), { isFalling: (_, at) => at % 3 !== 0 }),
        ...[1, 2, 3, 4].map((number) => kind3(`double-${number}`, "a station of a double line", double(number),
            { isFalling: (_, at) => (at * 7 + number) % 5 < 2 })),
        kind3("silent-course", "switches that don't say on which leg the track goes on", double(5), { saysStraight: false }),
        kind3("kilometres", "measures in kilometres, one level alone", plain(), { units: "km", hasLevels: false }),
        kind3("some-measures", "crossovers without measures", double(6), { measures: "some" }),
        kind3("prefix", "rail3: on each element", plain(), { prefix: "rail3" }),
        kind3("signals", "signals on elements both ways", signalled()),
        kind3("scissors", "a crossing between four switches", scissors()),
        kind3("level-junction", "a branch that crosses a track on the level", level()),
        kind3("crossing", "a crossing of two lines: nothing says which path lies left", crossed(), {}, REFUSED),
        kind3("slip", "a slip as a switch", plain(), { changed: slip }, REFUSED),
        kind3("branches-exchanged", "leftBranch and rightBranch without their relation", plain(), { changed: (text) =>
            text.replace(/netRelationRef="nr_1"/g, 'netRelationRef="gone"') }, REFUSED),
        kind3("no-measures", "elements without measures", plain(), { changed: (text) =>
            text.replace(/<linearCoordinate [^>]*>/g, "") }, REFUSED),
    ];
}
