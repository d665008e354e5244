/** Where objects lie on pages: on their own pieces, in true order, over no other kilometre, and on nothing else. */
import assert from "node:assert/strict";
import { test } from "node:test";
import { crowded, draw } from "../both/page/drawing.js";
import { Drawn, faultsOfPage, meets } from "./pages/drawn.js";
import { furnished } from "./pages/furnished.js";

/** @typedef {import("../both/page/drawing.js").Picture} Picture */
/** @typedef {import("./pages/furnished.js").Furnished} Furnished */
/** @typedef {{key: string, strip: number, x: number, y: number}} Spot what a picture shows of a node, a signal or an object */

const STATIONS = 500;
const DRAWN_WHOLE = 60;
/** how close the middle of a sign is to nothing of another kilometre */
const OVER = 6;

/** @param {Picture} picture @returns {Drawn[]} */
const stripsOf = (picture) => picture.strips.map((it) => new Drawn(it));

/** @param {Drawn[]} strips @returns {Spot[]} the first place of each, from west to east */
function spotsIn(strips) {
    const seen = new Set();
    return strips.flatMap((drawn, strip) => [...drawn.places].flatMap(([key, [[x, y]]]) => {
        if (seen.has(key)) return [];
        seen.add(key);
        return [{ key, strip, x, y }];
    })).sort((one, other) => one.strip - other.strip || one.x - other.x);
}

/** @type {(km: string) => number} the metres of a kilometre that is written at the axis */
const metresAt = (km) => Math.round(Number(km) * 1000);

/** @param {Drawn} strip @returns {{x: number, metres: number}[]} the ticks of the axis */
function ticksIn(strip) {
    const texts = strip.texts.filter(({ classes }) => classes.includes("km"));
    return strip.lines.filter(({ kind }) => kind === "tick").map(({ piece: [[x]] }) => ({ x,
        metres: metresAt(texts.find(({ box }) => Math.abs((box[0] + box[2]) / 2 - x) < 2)?.text ?? "") }));
}

/** @param {Furnished} made @param {Drawn[]} strips @returns {string[]} what lies wrongly on its piece of track */
function faultsOnPieces({ scene, metres, edges }, strips) {
    const spots = spotsIn(strips), of = (/** @type {string} */ key) => metres.get(key) ?? NaN;
    const beside = spots.filter(({ key, strip, x, y }) => key.startsWith("o")
        && !(strips[strip].edges.get(`e${edges.get(key)}`) ?? [])
        .some((line) => line.slice(1).some((it, at) => meets([x, y, x, y], [line[at], it], 0.1))));
    const disordered = scene.drawing.edges.flatMap(({ number, west, east }) => {
        const on = spots.filter(({ key }) => edges.get(key) === number || key === `n${west}` || key === `n${east}`);
        return on.slice(1).filter(({ key }, at) => of(on[at].key) > of(key))
            .map(({ key }) => `${key} is behind one further east on piece ${number}`);
    });
    return [...beside.map(({ key }) => `${key} isn't on its piece`), ...disordered];
}

/**
 * @param {Furnished} made
 * @param {Drawn[]} strips
 * @returns {string[]} objects over a kilometre that isn't theirs, and ticks that aren't true
 */
function faultsOverAxis({ metres }, strips) {
    return strips.flatMap((strip) => {
        const ticks = ticksIn(strip), places = [...strip.places].flatMap(([key, spots]) => spots.map(([x]) => ({ key, x })));
        return [...places.filter(({ key }) => key.startsWith("o")).flatMap(({ key, x }) =>
            ticks.filter((it) => Math.abs(it.x - x) < OVER && it.metres !== metres.get(key))
                .map((it) => `${key} is over ${it.metres}`)),
        // the sign of a gap is of no kilometre
        ...places.filter(({ key }) => key).flatMap(({ key, x }) => ticks.filter((it) => Math.abs(it.x - x) < 1 && it.metres !== metres.get(key))
            .map((it) =>
            `${key} is right over ${it.metres}`)),
        ...ticks.slice(1).filter((it, at) => ticks[at].x < it.x && ticks[at].metres > it.metres)
            .map((it) => `${it.metres} doesn't rise`)];
    });
}

test(`objects lie on their pieces in true order and over no other kilometre, on ${STATIONS} stations`, () => {
    let [all, laid, ticks] = [0, 0, 0];
    for (let seed = 0; seed < STATIONS; seed += 1) {
        const made = furnished(seed), [picture] = crowded([made.scene]), strips = stripsOf(picture);
        assert.deepEqual([...faultsOnPieces(made, strips), ...faultsOverAxis(made, strips)], [], `station ${seed}`);
        const shown = new Set(strips.flatMap((it) => [...it.places.keys()])), { located } = made.scene.pieces;
        assert.deepEqual(located.filter(({ number }) => shown.has(`o${number}`) === picture.lacking.has(number)), [],
            `station ${seed}`);
        all += located.length;
        laid += picture.spots.size;
        ticks += strips.reduce((sum, it) => sum + ticksIn(it).length, 0) - made.scene.ticks.size;
    }
    assert.ok(laid > 0.95 * all, `${laid} of ${all} objects are drawn`);
    assert.ok(ticks > STATIONS, `${ticks} ticks of objects`);
});

test("no name lies on an object, and no object on another sign or line", () => {
    for (let seed = 0; seed < DRAWN_WHOLE; seed += 1) {
        const { scene } = furnished(seed, { most: 3 }), picture = draw(scene);
        assert.deepEqual(faultsOfPage(/** @type {never} */ ({ pictures: [picture] })), [], `station ${seed}`);
    }
});
