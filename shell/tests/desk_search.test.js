/** A search on the desk: the best drawing so far, and what is left of it when the search is stopped; by programs that are none. */
import assert from "node:assert/strict";
import { test } from "node:test";
import { Search } from "../page/desk_search.js";

const MODEL = "railplan-log 1\nq 1\nm 1\n", WORDS = ["draw", "station.xml", "--svg", "picture.svg", "--log", "search.log"];
const bytes = (/** @type {string} */ text) => new TextEncoder().encode(text);

/**
 * A search whose program finds a drawing and goes on until it is stopped, and whose second run takes a while, or until it is stopped too.
 * @param {number} takes milliseconds
 */
function searching(takes) {
    const none = { output: new Uint8Array(0), files: new Map(), seconds: 0 };
    const until = (/** @type {AbortSignal} */ signal) => new Promise((resolve) => signal.addEventListener("abort", resolve));
    const main = { run: async (/** @type {any} */ { signal, seen }) => {
        seen("search.log", bytes(MODEL));
        await until(signal);
        return { ...none, status: 130, wasStopped: true };
    } };
    const second = { run: async (/** @type {any} */ { signal }) => {
        await Promise.race([new Promise((resolve) => setTimeout(resolve, takes).unref()), until(signal)]);
        const files = new Map([["picture.svg", bytes("<svg/>")], ["search.log", bytes(MODEL)]]);
        return signal.aborted ? { ...none, status: 130, wasStopped: true } : { ...none, status: 4, wasStopped: false, output: bytes("sheet"), files };
    } };
    /** @type {string[]} */ const said = [];
    /** @type {string[]} */ const found = [];
    const hear = { far: (/** @type {string} */ it) => void said.push(it), found: (/** @type {any} */ it) => void found.push(new TextDecoder().decode(it.sheet)) };
    return { search: new Search(/** @type {any} */ ({ main, second }), WORDS, new Map(), hear), said, found };
}

test("a stop waits for the drawing that was found and isn't drawn yet", async () => {
    const { search, said, found } = searching(500), ran = search.run();
    search.halt();
    assert.equal((await ran).status, 130);
    assert.deepEqual(found, ["sheet"]);
    assert.equal(new TextDecoder().decode(search.best?.sheet), "sheet");
    assert.match(said.at(-1) ?? "", /^the search is stopped, and the drawing that it found is being drawn/);
});

test("a second stop leaves it, and so does another station", async () => {
    for (const leave of [(/** @type {Search} */ it) => it.halt(), (/** @type {Search} */ it) => it.end()]) {
        const { search, found } = searching(60_000), ran = search.run();
        search.halt();
        leave(search);
        assert.equal((await ran).status, 130);
        assert.deepEqual([found, search.best], [[], undefined]);
    }
});
