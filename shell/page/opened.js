/**
 * The script of a page: from the run that the page carries it draws the page, and makes it alive.
 */
import { unpacked } from "../both/packing.js";
import { make } from "../both/page/kinds.js";
import { recordOf } from "../both/page/record.js";
import { Run } from "../both/page/run.js";
import { bodyOf, knownOf } from "../both/page/whole.js";
import { makeAlive } from "./alive.js";
import { checkSelf } from "./self_check.js";
import { built, every, one } from "./tree.js";

/** @returns {Promise<string>} the record of the run */
async function record() {
    return new TextDecoder("utf-8", { ignoreBOM: true }).decode(await unpacked(JSON.parse(one("script.data")?.textContent ?? '""')));
}

async function open() {
    const run = recordOf(await record()), page = make(new Run(run));
    const scripts = every("body > script");
    document.body.replaceChildren(...bodyOf(page).map((it) => built(it)), ...scripts);
    makeAlive(knownOf(page));
    await checkSelf(run);
}

open().catch((error) => {
    const said = one(".unread");
    if (said) said.textContent = `The page couldn't be drawn: ${error instanceof Error ? error.message : error}`;
});
