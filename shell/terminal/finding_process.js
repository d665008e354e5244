/** A process that looks into stations' files, one after another, as they are sent to it. It ends once nobody sends more. */
import { foundIn } from "../both/line/judged.js";
import { NativeEngine } from "./native_engine.js";
import { Ended } from "./say.js";
import { STOPPING } from "./signals.js";

/** @typedef {import("./finding.js").Asked} Asked */
/** @typedef {import("./finding.js").Answer} Answer */

const { program, how } = JSON.parse(process.argv[2]), engine = new NativeEngine(program, how), stopper = new AbortController();
// what stops the run stops the process that sends files, and this one ends by that
STOPPING.forEach((name) => process.on(name, () => undefined));
process.on("disconnect", () => stopper.abort());

/** @param {Asked} asked @returns {Promise<Answer>} */
async function answerTo({ name, bytes }) {
    try {
        return { found: await foundIn(engine, name, bytes, stopper.signal) };
    } catch (error) {
        return error instanceof Ended ? { ended: { status: error.status, sentence: error.sentence } } : { fault: String(error) };
    }
}

let last = Promise.resolve();
process.on("message", (/** @type {Asked} */ asked) => {
    last = last.then(async () => {
        const answer = await answerTo(asked);
        if (process.connected) {
            process.send?.(answer);
        }
    });
});
