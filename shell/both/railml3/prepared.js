/** `prepare` of a railML 3 file: its infrastructure is written as railML 2. Tried on files of our own making alone. */
import { mendJoins } from "../mending/joins.js";
import { Guess } from "../mending/prepared.js";
import * as railml from "../railml.js";
import { knownOf } from "./around.js";
import { handsOfCrossings } from "./hands.js";
import { Net, isRailml3, whatOf } from "./net.js";
import { straightOf, writtenAs2 } from "./written.js";

/** @typedef {import("../mending/prepared.js").Prepared} Prepared */

/** @param {Prepared} it @param {Net} net lists what isn't clear, and what lacks */
function noteUnclear(it, net) {
    for (const id of net.elements.keys()) {
        const element = /** @type {railml.Element} */ (net.elements.get(id));
        const [lacks] = ["begin", "end"].filter((_, at) => !net.measures.has(`${id} ${at}`));
        if (lacks) {
            net.doubt(element, `${whatOf(element)} has no measure at its ${lacks}, and nothing joined to it has one`);
        }
        if (net.lengthOf(id).isZero()) {
            net.doubt(element, `${whatOf(element)} has no length`);
        }
    }
    net.unclear.sort((one, other) => one.at.place - other.at.place).forEach(({ at, said }) => it.guess(at, said));
}

/** @param {Prepared} it @param {Net} net gives crossings the hand that follows from what is around them */
function takeHands(it, net) {
    const { right, unclear } = handsOfCrossings(it.document), ids = new Set(unclear.map((one) => one.id));
    net.crossings.filter(({ element }) => ids.has(element.id)).forEach(({ element }) => it.guesses.push(`${whatOf(element)}: railML 3 doesn't `
        + "say which of two paths lies to the left, and the switches around don't either"));
    it.replace(right.flatMap((one) => one.named("connection")).filter((one) => one.attributes.get("orientation") === "outgoing")
        .map((one) => it.edits.setting(one, "course", "right")));
}

/** @param {Prepared} it writes the infrastructure of railML 3 as that of railML 2, and keeps what the file says of itself */
export function mendRailml3(it) {
    if (!isRailml3(it.document)) {
        return;
    }
    const net = new Net(it.document), version = it.document.root?.attributes.get("version") ?? "3", text = writtenAs2(net);
    if (!net.elements.size) {
        throw new Guess("this is railML 3, and has no net elements (topology) of which tracks could be made");
    }
    noteUnclear(it, net);
    const last = it.guesses.pop();
    if (last !== undefined) {
        throw new Guess(last);
    }
    it.known = knownOf(net);
    it.become(new TextEncoder().encode(text));
    const before = it.changes.length;
    mendJoins(it);
    it.changes.length = before;
    takeHands(it, net);
    it.isRebuilt = true;
    const counts = /** @type {[number, string, string][]} */ ([[net.elements.size, "net element", "net elements"],
        [net.switches.length, "switch", "switches"], [net.crossings.length, "crossing", "crossings"], [net.signals.length,
            "signal", "signals"]])
        .filter(([count]) => count).map(([count, one, more]) => `${count} ${count === 1 ? one : more}`);
    it.changes.push(`railML ${version} is written as railML 2.2: ${counts.join(", ")}. railML 3 was tried on files of our own making alone: look `
        + "at the drawing");
    const guessed = net.switches.filter(({ element }) => !element.attributes.has("continueCourse")
        && !element.attributes.has("branchCourse"));
    it.doubts.push(...net.lost.map((one) => `${whatOf(one)} is on no net element that is read: it is left out`), ...guessed.map((one) => `${whatOf(one.element)} doesn't say by which leg its track goes on: its ${straightOf(one)} one is drawn `
        + "straight. Its sides don't depend on that"));
}
