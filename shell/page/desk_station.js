/** What was read of a station's file: its size, its tracks and nodes, what a drawing doesn't show; its fault, and what may help. */
import { whyUnfit } from "../both/mending/judge.js";
import { printable } from "../both/printable.js";
import { linesOf } from "../both/messages/telling.js";
import { read } from "../both/words.js";
import { answerOf } from "./desk_answer.js";
import { seenOn } from "./desk_memory.js";
import { button, element, sized } from "./elements.js";

/** @typedef {import("./desk_files.js").Taken} Taken */
/** @typedef {import("./desk_reading.js").Cut} Cut */
/** @typedef {import("./desk_reading.js").Reader} Reader */
/** @typedef {{reader: Reader, engine: import("../both/wasm_engine.js").WasmEngine, use: (file: Taken) => void, cut: (cut: Cut, name: string) => void}}
 * Hands what reads a file, and what is done with a mended file and with the stations of a line */

/** from so many operational points, switches and crossings on a file may be one of a line */
const MANY_POINTS = 60;

/** @param {number} count @param {string} one @param {string} [several] */
const counted = (count, one, several = `${one}s`) => `${count.toLocaleString("en")} ${count === 1 ? one : several}`;

/** @param {string[]} texts */
const list = (texts) => element("ul", {}, ...texts.map((it) => element("li", {}, printable(it))));

/**
 * What prepare would change, to be used or not.
 * @param {Taken} file
 * @param {Hands} hands
 */
async function mending(file, { reader, engine, use }) {
    const { data, unfit, changes, guesses, doubts, kept } = await reader.mend(file.name, file.bytes);
    if (unfit) {
        return [element("p", {}, `It can't be mended: ${printable(unfit)}`)];
    }
    if (guesses.length) {
        return [element("p", {}, "It isn't mended, as this would have to be guessed:"), list([...guesses, ...doubts])];
    }
    if (!changes.length) {
        return [element("p", {}, "Nothing in it is of a kind that prepare mends.")];
    }
    const wrong = kept ? await whyUnfit(engine, file.name, data, kept) : "";
    if (wrong) {
        return [element("p", {}, `It isn't mended: ${printable(wrong)}`)];
    }
    const name = file.name.replace(/(\.\w+)?$/, "_mended.xml");
    return [element("p", {}, `prepare would change ${counted(changes.length, "thing")}, and nothing else. This is no part of what is proved:`),
        list([...changes, ...doubts]), button("Use the mended file", () => use({ name, bytes: data }))];
}

/**
 * A button whose answer takes its place.
 * @param {string} text
 * @param {() => Promise<Node[]>} does
 */
function asking(text, does) {
    const place = element("div", {}), asked = button(text, () => {
        asked.disabled = true;
        does().catch((error) => [element("p", { class: "said bad" }, `It couldn't be done: ${error instanceof Error ? error.message : error}`)])
            .then((nodes) => place.replaceChildren(...nodes));
    });
    place.append(asked);
    return place;
}

/**
 * What may help with a file that has a fault, or is one of a line.
 * @param {Taken} file
 * @param {Hands} hands
 * @param {{hasFault: boolean, isLong: boolean}} what
 */
function offers(file, hands, { hasFault, isLong }) {
    const mend = hasFault ? [asking("What would prepare mend?", () => mending(file, hands))] : [];
    const cut = isLong ? [asking("Cut it into stations", async () => {
        const found = await hands.reader.cut(file.name, file.bytes);
        hands.cut(found, file.name);
        return [list(found.said)];
    })] : [];
    return [...mend, ...cut];
}

/**
 * @param {Taken} file
 * @param {Hands} hands
 * @returns {Promise<HTMLElement[]>}
 */
export async function whatWasRead(file, hands) {
    const { name, bytes } = file, files = new Map([[name, bytes]]);
    const [{ tracks, points, good, open }, ran] = await Promise.all([hands.reader.read(name, bytes), hands.engine.run({ words: ["graph", name], files })]);
    const graph = ran.status === 0 ? linesOf(ran.output) : [];
    const size = (/** @type {string} */ word) => Number(graph.find((it) => it.startsWith(`${word} `))?.split(" ")[1] ?? 0);
    const nodes = ran.status === 0 ? `; ${counted(size("nodes"), "node")} and ${counted(size("edges"), "piece")} of track between them` : "";
    const what = `${name}: ${sized(bytes.length)}, ${counted(tracks, "track")}, ${counted(points, "switch or crossing", "switches and crossings")}${nodes}.`;
    const fault = ran.status === 0 ? [] : [await answerOf({ line: read(["graph", name]), status: ran.status, output: ran.output, trap: ran.trap,
        seen: seenOn(files), graph: async () => [] }, { saved: [] })];
    const said = [...ran.status === 0 ? good : [], ...open];
    return [element("p", { class: "read" }, what), ...(said.length ? [list(said)] : []), ...fault,
        ...offers(file, hands, { hasFault: ran.status !== 0, isLong: points >= MANY_POINTS || /^(long|topology 2|graph [12])\b/.test(linesOf(ran.output)[0] ?? "") })];
}
