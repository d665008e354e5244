/**
 * Cuts each kind of line into its stations, draws these, and holds each file's track graph, as the program reads it, against the
 * truth. Each switch has to be in one file alone, with its legs and its side.
 */
import { argv, exit } from "node:process";
import { differing, wholeOf } from "../../shell/both/line/judged.js";
import { mendedLine } from "../../shell/both/line/mended.js";
import { cutLine } from "../../shell/both/line/stations.js";
import { readGraph } from "../../shell/both/page/texts.js";
import { NativeEngine } from "../../shell/terminal/native_engine.js";
import { lines } from "./lines.js";
import { NAME, graphOf, saidOf } from "./said.js";

/** @typedef {import("./lines.js").Line} Line */

const DRAWN = ["--order", "height", "--conflicts", "20000"];
const [, , program, part = ""] = argv;
if (!program) {
    console.error("cases/real/run PROGRAM [PART OF A NAME]");
    exit(2);
}
const engine = new NativeEngine(program), encoder = new TextEncoder(), decoder = new TextDecoder();

/** @param {string[]} words @param {string} text */
async function ran([command, ...rest], text) {
    const { status, output } = await engine.run({ words: [command, NAME, ...rest], files: new Map([[NAME, encoder.encode(text)]]) });
    return { status, text: decoder.decode(output) };
}

/**
 * What of a file's graph isn't as on the ground.
 * @param {string} graph @param {Line} line @param {(id: string) => string} known the id that a switch had
 * @returns {string[]}
 */
function otherwise(graph, { switches }, known) {
    return readGraph(graph).nodes.filter((it) => it.kind === "switch").flatMap(({ name, legs, side }) => {
        const truth = switches.get(known(name));
        return truth?.legs === legs && truth.side === side ? [] : [`${name} is ${legs} ${side}, truly ${truth?.legs} ${truth?.side}`];
    });
}

/**
 * What is said of a line that is too large as it is: that stations cuts it, into as many files as it does.
 * @param {Line} line @param {number} count of its files
 * @returns {Promise<{isSaid: boolean, failed: string[]}>}
 */
async function saidToCut({ data }, count) {
    const { status, output } = await graphOf(engine, data), fault = decoder.decode(output);
    if (!status || !/^(topology 2|graph [12]) /.test(fault)) {
        return { isSaid: false, failed: [] };
    }
    const said = await saidOf(engine, ["draw", NAME], data, status, output);
    const isSaid = said.some((it) => it.includes(`Cut it: railplan stations ${NAME} STATIONS writes it in ${count} files`));
    return { isSaid, failed: isSaid ? [] : [`it isn't said that stations writes it in ${count} files: ${said[0]}`] };
}

/** @param {Line} line @returns {Promise<string[]>} what isn't as it is to be */
async function tried(line) {
    const began = performance.now(), it = mendedLine(NAME, line.data, "railplan"), whole = wholeOf(it.document);
    const { files, said } = cutLine(it.document, {}), seconds = (performance.now() - began) / 1000;
    const known = (/** @type {string} */ id) => it.renamed.get(id) ?? id, points = files.flatMap((one) => one.points.map(known));
    const failed = points.length === line.switches.size && new Set(points).size === points.length ? []
        : [`${points.length} of ${line.switches.size} switches are in a file, ${new Set(points).size} different ones`];
    let judged = 0, drawn = 0;
    for (const file of files) {
        const graph = await ran(["graph"], file.text);
        const [wrong] = graph.status ? [graph.text.trim()] : [...otherwise(graph.text, line, known),
            ...[differing(whole.forks, file, readGraph(graph.text))].filter((one) => one !== undefined)];
        judged += Number(wrong === undefined);
        if (wrong !== undefined && !(graph.status && line.mayLackSides)) {
            failed.push(`${file.name}: ${wrong}`);
        }
        drawn += Number(!graph.status && (await ran(["draw", ...DRAWN], file.text)).status === 0);
    }
    if (files.length < line.stations || drawn + line.undrawn < files.length) {
        failed.push(`${files.length} files, ${drawn} drawn`);
    }
    const { isSaid, failed: unsaid } = await saidToCut(line, files.length);
    failed.push(...unsaid);
    cut += Number(isSaid);
    console.log(`${line.name} | ${line.tracks} | ${line.switches.size} | ${files.length} | ${judged} | ${drawn} | `
        + `${seconds.toFixed(1)} s | ${said.at(-1)}`);
    failed.slice(0, 5).forEach((one) => console.log(`    FAILED: ${one}`));
    return failed;
}

const all = lines().filter((it) => it.name.includes(part));
let passed = 0, cut = 0;
for (const line of all) {
    passed += Number((await tried(line)).length === 0);
}
console.log(`${cut} of ${all.length} lines are too large as they are, and stations is said to cut them, as it does`);
console.log(`${passed} passed, ${all.length - passed} failed`);
process.exitCode = passed < all.length ? 1 : 0;
