/**
 * Many random lines cut into stations, each file judged by the program's own track graph and drawn:
 *
 *     node shell/tests/many_lines.js PROGRAM [LINES [FIRST]]
 *
 * It says what came of them, and ends with 1 where a switch is lost or twice, a side changed, or a file isn't drawn.
 */
import { argv, exit } from "node:process";
import { differing, forksOfFile } from "../both/line/judged.js";
import { cutLine } from "../both/line/stations.js";
import { readGraph } from "../both/page/texts.js";
import { read } from "../both/railml.js";
import { NativeEngine } from "../terminal/native_engine.js";
import { randomLine } from "./random_line.js";

const [, , program, lines = "1000", first = "1"] = argv;
if (!program) {
    console.error("node shell/tests/many_lines.js PROGRAM [LINES [FIRST]]");
    exit(2);
}
const engine = new NativeEngine(program), encoder = new TextEncoder(), decoder = new TextDecoder();
const counted = { files: 0, switches: 0, best: 0, "no drawing": 0, unfinished: 0, faults: 0 };
/** @type {string[]} */
const wrong = [];

/**
 * @param {string} text
 * @param {string[]} words
 */
async function ran(text, words) {
    const { status, output } = await engine.run({ words: [words[0], "station.xml", ...words.slice(1)], files: new Map([["station.xml", encoder.encode(text)]]) });
    return { status, text: decoder.decode(output) };
}

for (let seed = Number(first); seed < Number(first) + Number(lines); seed++) {
    const { text, truth } = randomLine(seed), document = read(encoder.encode(text)), { files } = cutLine(document, {}), whole = forksOfFile(document);
    const points = files.flatMap((it) => it.points);
    if (points.length !== truth.size || new Set(points).size !== truth.size) {
        wrong.push(`line ${seed}: ${points.length} of ${truth.size} switches`);
    }
    for (const file of files) {
        const graph = await ran(file.text, ["graph"]), drawn = await ran(file.text, ["draw", "--order", "height"]);
        const other = graph.status === 0 ? differing(whole, file, readGraph(graph.text)) : graph.text.trim();
        counted.files++;
        counted.switches += file.points.length;
        counted.best += Number(drawn.status === 0);
        counted["no drawing"] += Number(drawn.status === 3);
        counted.unfinished += Number(drawn.status === 4);
        counted.faults += Number(drawn.status === 1);
        if (other !== undefined || drawn.status !== 0) {
            wrong.push(`line ${seed}, ${file.name}: ${other ?? `status ${drawn.status}`}`);
        }
    }
}
wrong.slice(0, 20).forEach((it) => console.log(it));
console.log(`${lines} lines: ${Object.entries(counted).map(([what, count]) => `${count} ${what}`).join(", ")}; ${wrong.length} wrong`);
process.exitCode = wrong.length ? 1 : 0;
