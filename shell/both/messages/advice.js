/** What is said where a run ends without what was wanted, and what an answer means. */
import { quoted, quotedLine } from "../quoted.js";
import { CRITERIA, OPTIONS } from "../words.js";

/** @typedef {import("../words.js").Line} Line */
/** @typedef {import("../notes.js").Note} Note */
/** @typedef {{width: number, height: number, least: number}} Grid */
/** @typedef {{line: Line, called: string, said: string[]}} Answer the words of a run, how the launcher is called, and the lines
 * that the program printed */

/** @param {string} option @returns {number} */
function most(option) {
    return OPTIONS.get(option)?.high ?? 0;
}

export const WIDEST = most("--width"), HIGHEST = most("--height");
const MOST_CLAUSES = most("--conflicts");

/** @param {Line} line @param {string} option @returns {string} its value, or the usual one */
function valueOf(line, option) {
    return line.options.get(option) ?? OPTIONS.get(option)?.usual ?? "";
}

/**
 * The line to type: the words of this run, those of pages too, with some options otherwise.
 * @param {Line} line @param {string} called @param {Record<string, string | number>} changed the values of options, by their
 * names without hyphens; they come last
 * @returns {string}
 */
export function again(line, called, changed) {
    const values = Object.entries(changed).map(([name, value]) => [`--${name}`, String(value)]);
    const options = values.map(([word]) => word), kept = line.words.slice(0, 1);
    for (let at = 1; at < line.words.length; at++) {
        const word = line.words[at], count = word.startsWith("--") ? 2 : 1;
        if (count === 1 || !options.includes(word)) {
            kept.push(...line.words.slice(at, at + count));
        }
        at += count - 1;
    }
    return `${called} ${quotedLine([...line.before, ...kept, ...values.flat()])}`;
}

// ---- no drawing

/**
 * How many edges of a track graph's text lie one behind another at most.
 * @param {string[]} graph
 * @returns {number}
 */
export function longestChain(graph) {
    const fields = graph.map((line) => line.split(" "));
    const mileages = fields.filter((it) => it[0] === "node").map((it) => Number(it.at(-1)));
    const edges = fields.filter((it) => it[0] === "edge").map((it) => ({ west: Number(it[3]), east: Number(it[4]) }));
    const far = mileages.map(() => 0);
    for (const { west, east } of edges.sort((one, other) => mileages[one.west] - mileages[other.west])) {
        far[east] = Math.max(far[east], far[west] + 1);
    }
    return Math.max(0, ...far);
}

/**
 * How many nodes of a track graph's text have one mileage at most, and which: they lie in one column, one above another.
 * @param {string[]} graph
 * @returns {{count: number, mileage: string}}
 */
export function tallestStack(graph) {
    const counts = new Map();
    let tallest = { count: 0, mileage: "" };
    for (const line of graph.filter((it) => it.startsWith("node "))) {
        const mileage = line.slice(line.lastIndexOf(" ") + 1);
        counts.set(mileage, (counts.get(mileage) ?? 0) + 1);
    }
    for (const [mileage, count] of counts) {
        if (count > tallest.count || count === tallest.count && mileage > tallest.mileage) {
            tallest = { count, mileage };
        }
    }
    return tallest;
}

/**
 * The grid that was asked for: as the answer says it, or by the options.
 * @param {Line} line @param {string[]} said
 * @returns {Grid}
 */
export function gridOf(line, said) {
    const fields = said.find((it) => it.startsWith("grid "))?.split(" ") ?? [];
    const given = fields.length === 4 ? fields.slice(1) : ["--width", "--height", "--least"].map((it) => valueOf(line, it));
    const [width, height, least] = given.map(Number);
    return { width, height, least };
}

/**
 * Why no drawing was found, as far as the track graph shows it, and the ways on.
 * @param {Answer} answer @param {string[]} graph
 * @returns {Note}
 */
export function noDrawing(answer, graph) {
    const { line, called, said } = answer, grid = gridOf(line, said), { width, height, least } = grid;
    const chain = longestChain(graph), { count: stack, mileage } = tallestStack(graph), need = chain * least;
    let text = `no lawful drawing lies on columns 0 to ${width}, rows 0 to ${height}`;
    if (need > width) {
        const each = least > 1 ? `, each of ${least} columns or more` : "";
        text += chain === 1 ? `. A piece of track takes ${need} columns or more`
            : `. ${chain} pieces of track lie one behind another${each}, which takes ${need} columns`;
        if (need > WIDEST) {
            return { text: `${text}, and a grid has at most ${WIDEST}. ${shorter(answer, chain, least)}` };
        }
    }
    if (stack > height + 1) {
        text += `. ${stack} ends, switches or crossings are at ${mileage} m and lie one above another, which takes rows 0 to `
            + `${stack - 1}`;
        if (stack > HIGHEST + 1) {
            return { text: `${text}, and a grid has at most rows 0 to ${HIGHEST}. Draw a part of the station` };
        }
    }
    if (width === WIDEST && height === HIGHEST) {
        return { text: `${text}, and no grid is larger. Why: ${explaining(answer, grid)}` };
    }
    const isLow = stack > height + 1 && need <= width;
    text += `. A larger grid may do: ${again(line, called,
        { width: isLow ? width : WIDEST, height: isLow ? stack - 1 : HIGHEST })}`;
    return { text: need <= width && !isLow ? `${text}. Why there is none on this one: ${explaining(answer, grid)}` : text };
}

/**
 * After an explanation, that a larger grid may do.
 * @param {Answer} answer @param {string[]} graph
 * @returns {Note}
 */
export function larger(answer, graph) {
    const { line, called, said } = answer, { width, height, least } = gridOf(line, said), chain = longestChain(graph), need = chain * least;
    const drawn = `${called} draw ${quoted(line.names[0])} ${gridWords({ width: WIDEST, height: HIGHEST, least })}`;
    if (need > WIDEST) {
        return { text: `the pieces of track that lie one behind another take ${need} columns, and a grid has at most `
            + `${WIDEST}. `
            + shorter(answer, chain, least) };
    }
    if (width === WIDEST && height === HIGHEST) {
        return { text: "no grid is larger. Look at the places that these laws name" };
    }
    if (need > width) {
        return { text: `the pieces of track that lie one behind another take ${need} columns, and this grid ends at column `
            + `${width}. A larger grid may do: ${drawn}` };
    }
    return { text: `this is of the grid that was asked for, columns 0 to ${width} and rows 0 to ${height}: it need be no fault `
        + `of the file. A larger grid may do: ${drawn}. Where no drawing lies there either, look at the places that are named `
        + "here" };
}

/** @param {Answer} answer @param {number} chain @param {number} least @returns {string} what to do where no grid is wide enough */
function shorter({ line, called }, chain, least) {
    if (line.command === "signals") {
        return `Draw a part of the station, or its tracks without any signals: ${called} draw ${quoted(line.names[0])}`;
    }
    return least > 1 && chain <= WIDEST ? "A smaller --least takes fewer" : "Draw a part of the station";
}

/** @param {Grid} grid @returns {string} the options that ask for it */
function gridWords({ width, height, least }) {
    return `--width ${width} --height ${height}${least > 1 ? ` --least ${least}` : ""}`;
}

/** @param {Answer} answer @param {Grid} grid @returns {string} the line that explains why there is no drawing */
function explaining({ line, called }, grid) {
    return `${called} --html why.html explain ${quoted(line.names[0])} ${gridWords(grid)}`;
}

/**
 * That a drawing exists, and the line that draws what explain was asked of.
 * @param {Answer} answer
 * @returns {Note}
 */
export function drawingExists({ line, called }) {
    return { text: `a lawful drawing lies on this grid: ${called} ${quotedLine(["draw", ...line.words.slice(1)])}` };
}

// ---- what an answer means

/** @param {string[]} values @param {string[]} order @returns {string} the values of a drawing by name, in this order */
function measured(values, order) {
    return order.map((it) => `${it} ${values[CRITERIA.indexOf(it)]}`).join(", ");
}

/**
 * The values of the best drawing of a sheet; "" of another answer, as redraw's, which has no order.
 * @param {string[]} said
 * @returns {string}
 */
export function best(said) {
    const fields = new Map(said.map((it) => it.split(" ")).map(([front, ...rest]) => [front, rest]));
    const values = fields.get("values"), order = fields.get("order");
    return said.includes("end best") && values && order ? `the best drawing: ${measured(values, order)}` : "";
}

/**
 * What `lawful` and its values mean.
 * @param {string[]} values
 * @returns {Note}
 */
export function lawful(values) {
    return { text: `the drawing keeps all seven laws: ${measured(values, CRITERIA)}. Whether a better one exists, only check `
        + "and recheck say" };
}

/**
 * What `certified S` and `trimmed L K` mean.
 * @param {Answer} answer @param {import("./seen.js").Seen} seen
 * @returns {Note[]}
 */
export function certified({ line, said }, seen) {
    const [what, count, kept] = (said.at(-1) ?? "").split(" ");
    const named = new Map(line.files().map((it) => [it.kind, it.word])), sheet = named.get("sheet") ?? "";
    if (what === "trimmed") {
        return [{ text: `the log has ${count} learnt lines, and ${kept} of them are left in ${named.get("hints")}. They `
            + "certify what the sheet claims" }];
    }
    if (!seen.bytes(sheet)) {
        return [];
    }
    const lines = line.command === "recheck" ? "the hinted lines certify" : "the log certifies";
    const [order, ending] = [3, 4].map((number) => seen.line(sheet, number).split(" ").slice(1));
    if (ending.join(" ") === "none") {
        return [{ text: `${lines} that no drawing on this grid is lawful` }];
    }
    const settledOnes = order.slice(0, Number(count)), last = settledOnes.pop();
    if (!last) {
        return [{ text: "all lines are right, and the sheet claims nothing that they could certify" }];
    }
    const listed = settledOnes.length ? `${settledOnes.join(", ")} and ${last} are least, in this order` : `${last} is least`;
    return [{ text: `${lines} that the sheet's ${listed}` }];
}

// ---- stopped searches

/**
 * The search ended before it was done: what is true of what it found, and the ways on.
 * @param {Answer} answer
 * @returns {Note}
 */
export function stopped(answer) {
    const { line, said } = answer, end = said.filter((it) => /^(end|why) /.test(it)).at(-1)?.split(" ") ?? [];
    const isRoom = end.includes("room");
    const why = isRoom ? "there was no room for more clauses" : "its budget of clauses was spent";
    return { text: `the search stopped, as ${why}. ${whatIsKnown(line.command, said, end)}. ${waysOn(answer, isRoom)}` };
}

/** @param {string} command @param {string[]} said @param {string[]} end @returns {string} */
function whatIsKnown(command, said, end) {
    const none = "No drawing was found, and none is ruled out";
    const isFound = said.some((it) => it.startsWith("values "));
    switch (command) {
        case "draw":
        case "signals":
            return isFound ? settled(said, end) : none;
        case "redraw":
            return isFound ? "The drawing is lawful, but one with fewer moved nodes may exist" : none;
        case "front":
            return said.some((it) => it.startsWith("pair ")) ? "The pairs are all up to the last one; more may follow"
                : "No pair is known yet";
        default:
            return "Nothing is known by then";
    }
}

/** @param {string[]} said @param {string[]} end @returns {string} */
function settled(said, end) {
    const order = said.find((it) => it.startsWith("order "))?.split(" ").slice(1) ?? [], count = Number(end[2] ?? 0);
    if (!count) {
        return "The drawing is lawful, but a better one may exist";
    }
    return `The drawing is lawful, and none is better in ${order.slice(0, count).join(" and ")}; one that is better in `
        + `${order.slice(count).join(" and ")} may exist`;
}

/** @param {Answer} answer @param {boolean} isRoom @returns {string} */
function waysOn({ line, called }, isRoom) {
    const ways = [];
    if (!isRoom && Number(valueOf(line, "--conflicts")) < MOST_CLAUSES) {
        ways.push(`more clauses, ${again(line, called, { conflicts: MOST_CLAUSES })}`);
    }
    const order = valueOf(line, "--order").split(",");
    if (["draw", "signals"].includes(line.command) && order.length > 1) {
        ways.push(`fewer criteria, ${again(line, called, { order: order[0] })}`);
    }
    return `Ways on: ${[...ways, "a smaller grid, by --width and --height"].join("; ")}`;
}

// ---- pictures

/**
 * That the program's picture has ids as they are, though XML has no such characters.
 * @param {string} picture @param {string[]} said
 * @returns {Note[]}
 */
export function oddPicture(picture, said) {
    const ids = said.filter((it) => /^(node|edge) /.test(it)).map((it) => it.split(" ")[2]);
    const odd = [...new Set(ids.filter((it) => /[\ufffe\uffff]/.test(it)))].sort();
    if (!odd.length || !picture) {
        return [];
    }
    const shown = odd.join(", ").replaceAll("\ufffe", "<U+FFFE>").replaceAll("\uffff", "<U+FFFF>");
    return [{ text: `${picture} is no XML, and other programs may refuse it: XML has no such character as in the id ${shown}. `
        + "Give it another id, or ask for a page by --html" }];
}
