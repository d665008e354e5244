/**
 * Sheets of crowded stations: parallel tracks, crossovers where a seed says so, and signals.
 *
 * Each is drawn as a search would draw it, row by row; names are short, long, or of letters that few files have.
 */

/** @typedef {[number, number]} Point */
/** @typedef {(number: number) => string} Naming */

/** @type {Map<string, Naming>} */
export const NAMINGS = new Map([["short", (it) => `W${it}`], ["numbers", String],
    ["usual", (it) => `sw_${String(it).padStart(4, "0")}`],
    ["long", (it) => `Central-Station.West.Switch.${String(it).padStart(3, "0")}`],
    ["longest", (it) => String(it).padStart(4, "0") + "x".repeat(60)], ["signs", (it) => `<W&${it}>`],
    ["wide", (it) => `轉轍器${it}`], ["accents", (it) => `Übergang.Ä${it}`]]);

/** @param {number} seed @returns {() => number} numbers from 0 to 1, by chance but always the same ones */
function chance(seed) {
    let state = seed + 1;
    return () => {
        state = Math.imul(state, 48271) % 0x7fffffff;
        state += state < 0 ? 0x7fffffff : 0;
        return state / 0x7fffffff;
    };
}

/**
 * From which point to which the crossovers lead; a point is that of one alone.
 * @param {number} seed
 * @param {number} rows
 * @param {number} columns
 * @returns {[Point, Point][]}
 */
export function crossoversOf(seed, rows, columns) {
    const [next, taken] = [chance(seed), new Set()];
    /** @type {[Point, Point][]} */
    const found = [];
    for (let row = 0; row < rows - 1; row += 1) {
        for (let column = 1; column < columns - 1; column += 1) {
            const rises = next() < 0.5 ? 1 : 0;
            /** @type {[Point, Point]} */
            const pair = [[column, row + 1 - rises], [column + 1, row + rises]];
            if (next() >= 0.55 || pair.some((it) => taken.has(String(it)))) continue;
            for (const point of pair) taken.add(String(point));
            found.push(pair);
        }
    }
    return found;
}

/**
 * The text of the drawing in which each track is a row.
 * @param {number} rows
 * @param {number} columns
 * @param {[Point, Point][]} crossovers
 * @param {Naming} naming
 * @param {Naming} tracks
 * @returns {string}
 */
export function sheetOf(rows, columns, crossovers, naming, tracks) {
    const ends = Array.from({ length: rows }, (_, row) => /** @type {Point[]} */ ([[0, row], [columns, row]])).flat();
    const points = [...ends, ...crossovers.flat()];
    const numbers = new Map(points.map((it, at) => [String(it), at]));
    const nodes = points.map(([x, y], at) =>
        `node ${at} ${naming(at)} ${x} ${y} ${1000 + 50 * x + (0 < x && x < columns ? 7 * y : 0)}.000000`);
    const lines = Array.from({ length: rows }, (_, row) => {
        const along = points.filter(([, y]) => y === row).sort(([one], [other]) => one - other);
        return along.slice(1).map((it, at) => ({ track: tracks(row), pair: [along[at], it] }));
    }).flat();
    lines.push(...crossovers.map((pair, at) => ({ track: tracks(rows + at), pair })));
    const edges = lines.map(({ track, pair: [west, east] }, at) =>
        `edge ${at} ${track} ${numbers.get(String(west))} ${numbers.get(String(east))} ${west.join(" ")} ${east.join(" ")}`);
    return ["railplan 2", `grid ${columns} ${rows} 1`, "order height bends diagonal width", `nodes ${nodes.length}`, ...nodes,
        `edges ${edges.length}`, ...edges, `values ${rows - 1} 0 ${crossovers.length} ${columns}`, "end best", ""].join("\n");
}

/** @param {string} sheet @returns {string} the sheet and behind it a signal in each column between the ends of its level edges
 * */
function withSignals(sheet) {
    const found = sheet.split("\n").map((it) => it.split(" ")).filter((it) => it[0] === "edge" && it[6] === it[8])
        .flatMap(([, edge, , , , x, y, u]) => Array.from({ length: Math.max(0, Number(u) - Number(x) - 1) }, (_, at) =>
            `${edge} ${Number(x) + 1 + at} ${y}`));
    return `${sheet}signals ${found.length}\n${found.map((it, at) => `signal ${at} S${at} ${it}\n`).join("")}`;
}

/** @type {Naming} */
const t = (number) => `t${number}`;

/** @returns {[string, string][]} stations with many signals */
export function crowdedSignals() {
    return [[2, 8], [4, 14], [6, 30]].map(([rows, columns]) => {
        const crossovers = crossoversOf(rows, rows, columns).filter((_, at) => at % 2 === 0);
        return [`signals on ${rows} by ${columns}`, withSignals(sheetOf(rows, columns, crossovers, (it) => `W${it}`, t))];
    });
}

/** @returns {Map<string, string>} each naming on small and great stations */
export function crowdedStations() {
    const found = [...NAMINGS].flatMap(([naming, name]) => [[2, 6], [4, 10], [7, 18]].map(([rows, columns], seed) => {
        const sheet = sheetOf(rows, columns, crossoversOf(seed, rows, columns), name, seed ? t : name);
        return /** @type {[string, string]} */ ([`crowded ${naming} ${rows} by ${columns}`, sheet]);
    }));
    const first = sheetOf(2, 4, [[[1, 0], [2, 1]]], (it) => `n${it}`, t).replace("railplan 2", "railplan 1")
        .replace(/^(node|grid) (.*) \S+$/gm, "$1 $2").replace(/^(edge \d+) \S+/gm, "$1");
    return new Map([...found, ["the first edition", first]]);
}
