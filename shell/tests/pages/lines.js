/**
 * Whether a picture's lines are those of a sheet: read from the sheet's own text, and from the SVG. It shares nothing with what
 * draws.
 *
 * A picture may set its columns apart as it likes, and may be cut into strips. So where its columns and rows are is read from
 * the
 * grid that it shows, which has to go on eastwards and upwards. A line may have no point between those of the sheet but where
 * it
 * is cut off.
 */

/** @typedef {import("./drawn.js").Drawn} Drawn */
/** @typedef {[number, number]} Spot */
/** @typedef {{nodes: Map<string, Spot>, ends: Map<string, [string, string]>, edges: Map<string, Spot[]>, signals: Map<string,
 * Spot>}}
 * Said what a text says of a drawing: the point of each node, and of each edge its ends and the points of its line */

// numbers in the SVG have two digits behind the point
const NEAR = 0.03;

/** @type {(one: Spot, other: Spot) => number} */
const far = (one, other) => Math.hypot(one[0] - other[0], one[1] - other[1]);

/**
 * What is said by a sheet of the second edition, what redraw prints, or a drawing of what explain prints.
 * @param {string} text
 * @returns {Said}
 */
export function saidBy(text) {
    /** @type {Said} */
    const found = { nodes: new Map(), ends: new Map(), edges: new Map(), signals: new Map() };
    for (const [word, ...fields] of text.split("\n").map((it) => it.split(" "))) {
        if (word === "node") found.nodes.set(`n${fields[0]}`, [Number(fields[2]), Number(fields[3])]);
        else if (word === "edge") {
            const numbers = fields.slice(4).map(Number);
            found.edges.set(`e${fields[0]}`, Array.from({ length: numbers.length / 2 }, (_, at) =>
                [numbers[2 * at], numbers[2 * at + 1]]));
            found.ends.set(`e${fields[0]}`, [`n${fields[2]}`, `n${fields[3]}`]);
        } else if (word === "signal") found.signals.set(`s${fields[0]}`, [Number(fields[3]), Number(fields[4])]);
    }
    return found;
}

/** Where the columns of each strip and the rows are, by the grids of a picture. */
class Places {
    /** @param {Drawn[]} strips */
    constructor(strips) {
        this.strips = strips;
        this.rows = strips[0].rows;
        this.last = strips.map((it) => Math.max(...it.columns.keys()));
    }

    /** @param {number} row @returns {number} */
    row(row) {
        return this.rows.get(row) ?? NaN;
    }

    /** @param {string} what @param {number} strip @param {Spot} cell @param {Spot} spot @returns {string[]} */
    take(what, strip, cell, spot) {
        const wanted = /** @type {Spot} */ ([this.strips[strip].columns.get(cell[0]) ?? NaN, this.row(cell[1])]);
        return far(spot, wanted) <= NEAR ? [] : [`${what}: ${cell} is drawn at ${spot}, and in the grid it is at ${wanted}`];
    }

    /** @returns {string[]} columns that don't go on eastwards, of one strip and from one to the next, and rows that aren't
     * equally far
     * apart upwards */
    faults() {
        const along = this.strips.flatMap((it, strip) => [...it.columns].map(([column, x]) => ({ strip, column, x })));
        const isWhole = along.every(({ column }, at) => column === at);
        const isEastward = along.slice(1).every((it, at) => it.strip !== along[at].strip || it.x >= along[at].x + 5);
        const step = this.row(0) - (this.rows.get(1) ?? this.row(0) - 5);
        const isEven = step >= 5 && this.strips.every((it) => [...it.rows].every(([row, y]) => this.row(row) === y))
            && [...this.rows].every(([row, y]) => Math.abs(this.row(0) - step * row - y) <= NEAR);
        return [...isWhole ? [] : ["columns lack, or are there twice"], ...isEastward ? []
            : ["a column isn't east of the one before"],
            ...isEven ? [] : ["rows aren't equally far apart, from the lowest upwards"]];
    }

    /** @param {[Spot, Spot]} piece @param {number} column @returns {number} where a straight piece of a line is between its
     * points */
    height([[x, y], [u, v]], column) {
        return this.row(y) + (this.row(v) - this.row(y)) * (column - x) / (u - x);
    }
}

/**
 * The points of an edge's line with their strips, and whether the line is only cut off there.
 * @param {Drawn[]} strips
 * @param {string} key
 * @returns {{at: number, spot: Spot, isCut: boolean}[]}
 */
export function cornersOf(strips, key) {
    return strips.flatMap((strip, at) => {
        const xs = strip.lines.filter(({ kind }) => kind === "match").map(({ piece: [[x]] }) => x);
        const [west, east] = [at ? Math.min(...xs) : NaN, at < strips.length - 1 ? Math.max(...xs) : NaN];
        return (strip.edges.get(key) ?? []).flatMap((line) => line.map((spot, number) => {
            const end = number === 0 ? west : number === line.length - 1 ? east : NaN;
            return { at, spot, isCut: Math.abs(spot[0] - end) < NEAR };
        }));
    });
}

/** @type {(strips: Drawn[], keys: Iterable<string>, known: Map<string, unknown>) => string[]} */
const foreign = (strips, keys, known) => [...new Set(keys)].filter((it) => !known.has(it)).map((it) =>
    `${it} is drawn, and the text has none`);

/**
 * Edges whose line isn't that of the sheet, and nodes and signals that aren't at their points.
 * @param {Drawn[]} strips
 * @param {Said} said
 * @returns {string[]}
 */
export function faultsOfLines(strips, said) {
    const places = new Places(strips);
    const ofEdges = [...said.edges].flatMap(([key, cells]) => {
        const points = cornersOf(strips, key).filter((it) => !it.isCut);
        if (points.length !== cells.length) return [`${key} has ${points.length} points, and in the sheet ${cells.length}`];
        return points.flatMap(({ at, spot }, number) => places.take(key, at, cells[number], spot));
    });
    return [...foreign(strips, strips.flatMap((it) => [...it.edges.keys()]), said.edges), ...places.faults(), ...ofEdges,
        ...faultsOfSigns(strips, "n", said.nodes, places), ...faultsOfSigns(strips, "s", said.signals, places),
        ...[...said.edges].flatMap(([key, cells]) => faultsOfCuts(strips, key, cells, places))];
}

/** @param {Drawn[]} strips @param {string} kind @param {Map<string, Spot>} cells @param {Places} places @returns {string[]} */
function faultsOfSigns(strips, kind, cells, places) {
    const keys = strips.flatMap((it) => [...it.places.keys()]).filter((it) => it.startsWith(kind));
    return [...foreign(strips, keys, cells), ...[...cells].flatMap(([key, cell]) => {
        const found = strips.flatMap((it, at) => (it.places.get(key) ?? []).map((spot) => ({ at, spot })));
        return [...found.length === 1 ? [] : [`${key} is drawn ${found.length} times`],
            ...found.flatMap(({ at, spot }) => places.take(key, at, cell, spot))];
    })];
}

/**
 * Lines that don't go on beyond a cut at the height at which they are cut off, which is that between their points.
 * @param {Drawn[]} strips
 * @param {string} key
 * @param {Spot[]} cells
 * @param {Places} places
 * @returns {string[]}
 */
function faultsOfCuts(strips, key, cells, places) {
    const found = cornersOf(strips, key).filter((it) => it.isCut);
    const passed = places.last.slice(0, -1).flatMap((column, at) =>
        cells[0][0] <= column && column < cells[cells.length - 1][0] ? [at] : []);
    if (String(found.map(({ at }) => at)) !== String(passed.flatMap((at) => [at, at + 1]))) {
        return [`${key} is cut off on the strips ${found.map(({ at }) => at)}, and the strips that it leaves are ${passed}`];
    }
    return passed.flatMap((at, number) => {
        const next = cells.findIndex(([column]) => column > places.last[at]);
        const high = places.height([cells[next - 1], cells[next]], places.last[at] + 0.5);
        return found.slice(2 * number, 2 * number + 2).filter(({ spot }) => Math.abs(spot[1] - high) > NEAR)
            .map(({ spot }) => `${key} is cut off at ${spot}, and the height there is ${high}`);
    });
}

/**
 * How steeply an edge's line rises as it leaves its west or east node.
 * @param {Drawn[]} strips
 * @param {string} key
 * @param {boolean} isEast
 * @returns {number}
 */
function rise(strips, key, isEast) {
    const lines = strips.flatMap((it) => it.edges.get(key) ?? []);
    const [[x, y], [u, v]] = isEast ? lines[0] : [...lines[lines.length - 1]].reverse();
    return (y - v) / Math.abs(u - x);
}

/**
 * Switches whose upper leg isn't drawn above the lower one, or whose wedge doesn't lie along both.
 * @param {Drawn[]} strips
 * @param {Said} said
 * @param {string} graph
 * @returns {string[]}
 */
export function faultsOfLegs(strips, said, graph) {
    const lines = graph.split("\n").map((it) => it.split(" "));
    const above = new Set(lines.filter((it) => it[0] === "above").map(([, one, other]) => `e${one} e${other}`));
    return lines.filter((it) => it[0] === "node" && it[3] === "switch").flatMap(([, number, , , side]) => {
        const isEast = side === "east";
        const legs = [...said.ends].filter(([, ends]) => ends[isEast ? 0 : 1] === `n${number}`).map(([key]) => key);
        const [upper, lower] = above.has(legs.join(" ")) ? legs : legs.reverse();
        const rises = [rise(strips, lower, isEast), rise(strips, upper, isEast)];
        const [[x, y], ...corners] = strips.flatMap((it) => it.wedges.get(`n${number}`) ?? []);
        const found = corners.filter(([u]) => u > x === isEast).map(([u, v]) => (y - v) / Math.abs(u - x)).sort((one, other) =>
            one - other);
        const isAlong = found.length === 2 && found.every((it, at) => Math.abs(Math.atan(it) - Math.atan(rises[at])) <= 0.01);
        return [...above.has(`${upper} ${lower}`) && rises[0] < rises[1] ? []
            : [`the legs of n${number} aren't on their sides`],
            ...isAlong ? [] : [`the wedge of n${number} doesn't lie along its legs`]];
    });
}
