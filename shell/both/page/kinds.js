/**
 * The pages of the commands: what is drawn, what is said of it, and what a fault's page says.
 */
import { origin } from "../messages/explained.js";
import * as railml from "../railml.js";
import { sidesOf } from "../sides/said.js";
import { TrackGraph } from "../track_graph.js";
import { dxf } from "./cad.js";
import { Changes } from "./changes.js";
import { Marks, alone, drawAlike, small } from "./drawing.js";
import { code, command } from "./facts.js";
import { ended, excerpts, lineOf } from "./faults.js";
import { visible } from "./letters.js";
import { Element, element } from "./markup.js";
import { grouped } from "./numbers.js";
import { Page } from "./page.js";
import { plot } from "./plot.js";
import * as sentences from "./sentences.js";
import * as texts from "./texts.js";

/** @typedef {import("./drawing.js").Scene} Scene */
/** @typedef {import("./facts.js").Provenance} Provenance */
/** @typedef {import("./faults.js").Excerpt} Excerpt */
/** @typedef {import("./markup.js").Child} Child */
/** @typedef {import("./run.js").Run} Run */
/** @typedef {import("./run.js").Said} Said */
/** @typedef {import("./station.js").Station} Station */
/** @typedef {import("./texts.js").Drawing} Drawing */
/** @typedef {import("./texts.js").Law} Law */

const CAPTION = "Not to scale: kilometres rise from left to right. Seen this way, upper is on the left at switches and "
    + "crossings.";
const OF_SIGNALS = " Signals are in order along their own piece of track alone. A kilometre of the axis is that of all that is "
    + "in its column.";
const OF_OBJECTS = " What lies at a track is in order along its own piece of track.";
const NO_LOG = "No log is beside this page. If the page carries a certificate, the line below its title says so when it is opened. "
    + "With --log NAME the search leaves its log, which others can judge; with --certify the page carries a certificate.";
// of a paper's width: what a framed picture may have, and each of two side by side
const FRAMED = 0.97;
const HALF = 0.475;
/** @type {[string, number][]} */
const GRID = [["--width", 40], ["--height", 8], ["--least", 1]];
const LARGEST = [64, 12];
const TITLES = new Map([["verify", ["railML file", "Sheet"]],
    ["redraw", ["railML file", "Former railML file", "Former sheet"]]]);

// ---- what is said below

/** @param {[string, string, string][]} rows @returns {Element} */
function table(rows) {
    return element("table", { class: "values" }, rows.map(([name, number, words]) => element("tr", {}, element("td", {}, name),
        element("td", { class: "number" }, number), element("td", {}, words))));
}

/** @param {Page} page @param {texts.Values} values @param {number[]} grid */
function addValues(page, values, grid) {
    page.fact("Values", table(sentences.measured(values)), `On a grid of ${sentences.gridInWords(grid)}.`);
}

/** @param {Page} page @param {Run} run */
function addNotShown(page, run) {
    const found = run.record.notShown.map((it) => ended(page.station.shown(it)));
    if (found.length) page.fact("What the drawing doesn't show", ...found);
}

/** @param {Page} page @param {Run} run what in the file confirms the sides; what is open is said with what the drawing doesn't show */
function addSides(page, run) {
    const document = railml.read(run.content(0)), { good } = document.trouble ? { good: [] } : sidesOf(document);
    if (good.length) page.fact("Sides", ...good.map(sentences.sentence));
}

/**
 * The log, by its name and its hash; or what is left of it, beside the page.
 * @param {Page} page
 * @param {Run} run
 */
function addCertificate(page, run) {
    const { log, hintsBeside } = run.record;
    const left = `${hintsBeside}, beside this page, has what is left of the search's log. It certifies what the sheet claims, `
        + "where recheck accepts it.";
    const whole = "The log of the search certifies what the sheet claims, where check accepts it. It has "
        + `${grouped(log?.size ?? 0)} bytes.`;
    page.fact("What certifies it", hintsBeside ? left : !log ? NO_LOG : log.sha256 ? whole : `A log was asked for. ${log.why}`);
}

/** @param {Run} run @param {Station} station @returns {Provenance} what the title block says of a run */
function provenance(run, station) {
    const { page, frontWords, words, inputs, log, build, version, date } = run.record;
    const titles = TITLES.get(run.command) ?? ["railML file"];
    const files = inputs.slice(0, titles.length).map((it, at) =>
        /** @type {Provenance["files"][0]} */ ([titles[at], it.facts]));
    return { title: station.file.title || run.stem || "no station", build, version, date, check: [], needs: "",
        files: log ? [...files, ["Log", log]] : files,
        madeBy: ["./railplan", ...page ? ["--html", page] : [], ...frontWords, ...words] };
}

/** @type {(run: Run) => number[]} the grid that the words ask for */
const gridOf = (run) => GRID.map(([name, usual]) => Number(run.record.options.get(name) ?? usual));

/** @type {(run: Run, name: string) => string} the name of a file beside the page, as the page's own was typed */
const besidePage = ({ record: { page } }, name) => page.slice(0, page.lastIndexOf("/") + 1) + name;

/**
 * The sheet, to be saved from the page, its hash, and the command that judges it again.
 * @param {Page} page
 * @param {Run} run
 */
function addSheet(page, run) {
    const { sheetBeside, hintsBeside, sheetHash, inputs, log } = run.record;
    const { provenance: facts } = page;
    const name = sheetBeside ? besidePage(run, sheetBeside) : `${run.stem || "station"}.sheet`;
    page.sheet = texts.sheetPart(run.record.output);
    const size = new TextEncoder().encode(page.sheet).length;
    facts.files.splice(inputs.length, 0, ["Sheet", { name, sha256: sheetHash, size, date: null, why: "" }]);
    facts.needs = sheetBeside ? `${name} is the sheet that this page holds.`
        : `Save this page's sheet first, as ${name} in the folder where you type this.`;
    if (hintsBeside) {
        facts.check = ["./railplan", "recheck", run.file, name, besidePage(run, hintsBeside)];
        facts.needs += " Hand over the three files of this line with the page.";
    } else if (log?.sha256) facts.check = ["./railplan", "check", run.file, name, log.name];
    else {
        facts.check = ["./railplan", "verify", run.file, name];
        facts.needs += " Without a log only the drawing's laws can be judged.";
    }
}

// ---- the pages

/** @param {Run} run @param {string} subject @returns {Page} */
function pageOf(run, subject) {
    const station = run.station();
    const page = new Page(subject, station, provenance(run, station));
    const { trouble } = station.file;
    if (trouble) page.fact("Names and ends", `They couldn't be read from the file (${trouble}), so the page lacks them.`);
    return page;
}

/** @type {(grid: number[]) => string} */
const noDrawing = (grid) => `There is no drawing. It was looked for on a grid of ${sentences.gridInWords(grid)}.`;

/** @param {Run} run @returns {Page} */
function drawPage(run) {
    const { sheet, signals } = texts.readSignals(run.record.output);
    const page = pageOf(run, `Track schematic${signals.length ? " with signals" : ""}`);
    page.badge = sentences.badgeOf(sheet.ending[0]);
    if (sheet.drawing) {
        const real = signals.filter((it) => !page.station.signal(it.name)?.isVirtual);
        const scene = run.scene(sheet.drawing, page.station, { signals: real });
        page.later(() => page.draw(scene, [CAPTION, real.length ? OF_SIGNALS : "",
            scene.pieces.located.some((it) => it.place) ? OF_OBJECTS : ""]));
        addValues(page, sheet.values, sheet.grid);
        addSides(page, run);
        addNotShown(page, run);
        addSheet(page, run);
    } else page.lead = [noDrawing(sheet.grid)];
    page.fact("How the search ended", sentences.endingOfSearch(sheet.ending, sheet.order));
    addCertificate(page, run);
    return page;
}

/** @param {Run} run @returns {string[]} the run's own words, which judge again */
const sameAgain = (run) => ["./railplan", ...run.record.words];

/** @param {Run} run @returns {Page} */
function verifyPage(run) {
    const [law, sheet] = [texts.readVerdict(run.record.output), texts.readSheet(run.text(1))];
    const page = pageOf(run, "Track schematic, judged by the seven laws");
    if (!sheet.drawing) throw new texts.NoPage("the sheet has no drawing");
    const marks = new Marks();
    page.lead = ["The drawing is lawful: it keeps all seven laws."];
    page.badge = ["settled", "lawful"];
    if (law) {
        mark(marks, law, "broken");
        if (law.number === 1) marks.limits = [sheet.grid[0], sheet.grid[1]];
        page.badge = ["broken", `law ${law.number} is broken`];
        page.lead = [lawItem(law, sentences.broken(law, sheet.drawing, page.station), "b")];
    }
    const isRising = !law || law.number > 2;
    const caption = [isRising ? CAPTION : "Not to scale, and kilometres needn't rise from left to right here."];
    if (marks.limits) caption.push(" The broken line is the grid's last column or row.");
    const scene = run.scene(sheet.drawing, page.station, { marks, hasScale: isRising });
    page.later(() => page.draw(scene, caption));
    addValues(page, sheet.values, sheet.grid);
    page.fact("What was judged", "The drawing of the sheet that is named. What the sheet says of a search wasn't judged.");
    page.provenance.check = sameAgain(run);
    return page;
}

/**
 * What a law asks; its parties light up with it.
 * @param {Law} law
 * @param {string} text
 * @param {string} tag
 * @returns {Element}
 */
function lawItem(law, text, tag) {
    const parties = law.parties.map(([kind, number]) => `${kind[0]}${number}`).join(" ");
    return element(tag, { class: "law", "data-parties": parties, tabindex: 0 }, text);
}

/** @param {Marks} marks @param {Law} law @param {string} kind marks the law's parties so */
function mark(marks, law, kind) {
    for (const [what, number] of law.parties) (what === "node" ? marks.nodes : marks.edges).set(number, kind);
}

const ENDS_OF_EXPLAIN = new Map([["drawing exists", "A lawful drawing exists on this grid."],
    ["why conflicts", "The search for a reason ended early, since its budget of conflicts was spent."],
    ["why room", "The search for a reason ended early, since there was no room for more."]]);

/** @param {Run} run @returns {Page} */
function explainPage(run) {
    const why = texts.readWhy(run.record.output);
    const [page, grid] = [pageOf(run, "Why there is no drawing"), gridOf(run)];
    const isLargest = grid[0] === LARGEST[0] && grid[1] === LARGEST[1];
    page.fact("Grid", sentences.sentence(sentences.gridInWords(grid)), "All that is said here is of this grid."
        + (isLargest ? "" : " On a larger one there may be a drawing."));
    page.provenance.check = sameAgain(run);
    const ending = ENDS_OF_EXPLAIN.get(why.ending);
    if (ending) {
        page.lead = [ending];
        page.badge = why.ending === "drawing exists" ? ["settled", "a drawing exists"] : ["open", "search stopped"];
    } else if (!why.laws.length) {
        page.lead = ["The lines alone don't fit on this grid: no drawing has each line between its nodes on it."];
        page.badge = ["broken", "no drawing"];
    } else {
        page.badge = ["broken", "no drawing keeps all of these"];
        addPanels(page, run, why);
    }
    return page;
}

/** @param {Run} run @returns {TrackGraph | null} of a file that can be read to its end */
function trackGraph(run) {
    const document = railml.read(run.content(0));
    return document.root && !document.open.length ? new TrackGraph(document) : null;
}

/** @param {texts.Why} why @param {Law} given the law that is given up @param {Drawing} drawing @returns {Marks} */
function marksWithout(why, given, drawing) {
    const marks = new Marks();
    for (const other of why.laws) mark(marks, other, "party");
    mark(marks, given, "broken");
    for (const { number } of drawing.nodes) if (!marks.nodes.has(number)) marks.nodes.set(number, "other");
    for (const { number } of drawing.edges) if (!marks.edges.has(number)) marks.edges.set(number, "other");
    return marks;
}

/**
 * For each law of the list a drawing that gives it up, and keeps the others of the list.
 * @param {Page} page
 * @param {Run} run
 * @param {texts.Why} why
 */
function addPanels(page, run, why) {
    const graph = why.laws.some((it) => it.number === 6) ? trackGraph(run) : null;
    const asked = why.laws.map((law) => sentences.asked(law, why.without[0], page.station) + (graph && law.number === 6
        ? page.station.shown(origin(graph, law.parties[0][1], law.parties[1][1])) : ""));
    const items = why.laws.map((law, at) => lawItem(law, `${sentences.sentence(asked[at])} (law ${law.number})`, "li"));
    page.lead = ["No drawing on this grid keeps all of these at once. Give up any one of them, and a drawing keeps the others.",
        element("ol", {}, items)];
    page.later(() => addDrawings(page, run, why, asked));
    page.fact("Colours", element("p", {}, element("span", { class: "broken" }, "Red, broken lines and squares"),
        ": what the drawing gives up."),
    element("p", {}, element("span", { class: "party" }, "Blue, solid lines and circles"), ": what it keeps of the list."),
    "Grey: what no law of the list speaks of.");
}

/** @param {Page} page @param {Run} run @param {texts.Why} why @param {string[]} asked what each law asks */
function addDrawings(page, run, why, asked) {
    const part = why.laws.length > 1 ? HALF : FRAMED;
    why.laws.forEach((law, at) => {
        const kept = why.laws.map((_, other) => String(other + 1)).filter((_, other) => other !== at);
        const keeps = kept.length
            ? `It keeps ${kept.length === 1 ? "number" : "numbers"} ${sentences.listed(kept)} of the list. `
            : "The list has no other law. ";
        const scene = run.scene(why.without[at], page.station,
            { marks: marksWithout(why, law, why.without[at]), hasScale: false, part });
        page.draw(scene, [element("b", {}, `Given up: ${at + 1}. `),
            `${sentences.sentence(asked[at])} ${keeps}Laws outside the list needn't be kept.`],
                { kind: "panel", title: `without ${at + 1}` });
    });
    page.align();
}

/** @param {Run} run @returns {Page} */
function redrawPage(run) {
    const [found, former] = [texts.readMoved(run.record.output), texts.readSheet(run.text(2))];
    const page = pageOf(run, "Track schematic, redrawn with the fewest nodes moved");
    page.badge = sentences.badgeOf(found.ending);
    if (found.drawing && former.drawing) {
        page.badge = found.ending === "best" ? ["settled", "none with fewer moved"] : ["open", "search stopped"];
        page.lead = [`Of ${found.of} nodes that the former drawing has too, ${found.moved} moved. A grid little larger than `
            + "the former drawing gives a narrower one."];
        const { drawing } = found;
        const changes = new Changes(former.drawing, drawing, run.station(1), page.station);
        page.changes = changes.items();
        page.later(() => addVersions(page, run, changes));
        page.fact("Marks", "A circle: a node that moved. A square on its corner: a new one. A cross: one that is gone.",
            "Broken lines: pieces of track that are new or gone.");
        addValues(page, found.values, found.grid);
        addSides(page, run);
        addNotShown(page, run);
    } else page.lead = [noDrawing(found.grid)];
    page.fact("How the search ended", sentences.endingOfMoved(found.ending));
    addCertificate(page, run);
    page.provenance.check = sameAgain(run);
    return page;
}

/**
 * Both drawings, marked, a column of one as wide as that of the other, and what changed from one to the other.
 * @param {Page} page
 * @param {Run} run
 * @param {Changes} changes
 */
function addVersions(page, run, changes) {
    const scenes = [run.scene(changes.old, changes.former, { marks: changes.oldMarks(), title: "the former drawing", part: HALF,
        key: (kind, number) => changes.oldKey(kind, number) }),
    run.scene(changes.now, page.station, { marks: changes.newMarks(), title: "the new drawing", part: HALF })];
    let pictures = drawAlike(scenes);
    const isWide = pictures[0].strips.length > 1;
    if (isWide) {
        for (const scene of scenes) scene.part = 1;
        pictures = drawAlike(scenes);
    }
    scenes.forEach((scene, at) => {
        const word = element("b", {}, at ? "Now. " : "Before. ");
        page.draw(scene, [word, CAPTION], { picture: pictures[at], kind: isWide ? "" : "version", title: scene.title });
    });
    page.align();
    page.list(scenes[1], pictures[1]);
}

/** @type {Map<string, sentences.Badge>} */
const BADGES_OF_FRONT = new Map([["whole", ["settled", "these are all"]], ["none", ["settled", "no drawing on this grid"]]]);

/** @param {Run} run @returns {Page} */
function frontPage(run) {
    const found = texts.readFront(run.record.output);
    const { drawings } = run.record;
    const [one, other] = found.criteria;
    const page = pageOf(run, `The best pairs of ${one} and ${other}`);
    page.badge = BADGES_OF_FRONT.get(found.ending) ?? ["open", "search stopped"];
    const links = new Map([...drawings.keys()].map((it) => [it, `·pair-${it.replace(",", "-")}`]));
    if (found.pairs.length) {
        page.figures.push({ picture: null, parts: [plot(found.pairs, found.criteria, links)], kind: "front", caption: [
            "Each point is a pair that some lawful drawing has, and no lawful drawing has less of one without more of the "
            + "other. What has at least the values of a point lies in the grey."] });
    }
    for (const pair of found.pairs) {
        const drawn = drawings.get(String(pair));
        const drawing = drawn && texts.readSheet(drawn.text).drawing;
        if (!drawn || !drawing) continue;
        const title = `${one} ${pair[0]}, ${other} ${pair[1]}`;
        page.later(() => page.draw(run.scene(drawing, page.station), [element("b", {}, `${title}. `), "Had from ",
            command(["./railplan", ...drawn.words]), "."], { kind: "choice", id: links.get(String(pair)), title }));
    }
    page.fact("Pairs", table(found.pairs.map((it) => [`${one} ${it[0]}`, "", `${other} ${it[1]}`
        + (drawings.has(String(it)) ? "" : ", of which there is no drawing here")])),
    `On a grid of ${sentences.gridInWords(gridOf(run))}.`);
    page.fact("How the search ended", sentences.endingOfFront(found.ending));
    page.provenance.check = sameAgain(run);
    return page;
}

// ---- faults

/**
 * The fault in words, the line that the program gave, and the lines of the file that are meant.
 * @param {Run} run
 * @returns {Page}
 */
function faultPage(run) {
    const page = pageOf(run, "Not drawn: a fault");
    page.badge = ["broken", "fault"];
    const { notes, inputs, output } = run.record;
    const shown = excerpts(notes, inputs);
    const said = notes.map((it) => [placeOf(it, shown), ended(it.text)]);
    page.lead = said.map((it, at) => element("p", {}, at ? it : element("b", {}, it)));
    const line = lineOf(output);
    if (line) page.lead.push(element("p", {}, "The program's own line: ", code(line)));
    page.figures = shown.map((part, at) => ({ picture: null, parts: [excerpt(part, at + 1)], caption: [part.name],
        kind: "excerpt" }));
    page.provenance.check = sameAgain(run);
    return page;
}

/**
 * The line that a sentence is about, as it leads to the excerpt that has it; nothing where none has it.
 * @param {Said} said
 * @param {Excerpt[]} shown
 * @returns {Child}
 */
function placeOf({ file, line }, shown) {
    const found = shown.findIndex((it) => it.name === file && it.meant.includes(line));
    const before = new Set(shown.map((it) => it.name)).size > 1 ? `${file}, ` : "";
    return found < 0 ? null : [element("a", { href: `#·line-${found + 1}-${line}` }, `${before}line ${line}`), ": "];
}

/**
 * Lines of a file, with those that are meant marked.
 * @param {Excerpt} part
 * @param {number} figure
 * @returns {Element}
 */
function excerpt(part, figure) {
    return element("table", { class: "lines-of-file" }, part.lines.map((line, at) => {
        const number = part.first + at;
        const isMeant = part.meant.includes(number);
        return element("tr", { class: isMeant && "meant", id: isMeant && `·line-${figure}-${number}` },
            element("td", { class: "number" }, `${isMeant ? "▸ " : ""}${number}`),
            element("td", {}, element("code", {}, visible(line.replaceAll("\t", "    ")))));
    }));
}

// ---- the whole

/** @type {Map<string, (run: Run) => Page>} */
export const PAGES = new Map([["draw", drawPage], ["signals", drawPage], ["verify", verifyPage], ["explain", explainPage],
    ["redraw", redrawPage], ["front", frontPage]]);

/**
 * The page of a run, or of its fault, without its drawings.
 * @param {Run} run
 * @returns {Page}
 */
export function outline(run) {
    const kind = run.isAnswered ? PAGES.get(run.command) : undefined;
    return (kind ?? faultPage)(run);
}

/**
 * The page of a run, or of its fault.
 * @param {Run} run
 * @returns {Page}
 */
export function make(run) {
    return outline(run).drawn();
}

/**
 * The drawing of a page as a small picture; nothing where it has none.
 * @param {Page} page
 * @param {string} style
 * @returns {string}
 */
export function smallOf({ scene }, style) {
    return scene ? `${alone(small(scene), style, scene.title || "the drawing")}\n` : "";
}

/**
 * The drawing of a page as DXF; nothing where it has none.
 * @param {Page} page
 * @returns {string}
 */
export function dxfOf({ scene, picture }) {
    return scene && picture ? dxf(scene, picture) : "";
}
