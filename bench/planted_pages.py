"""Wrong lines, each planted in a copy of the shell's modules of pages: the tests that are named are to fail."""
from __future__ import annotations

import shutil
import subprocess
import tempfile
from concurrent.futures import ThreadPoolExecutor
from pathlib import Path

TOP = Path(__file__).resolve().parent.parent
PARTS = ("shell", "examples", "cases/stations", "cases/draw")
Planted = tuple[str, str, str, str, str]
# what is planted, in which file of shell/, what is there, what comes in its place, and which test is asked
PLANTED: list[Planted] = [
    ("a signal's direction is turned", "both/page/station.js", '=== (known.direction === "up")', '!== (known.direction === "up")',
     "station"),
    ("signals are on the wrong side", "both/page/signs.js", "hand = isLeft ? -way : way", "hand = isLeft ? way : -way", "pictures"),
    ("a buffer stop is turned", "both/page/signs.js", "`M${-5 * out},-6 H0 V6 H${-5 * out}`", "`M${5 * out},-6 H0 V6 H${5 * out}`",
     "pictures"),
    ("texts aren't escaped: headings, commands", "both/page/markup.js", '.replaceAll("<", "&lt;")', "", "markup"),
    ("values aren't escaped", "both/page/markup.js", '.replaceAll(\'"\', "&quot;")', "", "markup"),
    ("colours of what is broken and kept are exchanged", "page/drawing.css", ".edge.broken { stroke: var(--broken, #b00020)",
     ".edge.broken { stroke: var(--party, #0059b3)", "pictures"),
    ("marks of what is broken and kept are exchanged", "both/page/kinds.js", 'mark(marks, law, "broken")', 'mark(marks, law, "party")',
     "pictures"),
    ("another party is marked", "both/page/kinds.js", "marks.edges).set(number, kind)", "marks.edges).set(number ^ 1, kind)", "pictures"),
    ("rings are gone", "both/page/strip.js", "isRinged ? ring(mark) : null", "null", "pictures"),
    ("names may lie on signals", "both/page/strip.js", "        this.field.add(new Sign(box, owner));\n", "", "layout"),
    ("names may lie on lines", "both/page/strip.js",
     "        for (const [start, end] of neighbours(placed)) this.field.add(new Line(start, end, kind ? 2.2 : isMain ? 1.8 : 1));\n", "",
     "layout"),
    ("legs are exchanged", "both/page/station.js", '[diverging, straight] = node.side === "upper" ? legs : [legs[1], legs[0]]',
     '[straight, diverging] = node.side === "upper" ? legs : [legs[1], legs[0]]', "station"),
    ("trains turn from leg to leg", "both/page/station.js", "one: legs.trunk, other: legs.diverging",
     "one: legs.straight, other: legs.diverging", "station"),
    ("paths of a crossing are parallel", "both/page/station.js",
     '{ one: west[1], other: east[0], position: "" }, { one: west[0], other: east[1], position: "" }',
     '{ one: west[0], other: east[0], position: "" }, { one: west[1], other: east[1], position: "" }', "station"),
    ("kilometres lack a digit", "both/messages/law_words.js", 'decimals.padEnd(3, "0")', 'decimals.slice(0, 3).padEnd(3, "0")', "lists"),
    ("the sheet has the signals too", "both/page/texts.js", "lines.slice(0, last + 1)", "lines.slice(0)", "kinds"),
    ("explain claims that all other laws are kept", "both/page/kinds.js", "Laws outside the list needn't be kept.",
     "It keeps all others.", "kinds"),
    ("explain's drawings have a scale", "both/page/kinds.js", "hasScale: false, part", "hasScale: true, part", "pictures"),
    ("letters are small", "both/page/places.js", "track: 10.5,", "track: 8.5,", "pictures"),
    ("what can't be seen isn't spelled", "both/page/letters.js", "/[\\p{C}\\p{Z}]/u", "/[\\p{Cc}\\p{Z}]/u", "markup"),
    ("any script may run", "both/page/written.js", "script-src ${scripts}", "script-src 'unsafe-inline'", "kinds"),
    ("the drawing of another pair", "terminal/page_command.js", 'given.set(`--${one}`, String(pair[0]))',
     'given.set(`--${one}`, String(pair[1]))', "command"),
    ("gone nodes have the keys of others", "both/page/changes.js", "`gone-${kind}${number}`", "`${kind}${number}`", "pictures"),
    ("strips leave columns out", "both/page/columns.js", "new Strip(one + 1, other,", "new Strip(one + 2, other,", "pictures"),
    ("y falls in DXF", "both/page/cad.js", "MARGIN + row *", "MARGIN - row *", "lists"),
    ("two names that look alike look alike", "both/page/letters.js", "this.alike.has(text) ? spelledOut(text) : visible(text)",
     "visible(text)", "markup"),
    ("wedges point from the legs", "both/page/strip.js", 'side === "east" ? points : points.reverse()',
     'side === "west" ? points : points.reverse()', "pictures"),
    ("a pointer finds a sign on its strokes alone", "page/drawing.css", "stroke: none; pointer-events: all", "stroke: none", "pictures"),
    ("what is ticked off isn't struck out", "both/page/changes.js", 'element("span", {}, text)', "text", "kinds"),
    ("a sentence of a fault leads nowhere", "both/page/kinds.js", "it.meant.includes(line))", "false)", "faults"),
    ("strips are higher than the paper", "both/page/drawing.js", "Math.max(ROW, each_)", "Math.max(ROW, 9 * each_)", "pictures"),
    ("small pictures have names", "both/page/drawing.js", "    plan.layBare();\n", "    plan.lay();\n", "pictures"),
    ("lines of a fault are shown twice", "both/page/faults.js", "if (part.first <= end) {", "if (part.first < 0) {", "faults"),
    ("a line goes straight from node to node", "both/page/strip.js", "const placed = this.clipped(edge).map((it) => this.at(it));",
     "const placed = [this.clipped(edge)[0], this.clipped(edge).at(-1) ?? [0, 0]].map((it) => this.at(it));", "lines"),
    ("a line is that of another edge", "both/page/strip.js", 'key("e", edge.number) },', 'key("e", edge.number ^ 1) },', "lines"),
    ("a line's bend is a column aside", "both/page/strip.js", "const placed = this.clipped(edge).map((it) => this.at(it));",
     "const placed = this.clipped(edge).map(([x, y], at, all) => this.at([x + Number(at > 0 && at < all.length - 1), y]));", "lines"),
    ("lines are cut off at another height", "both/page/strip.js", "+ (v - y) * (column - x) / (u - x)", "", "lines"),
    ("two versions have columns of their own", "both/page/kinds.js", "let pictures = drawAlike(scenes);",
     "let pictures = scenes.map((it) => drawAlike([it])[0]);", "lines"),
    ("two versions have frames of their own", "both/page/drawing.js", "for (const picture of chosen) picture.frame(at, box);", "", "lines"),
    ("signals on slopes lie beside their lines", "both/page/strip.js", "heightAt(x, this.#lineOf(signal)) ?? y", "y", "pictures"),
    ("pages are printed on one paper", "page/page.css", "size: PAPER;", "size: A3 landscape;", "paper"),
    ("what can't be pressed is printed", "page/page.css", "  .tools, .screen, .said, details { display: none }\n", "", "paper"),
    ("a long list is cut off on paper", "page/page.css", "max-height: none; overflow: visible; position: static; columns", "columns",
     "paper"),
    ("a dark screen prints dark", "page/page.css", "@media screen and (prefers", "@media (prefers", "paper"),
    ("a sheet that is changed passes", "both/page/page_check.js", "push({ what, isRight })", "push({ what, isRight: true })", "check"),
]


def plant(base: Path, one: Planted) -> tuple[str, list[str]]:
    """the answer of the tests with one wrong line"""
    what, name, old, new, asked = one
    with tempfile.TemporaryDirectory(dir=base) as folder:
        copy = Path(folder) / "clone"
        for part in PARTS:
            shutil.copytree(TOP / part, copy / part)
        path = copy / "shell" / name
        text = path.read_text(encoding="utf-8")
        if old not in text:
            return what, ["it can't be planted: the line isn't there"]
        path.write_text(text.replace(old, new), encoding="utf-8")
        ran = subprocess.run(["node", "--test", f"tests/page_{asked}.test.js"], cwd=copy / "shell", capture_output=True, timeout=900)
        return what, [] if b"\nnot ok" in ran.stdout else ["no test fails"]


def tried(words: tuple[str, ...] = ()) -> list[tuple[str, list[str]]]:
    chosen = [one for one in PLANTED if not words or any(word in one[0] for word in words)]
    with tempfile.TemporaryDirectory() as base, ThreadPoolExecutor(2) as pool:
        found = []
        for answer in pool.map(lambda one: plant(Path(base), one), chosen):
            print(f"{answer[0]}: " + (answer[1][0] if answer[1] else "a test fails"), flush=True)
            found.append(answer)
    return found
