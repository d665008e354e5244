"""Each interaction of a page, driven by keys and pointers in a browser, and what is to be seen of it."""
from __future__ import annotations

import json
import re
import subprocess
from pathlib import Path
from typing import Callable, Iterator

from browser import Browser, Gone, Tab, centre
from drawn import A3, MM

SIGN = 'svg.strip .sign[data-key="{}"]'
ROW = 'aside.list tr[data-key="{}"]'
IN_SIGHT = """(() => { const it = document.querySelector('.said h2'), box = it.getBoundingClientRect();
  return it.contains(document.elementFromPoint(box.left + 5, (box.top + box.bottom) / 2)) })()"""
# what the checks ask a page for, beside what its script knows of it
ASKED = """
  window.rows = [...document.querySelectorAll('aside.list tbody tr')];
  window.chosen = () => document.querySelector('aside.list tr.chosen')?.dataset.key ?? null;
  window.letGo = () => document.querySelector('[data-do=let]')?.click();
  window.choose = key => rows.find(it => it.dataset.key == key).click();
  window.seen = () => document.querySelector('svg.strip').viewBox.baseVal.x;
"""
Check = tuple[str, bool]
Way = tuple[list[str], list[str]]
Node = list[str]
Edges = dict[int, tuple[int, int]]


def marked(tab: Tab, name: str) -> list[str]:
    """the keys of what has a mark"""
    return sorted(set(tab.run(f"[...document.querySelectorAll('.{name}[data-key]')].map(it => it.dataset.key)")))


def said(tab: Tab) -> str:
    return re.sub(r"\s+", " ", tab.run("[...document.querySelectorAll('.said h2, .said dt, .said dd')]"
                                        ".map(it => it.textContent).join(' ')"))


def scale(tab: Tab) -> float:
    return tab.run("(svg => svg.getScreenCTM().a)(document.querySelector('svg.strip'))")


def measure(tab: Tab) -> list[float]:
    """the height of a name and the width of a line, as they are seen"""
    return tab.run("""(() => { letGo(); document.body.dispatchEvent(new PointerEvent('pointerover', {bubbles: true})); const name = document.querySelector('svg.strip .name.node');
      return [name.getBoundingClientRect().height,
        parseFloat(getComputedStyle(document.querySelector('svg.strip .edge')).strokeWidth)] })()""")


def middle(tab: Tab, what: str) -> tuple[float, float]:
    """the middle of what is there"""
    found = centre(tab, what)
    if found is None:
        raise Gone(f"the page has no {what}")
    return found


def know(tab: Tab, page: Path) -> None:
    """hands a page what its own script knows of it, and what is asked for by short names"""
    known = subprocess.run(["node", str(Path(__file__).with_name("page_known.js")), str(page)], capture_output=True, check=True, text=True)
    tab.run(f"window.known = {known.stdout}; window.objects = known?.objects; {ASKED}")


# ---- draw and signals


def search(tab: Tab) -> Iterator[Check]:
    rows = tab.run("rows.length")
    tab.key("/")
    yield "`/` goes to the search", tab.run("document.activeElement.classList.contains('find')")
    tab.type("switch")
    left = tab.run("rows.filter(it => !it.hidden).length")
    yield "a word leaves the rows that have it", 0 < left < rows and tab.run(
        "rows.filter(it => !it.hidden).every(it => it.textContent.includes('switch'))")
    tab.key("Enter")
    first = tab.run("chosen()")
    yield "Enter chooses the first", first == tab.run("rows.find(it => !it.hidden).dataset.key")
    tab.key("n")
    second = tab.run("chosen()")
    yield "`n` chooses the next", second != first and second == tab.run("rows.filter(it => !it.hidden)[1].dataset.key")
    tab.key("N")
    yield "`N` chooses the one before", tab.run("chosen()") == first
    tab.key("/")
    tab.key("Escape")
    yield "Escape empties the search", tab.run("rows.every(it => !it.hidden)")
    tab.key("Escape")
    yield "Escape lets go", tab.run("chosen()") is None and tab.run("location.hash") == ""


def both_ways(tab: Tab, switch: str) -> Iterator[Check]:
    yield "the list is beside the drawing", tab.run("""(() => {
      const [list, drawing] = ['aside.list', 'svg.strip'].map(it => document.querySelector(it).getBoundingClientRect());
      return drawing.right <= list.left && list.top < drawing.bottom && list.right <= innerWidth })()""")
    tab.run(f"document.querySelector('{SIGN.format(switch)}').scrollIntoView({{block: 'center'}})")
    tab.move(*middle(tab, SIGN.format(switch)))
    yield "a sign lights its row", tab.run(f"document.querySelector('{ROW.format(switch)}').classList.contains('over')")
    tab.run(f"document.querySelector('{ROW.format(switch)}').scrollIntoView({{block: 'center'}})")
    tab.move(*middle(tab, ROW.format(switch)))
    yield "a row lights its sign", tab.run(f"document.querySelector('{SIGN.format(switch)}').classList.contains('over')")
    tab.click(*middle(tab, ROW.format(switch)))
    yield "a row is chosen", marked(tab, "chosen") == [switch]
    yield "its link is its id", tab.run(f"decodeURIComponent(location.hash) == '#' + objects['{switch}'].link")


def in_sight(tab: Tab) -> Iterator[Check]:
    """what a sign says is in sight where it is chosen, though its row is far down; a button lets go"""
    last = tab.run("rows.filter(it => it.dataset.key[0] == 'n').pop().dataset.key")
    for what, size in (("on a low screen", (1600, 420)), ("on a phone", (390, 800))):
        tab.size(*size, what == "on a phone")
        tab.run("letGo(); window.scrollTo(0, 0)")
        tab.run(f"document.querySelector('{SIGN.format(last)}').scrollIntoView({{block: 'center', inline: 'center'}})")
        tab.click(*middle(tab, SIGN.format(last)))
        yield f"what a sign says is in sight {what}", marked(tab, "chosen") == [last] and tab.run(IN_SIGHT)
        tab.click(*(centre(tab, ".said button") or (1, 1)))
        yield f"a button lets go of it {what}", marked(tab, "chosen") == []
    tab.run("rows[0].click(); letGo()")
    tab.size(1600, 1000)


def switches(tab: Tab, switch: str) -> Iterator[Check]:
    text = said(tab)
    yield "a switch says its legs, the next nodes and sides", all(re.search(it, text) for it in (
        r"legs in the (east|west); the diverging leg is on the (upper|lower) side", r"trunk (east|west), by .* to .*km",
        r"straight leg (east|west), by", r"diverging leg (east|west), by"))
    lit = marked(tab, "related")
    yield "its legs light up", sum(it.startswith("e") for it in lit) == 3


def pieces(tab: Tab) -> Iterator[Check]:
    edge = tab.run("Object.keys(objects).find(it => it[0] == 'e' && objects[it].facts.some(f => f[0] == 'signal')) || 'e0'")
    tab.run(f"document.querySelector('svg.strip [data-key=\"{edge}\"] .hit').scrollIntoView({{block: 'center'}})")
    at = tab.run(f"""(() => {{ const it = document.querySelector('svg.strip [data-key="{edge}"] .hit');
      const p = it.getPointAtLength(it.getTotalLength() * 0.37).matrixTransform(it.getScreenCTM());
      return [p.x, p.y + 3] }})()""")
    tab.click(*at)
    text = said(tab)
    yield "a piece is chosen on its line, three points beside it", marked(tab, "chosen") == [edge]
    yield "a piece says its track, kilometres and length", all(it in text for it in ("id ", "km ", "from ", "to ", "length "))
    columns = tab.run(f"objects['{edge}'].facts.filter(f => f[0] == 'signal').map(f => known.signals[f[2]][1])")
    yield "its signals come in their order", columns == sorted(columns) and len(columns) == text.count("signal ")


def paths(tab: Tab, expected: Callable[[str, str], Way | None]) -> Iterator[Check]:
    """the path between each two of some signals is that of another search"""
    signals = tab.run("Object.keys(known.signals)")
    some, good, found = signals[:: max(1, len(signals) // 12)][:12], 0, 0
    for one in some:
        for other in some:
            if one == other:
                continue
            tab.run(f"letGo(); choose('{one}'); choose('{other}')")
            wanted = expected(one, other)
            text = said(tab)
            if wanted is None:
                good += text.startswith("No path between")
                continue
            found += 1
            pieces_, positions = wanted
            lit = marked(tab, "path")
            seen = re.findall(r"switch (\S+|.+?) (straight|diverging)(?= |$)", text)
            good += [it for it in lit if it[0] == "e"] == sorted(set(pieces_)) and [it[1] for it in seen] == positions
    yield (f"paths between {len(some)} signals with each switch's position ({found} paths)",
           good == len(some) * (len(some) - 1) and found > 0)


def zooming(tab: Tab) -> Iterator[Check]:
    tab.run("window.scrollTo(0, 0); document.activeElement.blur()")
    before, letters = scale(tab), measure(tab)
    at = middle(tab, "svg.strip")
    tab.move(*at)
    tab.wheel(at[0], at[1], -120)
    tab.run("new Promise(r => setTimeout(r, 80))")
    yield "control and the wheel bring it nearer", scale(tab) > before * 1.1
    tab.key("+")
    tab.run("new Promise(r => setTimeout(r, 50))")
    near, now = scale(tab), measure(tab)
    yield "`+` brings it nearer", near > before * 1.5
    yield "letters and lines keep their width", all(abs(a - b) < 0.6 for a, b in zip(letters, now))
    left = tab.run("seen()")
    tab.key("ArrowRight")
    yield "an arrow moves it", tab.run("seen()") > left
    left = tab.run("seen()")
    tab.press(at[0], at[1], "mousePressed")
    tab.move(at[0] - 60, at[1], 1)
    tab.press(at[0] - 60, at[1], "mouseReleased")
    yield "the pointer drags it", tab.run("seen()") > left + 5
    tab.key("0")
    yield "`0` shows the whole", abs(scale(tab) - before) < 1e-6


def tabbed(tab: Tab, what: str) -> bool:
    """whether Tab leads from the top of the page to what a selector finds"""
    tab.run("document.activeElement.blur(); window.scrollTo(0, 0)")
    for _ in range(60):
        tab.key("Tab")
        if tab.run(f"!!document.activeElement.closest({json.dumps(what)})"):
            return True
    return False


def keyboard(tab: Tab) -> Iterator[Check]:
    """a row is chosen with the keyboard alone: Tab to the list, arrows and Enter"""
    tab.run("letGo()")
    yield "Tab leads to the list", tabbed(tab, "aside.list tr")
    at = tab.run("rows.indexOf(document.activeElement)")
    tab.key("ArrowDown")
    key = tab.run("document.activeElement.dataset.key")
    yield "an arrow leads to the next row", key == tab.run(f"rows[{at} + 1].dataset.key")
    tab.key("Enter")
    yield "Enter chooses it", marked(tab, "chosen") == [key]


def saving(tab: Tab, sheet: str) -> Iterator[Check]:
    """the texts that the buttons save, caught before they become files"""
    tab.run("""window.caught = {}; window.realURL = URL.createObjectURL;
      URL.createObjectURL = blob => { window.last = blob; return realURL.call(URL, blob) };
      HTMLAnchorElement.prototype.click = function () { caught[this.download] = last }""")
    for deed in ("svg", "dxf", "csv", "sheet"):
        tab.run(f"document.querySelector('[data-do={deed}]').click()")
    tab.run("new Promise(r => setTimeout(r, 200))")
    texts = tab.run("""(async () => Object.fromEntries(await Promise.all(Object.entries(caught).map(
      async ([k, v]) => [k.split('.').pop(), await v.text()]))))()""")
    yield "the sheet is saved as it was", texts.get("sheet") == sheet
    svg = texts.get("svg", "")
    yield "SVG is saved", bool(re.match(r"<svg [^>]*xmlns", svg)) and "var(" not in svg and "<style>" in svg
    yield "DXF is saved", texts.get("dxf", "").endswith("0\r\nEOF\r\n")
    yield "CSV is saved", texts.get("csv", "").startswith("km,kind,name,id,")


def links(tab: Tab, page: Path, id: str, key: str) -> Iterator[Check]:
    tab.open(page, "#" + id)
    yield f"#{id} is a link", marked(tab, "chosen") == [key]


def looks(tab: Tab, page: Path) -> Iterator[Check]:
    """dark and light, and a phone"""
    colours = []
    for dark in (False, True):
        tab.media(dark=dark)
        tab.open(page)
        colours.append(tab.run("[getComputedStyle(document.body).backgroundColor, "
                               "getComputedStyle(document.querySelector('.edge')).stroke]"))
    yield "it is light, and dark where that is wished", colours[0] == ["rgb(255, 255, 255)", "rgb(0, 0, 0)"] and \
        sum(map(int, re.findall(r"\d+", colours[1][0])[:3])) < 150 < sum(map(int, re.findall(r"\d+", colours[1][1])[:3]))
    tab.media()
    tab.size(390, 800, True)
    tab.open(page)
    yield "nothing is wider than a phone", tab.run("document.documentElement.scrollWidth") <= 390
    yield "what is wide can be scrolled", tab.run("""[...document.querySelectorAll('.canvas')].every(it =>
      it.scrollWidth <= it.clientWidth
      || getComputedStyle(it).overflowX == 'auto')""")
    tab.size(1600, 1000)


def printing(tab: Tab, page: Path) -> Iterator[Check]:
    """each sheet of paper has the size that the page's style says, to a pixel"""
    printed = page.with_suffix(".pdf")
    tab.print(printed, preferCSSPageSize=True)
    sheets = re.findall(rb"/MediaBox \[0 0 ([\d.]+) ([\d.]+)\]", printed.read_bytes())
    wrong = [it for sheet in sheets for it, wanted in zip(sheet, A3) if abs(float(it) * 96 / 72 - wanted * MM) > 1]
    yield f"it is printed on A3 ({len(sheets)} sheets)", bool(sheets) and not wrong


# ---- other pages


def laws(tab: Tab) -> Iterator[Check]:
    count = tab.run("document.querySelectorAll('.law').length")
    good = 0
    for number in range(count):
        at = tab.run(f"""(() => {{ const it = document.querySelectorAll('.law')[{number}]; it.scrollIntoView({{block: 'center'}});
          const box = it.getClientRects()[0]; return [box.left + 20, (box.top + box.bottom) / 2] }})()""")
        tab.move(*at)
        wanted = tab.run(f"document.querySelectorAll('.law')[{number}].dataset.parties.split(' ')")
        good += marked(tab, "lit") == sorted(wanted)
    yield f"each law lights its parties ({count})", good == count > 0
    tab.move(1, 1)
    is_there = tabbed(tab, ".law")
    wanted = tab.run("(document.activeElement.dataset.parties || '').split(' ')")
    yield "Tab leads to a law and lights its parties", is_there and marked(tab, "lit") == sorted(wanted)


def points(tab: Tab) -> Iterator[Check]:
    count = tab.run("document.querySelectorAll('svg.plot a').length")
    good = 0
    for number in range(count):
        tab.run("window.scrollTo(0, 0)")
        at = tab.run(f"""(() => {{ const it = document.querySelectorAll('svg.plot a circle')[{number}].getBoundingClientRect();
          return [(it.left + it.right) / 2, (it.top + it.bottom) / 2] }})()""")
        tab.click(*at)
        tab.run("new Promise(r => setTimeout(r, 60))")
        shown = tab.run("[...document.querySelectorAll('figure.choice')].filter(it => it.getClientRects().length)"
                        ".map(it => '#' + it.id)")
        good += shown == [tab.run(f"document.querySelectorAll('svg.plot a')[{number}].getAttribute('href')")]
    yield f"each point opens its drawing ({count})", good == count > 0
    is_there = tabbed(tab, "svg.plot a")
    wanted = tab.run("document.activeElement.getAttribute('href')")
    tab.key("Enter")
    tab.run("new Promise(r => setTimeout(r, 60))")
    shown = tab.run("'#' + document.querySelector('figure.shown').id")
    yield "Tab and Enter open the drawing of a point", is_there and wanted == shown


def versions(tab: Tab) -> Iterator[Check]:
    said_ = tab.run("[...document.querySelectorAll('.changes li')].map(it => it.textContent.trim())")
    yield f"what moved, is new or gone is listed ({len(said_)})", all(any(it.startswith(word) for it in said_) for word in (
        "moved: ", "new node: ", "new piece of track: ", "gone piece of track: "))
    yield "two drawings lie side by side", tab.run("""(() => {
      const [a, b] = [...document.querySelectorAll('figure.version')].map(it => it.getBoundingClientRect());
      return !!b && a.right <= b.left + 1 })()""")
    first = tab.run("document.querySelector('.changes li').dataset.key")
    tab.move(*middle(tab, ".changes li"))
    yield "a change lights what it is about", marked(tab, "over") == [first]
    is_there = tabbed(tab, ".changes input")
    tab.key(" ")
    yield "Tab and the space bar tick a change off, which is struck out then", is_there and tab.run("""(() => {
      const it = document.querySelector('.changes input'), words = it.parentElement.lastElementChild;
      return it.checked && words != it && getComputedStyle(words).textDecorationLine == 'line-through' })()""")


def lines_of_fault(tab: Tab) -> Iterator[Check]:
    hrefs = tab.run("[...document.querySelectorAll('.lead a')].map(it => it.getAttribute('href'))")
    yield f"a fault links the lines that are meant ({len(hrefs)})", len(hrefs) == 2 and all(
        tab.run(f"!!document.getElementById({json.dumps(it[1:])})") for it in hrefs)


def onward(nodes: dict[int, Node], edges: Edges, above: set[tuple[int, int]], edge: int, east: bool) -> list[tuple[int, str]]:
    """where an edge leads on, and how the switch lies for that"""
    node = edges[edge][1 if east else 0]
    out = [it for it, (west, far) in edges.items() if (west if east else far) == node]
    into = [it for it, (west, far) in edges.items() if (far if east else west) == node]
    kind = nodes[node]
    if kind[0] == "switch":
        legs = out if len(out) == 2 else into
        upper = legs[0] if (legs[0], legs[1]) in above else legs[1]
        turn = {it: "diverging" if (it == upper) == (kind[2] == "upper") else "straight" for it in legs}
        return [(it, turn[it]) for it in out] if len(out) == 2 else [(it, turn[edge]) for it in out]
    if kind[0] == "crossing":
        high, far_high = (into[0] if (into[0], into[1]) in above else into[1]), (out[0] if (out[0], out[1]) in above
                                                                                 else out[1])
        return [(it, "") for it in out if (edge == high) != (it == far_high)]
    return [(it, "") for it in out] if kind[0] == "joint" else []


def expected_paths(text: str, graph: str, ways: dict[str, bool | None]) -> Callable[[str, str], Way | None]:
    """another search for paths, from the program's own texts: of the pieces and the positions of switches"""
    nodes: dict[int, Node] = {}
    edges: Edges = {}
    above: set[tuple[int, int]] = set()
    signals: dict[str, tuple[int, int]] = {}
    for line in graph.split("\n"):
        fields = line.split(" ")
        if fields[0] == "node":
            nodes[int(fields[1])] = fields[3:-1]
        elif fields[0] == "edge":
            edges[int(fields[1])] = (int(fields[3]), int(fields[4]))
        elif fields[0] == "above":
            above.add((int(fields[1]), int(fields[2])))
    for line in text.split("\n"):
        fields = line.split(" ")
        if fields[0] == "signal":
            signals[f"s{fields[1]}"] = (int(fields[3]), int(fields[4]))

    def search_(one: str, other: str, east: bool) -> Way | None:
        (start, column), (goal, there) = signals[one], signals[other]
        if start == goal and (there > column if east else there < column):
            return [f"e{start}"], []
        seen = {start}
        waiting: list[tuple[int, list[str], list[str]]] = [(start, [f"e{start}"], [])]
        for edge, pieces_, positions in waiting:
            for further, position in onward(nodes, edges, above, edge, east):
                if further in seen:
                    continue
                found = [*pieces_, f"e{further}"], positions + ([position] if position else [])
                if further == goal:
                    return found
                seen.add(further)
                waiting.append((further, *found))
        return None

    def expected(one: str, other: str) -> Way | None:
        for first, second in ((one, other), (other, one)):
            way = ways.get(first)
            for east in ([True, False] if way is None else [way]):
                found = search_(first, second, east)
                if found:
                    return found
        return None
    return expected


def drive(browser: Browser, kind: str, page: Path, output: str, graph: str) -> list[Check]:
    """all checks of a page of a kind"""
    tab = Tab(browser)
    try:
        tab.open(page)
        know(tab, page)
        found: list[Check] = []
        if kind in ("draw", "signals"):
            switch = tab.run("Object.keys(objects).find(it => objects[it].kind == 'switch')")
            for check in (search(tab), both_ways(tab, switch), switches(tab, switch), pieces(tab), in_sight(tab), zooming(tab),
                          keyboard(tab), saving(tab, output[:output.index("\nend ")] + "\n"
                                 + output[output.index("\nend ") + 1:].split("\n")[0] + "\n")):
                found += list(check)
            if kind == "signals":
                ways = tab.run("Object.fromEntries(Object.entries(known.signals).map(([k, v]) => [k, v[2]]))")
                found += list(paths(tab, expected_paths(output, graph, ways)))
            found += list(links(tab, page, tab.run(f"objects['{switch}'].link"), switch))
            found += [*looks(tab, page), *printing(tab, page)]
        else:
            found += list({"explain": laws, "verify": laws, "front": points, "redraw": versions,
                           "fault": lines_of_fault}[kind](tab))
        found.append(("everything has an accessible name", tab.unnamed() == []))
        found.append(("no request leaves the page", tab.requests() == []))
        found.append(("no script failed", tab.alarms() == []))
        return found
    finally:
        tab.close()
