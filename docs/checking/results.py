"""The tables of docs/work/measured.md and its plots, from the CSV files that the scripts of bench/ write."""
import csv
import re
from functools import partial
from html import escape

from checking.crates import TOP, read, show

RESULTS = TOP / "bench" / "results"
PLOT = TOP / "docs" / "made" / "peers.svg"
COLOURS = ("#146", "#c72", "#9ab", "#686")
# how many inputs a case of each script of bench/hostile changes
CHANGED = {"files": 1, "hints": 31, "logs": 6, "sheets": 20}


def rows_of(name):
    with (RESULTS / f"{name}.csv").open(encoding="utf-8", newline="") as text:
        return list(csv.reader(text))


def written(head, rows):
    """The lines of a table; numbers stand at the right."""
    are_numbers = [all(row[at].replace(".", "").replace(",", "").isdigit() or row[at] == "-" for row in rows) for at in range(len(head))]
    return ["| " + " | ".join(head) + " |", "|" + "|".join("--:" if it else "---" for it in are_numbers) + "|",
            *("| " + " | ".join(row) + " |" for row in rows)]


def table(name):
    head, *rows = rows_of(name)
    return written(head, rows)


def hostile():
    """The runs of bench/hostile, those of one script with one program together."""
    head, *rows = rows_of("hostile")
    together = {}
    for row in rows:
        together.setdefault((row[0], row[-1]), []).append(row)
    return written(head, [[name, ", ".join(row[1] for row in some), *(str(sum(int(row[at]) for row in some)) for at in range(2, 6)), program]
                          for (name, program), some in together.items()])


def changed():
    """How many inputs the scripts of bench/hostile changed, each in all its runs; the last row has the sums."""
    sums = {name: [0, 0, 0] for name in CHANGED}
    for name, _, cases, runs, wrong, *_ in rows_of("hostile")[1:]:
        for key in {name, "sum"} if name in CHANGED else ():
            more = int(cases) * CHANGED[name], int(runs), int(wrong)
            sums[key] = [one + other for one, other in zip(sums.get(key, [0, 0, 0]), more)]
    return written(["script", "changed inputs", "runs", "wrong"], [[name, *(f"{it:,}" for it in row)] for name, row in sums.items()])


def tables():
    found = {f"{path.stem}_results": partial(table, path.stem) for path in sorted(RESULTS.glob("*.csv"))}
    return found | {"peers_ratios": ratios, "hostile_results": hostile, "hostile_changed": changed}


def seconds_of_peers():
    """The stations of the table of peers, and of each program its seconds of each station; the last row has the sums."""
    head, *rows = rows_of("peers")
    places = {name.removesuffix(", s"): at for at, name in enumerate(head) if name.endswith(", s")}
    return [row[0] for row in rows], {who: [float(row[at]) for row in rows] for who, at in places.items()}


def ratios():
    """The seconds of draw over those of each other program: in sum, on the everyday stations, and by station."""
    names, seconds = seconds_of_peers()
    known = {row[0] for row in rows_of("everyday")}
    everyday = [at for at, name in enumerate(names) if name in known]
    lines = ["| draw over | all stations | everyday ones | by station |", "|---|--:|--:|---|"]
    for who, theirs in list(seconds.items())[1:]:
        ours, by_station = seconds["draw"], [one / max(other, 0.01) for one, other in zip(seconds["draw"], theirs)][:-1]
        some = sum(ours[at] for at in everyday) / max(sum(theirs[at] for at in everyday), 0.01)
        lines.append(f"| {who} | {ours[-1] / max(theirs[-1], 0.01):.2f} | {some:.2f} | {min(by_station):.2f} to {max(by_station):.1f} |")
    return lines


def bars(title, names, series):
    """Bars below each other for each name, one of each series, all on one scale."""
    left, wide, high = 190, 560, 7
    step = len(series) * (high + 1) + 6
    most = max(max(values) for _, values in series)
    height = 60 + step * len(names)
    found = [f'<svg xmlns="http://www.w3.org/2000/svg" viewBox="0 0 {left + wide + 90} {height}" width="{left + wide + 90}" '
             f'height="{height}" font-family="sans-serif" font-size="12">', f"<title>{escape(title)}</title>",
             f'<rect width="{left + wide + 90}" height="{height}" fill="white"/>', f'<text x="12" y="22" font-size="15">{escape(title)}</text>']
    for at, (label, _) in enumerate(series):
        found += [f'<rect x="{left + 150 * at}" y="32" width="12" height="12" fill="{COLOURS[at]}"/>',
                  f'<text x="{left + 18 + 150 * at}" y="42">{escape(label)}</text>']
    for row, name in enumerate(names):
        top = 56 + step * row
        found.append(f'<text x="{left - 8}" y="{top + step / 2 + 1}" text-anchor="end">{escape(name)}</text>')
        for at, (_, values) in enumerate(series):
            long = wide * values[row] / most
            found += [f'<rect x="{left}" y="{top + at * (high + 1)}" width="{long:.1f}" height="{high}" fill="{COLOURS[at]}"/>',
                      f'<text x="{left + long + 5:.1f}" y="{top + at * (high + 1) + 7}" font-size="8">{values[row]:.2f}</text>']
    return "\n".join([*found, "</svg>"]) + "\n"


def peers_plot():
    names, seconds = seconds_of_peers()
    return bars("Seconds to find the least values on a grid of 64 by 12", names[:-1], [(who, it[:-1]) for who, it in seconds.items()])


def unwritten():
    """Tables that no script of bench/ writes, so that nobody can repeat them."""
    scripts = "".join(read(path) for folder in ("bench", "bench/hostile") for path in sorted((TOP / folder).glob("*.py")))
    written = {*re.findall(r"""(?:Table\("|measure_stations\(__doc__, "|bench/results/)(\w+)""", scripts), "when"}
    return [f"{show(path)}: no script of bench/ writes it" for path in sorted(RESULTS.glob("*.csv")) if path.stem not in written]


def unknown_headings():
    """Words of docs/work/measured.md that are set as a table's heading and that no table has."""
    heads = {word.lower() for path in RESULTS.glob("*.csv") for word in rows_of(path.stem)[0]}
    text = re.sub(r"<!-- made: .*?<!-- end -->|\*\*[^*]*\*\*", "", read(TOP / "docs" / "work" / "measured.md"), flags=re.S)
    return [f"docs/work/measured.md: no table has a heading {word}" for word in re.findall(r"(?<!\*)\*([^*\n]+)\*(?!\*)", text)
            if word.lower() not in heads]


def all_failures():
    return unwritten() + unknown_headings()
