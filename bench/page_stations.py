"""Stations for the pages' bench: those of made_stations.py with names in six namings, types of tracks, and signals."""
from __future__ import annotations

import copy
import random
import re
from typing import Callable, Iterator

from made_stations import EVERYDAY, Station, crossovers, depot, fan, ladder, line, loops, parallel, passing, scissors, terminus
from made_stations import through, yard

NAMINGS: dict[str, Callable[[int, str], str]] = {
    "plain": lambda number, id: "",
    "short": lambda number, id: f"{number}",
    "usual": lambda number, id: f"W{number:03d}",
    "long": lambda number, id: f"Central Station West, switch {number}",
    "signs": lambda number, id: f"<b>&\"'{number}</script><img src=x onerror=alert(1)>",
    "wide": lambda number, id: f"轉轍器{number}Ä\u202e\u200b",
}


def braid(tracks: int, rungs: int, has_sidings: bool = False) -> Station:
    """tracks side by side, so many times joined with the next by crossovers, every other ones abreast, and sidings beside them;
    four tracks, twelve times and with sidings, have 128 nodes and 160 pieces, as many as there may be"""
    station = Station()
    made = [station.track(0, 2000 * rungs) for _ in range(tracks)]
    for rung in range(rungs):
        west = 2000 * rung + 200
        for at in range(tracks - 1):
            shift = 800 * (at % 2)
            station.crossover(made[at], made[at + 1], west + shift, west + shift + 300, rung % 2 == 0)
        if has_sidings:
            station.siding(made[-1], west + 800, west + 1100, True)
            station.siding(made[0], west + 800, west + 1100, False)
    return station


MORE = [("loops above 6", loops(6, lambda at: True)), ("loops in turn 15", loops(15, lambda at: at % 2 == 0)),
        ("crossovers 4", crossovers(4)),
        ("crossovers 16", crossovers(16)), ("scissors 1", scissors(1)), ("scissors 3", scissors(3)), ("yard 1", yard(1)),
        ("yard 4", yard(4)),
        ("fan 3", fan(3)), ("fan 6", fan(6)), ("parallel 2", parallel(2)), ("parallel 9", parallel(9)),
        ("passing places 8", passing(8, 1)),
        ("through station 4 4", through(4, 4, True)), ("terminus 7", terminus(7, True)), ("depot 9", depot(9, True))]
LARGE = [("line 10", line(10)), ("ladder 5", ladder(5)), ("scissors 12", scissors(12)), ("passing places 15", passing(15, 2)),
         ("yard 10", yard(10)), ("loops 40", loops(40, lambda at: at % 2 == 0)), ("crossovers 30", crossovers(30)),
         ("four tracks 15", braid(4, 15)), ("eight tracks 7", braid(8, 7)), ("ten tracks 5", braid(10, 5)),
         ("four tracks with sidings 12", braid(4, 12, True))]
STATIONS = EVERYDAY + MORE + LARGE


def changed(station: Station) -> Station:
    """the station with a siding more, from the piece of its first track that begins farthest in the east"""
    found = copy.deepcopy(station)
    track = found.tracks[0]
    first = max((at for at, _ in track.switches), default=track.begin)
    if first < track.end - 3:
        found.siding(track, (first + track.end) // 2, track.end - 1, True)
    return found


def escaped(text: str) -> str:
    return text.replace("&", "&amp;").replace("<", "&lt;").replace('"', "&quot;")


def file_of(station: Station, naming: str, signals_on_piece: int = 0, every: int = 1, seed: int = 0) -> str:
    """the station's railML file, with names, two main tracks, and signals on each so many pieces of its tracks"""
    chance, count = random.Random(seed), iter(range(1, 10000))
    name = NAMINGS[naming]

    def named(found: re.Match[str]) -> str:
        text = name(next(count), found[2])
        return f'<{found[1]} id="{found[2]}"' + (f' name="{escaped(text)}"' if text else "")

    text = re.sub(r'<(infrastructure|track|switch|crossing|trackBegin|trackEnd) id="([^"]*)"', named, station.text())
    text = re.sub(r'<track id="t([01])"', r'<track id="t\1" type="mainTrack"', text)
    if signals_on_piece:
        text = add_signals(text, name, count, signals_on_piece, every, chance)
    return text


def add_signals(text: str, name: Callable[[int, str], str], count: Iterator[int], most: int, every: int,
                chance: random.Random) -> str:
    """signals between the points of each track, some for one way and some for the other"""
    parts = re.split(r"(</trackTopology></track>)", text)
    total = 0
    for at in range(0, len(parts) - 1, 2):
        places = sorted({int(pos) for pos in re.findall(r'pos="(\d+)"', parts[at].rsplit("<track ", 1)[-1])})
        made = []
        for west, east in list(zip(places, places[1:]))[::every]:
            for step in range(1, most + 1):
                if total < 512 and east - west > most + 1:
                    total += 1
                    shown = name(next(count), "")
                    way = chance.choice(["up", "down", "up", "down", ""])
                    made.append(f'<signal id="N{total}" pos="{west + step * (east - west) // (most + 1)}"'
                                + (f' name="{escaped(shown)}"' if shown else "") + (f' dir="{way}"' if way else "") + "/>")
        parts[at + 1] = f"</trackTopology><ocsElements><signals>{''.join(made)}</signals></ocsElements></track>"
    return "".join(parts)


def line_of(count: int) -> str:
    """the file of a single line with so many stations, 5 km apart, each with a loop above and one below its track"""
    main, loops = [], []
    for number in range(count):
        for side, (west, east) in enumerate([(1000, 1900), (1100, 1800)]):
            name, places = f"L{number}{'ab'[side]}", [5000 * number + west, 5000 * number + east]
            for which, place, end in zip("we", places, ("west", "east")):
                # a loop above leaves to the left, one below to the right; at its east end it is seen from the other side
                hand = "left" if (side == 0) == (which == "w") else "right"
                way = "outgoing" if which == "w" else "incoming"
                main.append((place, f'<switch id="{name}{which}" pos="{place}" absPos="{place}"><connection id="{name}{which}.c" ref="{name}.{end}"'
                                    f' course="{hand}" orientation="{way}"/></switch>'))
            loops.append(f'<track id="{name}"><trackTopology><trackBegin id="{name}.begin" pos="0" absPos="{places[0]}"><connection id="{name}.west" '
                         f'ref="{name}w.c"/></trackBegin><trackEnd id="{name}.end" pos="{places[1] - places[0]}" absPos="{places[1]}"><connection '
                         f'id="{name}.east" ref="{name}e.c"/></trackEnd></trackTopology></track>')
    length, switches = 5000 * count, "".join(it for _, it in sorted(main))
    return (f'<railml xmlns="http://www.railml.org/schemas/2013" version="2.2"><infrastructure id="line"><tracks><track id="main"><trackTopology>'
            f'<trackBegin id="A" pos="0" absPos="0"><openEnd id="A.open"/></trackBegin><trackEnd id="B" pos="{length}" absPos="{length}"><openEnd '
            f'id="B.open"/></trackEnd><connections>{switches}</connections></trackTopology></track>{"".join(loops)}</tracks></infrastructure></railml>')
