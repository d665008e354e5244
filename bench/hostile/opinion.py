"""The second opinion of bench/second_opinion, which shares nothing with the program, as the scripts of this folder use it."""
from __future__ import annotations

import sys

from trying import TOP

sys.path.append(str(TOP / "bench/second_opinion"))

import drawing  # noqa: E402
import graph  # noqa: E402
import log  # noqa: E402
import reading  # noqa: E402
import chance_stations as stations  # noqa: E402

__all__ = ["drawing", "graph", "log", "reading", "stations", "graph_answer", "load"]


def load(text: bytes) -> graph.Graph | None:
    """the track graph of a file; nothing where the file has a fault"""
    try:
        return graph.load(text)
    except reading.Refused:
        return None


def graph_answer(text: bytes) -> tuple[int, bytes]:
    """what `graph` is to answer to a file"""
    try:
        return 0, graph.graph_text(graph.load(text))
    except reading.Refused as why:
        return why.status, why.line + b"\n"
