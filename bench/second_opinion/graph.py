"""The track graph of a file, what lies above what in it, and the text of both."""
from reading import Refused, read, resolve, write_metres


class Node:
    """a node: its kind, its name and mileage, and its edges by their parts in law 4. `upper_lower` has, for a side on which two
    edges leave, the upper one and the lower one"""

    def __init__(self, number, place):
        self.number, self.place, self.name, self.mileage = number, place, place.name, place.mileage
        self.kind = place.kind if place.kind in ("switch", "crossing") else "joint" if place.connections else "end"
        self.legs = self.side = None
        self.upper_lower = {}

    def side_of(self, edge):
        return "east" if edge.west is self else "west"


class Edge:
    def __init__(self, number, track, one, other):
        self.number, self.track = number, track
        self.west, self.east = (one, other) if one.mileage <= other.mileage else (other, one)

    def overlaps(self, other):
        return max(self.west.mileage, other.west.mileage) < min(self.east.mileage, other.east.mileage)


class Graph:
    """the graph of these tracks; refused where it has a fault"""

    def __init__(self, tracks):
        self.tracks = tracks
        places = sorted((place for track in tracks for place in track.places), key=lambda place: place.place)
        self.by_connection = {one["id"]: place for place in places for one in place.connections}
        self.nodes, self.node_of, self.edges, self.edge_at, self.pieces = [], {}, [], {}, {}
        self.add_nodes(places)
        self.add_pieces()
        self.add_joins(places)
        if len(self.nodes) > 128:
            raise Refused(b"graph 1 TooManyNodes %d" % len(self.nodes))
        if len(self.edges) > 160:
            raise Refused(b"graph 2 TooManyEdges %d" % len(self.edges))
        for edge in self.edges:
            if edge.west.mileage == edge.east.mileage:
                raise Refused(b"graph 3 NotForward %s %s" % (edge.track, write_metres(edge.west.mileage)))
        for node in self.nodes:
            if not self.ports(node):
                raise Refused(b"graph 4 SideMismatch %s" % node.name)
        self.above = self.find_above()

    def partner(self, connection):
        return self.by_connection[connection["ref"]]

    def add_nodes(self, places):
        """a track's end that is joined to a switch or a crossing is none, and two joined ends are one"""
        for place in places:
            partner = self.partner(place.connections[0]) if place.kind in ("begin", "end") and place.connections else None
            if partner is None or partner.kind in ("begin", "end") and partner not in self.node_of:
                node = Node(len(self.nodes), place)
                self.nodes.append(node)
                self.node_of[place] = node
            elif partner in self.node_of and partner.kind in ("begin", "end"):
                self.node_of[place] = self.node_of[partner]
        for place in places:
            if place not in self.node_of:
                self.node_of[place] = self.node_of[self.partner(place.connections[0])]

    def add_edge(self, track, one, other):
        edge = Edge(len(self.edges), track, self.node_of[one], self.node_of[other])
        self.edges.append(edge)
        return edge

    def add_pieces(self):
        """`pieces` has for each place the piece before it and the one after it; `edge_at` for each connection the edge that
        goes out from it"""
        for track in self.tracks:
            edges = [self.add_edge(track.name, one, other) for one, other in zip(track.places, track.places[1:])]
            for place, before, after in zip(track.places, [None, *edges], [*edges, None]):
                self.pieces[place] = before, after
                if place.kind in ("begin", "end") and place.connections:
                    self.edge_at[place.connections[0]["ref"]] = before or after

    def add_joins(self, places):
        inner = [(one, place) for place in places if place.kind in ("switch", "crossing") for one in place.connections]
        by_name = {one["id"]: one for one, _ in inner}
        for one, place in sorted(inner, key=lambda pair: pair[0].place):
            other = by_name.get(one["ref"])
            if other is not None and one.place < other.place:
                self.edge_at[one["id"]] = self.edge_at[other["id"]] = self.add_edge(one["id"], place, self.partner(one))

    def ports(self, node):
        """tells the node's edges apart; whether they lie on the sides that they should"""
        return getattr(self, f"ports_of_{node.kind}")(node)

    def ports_of_end(self, node):
        node.edge = next(piece for piece in self.pieces[node.place] if piece)
        return True

    def ports_of_joint(self, node):
        ends = node.place, self.partner(node.place.connections[0])
        one, other = (next(piece for piece in self.pieces[place] if piece) for place in ends)
        node.path = (one, other) if node.side_of(one) == "west" else (other, one)
        return node.side_of(one) != node.side_of(other)

    def ports_of_switch(self, node):
        row, branch = node.place.row, node.place.connections[0]
        before, after = self.pieces[node.place]
        node.trunk, other = (before, after) if branch["orientation"] == b"outgoing" else (after, before)
        leg = self.edge_at[branch["id"]]
        track_diverges = branch["course"] == b"straight"
        hand = row["trackContinueCourse"] if track_diverges else branch["course"]
        node.diverging, node.straight = (other, leg) if track_diverges else (leg, other)
        node.legs = node.side_of(leg)
        node.side = "upper" if (hand == b"left") == (node.legs == "east") else "lower"
        pair = (node.diverging, node.straight) if node.side == "upper" else (node.straight, node.diverging)
        node.upper_lower = {node.legs: pair}
        return node.side_of(other) == node.legs != node.side_of(node.trunk)

    def ports_of_crossing(self, node):
        entry, out = sorted(node.place.connections, key=lambda one: one["orientation"])
        own, other = self.pieces[node.place], (self.edge_at[entry["id"]], self.edge_at[out["id"]])
        sides = [node.side_of(edge) for edge in (*own, *other)]
        west_east = [path if node.side_of(path[0]) == "west" else path[::-1] for path in (own, other)]
        node.rising, node.falling = west_east[::-1] if out["course"] == b"left" else west_east
        node.upper_lower = {"west": (node.falling[0], node.rising[0]), "east": (node.rising[1], node.falling[1])}
        return sides[0] != sides[1] == sides[3] != sides[2]

    def reached(self, edge, side):
        """the numbers of the edges that are reached from this one to that side"""
        found, left = {edge.number}, [edge]
        while left:
            end = getattr(left.pop(), side)
            for next_edge in self.edges:
                begins_there = next_edge.west is end if side == "east" else next_edge.east is end
                if begins_there and next_edge.number not in found:
                    found.add(next_edge.number)
                    left.append(next_edge)
        return found

    def find_above(self):
        """the pairs of numbers of which the first edge is above the second"""
        above = set()
        for node in self.nodes:
            for side, pair in node.upper_lower.items():
                upper, lower = (self.reached(edge, side) for edge in pair)
                above |= {(one, other) for one in upper - lower for other in lower - upper
                          if self.edges[one].overlaps(self.edges[other])}
        both = sorted((one, other) for one, other in above if one < other and (other, one) in above)
        if both:
            raise Refused(b"order 1 Contradicts %d %d" % both[0])
        return above


def load(data):
    """the graph of a file; refused where the file has a fault"""
    return Graph(resolve(read(data)))


def graph_text(graph):
    lines = [b"railgraph 1", b"nodes %d" % len(graph.nodes)]
    for node in graph.nodes:
        kind = " ".join(word for word in (node.kind, node.legs, node.side) if word)
        lines.append(b"node %d %s %s %s" % (node.number, node.name, kind.encode(), write_metres(node.mileage)))
    lines.append(b"edges %d" % len(graph.edges))
    for edge in graph.edges:
        lines.append(b"edge %d %s %d %d" % (edge.number, edge.track, edge.west.number, edge.east.number))
    lines += [b"above %d %d" % pair for pair in sorted(graph.above)]
    return b"\n".join(lines) + b"\n"
