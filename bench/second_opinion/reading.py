"""A railML file, read: its items, the elements that are selected, and the faults of its text and its topology."""
import re

LIMIT = 4194304
WHITE = b" \t\n\r"
DEPTH = 64
TEXT_FAULTS = ["", "NotUtf8", "Encoding", "Doctype", "Markup", "Entity", "EndTag", "RepeatedAttribute", "Root", "Unfinished",
               "AfterRoot", "Depth", "NoInfrastructure"]
TOPOLOGY_FAULTS = ["", "NoTracks", "TooMany", "Missing", "Id", "RepeatedId", "Number", "UnknownRef", "NotMutual", "SelfRef",
                   "EndKind", "Course", "Orientation", "OutsideTrack"]


class Refused(Exception):
    """the line that answers a file, a sheet or a log with a fault, without its line feed, and the status with it"""

    def __init__(self, line, status=1):
        super().__init__(line)
        self.line, self.status = line, status


class Ends(Exception):
    """the file ends where an item could go on"""


class Wrong(Exception):
    """an item can't go on so"""


def text_fault(number, place):
    return Refused(b"text %d %s at %d" % (number, TEXT_FAULTS[number].encode(), place))


def topology_fault(number, place, *told):
    return Refused(b" ".join((b"topology %d %s at %d" % (number, TOPOLOGY_FAULTS[number].encode(), place), *told)))


# --- items ---


NAME = re.compile(rb"[A-Za-z_:\x80-\xff][A-Za-z_:\x80-\xff0-9.-]*")
BLANK, TEXT = re.compile(rb"[ \t\n\r]*"), re.compile(rb"[^<&]*")
# what may stand in a value behind each of the quotes
IN_QUOTES = {ord(quote): re.compile(rb"[^<%s]*" % quote) for quote in (b'"', b"'")}


def byte_at(text, at):
    if at >= len(text):
        raise Ends
    return text[at]


def behind_white(text, at):
    return BLANK.match(text, at).end()


def behind_name(text, at):
    byte_at(text, at)
    found = NAME.match(text, at)
    if not found:
        raise Wrong
    return found.end()


def expect(text, at, byte):
    """the place behind this byte, which is to stand here"""
    if byte_at(text, at) != ord(byte):
        raise Wrong
    return at + 1


def attribute(text, at):
    """an attribute's name and raw value, and the place behind it"""
    end = behind_name(text, at)
    name = text[at:end]
    at = behind_white(text, expect(text, behind_white(text, end), "="))
    quote = byte_at(text, at)
    if quote not in IN_QUOTES:
        raise Wrong
    end = IN_QUOTES[quote].match(text, at + 1).end()
    if byte_at(text, end) != quote:
        raise Wrong
    return name, text[at + 1:end], end + 1


REFERENCE = re.compile(rb"&(?:(lt|gt|amp|apos|quot)|#([0-9]{1,8})|#x([0-9A-Fa-f]{1,8}));")
PUT_OTHERWISE = re.compile(rb"[&\t\n\r]")
NAMED = {b"lt": b"<", b"gt": b">", b"amp": b"&", b"apos": b"'", b"quot": b'"'}


def reference(text, at):
    """the place behind the reference that stands here, and its text; none where none stands here"""
    found = REFERENCE.match(text, at)
    if not found:
        return None
    if found[1]:
        return found.end(), NAMED[found[1]]
    number = int(found[2]) if found[2] else int(found[3], 16)
    if number == 0 or number > 0x10FFFF or 0xD800 <= number <= 0xDFFF:
        return None
    return found.end(), chr(number).encode()


def value_text(raw):
    """the text of an attribute's value; none where an `&` begins no reference"""
    text, at = bytearray(), 0
    if not PUT_OTHERWISE.search(raw):
        return raw
    while at < len(raw):
        if raw[at] == ord("&"):
            found = reference(raw, at)
            if found is None:
                return None
            at = found[0]
            text += found[1]
        elif raw[at] in b"\t\n\r":
            at += 2 if raw[at:at + 2] == b"\r\n" else 1
            text += b" "
        else:
            text.append(raw[at])
            at += 1
    return bytes(text)


def attributes(text, at, ends):
    """the attributes from here up to one of the ends, that end, and the place behind it"""
    found = []
    while True:
        behind = behind_white(text, at)
        byte = byte_at(text, behind)
        for end in ends:
            if byte == end[0]:
                if len(end) == 2:
                    expect(text, behind + 1, chr(end[1]))
                return found, end, behind + len(end)
        if behind == at:
            raise Wrong
        name, value, at = attribute(text, behind)
        found.append((name, value))


def is_front(text, at, word):
    """whether the file ends in a front of the word"""
    rest = text[at:]
    return len(rest) < len(word) and word.startswith(rest)


def behind_word(text, at, word):
    found = text.find(word, at)
    if found < 0:
        raise Ends
    return found + len(word)


def repeats(names):
    return len(set(names)) < len(names)


def markup(text, at, is_first):
    """the item that begins with `<` here: its kind, the place behind it, what it has, and the numbers of its own faults"""
    if text.startswith(b"<?", at):
        if is_first and re.match(rb"<\?xml[ \t\n\r]", text[at:at + 6]):
            found, _, end = attributes(text, at + 5, (b"?>",))
            if not found:
                raise Wrong
            faults = [2] * any(name == b"encoding" and value.upper() != b"UTF-8" for name, value in found)
            return "declaration", end, None, faults + [7] * repeats([name for name, _ in found])
        return "instruction", behind_word(text, at + 2, b"?>"), None, []
    if text.startswith(b"<!--", at):
        return "comment", behind_word(text, at + 4, b"-->"), None, []
    if text.startswith(b"<![CDATA[", at):
        return "section", behind_word(text, at + 9, b"]]>"), None, []
    if text.startswith(b"<!DOCTYPE", at):
        raise text_fault(3, at)
    if text.startswith(b"<!", at):
        raise Ends if any(is_front(text, at, word) for word in (b"<!--", b"<![CDATA[", b"<!DOCTYPE")) else Wrong
    if text.startswith(b"</", at):
        end = behind_name(text, at + 2)
        return "end", expect(text, behind_white(text, end), ">"), text[at + 2:end], []
    end = behind_name(text, at + 1)
    name = text[at + 1:end]
    found, closing, behind = attributes(text, end, (b">", b"/>"))
    texts = [(key, value_text(value)) for key, value in found]
    faults = [5] * any(value is None for _, value in texts) + [7] * repeats([key for key, _ in texts])
    return "start", behind, (name, dict(reversed(texts)), closing == b"/>"), faults


def item(text, at, is_first):
    if text[at] == ord("&"):
        found = reference(text, at)
        if found is None:
            raise text_fault(5, at)
        return "reference", found[0], None, []
    if text[at] != ord("<"):
        end = TEXT.match(text, at).end()
        return ("white" if not text[at:end].strip(WHITE) else "text"), end, None, []
    try:
        return markup(text, at, is_first)
    except Ends:
        raise text_fault(9, at) from None
    except Wrong:
        raise text_fault(4, at) from None


# --- selected elements ---


class Row:
    """a selected element: its kind, the place of its `<`, the nearest selected element that holds it, its attributes"""

    def __init__(self, kind, place, parent, attributes):
        self.kind, self.place, self.parent, self.attributes, self.children = kind, place, parent, attributes, []

    def __getitem__(self, name):
        return self.attributes.get(name.encode())


END_PARTS = {b"connection": "connection", b"openEnd": "open", b"bufferStop": "buffer", b"macroscopicNode": "node"}
CHILDREN = {
    "railml": {b"infrastructure": "infrastructure"},
    "infrastructure": {b"tracks": "tracks"},
    "tracks": {b"track": "track"},
    "track": {b"trackTopology": "topology"},
    "topology": {b"trackBegin": "begin", b"trackEnd": "end", b"connections": "connections"},
    "connections": {b"switch": "switch", b"crossing": "crossing"},
    "begin": END_PARTS,
    "end": END_PARTS,
    "switch": {b"connection": "connection"},
    "crossing": {b"connection": "connection"},
}
NOT_SELECTED = (None, "railml", "infrastructure", "tracks", "connections")


def faults_outside(kind, has_root, is_behind_root):
    """the faults of an item that isn't a start tag, by where it stands"""
    if kind not in ("section", "reference", "text"):
        return []
    return [10] if is_behind_root else [] if has_root else [4]


def read(data):
    """the selected elements in the order of the file"""
    if len(data) > LIMIT:
        raise Refused(b"long 1")
    try:
        data.decode()
    except UnicodeDecodeError as fault:
        raise text_fault(1, fault.start) from None
    at, is_first, has_infrastructure, has_root = 3 if data.startswith(b"\xef\xbb\xbf") else 0, True, False, False
    rows, open_elements = [], []
    while at < len(data):
        place = at
        kind, at, what, faults = item(data, at, is_first)
        is_first, is_behind_root = False, has_root and not open_elements
        if kind == "end":
            if not open_elements or open_elements[-1][0] != what:
                raise text_fault(6, place)
            open_elements.pop()
            continue
        faults = faults + faults_outside(kind, has_root, is_behind_root)
        if kind == "start":
            name, values, is_closed = what
            faults += [10] * is_behind_root + [8] * (not has_root and name not in (b"railml", b"infrastructure"))
            faults += [11] * (len(open_elements) + 1 > DEPTH)
        if faults:
            raise text_fault(min(faults), place)
        if kind != "start":
            continue
        _, above, parent = open_elements[-1] if open_elements else (None, None, None)
        state = CHILDREN.get(above, {}).get(name) if has_root else name.decode()
        has_root, has_infrastructure = True, has_infrastructure or state == "infrastructure"
        if state not in NOT_SELECTED:
            parent, holder = Row(state, place, parent, values), parent
            rows.append(parent)
            if holder is not None:
                holder.children.append(parent)
        if not is_closed:
            open_elements.append((name, state, parent))
    if not has_root or open_elements:
        raise text_fault(9, len(data))
    if not has_infrastructure:
        raise text_fault(12, len(data))
    return rows


# --- numbers and the topology ---

METRES = re.compile(rb"[ \t\n\r]*([+-]?)([0-9]{0,9})(?:\.([0-9]{0,6}))?[ \t\n\r]*")


def read_metres(text):
    """micrometres; none where the text is no number of metres"""
    found = METRES.fullmatch(text)
    if not found or not found[2] and not found[3]:
        return None
    number = int(found[2] or b"0") * 1000000 + int(((found[3] or b"") + b"000000")[:6])
    return -number if found[1] == b"-" else number


def write_metres(number):
    return b"%s%d.%06d" % (b"-" if number < 0 else b"", abs(number) // 1000000, abs(number) % 1000000)


def is_id(text):
    return 1 <= len(text) <= 64 and not any(ord(sign) <= 0x20 or 0x7F <= ord(sign) <= 0xA0 for sign in text.decode())


WITH_IDS = ("track", "begin", "end", "switch", "crossing", "connection")
WITH_MILEAGES = ("begin", "end", "switch", "crossing")
HANDS = (b"left", b"right")


def required(row):
    """the names of the attributes that an element must have, in the order in which they are asked for"""
    names = ["id"] * (row.kind in WITH_IDS) + ["pos"] * (row.kind in WITH_MILEAGES) + ["absPos"] * (row.kind == "begin")
    if row.kind == "connection":
        holder = row.parent.kind
        names += ["ref"] + ["orientation"] * (holder in ("switch", "crossing"))
        names += ["course"] * (holder == "switch" or holder == "crossing" and row["orientation"] == b"outgoing")
    return names


def count(row, kind):
    return sum(child.kind == kind for child in row.children)


def has_wrong_parts(row):
    if row.kind == "track":
        topologies = [child for child in row.children if child.kind == "topology"]
        return len(topologies) != 1 or any(count(topologies[0], kind) != 1 for kind in ("begin", "end"))
    if row.kind in ("begin", "end", "switch"):
        return len(row.children) != 1
    return row.kind == "crossing" and (len(row.children) != 2 or repeats([child["orientation"] for child in row.children]))


def has_wrong_course(row):
    holder, course = row.parent, row["course"]
    if holder.kind == "switch":
        return course not in HANDS and not (course == b"straight" and holder["trackContinueCourse"] in HANDS)
    return holder.kind == "crossing" and row["orientation"] == b"outgoing" and course not in HANDS


def is_outside(row):
    if row.kind not in ("end", "switch", "crossing"):
        return False
    begin, end = ([child for child in row.parent.children if child.kind == kind][0] for kind in ("begin", "end"))
    at, first, last = (read_metres(one["pos"]) for one in (row, begin, end))
    return at < first or row.kind != "end" and at > last


def topology_faults(rows):
    """each fault, by number and then by place; those of a number are looked for only where those before it aren't there"""
    tracks = [row for row in rows if row.kind == "track"]
    if not tracks:
        yield topology_fault(1, 0)
    if len(tracks) > 128:
        yield topology_fault(2, tracks[128].place)
    for row in rows:
        yield from (topology_fault(3, row.place, name.encode()) for name in required(row) if row[name] is None)
    with_ids, connections = [row for row in rows if row.kind in WITH_IDS], [row for row in rows if row.kind == "connection"]
    yield from (topology_fault(4, row.place) for row in with_ids if not is_id(row["id"]))
    seen = set()
    for row in with_ids:
        if row["id"] in seen:
            yield topology_fault(5, row.place, row["id"])
        seen.add(row["id"])
    for row in (row for row in rows if row.kind in WITH_MILEAGES):
        for name in ("pos", "absPos"):
            if row[name] is not None and read_metres(row[name]) is None:
                yield topology_fault(6, row.place, row["id"], name.encode())
    named = {row["id"]: row for row in connections}
    yield from (topology_fault(7, row.place, row["id"]) for row in connections if row["ref"] not in named)
    for row in connections:
        if named[row["ref"]]["ref"] != row["id"]:
            yield topology_fault(8, row.place, row["id"], row["ref"])
    yield from (topology_fault(9, row.place, row["id"]) for row in connections if row["ref"] == row["id"])
    yield from (topology_fault(10, row.place, row["id"]) for row in rows if has_wrong_parts(row))
    yield from (topology_fault(11, row.place, row["id"]) for row in connections if has_wrong_course(row))
    for row in connections:
        if row.parent.kind in ("switch", "crossing") and row["orientation"] not in (b"incoming", b"outgoing"):
            yield topology_fault(12, row.place, row["id"])
    yield from (topology_fault(13, row.place, row["id"]) for row in rows if is_outside(row))


class Place:
    """a track's begin or end, a switch or a crossing"""

    def __init__(self, row, begin):
        self.row, self.kind, self.name, self.place = row, row.kind, row["id"], row.place
        self.position = read_metres(row["pos"])
        zero = read_metres(begin["absPos"]) - read_metres(begin["pos"])
        self.mileage = zero + self.position if row["absPos"] is None else read_metres(row["absPos"])
        self.connections = [child for child in row.children if child.kind == "connection"]


class Track:
    """a track, and what stands on it: the begin, the inner places in their order, the end"""

    def __init__(self, row):
        topology = [child for child in row.children if child.kind == "topology"][0]
        begin, end = ([child for child in topology.children if child.kind == kind][0] for kind in ("begin", "end"))
        inner = [Place(child, begin) for child in topology.children if child.kind in ("switch", "crossing")]
        inner.sort(key=lambda one: (one.position, one.place))
        self.name, self.places = row["id"], [Place(begin, begin), *inner, Place(end, begin)]


def resolve(rows):
    """the tracks of a file without a fault of its topology"""
    for fault in topology_faults(rows):
        raise fault
    return [Track(row) for row in rows if row.kind == "track"]
