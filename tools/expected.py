#!/usr/bin/env python3
"""What `scripts` must write for a script.

Packets, pictures, counts and refusals come from a model of the rules in docs/, which shares no code with the crates. The words, the layout
of the lines, and which command needs which are the program's own, and are repeated here.

usage: python3 tools/expected.py <crates/scripts/stdin >crates/scripts/stdout

It goes bit by bit and keeps a picture as a dictionary. It covers what the script uses: not the command `time`, whose figures differ.
"""

import math
import re
import sys

WORDS = {
    1: "the store has no such plane, row or column",
    2: "the value does not fit the store's depth",
    4: "the format is outside the limits",
    5: "the format has no such field",
    7: "the packet has over 1452 octets",
    8: "the packet has under 12 octets, or its version is not 2",
    9: "contributing sources, extension and padding pass the packet's end, or the padding is counted as 0",
    10: "the packet has another payload type, SSRC or timestamp",
    11: "the sample row data headers are cut, or a third one announces a fourth",
    12: "a length is no multiple of the group's octets, or is 0 beside another header",
    13: "a row is of another field, outside the part, or no multiple of the group's rows",
    14: "an offset is no multiple of the group's columns, or a segment passes the end of its row",
    15: "a segment begins before the end of the one in front of it",
    16: "the lengths together exceed the sample row data",
    17: "octets are left over in a packet without the marker",
    18: "in block mode the lengths together are no multiple of 180, without the marker",
    20: "the line has over 1024 octets",
    21: "an entry is malformed",
    22: "a known name comes twice",
    23: "a known name has a value that is not permitted",
    24: "a required name is missing",
    25: "two parameters contradict each other",
}


class Refused(Exception):
    pass


def refuse(number):
    raise Refused(number)


# group kinds

GROUPS = {  # octets and columns of a group, by depth
    "4:4:4": {8: (3, 1), 10: (15, 4), 12: (9, 2), 16: (6, 1)},
    "4:2:2": {8: (4, 2), 10: (5, 2), 12: (6, 2), 16: (8, 2)},
    "4:2:0": {8: (6, 2), 10: (15, 4), 12: (9, 2)},
    "KEY": {8: (1, 1), 10: (5, 4), 12: (3, 2), 16: (2, 1)},
}


class Kind:
    def __init__(self, sampling):
        family = sampling.split("-")[-1]
        self.order = (0, 1, 2) if sampling in ("RGB", "XYZ") else (1, 0, 2)
        self.family = "4:4:4" if sampling in ("RGB", "XYZ") else family
        self.table = dict(GROUPS[self.family])
        if sampling == "XYZ":
            del self.table[8], self.table[10]
        self.planes = 1 if sampling == "KEY" else 3
        self.rows = 2 if family == "4:2:0" else 1

    def step(self, plane):
        """Columns and rows of the part to one of the plane."""
        if plane == 0 or self.family in ("4:4:4", "KEY"):
            return 1, 1
        return (2, 2) if self.family == "4:2:0" else (2, 1)

    def positions(self, columns):
        """Plane, row and column inside the group, most significant first."""
        if self.family == "KEY":
            return [(0, 0, c) for c in range(columns)]
        if self.family == "4:4:4":
            return [(p, 0, c) for c in range(columns) for p in self.order]
        if self.family == "4:2:2":
            return [(1, 0, 0), (0, 0, 0), (2, 0, 0), (0, 0, 1)]
        return [place for i in range(columns // 2) for place in (
            (0, 0, 2 * i), (0, 0, 2 * i + 1), (0, 1, 2 * i), (0, 1, 2 * i + 1), (1, 0, i), (2, 0, i))]


# formats and parts

class Format:
    def __init__(self, sampling, depth, width, height, scan, mode, payload_type, ssrc):
        self.kind, self.depth = Kind(sampling), depth
        self.width, self.height, self.scan, self.mode = width, height, scan, mode
        self.payload_type, self.ssrc = payload_type, ssrc

    def check(self):
        k = self.kind
        if self.depth not in k.table or not (1 <= self.width <= 32767 and 1 <= self.height <= 32767):
            refuse(4)
        if not 96 <= self.payload_type <= 127 or self.ssrc >= 2 ** 32:
            refuse(4)
        if self.scan and (self.height < 2 or k.rows != 1):
            refuse(4)
        self.octets, self.columns = k.table[self.depth]
        self.row_groups = -(-self.width // self.columns)
        if self.mode == "block" and (180 % self.octets or self.row_groups * self.octets < 630):
            refuse(4)
        return self

    def rows(self, field):
        return self.height if self.scan == 0 else (self.height + 1 - field) // 2

    def size(self, plane, rows):
        if plane >= self.kind.planes:
            return 0, 0
        across, down = self.kind.step(plane)
        return -(-self.width // across), -(-rows // down)


class Part:
    def __init__(self, format, timestamp, field):
        self.format, self.timestamp, self.field = format, timestamp, field
        if field > (1 if format.scan else 0):
            refuse(5)
        self.rows = format.rows(field)
        self.unit_rows = -(-self.rows // format.kind.rows)
        self.groups = self.unit_rows * format.row_groups

    def places(self, g):
        """The places of the positions of group g; None is fill."""
        f = self.format
        u, n = divmod(g, f.row_groups)
        for plane, d, e in f.kind.positions(f.columns):
            across, down = f.kind.step(plane)
            row, column = u * (f.kind.rows // down) + d, n * (f.columns // across) + e
            width, height = f.size(plane, self.rows)
            yield (plane, row, column) if row < height and column < width else None


# pictures: samples by place, all 0 at first; a field's row r is row 2r + f of the frame

class Store:
    def __init__(self, format, fill=0):
        self.sizes = [format.size(p, format.height) for p in range(3)]
        self.depth, self.fill, self.samples = format.depth, fill, {}

    def place(self, plane, row, column):
        if plane > 2 or row >= self.sizes[plane][1] or column >= self.sizes[plane][0]:
            refuse(1)
        return plane, row, column

    def show(self, plane, row, column):
        return self.samples.get(self.place(plane, row, column), self.fill)

    def put(self, plane, row, column, value):
        place = self.place(plane, row, column)
        if value >= 2 ** self.depth:
            refuse(2)
        self.samples[place] = value

    def ramp(self):
        for plane, (width, height) in enumerate(self.sizes):
            for row in range(height):
                for column in range(width):
                    self.samples[plane, row, column] = (plane + row + column) % 2 ** self.depth


class Field:
    def __init__(self, below, field):
        self.below, self.field, self.depth = below, field, below.depth
        self.sizes = [(w, (h + 1 - field) // 2) for w, h in below.sizes]

    place = Store.place

    def show(self, plane, row, column):
        self.place(plane, row, column)
        return self.below.show(plane, 2 * row + self.field, column)

    def put(self, plane, row, column, value):
        self.place(plane, row, column)
        self.below.put(plane, 2 * row + self.field, column, value)


# packets

def number(octets):
    return int.from_bytes(octets, "big")


def read(q, part):
    """The segments of a packet, (unit row, first group, groups, octets) each, and the marker; or a refusal."""
    f = part.format
    if len(q) > 1452:
        refuse(7)
    if len(q) < 12 or q[0] >> 6 != 2:
        refuse(8)
    start = 12 + 4 * (q[0] & 15)
    if q[0] & 16:
        start += 4 + 4 * number(q[start + 2:start + 4].ljust(2, b"\0"))
    padding = q[-1] if q[0] & 32 else 0
    if start + padding > len(q) or (q[0] & 32 and padding == 0):
        refuse(9)
    end = len(q) - padding
    if (q[1] & 127, number(q[8:12]), number(q[4:8])) != (f.payload_type, f.ssrc, part.timestamp):
        refuse(10)
    headers, at = [], start + 2
    while True:
        if at + 6 > end or len(headers) == 3:
            refuse(11)
        length, row, offset = (number(q[at + i:at + i + 2]) for i in (0, 2, 4))
        headers.append((length, row >> 15, row & 32767, offset & 32767))
        at += 6
        if not offset >> 15:
            break
    if any(l % f.octets or (l == 0 and len(headers) > 1) for l, _, _, _ in headers):
        refuse(12)
    if any(field != part.field or row >= part.rows or row % f.kind.rows for _, field, row, _ in headers):
        refuse(13)
    if any(o % f.columns or o >= f.width or o // f.columns + l // f.octets > f.row_groups for l, _, _, o in headers):
        refuse(14)
    for (l, _, row, o), (_, _, later, p) in zip(headers, headers[1:]):
        if later < row or (later == row and p // f.columns < o // f.columns + l // f.octets):
            refuse(15)
    total = sum(h[0] for h in headers)
    marker = q[1] >> 7
    if total > end - at:
        refuse(16)
    if total < end - at and not marker:
        refuse(17)
    if f.mode == "block" and not marker and total % 180:
        refuse(18)
    segments = []
    for length, _, row, offset in headers:
        segments.append((row // f.kind.rows, offset // f.columns, length // f.octets, q[at:at + length]))
        at += length
    return segments, marker


def take(q, part, store, taken):
    """How many groups are set now."""
    segments, _ = read(q, part)
    f, fresh = part.format, 0
    for u, first, groups, octets in segments:
        for i in range(groups):
            g = u * f.row_groups + first + i
            if g in taken:
                continue
            taken.add(g)
            fresh += 1
            bits = number(octets[i * f.octets:(i + 1) * f.octets])
            places = list(part.places(g))
            for k, place in enumerate(places):
                if place:
                    store.put(*place, bits >> f.depth * (len(places) - 1 - k) & (2 ** f.depth - 1))
    return fresh


def group(part, store, g):
    f, bits = part.format, 0
    for place in part.places(g):
        bits = bits << f.depth | (store.show(*place) if place else 0)
    return bits.to_bytes(f.octets, "big")


def packet(part, sequence, marker, segments, octets, sources=b"", extension=b"", padding=b""):
    """segments: (unit row, first group, groups); octets: of group g."""
    f = part.format
    first = 128 | (32 if padding else 0) | (16 if extension else 0) | len(sources) // 4
    q = bytes([first, marker << 7 | f.payload_type]) + (sequence & 65535).to_bytes(2, "big")
    q += part.timestamp.to_bytes(4, "big") + f.ssrc.to_bytes(4, "big") + sources + extension
    q += (sequence >> 16).to_bytes(2, "big")
    for i, (u, n, groups) in enumerate(segments):
        more = i + 1 < len(segments)
        for x in (groups * f.octets, part.field << 15 | u * f.kind.rows, more << 15 | n * f.columns):
            q += x.to_bytes(2, "big")
    for u, n, groups in segments:
        for i in range(groups):
            q += octets(u * f.row_groups + n + i)
    return q + padding


def packets(part, store, sequence):
    """The packets of a whole part."""
    f, g, out = part.format, 0, []
    while g < part.groups:
        space, segments = (1438, []) if f.mode == "general" else (1260, [])
        while len(segments) < 3 and g < part.groups:
            room = (space - 6 if f.mode == "general" else space) // f.octets
            if room < 1:
                break
            u, n = divmod(g, f.row_groups)
            groups = min(room, f.row_groups - n)
            segments.append((u, n, groups))
            space -= groups * f.octets + (6 if f.mode == "general" else 0)
            g += groups
        out.append(packet(part, sequence, int(g == part.groups), segments, lambda i: group(part, store, i)))
        sequence = (sequence + 1) % 2 ** 32
    return out, sequence


# format lines

SAMPLINGS = [s + "-" + f for s in ("YCbCr", "CLYCbCr", "ICtCp") for f in ("4:4:4", "4:2:2", "4:2:0")] + ["RGB", "XYZ", "KEY"]


def whole(text, most):
    return bool(re.fullmatch(r"[1-9][0-9]*", text)) and int(text) <= most


def ratio(text, mark, most):
    a, found, b = text.partition(mark)
    return bool(found) and whole(a, most) and whole(b, most) and math.gcd(int(a), int(b)) == 1


PERMITTED = {
    "sampling": lambda v: v in SAMPLINGS,
    "depth": lambda v: v in ("8", "10", "12", "16", "16f"),
    "width": lambda v: whole(v, 32767),
    "height": lambda v: whole(v, 32767),
    "exactframerate": lambda v: whole(v, 999999) or (ratio(v, "/", 999999) and v.split("/")[1] != "1"),
    "colorimetry": lambda v: v in "BT601 BT709 BT2020 BT2100 ST2065-1 ST2065-3 UNSPECIFIED XYZ ALPHA".split(),
    "PM": lambda v: v in ("2110GPM", "2110BPM"),
    "SSN": lambda v: v in ("ST2110-20:2017", "ST2110-20:2022"),
    "TCS": lambda v: v in "SDR PQ HLG LINEAR BT2100LINPQ BT2100LINHLG ST2065-1 ST428-1 DENSITY ST2115LOGS3 UNSPECIFIED".split(),
    "RANGE": lambda v: v in ("NARROW", "FULL", "FULLPROTECT"),
    "MAXUDP": lambda v: v == "1460",
    "PAR": lambda v: ratio(v, ":", 32767),
}
FLAGS = ("interlace", "segmented")
REQUIRED = ("sampling", "depth", "width", "height", "exactframerate", "colorimetry", "PM", "SSN")
DEFAULTS = {"TCS": "SDR", "RANGE": "NARROW", "MAXUDP": "1460", "PAR": "1:1"}


def record_of(line):
    if len(line.encode()) > 1024:
        refuse(20)
    entry = r"[!-:<>-~]+(=[!-:<-~]+)?"
    if line and not re.fullmatch(rf"{entry}(;[ \t]+{entry})*(;[ \t]*)?", line):
        refuse(21)
    entries = [e.partition("=") for e in re.split(r";[ \t]*", line) if e]
    names = [n for n, _, _ in entries if n in PERMITTED or n in FLAGS]
    if len(set(names)) < len(names):
        refuse(22)
    for name, found, value in entries:
        if (name in FLAGS and found) or (name in PERMITTED and not (found and PERMITTED[name](value))):
            refuse(23)
    record = {n: v for n, _, v in entries if n in PERMITTED or n in FLAGS}
    if any(n not in record for n in REQUIRED):
        refuse(24)
    new = record["colorimetry"] == "ALPHA" or record.get("TCS") == "ST2115LOGS3"
    if ("segmented" in record and "interlace" not in record) or (
            record.get("RANGE") == "FULLPROTECT" and record["colorimetry"] == "BT2100") or (
            record["SSN"] != ("ST2110-20:2022" if new else "ST2110-20:2017")):
        refuse(25)
    return record


# what the program says

LINES = []


def say(text):
    LINES.append(text)


def say_refusal(refused, before=""):
    say(f"{before}refused {refused.args[0]}: {WORDS[refused.args[0]]}")


def attempt(action, before=""):
    try:
        action()
    except Refused as refused:
        say_refusal(refused, before)


def say_record(record):
    for name in REQUIRED:
        say(f"{name:14} {record[name]}")
    for name in FLAGS:
        say(f"{name:14} {'yes' if name in record else 'no'}")
    for name, value in DEFAULTS.items():
        say(f"{name:14} {record[name] if name in record else value + ' (default)'}")


def say_format(f):
    say(f"format         payload type {f.payload_type}, SSRC {f.ssrc}")
    say(f"group          octets {f.octets}, columns {f.columns}, groups in a row {f.row_groups}")
    area = sum(w * h for w, h in (f.size(p, f.height) for p in range(3)))
    unit_rows = -(-f.height // f.kind.rows)
    say(f"frame          octets planar {2 * area}, packed {unit_rows * f.row_groups * f.octets}")
    for field in (0, 1) if f.scan else (0,):
        part = Part(f, 0, field)
        sizes = " ".join("{} x {}".format(*f.size(p, part.rows)) for p in range(f.kind.planes))
        say(f"part {field}         rows {part.rows}, groups {part.groups}, octets of the map {-(-part.groups // 8)}, planes {sizes}")


def say_segments(q, part):
    segments, marker = read(q, part)
    say(f"packet         segments {len(segments)}, marker {'set' if marker else 'clear'}")
    for i, (u, n, groups, octets) in enumerate(segments):
        say(f"segment {i}      unit row {u}, first group {n}, groups {groups}, octets {len(octets)}")


def octets_of(text):
    return bytes.fromhex(text) if re.fullmatch(r"([0-9a-fA-F]{2})*", text) else None


class Script:
    """The state between lines: a stream, a store of its frame, an open part."""

    def __init__(self):
        self.format = self.store = self.part = None

    def line(self, i, text):
        name, _, rest = text.partition(" ")
        if name in ("", "#"):
            return
        say(f"line {i}:")
        words = rest.split(" ")
        usage = {
            "format": (r"\d+ \d+ .*", "format PAYLOAD-TYPE SSRC FORMAT-LINE"),
            "read": (r"\d+ \d+ .*", "read TIMESTAMP FIELD HEX"),
            "store": (r"planar|packed", "store planar, or store packed"),
            "show": (r"\d+ \d+ \d+", "show PLANE ROW COLUMN"),
            "put": (r"\d+ \d+ \d+ \d+", "put PLANE ROW COLUMN VALUE"),
            "send": (r"\d+ \d+ \d+", "send TIMESTAMP FIELD SEQUENCE-NUMBER"),
            "open": (r"\d+ \d+", "open TIMESTAMP FIELD"),
        }
        if name in usage and not re.fullmatch(usage[name][0], rest):
            return say(f"not understood: write {usage[name][1]}")
        if name not in (*usage, "demo", "time", "ramp", "packet", "count", "close"):
            return say("not understood: write demo, time, format, read, store, ramp, show, put, send, open, packet, count or close")
        wants_part = ("packet", "count", "close")
        if self.part and name not in (*wants_part, "show", "put"):
            self.part = None
        if name in wants_part and not self.part:
            self.format = self.store = None
            return say("not done: open a part first")
        if name in ("ramp", "show", "put", "send", "open") and not self.store:
            self.format = None
            return say("not done: give a store first")
        if name in ("read", "store"):
            self.store = None
            if not self.format:
                return say("not done: give a format first")
        attempt(lambda: getattr(self, "do_" + name)(rest, words))

    def do_format(self, rest, words):
        self.format = self.store = None
        record = record_of(rest.split(" ", 2)[2])
        say_record(record)
        scan = 0 if "interlace" not in record else 2 if "segmented" in record else 1
        mode = "block" if record["PM"] == "2110BPM" else "general"
        depth = 16 if record["depth"] == "16f" else int(record["depth"])
        size = int(record["width"]), int(record["height"])
        format = Format(record["sampling"], depth, *size, scan, mode, int(words[0]), int(words[1])).check()
        say_format(format)
        self.format = format

    def do_read(self, rest, words):
        q = octets_of(rest.split(" ", 2)[2])
        if q is None:
            return say("not understood: a packet is an even number of hex digits")
        say_segments(q, Part(self.format, int(words[0]), int(words[1])))

    def do_store(self, rest, words):
        self.store = Store(self.format)
        say("done")

    def seen(self):
        return self.part[1] if self.part else self.store

    def do_ramp(self, rest, words):
        self.store.ramp()
        say("done")

    def do_show(self, rest, words):
        say(f"sample {self.seen().show(*map(int, words))}")

    def do_put(self, rest, words):
        self.seen().put(*map(int, words))
        say("done")

    def layer(self, field):
        return Field(self.store, field) if self.format.scan else self.store

    def do_send(self, rest, words):
        timestamp, field, sequence = map(int, words)
        out, following = packets(Part(self.format, timestamp, field), self.layer(field), sequence)
        for q in out:
            say("packet " + q.hex().upper())
        say(f"sent, next sequence number {following}")

    def do_open(self, rest, words):
        timestamp, field = map(int, words)
        self.part = (Part(self.format, timestamp, field), self.layer(field), set())
        say("opened")

    def do_packet(self, rest, words):
        q = octets_of(rest)
        if q is None:
            return say("not understood: a packet is an even number of hex digits")
        say(f"taken, new groups {take(q, *self.part)}")

    def do_count(self, rest, words):
        say(f"missing groups {self.part[0].groups - len(self.part[2])}")

    def do_close(self, rest, words):
        self.part = None
        say("closed")

    def do_demo(self, rest, words):
        self.format = self.store = None
        say("4:2:2 at 10 bits, 720 x 5, from planar to packed memory")
        travel(Format("YCbCr-4:2:2", 10, 720, 5, 0, "general", 96, 1).check())
        say("4:2:0 at 10 bits, 399 x 9, from packed to planar memory")
        travel(Format("YCbCr-4:2:0", 10, 399, 9, 0, "general", 96, 1).check())


def travel(format):
    """A ramp goes out, and its packets come back damaged, late and twice, and once more in another maker's cuts."""
    camera, monitor, part, taken = Store(format), Store(format), Part(format, 900_000, 0), set()
    camera.ramp()
    out, following = packets(part, camera, 65_530)
    for q in out:
        say(f"out, octets {len(q)}")
        say_segments(q, part)
    say(f"sent, next sequence number {following}")
    say(f"missing groups {part.groups}")
    for q in returning(part, camera, out):
        try:
            fresh = take(q, part, monitor, taken)
            say(f"in, taken, new groups {fresh}, missing groups {part.groups - len(taken)}")
        except Refused as refused:
            say_refusal(refused, "in, ")
    assert monitor.samples == camera.samples
    say("the picture is the one sent")


def returning(part, camera, out):
    def turned(at, bits):
        return out[0][:at] + bytes([out[0][at] ^ bits]) + out[0][at + 1:]

    yield from (turned(6, 1), turned(0, 0xC0), turned(11, 1), out[0][:len(out[0]) // 2], turned(16, 0x10))
    for q in out[::2][::-1]:
        yield q
        yield q
    f = part.format
    pieces = [(u, n, min(29, f.row_groups - n)) for u in range(part.unit_rows) for n in range(0, f.row_groups, 29)]
    sources, extension = bytes(4) + b"\0\0\0\1", b"\xbe\xde\0\1" + bytes(4)
    for i in range(0, len(pieces), 3):
        last = i + 3 >= len(pieces)
        yield packet(part, i // 3, int(last), pieces[i:i + 3], lambda g: group(part, camera, g),
                     sources, extension, b"\0\0\0\4" if last else b"")


def main():
    script = Script()
    for i, text in enumerate(sys.stdin.read().split("\n"), 1):
        script.line(i, text)
    print("\n".join(LINES))


main()
