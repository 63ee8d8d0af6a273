"""The messages of trpc.proto, and document 01's reading of a frame, with document 02's bytes 15 and 16 (P2)."""

import os
import re

import walk
from walk import HERE, Refused, Walk, bytes_field

CLASSES = {**walk.CLASSES, "key": "a map key is not UTF-8"}

KINDS = ("request", "response", "init", "data", "feedback", "close")
UNARY = {"request", "response"}
STREAM_TYPES = {"init": 1, "data": 2, "feedback": 3, "close": 4}
MESSAGES = {
    "request": "RequestProtocol",
    "response": "ResponseProtocol",
    "init": "TrpcStreamInitMeta",
    "feedback": "TrpcStreamFeedBackMeta",
    "close": "TrpcStreamCloseMeta",
}
ROW_NUMBERS = 256
MOST_ENTRIES = 64


# ---- The fields of the messages -------------------------------------------------------------------------------------


def schemas(source):
    """Of each message: number, type and name of its fields, in the order of the file."""
    found = {"": []}
    for name, inside in re.findall(r"^message (\w+) \{\n(.*?)^\}", source, re.S | re.M):
        fields = re.findall(r"^ *(.+) (\w+) = (\d+);", inside, re.M)
        found[name] = [(int(number), type_name, field) for type_name, field, number in fields]
    return found


with open(os.path.join(HERE, "trpc.proto"), encoding="ascii") as opened:
    SOURCE = opened.read()
SCHEMAS = schemas(SOURCE)
NUMBERS = ("uint32", "int32")
MAP = "map<string, bytes>"


def fields_of(kind):
    return SCHEMAS[MESSAGES.get(kind, "")]


def map_number(kind):
    """The number of the map; Init has it in its request_meta."""
    fields = SCHEMAS["TrpcStreamInitRequestMeta"] if kind == "init" else fields_of(kind)
    return next(number for number, type_name, _ in fields if type_name == MAP)


def in_message(kind, entries):
    """The fields of the map as fields of the message."""
    return bytes_field(1, entries) if kind == "init" else entries


# ---- Document 01's reading of a frame -------------------------------------------------------------------------------


class Reader(Walk):
    """What a frame says as a kind: numbers, spans (start and length) and rows; or Refused."""

    def __init__(self, kind, frame, lent):
        super().__init__(frame)
        self.kind, self.lent = kind, lent
        self.rows, self.entries = [], 0

    def read(self):
        """The fields by name. Then the version is in `version`, the rows are in `rows`, and the parts are in `header`,
        `body` and `attachment`."""
        frame = self.string
        if self.lent < ROW_NUMBERS:
            raise Refused(16)
        if len(frame) < 16:
            raise Refused(9)
        self.judge()
        total, header_size = int.from_bytes(frame[4:8], "big"), int.from_bytes(frame[8:10], "big")
        if len(frame) != total or not self.kind_fits():
            raise Refused(9)
        split = {"request": 16 + header_size, "response": 16 + header_size, "data": 16}.get(self.kind, total)
        values = self.message(fields_of(self.kind), 16, split)
        attachment_size = values.get("attachment_size", 0)
        if attachment_size > total - split:
            raise Refused(15)
        self.version = frame[14]
        self.header, self.body, self.attachment = frame[16:split], frame[split:], frame[total - attachment_size :]
        return values

    def judge(self):
        frame, unary = self.string, self.string[2] == 0
        total, header_size = int.from_bytes(frame[4:8], "big"), int.from_bytes(frame[8:10], "big")
        grounds = (
            frame[0:2] != b"\x09\x30",
            frame[2] > 1,
            not unary and not 1 <= frame[3] <= 4,
            not 16 <= total <= 65536,
            header_size > (total - 16 if unary else 0),
        )
        for code, holds in enumerate(grounds, 3):
            if holds:
                raise Refused(code)

    def kind_fits(self):
        if self.kind in UNARY:
            return self.string[2] == 0
        return self.string[2] == 1 and self.string[3] == STREAM_TYPES[self.kind]

    def message(self, fields, start, end, values=None):
        values = {} if values is None else values
        known = {number: (type_name, name) for number, type_name, name in fields}
        for number, wire_type, value in self.each(start, end, self.groups):
            type_name, name = known.get(number, (None, None))
            if type_name in NUMBERS and wire_type == 0:
                values[name] = as_type(type_name, value)
            elif type_name in ("string", "bytes") and wire_type == 2:
                values[name] = span(value)
            elif type_name == MAP and wire_type == 2:
                self.entry(*value)
            elif type_name in SCHEMAS and wire_type == 2:
                self.message(SCHEMAS[type_name], *value, values.setdefault(name, {}))
        return values

    def entry(self, start, end):
        if self.entries == MOST_ENTRIES:
            raise Refused(14)
        self.entries += 1
        entry = self.message([(1, "string", "key"), (2, "bytes", "value")], start, end)
        key, value = entry.get("key", (0, 0)), entry.get("value", (0, 0))
        content = self.content(key)
        try:
            content.decode("utf-8")
        except UnicodeDecodeError:
            self.met.add("key")
        for row in self.rows:
            if self.content(row[0]) == content:
                row[1] = value
                return
        self.rows.append([key, value])

    def content(self, place):
        return self.string[place[0] : place[0] + place[1]]


def as_type(type_name, value):
    low = value % 2**32
    return low - 2**32 if type_name == "int32" and low >= 2**31 else low


def span(value):
    start, end = value
    return (start, end - start) if start < end else (0, 0)


# ---- Frames ---------------------------------------------------------------------------------------------------------


class Case:
    """A frame that is read as a kind. `given` has the values of a whole frame's message, and None that the frame is
    damaged; `header` is what protoc is asked about. `version` and `last` are bytes 15 and 16 of the frame; with no
    `version` both are by the case's number."""

    def __init__(self, label, kind, header, body=b"", given=None, frame=None, lent=ROW_NUMBERS, number=7):
        self.label, self.kind, self.lent, self.id = label, kind, lent, number
        self.header, self.body, self.given = header, body, given
        self.frame = framed(kind, header, body, number) if frame is None else frame
        self.version, self.last = None, 0

    def put_last_two(self, count):
        """Puts bytes 15 and 16 into the frame, as far as it has them; `count` is the case's number."""
        if self.version is None:
            self.version, self.last = version_of(count), last_of(count)
        self.frame = (self.frame[:14] + bytes([self.version, self.last]) + self.frame[16:])[: len(self.frame)]


def version_of(count):
    """The version of a case: of each second one 0, 1 or 255, of the others every version by turns."""
    return count // 2 % 256 if count % 2 else (0, 1, 255)[count // 2 % 3]


def last_of(count):
    """Byte 16 of a case: of each fifth one not 0."""
    return 1 + count % 255 if count % 5 == 0 else 0


def framed(kind, header, body=b"", number=7, version=0):
    total = 16 + len(header) + len(body)
    assert total <= 65536 and not (body and kind in ("init", "feedback", "close"))
    if kind in UNARY:
        own = {"header_size": len(header)}
    else:
        own = {"data_type": 1, "stream_type": STREAM_TYPES[kind]}
    return fixed(**own, total=total, number=number, version=version) + header + body


def fixed(magic=0x0930, data_type=0, stream_type=0, total=16, header_size=0, number=7, version=0):
    sizes = ((magic, 2), (data_type, 1), (stream_type, 1), (total, 4), (header_size, 2), (number, 4), (version, 1))
    return b"".join(value.to_bytes(size, "big") for value, size in sizes) + b"\0"
