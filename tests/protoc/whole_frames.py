"""Whole frames: what protoc is given, and fields that are made by hand where no message of trpc.proto has them."""

from messages import KINDS, MAP, MESSAGES, MOST_ENTRIES, NUMBERS, ROW_NUMBERS, SCHEMAS, UNARY
from messages import Case, as_type, fields_of, in_message, map_number
from values import merge, on_the_wire
from walk import Dice, bytes_field, group, groups, number_field, tag, varint


class Explicit(dict):
    """Values that protoc is to write even where they are zero or empty."""


class Made:
    """Fields that are made by hand, since no message of trpc.proto has them; and the values that they say."""

    def __init__(self, content, values=()):
        self.content, self.values = content, dict(values)


class Wanted:
    """A whole frame: its header is the pieces, joined. `last_two` are its bytes 15 and 16, where they are not by its
    number."""

    def __init__(self, label, kind, *pieces, body=b"", lent=ROW_NUMBERS, number=7, stream_type=None, last_two=None):
        self.label, self.kind, self.pieces = label, kind, pieces
        self.body, self.lent, self.number, self.stream_type = body, lent, number, stream_type
        self.last_two = last_two or (None, 0)

    def case(self, tool):
        header, given = b"", {}
        for piece in self.pieces:
            if isinstance(piece, Made):
                content, values = piece.content, piece.values
            else:
                explicit = isinstance(piece, Explicit)
                content = tool.encode(self.kind, piece, explicit)
                values = piece if explicit else on_the_wire(piece)
            header += content
            merge(given, values)
        case = Case(self.label, self.kind, header, self.body, given, lent=self.lent, number=self.number)
        case.version, case.last = self.last_two
        if self.stream_type is not None:
            case.frame = case.frame[:3] + bytes([self.stream_type]) + case.frame[4:]
        return case


SIZES = {"uint32": (1, 128, 2**31, 2**32 - 1), "int32": (1, -1, 2**31 - 1, -(2**31))}
NAMES = (b"trpc.packing.cell.Robot", b"trpc.vision.camera.Feed", b"/trpc.packing.cell.Robot/Pick", b"bay 12: no crate")
WITH_MAP = ("request", "response", "init", "close")


def mapped(kind, entries):
    """The values of a message with these map entries."""
    return {"request_meta": {"trans_info": entries}} if kind == "init" else {"trans_info": entries}


def leaves(kind):
    """Type, name and the values with one field set, for each number and byte field, those in parts of Init too."""
    for _, type_name, name in fields_of(kind):
        if type_name in SCHEMAS:
            for _, inner_type, inner in SCHEMAS[type_name]:
                if inner_type != MAP:
                    yield inner_type, f"{name}.{inner}", lambda value, n=name, i=inner: {n: {i: value}}
        elif type_name != MAP:
            yield type_name, name, lambda value, n=name: {n: value}


def examples():
    """Document 01's examples about whole messages."""
    yield Wanted("document 01: id 7 and every field zero", "request")
    yield Wanted("document 01: Feedback 08 AC 02", "feedback", {"window_size_increment": 300})
    yield Wanted("document 01: request 20 88 27", "request", {"timeout": 5000})
    yield Wanted("document 01: request 20 05 20 07", "request", {"timeout": 5}, {"timeout": 7})
    yield Wanted("document 01: response 20, nine FF, 01", "response", {"ret": -1})
    yield Wanted("document 01: response 60 05 with 5 body bytes", "response", {"attachment_size": 5}, body=b"crate")
    yield Wanted("document 01: response 58 05", "response", Made(b"\x58\x05"), body=b"crate")
    yield Wanted("document 01: request 7B 7C", "request", Made(b"\x7b\x7c"))


def single_fields():
    for kind in MESSAGES:
        for lent in (256, 257, 300):
            yield Wanted(f"{kind}, no field", kind, lent=lent, number=2**32 - 1)
        for type_name, name, values in leaves(kind):
            if name == "attachment_size":
                continue
            if type_name in NUMBERS:
                for value in SIZES[type_name]:
                    yield Wanted(f"{kind}, {name} {value}", kind, values(value))
                yield Wanted(f"{kind}, {name} zero", kind, Explicit(values(0)), number=0)
            else:
                for size in (1, 127, 128):
                    content = bytes(range(100, 100 + size))
                    yield Wanted(f"{kind}, {name} of {size} bytes", kind, values(content), lent=300)
                yield Wanted(f"{kind}, {name} empty", kind, Explicit(values(b"")))


def entries(count, first=0):
    return [(b"trpc-%d" % k, b"v" * (k % 5)) for k in range(first, first + count)]


def maps():
    for count in range(MOST_ENTRIES + 1):
        kind = WITH_MAP[count % 4]
        yield Wanted(f"{kind}, {count} map entries", kind, mapped(kind, entries(count)), lent=300 - count % 45)
    for label, *pieces in (
        ("all 64 map entries", entries(64)),
        ("empty key and value", [(b"", b"x"), (b"y", b""), (b"yy", b"z")]),
        ("two empty keys", [(b"", b"")], [(b"", b"last")]),
        ("keys alike", [(key, key) for key in (b"a", b"ab", b"b", b"ba", b"A", b"a\0")]),
        ("repeated keys", entries(3), [(b"trpc-1", b"again")], entries(2, 2)),
        ("first key to an empty value", entries(9), [(b"trpc-0", b"")]),
        ("64 map entries, one key", *[[(b"k", b"%d" % k)] for k in range(64)]),
        ("32 keys twice", entries(32), entries(32)[::-1]),
        ("bytes of every value", [("é".encode(), bytes(range(256)))]),
        ("key of 127 and value of 300 bytes", [(b"k" * 127, b"v" * 300)]),
    ):
        for kind in WITH_MAP:
            yield Wanted(f"{kind}, {label}", kind, *[mapped(kind, piece) for piece in pieces], lent=300)


def full(kind, dice, largest=False):
    """All fields set."""
    values = {}
    for type_name, name, made in leaves(kind):
        if type_name in NUMBERS:
            value = SIZES[type_name][3] if largest else SIZES[type_name][dice.below(4)]
            merge(values, made(value if name != "attachment_size" else 3))
        else:
            merge(values, made(NAMES[dice.below(4)]))
    return values


def all_fields(dice):
    for kind in MESSAGES:
        body = b"pallet 7" if kind in UNARY else b""
        zero = {}
        for type_name, _, made in leaves(kind):
            merge(zero, made(0 if type_name in NUMBERS else b""))
        more = (mapped(kind, entries(5)),) if kind in WITH_MAP else ()
        yield Wanted(f"{kind}, every field", kind, full(kind, dice), *more, body=body)
        yield Wanted(f"{kind}, every field largest", kind, full(kind, dice, largest=True), *more, body=body, lent=300)
        yield Wanted(f"{kind}, every field zero or empty", kind, Explicit(zero), body=body)
        yield Wanted(f"{kind}, set and then zero or empty", kind, full(kind, dice), Explicit(zero), *more, body=body)
        yield Wanted(f"{kind}, zero or empty and then set", kind, Explicit(zero), *more, full(kind, dice), body=body)
        yield Wanted(f"{kind}, every field twice", kind, full(kind, dice), *more, full(kind, dice), *more, body=body)


def metas():
    one = {"caller": NAMES[0], "message_type": 3}
    two = {"callee": NAMES[1], "func": NAMES[2], "trans_info": entries(2)}
    failed, why = {"ret": -2}, {"error_msg": b"no window"}
    for label, *pieces in (
        ("empty request_meta", {"request_meta": {}}),
        ("empty response_meta", {"response_meta": {}}),
        ("both empty", {"request_meta": {}, "response_meta": {}}),
        ("both metas", {"request_meta": one, "response_meta": failed, "init_window_size": 65535}),
        ("request_meta in two", {"request_meta": one}, {"request_meta": two}),
        ("response_meta in two", {"response_meta": failed}, {"response_meta": why}),
        ("request_meta and then an empty one", {"request_meta": two}, {"request_meta": {}}),
        ("response_meta and then an empty one", {"response_meta": why}, {"response_meta": {}}),
        ("request_meta with another caller", {"request_meta": one}, {"request_meta": {"caller": b"other"}}),
        ("request_meta with an empty caller", {"request_meta": one}, Explicit({"request_meta": {"caller": b""}})),
        ("response_meta with ret zero", {"response_meta": failed}, Explicit({"response_meta": {"ret": 0}})),
        ("keys in two metas", {"request_meta": two}, {"request_meta": {"trans_info": entries(2, 1)}}),
        ("metas by turns", {"request_meta": one}, {"response_meta": why}, {"request_meta": two}),
        ("numbers around", {"content_type": 2}, {"request_meta": two}, {"content_type": 9, "content_encoding": 1}),
        ("64 entries in two metas", mapped("init", entries(40)), mapped("init", entries(24, 30))),
    ):
        yield Wanted(f"init, {label}", "init", *pieces, lent=300)


def parts():
    for kind in sorted(UNARY):
        for size in (0, 1, 4, 5):
            piece = Explicit({"attachment_size": size})
            yield Wanted(f"{kind}, attachment {size} of 5 bytes", kind, piece, body=b"crate")
        yield Wanted(f"{kind}, no attachment", kind, {"version": 1}, body=bytes(range(256)))
        yield Wanted(f"{kind}, another request_id", kind, {"request_id": 8}, body=b"\0")
        yield Wanted(f"{kind}, attachment twice", kind, {"attachment_size": 9}, {"attachment_size": 2}, body=b"box")
        yield Wanted(f"{kind}, stream type 9 ignored", kind, {"version": 1}, body=b"box", stream_type=9)
    for size in (0, 1, 300):
        body = bytes(k % 256 for k in range(size))
        yield Wanted(f"data, body of {size} bytes", "data", body=body, lent=256 + size % 7)
    yield Wanted("data, body like a message", "data", body=bytes_field(9, b"") + b"\x07")
    for kind in ("request", "close"):
        name = {"request": "func", "close": "msg"}[kind]
        yield Wanted(f"{kind}, {name} of 5,000 bytes", kind, {name: bytes(k % 251 for k in range(5000))})
    largest = Made(bytes_field(13, bytes(65514)) + b"\x08\x05", {"version": 5})
    yield Wanted("response, largest header", "response", largest)


def last_two_bytes():
    """Document 02, P2: byte 15 is the protocol version, and byte 16 is not looked at. The version of a request's or a
    response's message is another one."""
    for kind in KINDS:
        some = [{"version": 2}] if kind in UNARY else []
        for label, last_two in (
            ("version 1", (1, 0)),
            ("version 255", (255, 0)),
            ("byte 16 not 0", (0, 1)),
            ("version 1 and byte 16 not 0", (1, 255)),
        ):
            yield Wanted(f"{kind}, {label}", kind, *some, last_two=last_two)


def strange_fields():
    """Fields that no message has, or that have another wire type: each is skipped."""
    fixed32, fixed64 = tag(15, 5) + b"abcd", tag(15, 1) + b"abcdefgh"
    unknown = (number_field(15, 5), fixed64, bytes_field(15, b"box"), group(15, number_field(1, 9)), fixed32)
    wide = (number_field(2**29 - 1, 2**64 - 1), number_field(13, 1), groups(32), groups(1) * 40)
    for kind in MESSAGES:
        some = {"window_size_increment": 9} if kind == "feedback" else {"content_type": 9}
        some = {"ret": 9} if kind == "close" else some
        for k, content in enumerate(unknown + wide):
            yield Wanted(f"{kind}, unknown field {k}", kind, some, Made(content))
        strange = b""
        for number, type_name, _ in fields_of(kind):
            end = number_field(1, 7) + tag(number, 4)
            values = {0: varint(300), 1: b"12345678", 2: b"\x03box", 3: end, 5: b"1234"}
            own = 0 if type_name in NUMBERS else 2
            strange += b"".join(tag(number, w) + value for w, value in values.items() if w != own)
        yield Wanted(f"{kind}, every field with other wire types", kind, some, Made(strange))
    yield Wanted("response, field 11", "response", {"attachment_size": 2}, Made(number_field(11, 5)), body=b"box")
    for number in range(1, 6):
        for content in (number_field(6, 5), group(number), tag(number, 5) + b"1234"):
            meta = {"request_meta": {"caller": b"c"}}
            piece = Made(bytes_field(1, content), {"request_meta": {}})
            yield Wanted("init, strange field in request_meta", "init", meta, piece)


def long_varints():
    """Longer than needed is allowed."""
    for size in range(1, 11):
        content = tag(4, 0) + varint(5, size)
        yield Wanted(f"request, timeout in {size} bytes", "request", Made(content, {"timeout": 5}))
        content = tag(4, 0, size) + b"\x05"
        yield Wanted(f"request, tag in {size} bytes", "request", Made(content, {"timeout": 5}))
        content = tag(5, 2) + varint(3, size) + b"box"
        yield Wanted(f"request, length in {size} bytes", "request", Made(content, {"caller": b"box"}))
        content = bytes_field(9, tag(1, 2) + varint(1, size) + b"k" + tag(2, 2, size) + b"\x01v")
        piece = Made(content, {"trans_info": [(b"k", b"v")]})
        yield Wanted(f"request, lengths and tags of an entry in {size} bytes", "request", piece)
    for value in (2**32, 2**32 + 5, 2**63, 2**64 - 1):
        given = {"timeout": value % 2**32, "version": 1}
        yield Wanted(f"request, timeout {value}", "request", {"version": 1}, Made(number_field(4, value), given))
        given = {"ret": as_type("int32", value)}
        yield Wanted(f"response, ret {value}", "response", Made(number_field(4, value), given))
        given = {"response_meta": {"ret": as_type("int32", value)}}
        yield Wanted(f"init, ret {value}", "init", Made(bytes_field(2, number_field(1, value)), given))


def strange_entries():
    key, value = bytes_field(1, b"k"), bytes_field(2, b"v")
    fixed32, fixed64 = b"1234", b"12345678"
    for label, content, row in (
        ("nothing", b"", (b"", b"")),
        ("no key", value, (b"", b"v")),
        ("no value", key, (b"k", b"")),
        ("value first", value + key, (b"k", b"v")),
        ("key twice", bytes_field(1, b"first") + value + key, (b"k", b"v")),
        ("value twice", key + bytes_field(2, b"first") + value, (b"k", b"v")),
        ("value and then an empty one", key + value + bytes_field(2, b""), (b"k", b"")),
        ("unknown fields", number_field(3, 5) + key + group(9, key) + value + tag(4, 5) + fixed32, (b"k", b"v")),
        ("other wire types", number_field(1, 5) + key + group(2, value) + value + tag(1, 1) + fixed64, (b"k", b"v")),
        ("32 groups", key + groups(32) + value, (b"k", b"v")),
        ("key that is no UTF-8", bytes_field(1, b"\xff\xfe") + value, (b"\xff\xfe", b"v")),
    ):
        for kind in WITH_MAP:
            piece = Made(in_message(kind, bytes_field(map_number(kind), content)), mapped(kind, [row]))
            yield Wanted(f"{kind}, entry with {label}", kind, mapped(kind, entries(1)), piece)


def random_values(kind, dice):
    values = {}
    for type_name, name, made in leaves(kind):
        if dice.below(2) and name != "attachment_size":
            if type_name in NUMBERS:
                merge(values, made(as_type(type_name, dice.number())))
            else:
                merge(values, made(dice.bytes(dice.below(20))))
    return Explicit(values) if dice.below(2) else values


def random_entries(dice):
    return [(b"key %d" % dice.below(6), dice.bytes(dice.below(5))) for _ in range(dice.below(5))]


def random_headers(dice):
    for kind in MESSAGES:
        for _ in range(25):
            pieces = [random_values(kind, dice) for _ in range(1 + dice.below(3))]
            if kind in WITH_MAP:
                pieces.append(mapped(kind, random_entries(dice)))
                pieces.insert(0, mapped(kind, random_entries(dice)))
            body = dice.bytes(dice.below(30)) if kind in UNARY else b""
            if body:
                pieces.append({"attachment_size": dice.below(len(body) + 1)})
            lent, number = 256 + dice.below(45), dice.number() % 2**32
            yield Wanted(f"{kind}, random", kind, *pieces, body=body, lent=lent, number=number)


def whole():
    dice = Dice(2026)
    for example in examples():
        example.last_two = (0, 0)
        yield example
    yield from single_fields()
    yield from maps()
    yield from all_fields(dice)
    yield from metas()
    yield from parts()
    yield from last_two_bytes()
    yield from strange_fields()
    yield from long_varints()
    yield from strange_entries()
    yield from random_headers(dice)
