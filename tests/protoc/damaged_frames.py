"""Damaged frames: one or more for each error code at each kind of place."""

from messages import KINDS, MESSAGES, NUMBERS, UNARY
from messages import Case, fields_of, fixed, framed, in_message, map_number
from walk import bytes_field, groups, number_field, tag, varint
from whole_frames import WITH_MAP

# Fields with damage, by what is wrong. Each is tried at each place, where it is the last; so what passes the end passes
# the end of its part.
DAMAGE = {
    "tag cut off": b"\x80",
    "tag with tenth byte 2": b"\x88" + b"\x80" * 8 + b"\x02\x05",
    "varint cut off": tag(14, 0) + b"\xff",
    "varint missing": tag(14, 0),
    "nine FF then 02": tag(14, 0) + b"\xff" * 9 + b"\x02",
    "varint of 11 bytes": tag(14, 0) + b"\x80" * 10 + b"\x00",
    "length cut off": tag(14, 2) + b"\x80",
    "length with tenth byte 2": tag(14, 2) + b"\x80" * 9 + b"\x02",
    "field 0": b"\x00\x01",
    "wire type 6": tag(14, 6) + b"\x01",
    "wire type 7": tag(14, 7) + b"\x01",
    "tag above 4,294,967,295": varint(2**32 + 8 * 14) + b"\x01",
    "stray group end": tag(14, 4),
    "group end of another number": tag(14, 3) + tag(13, 4),
    "length one past the end": tag(14, 2) + b"\x04box",
    "length of 2^64 - 1": tag(14, 2) + varint(2**64 - 1) + b"box",
    "fixed32 cut off": tag(14, 5) + b"\0\0\0",
    "fixed64 cut off": tag(14, 1) + b"\0" * 7,
    "open group": tag(14, 3) + number_field(1, 1),
    "33 groups": groups(33),
    "33rd group, wrong inside": tag(14, 3) * 33 + b"\x00",
}


def nested_in(kind, content):
    """Damage within a part of the message, with good fields before and after the part."""
    if kind == "init":
        entry = bytes_field(1, bytes_field(5, bytes_field(1, b"k") + content))
        yield "request_meta", bytes_field(1, bytes_field(1, b"caller") + content) + number_field(3, 1)
        yield "response_meta", bytes_field(2, number_field(1, 1) + content) + number_field(3, 1)
        yield "an entry of request_meta", entry + number_field(3, 1)
        yield "the second request_meta", bytes_field(1, b"") + bytes_field(1, content) + number_field(3, 1)
    elif kind in WITH_MAP:
        number = map_number(kind)
        before, behind = bytes_field(number, bytes_field(1, b"k")), number_field(1, 1)
        yield "an entry", before + bytes_field(number, bytes_field(2, b"v") + content) + behind
    yield "a group", number_field(4, 1) + tag(15, 3) + content + tag(15, 4)


def damaged_fields():
    for name, content in DAMAGE.items():
        for kind in MESSAGES:
            before = {"init": number_field(3, 1)}.get(kind, number_field(1, 1))
            yield Case(f"{name}, {kind}", kind, before + content, lent=300)
            for place, header in nested_in(kind, content):
                yield Case(f"{name}, in {place} of {kind}", kind, header)


def damaged_values():
    """Damage in the fields of the messages themselves."""
    for kind in MESSAGES:
        for number, type_name, name in fields_of(kind):
            if type_name in NUMBERS:
                yield Case(f"{kind}, {name} cut off", kind, tag(number, 0) + b"\x80")
                yield Case(f"{kind}, {name} nine FF then 02", kind, tag(number, 0) + b"\xff" * 9 + b"\x02")
            else:
                yield Case(f"{kind}, {name} past the end", kind, tag(number, 2) + b"\x01")
                yield Case(f"{kind}, {name} with a length cut off", kind, tag(number, 2) + b"\xff\xff", lent=300)
    yield Case("request, a length into the body", "request", tag(5, 2) + b"\x04box", body=b"body")
    yield Case("request, a number into the body", "request", tag(4, 0) + b"\x80", body=b"\x01")
    entry = bytes_field(9, tag(1, 2) + b"\x02k")
    yield Case("request, a key into the next field", "request", entry + number_field(4, 1))
    yield Case("init, a caller into the next field", "init", bytes_field(1, tag(1, 2) + b"\x02c") + number_field(3, 1))
    yield Case("request, a group over the end of an entry", "request", bytes_field(9, tag(3, 3)) + tag(3, 4))


def many_entries():
    for kind in WITH_MAP:
        number = map_number(kind)
        entry = bytes_field(number, bytes_field(1, b"k"))
        others = b"".join(bytes_field(number, bytes_field(1, b"%d" % k)) for k in range(64))
        for label, content in (
            ("65 map entries", others + entry),
            ("65 map entries, one key", entry * 65),
            ("65 map entries, the first empty", bytes_field(number, b"") + others),
            ("65th map entry damaged inside", others + bytes_field(number, b"\x00")),
            ("65th map entry and damage behind", others + entry + b"\x00"),
            ("65th map entry past the end", others + tag(number, 2) + b"\x09k"),
            ("65th map entry with a length cut off", others + tag(number, 2) + b"\x80"),
            ("64th map entry damaged inside", entry * 63 + bytes_field(number, b"\x0a")),
        ):
            yield Case(f"{kind}, {label}", kind, in_message(kind, content), lent=300)
    halves = bytes_field(1, bytes_field(5, bytes_field(1, b"k")) * 40)
    yield Case("init, 80 map entries in two metas", "init", halves + halves)


def attachments():
    for kind in sorted(UNARY):
        for size, body in ((1, b""), (5, b"crat"), (2**32 - 1, b"crate"), (6, b"crate")):
            yield Case(f"{kind}, attachment {size} of {len(body)} bytes", kind, number_field(12, size), body, lent=300)
        yield Case(f"{kind}, attachment too large, then damage", kind, number_field(12, 9) + b"\x00", b"crate")
        entry = bytes_field(map_number(kind), bytes_field(1, b"k"))
        yield Case(f"{kind}, attachment too large, with rows", kind, entry + number_field(12, 9), b"crate")
    yield Case("document 01: response 60 05 with 4 body bytes", "response", b"\x60\x05", b"crat")


def wrong_frames():
    """Too few row numbers, and frames that are not of their size or not of their kind."""
    for kind in KINDS:
        own_header = b"" if kind == "data" else number_field(4, 1)
        good = framed(kind, own_header)
        for lent in (0, 1, 255):
            yield Case(f"{kind}, {lent} row numbers", kind, own_header, frame=good, lent=lent)
        yield Case(f"{kind}, 255 row numbers for no frame", kind, own_header, frame=b"", lent=255)
        for size in (0, 1, 15):
            yield Case(f"{kind}, {size} bytes", kind, own_header, frame=good[:size], lent=300)
        yield Case(f"{kind}, a byte missing", kind, own_header, frame=fixed_total(good, len(good) + 1))
        yield Case(f"{kind}, a byte too many", kind, own_header, frame=good + b"\0", lent=300)
        for other in KINDS:
            if other != kind and not {other, kind} <= UNARY:
                frame = framed(other, b"" if other == "data" else own_header)
                yield Case(f"{other} read as {kind}", kind, own_header, frame=frame, lent=300)


def fixed_headers():
    """Frames whose fixed header is damaged."""
    header, body = number_field(4, 5000), b"crate"
    unary = {"total": 16 + len(header) + len(body), "header_size": len(header)}
    stream = {"data_type": 1, "stream_type": 3, "total": 18}
    for label, kind, change in (
        ("magic 30 09", "request", {"magic": 0x3009}),
        ("data type 2", "request", {"data_type": 2}),
        ("data type 2 and stream type 9", "feedback", {**stream, "data_type": 2, "stream_type": 9}),
        ("stream type 0", "feedback", {**stream, "stream_type": 0}),
        ("stream type 5", "close", {**stream, "stream_type": 5}),
        ("total 15", "request", {"total": 15}),
        ("total 65,537", "request", {"total": 65537}),
        ("header size past the total", "request", {"header_size": 9}),
        ("every rule broken", "init", dict(magic=0, data_type=2, total=5, header_size=9)),
    ):
        if "stream_type" in change:
            yield Case(label, kind, b"\x08\x05", frame=fixed(**change) + b"\x08\x05", lent=300)
        else:
            yield Case(label, kind, header, frame=fixed(**{**unary, **change}) + header + body, lent=300)
    with_header = fixed(**stream, header_size=1) + b"\x08\x05"
    yield Case("document 01: stream, header size 1", "feedback", b"\x08\x05", frame=with_header)
    yield Case("header size before the wrong kind", "request", b"", frame=with_header)
    yield Case("magic before the wrong length", "request", b"", frame=fixed(magic=0) + b"\0")
    yield Case("wrong kind before damage", "close", b"\x00\x00", frame=framed("feedback", b"\x00\x00"))


def fixed_total(frame, total):
    return frame[:4] + total.to_bytes(4, "big") + frame[8:]


def damaged_examples():
    yield Case("document 01: nine FF then 02 as a varint", "request", b"\x20" + b"\xff" * 9 + b"\x02")
    yield Case("document 01: request 7B 84 01", "request", b"\x7b\x84\x01")


def two_grounds():
    """From left to right: the ground that comes first is reported."""
    entry = bytes_field(9, bytes_field(1, b"k") + b"\x80")
    yield Case("an entry's varint before a tag behind it", "request", entry + b"\x00")
    yield Case("a tag before an entry's varint", "request", b"\x00" + entry)
    yield Case("a length past the end before what is inside", "request", tag(9, 2) + b"\x7f" + b"\x00")
    metas = bytes_field(1, tag(1, 2) + b"\x01") + bytes_field(2, b"\x00")
    yield Case("a meta's end before the next meta", "init", metas)
    yield Case("a cut-off tag that would be bad", "request", b"\x86")
    yield Case("a bad tag whose value is cut off", "request", b"\x06\x80")
    yield Case("a group's inside before its open end", "request", tag(15, 3) + b"\x00")
    yield Case("the 33rd group before its open end", "request", tag(15, 3) * 33)


def damaged():
    yield from damaged_examples()
    yield from wrong_frames()
    yield from fixed_headers()
    yield from damaged_fields()
    yield from damaged_values()
    yield from many_entries()
    yield from attachments()
    yield from two_grounds()
