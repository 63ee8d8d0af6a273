"""Records that the writer has to write."""

from messages import KINDS, MESSAGES, NUMBERS, UNARY, Reader, fields_of, framed
from values import merge
from walk import Dice, bytes_field
from whole_frames import NAMES, SIZES, WITH_MAP, entries, full, leaves, mapped, random_values
from writing import MOST_BYTES, Call, laid_out, message

BORDERS = (127, 128, 16383, 16384, 2097151, 2097152, 268435455, 268435456)  # where a varint takes a byte more
PATTERN = bytes(range(251))  # of a prime length, so that a place is known by what is there


def repeated(size):
    return (PATTERN * (size // len(PATTERN) + 1))[:size]


def with_rows(kind, values, rows):
    """The values with these map entries added."""
    more = dict(values)
    for name, value in mapped(kind, rows).items():
        more[name] = {**more.get(name, {}), **value} if isinstance(value, dict) else value
    return more


def examples():
    """Document 01's examples, written."""
    yield laid_out("document 01: id 7 and every field zero", "request", {})
    yield laid_out("document 01: Feedback 08 AC 02", "feedback", {"window_size_increment": 300}, id=5)
    yield laid_out("document 01: request 20 88 27", "request", {"timeout": 5000})
    yield laid_out("document 01: response 20, nine FF, 01", "response", {"ret": -1})
    yield laid_out("document 01: response 60 05", "response", {"attachment_size": 5}, body=b"crate")


def no_fields():
    for kind in KINDS:
        for number in (0, 1, 0x01020304, 2**32 - 1):
            yield laid_out(f"{kind}, no field, id {number}", kind, {}, id=number, spare=number % 5)
        yield Call(f"{kind}, no field, no source", kind, {}, [], b"", room=16)
        more = laid_out(f"{kind}, no field, row numbers that are not looked at", kind, {})
        yield more.change(numbers=[2**32 - 1] * 300)


def single_fields():
    for kind in MESSAGES:
        for type_name, name, values in leaves(kind):
            if name == "attachment_size":
                continue
            if type_name in NUMBERS:
                for value in (0, *SIZES[type_name]):
                    yield laid_out(f"{kind}, {name} {value}", kind, values(value), spare=0)
            else:
                for size in (0, 1, 127, 128):
                    yield laid_out(f"{kind}, {name} of {size} bytes", kind, values(repeated(size)))
    for value in BORDERS:
        yield laid_out(f"feedback, {value}", "feedback", {"window_size_increment": value})
        yield laid_out(f"close, ret -{value}", "close", {"ret": -value})
    for size in (16383, 16384):
        yield laid_out(f"close, msg of {size} bytes", "close", {"msg": repeated(size)})


def bodies():
    for kind in sorted(UNARY):
        for size in (0, 1, 4, 5):
            values = {"version": 1, "attachment_size": size}
            yield laid_out(f"{kind}, attachment {size} of 5 bytes", kind, values, body=b"crate")
        yield laid_out(f"{kind}, a body alone", kind, {}, body=PATTERN)
    for size in (0, 1, 300):
        yield Call(f"data, body of {size} bytes", "data", {}, [], b"source", body=repeated(size))


def maps():
    for kind in WITH_MAP:
        for count in (0, 1, 2, 3, 63, 64):
            rows = entries(count)
            for order, some in (("by number", rows), ("sorted", sorted(rows)), ("reversed", rows[::-1])):
                yield laid_out(f"{kind}, {count} rows, {order}", kind, mapped(kind, some), gap=b"")
        for label, rows in (
            ("empty key", [(b"", b"x")]),
            ("empty value", [(b"y", b"")]),
            ("empty key and value", [(b"", b"")]),
            ("an empty key behind others", [(b"y", b""), (b"yy", b"z"), (b"", b"x")]),
            ("keys alike", [(key, key) for key in (b"b", b"ab", b"a", b"ba", b"A", b"a\0", b"\0a", b"aa")]),
            ("keys of other letters", [("é".encode(), b"1"), (b"z", b"2"), ("試".encode(), b"3"), (b"Z", b"4")]),
            ("a key that is no UTF-8", [(b"\xff\xfe", b"1"), (b"a", b"2"), (b"\x80", b"3")]),
            ("bytes of every value", [(b"k", bytes(range(256)))]),
            ("key of 127 and value of 128 bytes", [(b"k" * 127, b"v" * 128)]),
            ("key of 128 and value of 127 bytes", [(b"k" * 128, b"v" * 127)]),
            ("entry of 127 bytes", [(b"k", b"v" * 122)]),
            ("entry of 128 bytes", [(b"k", b"v" * 123)]),
            ("a row alone with a long key", [(b"k" * 300, b"")]),
        ):
            yield laid_out(f"{kind}, {label}", kind, mapped(kind, rows))
        more = laid_out(f"{kind}, row numbers past the rows", kind, mapped(kind, entries(3)))
        yield more.change(numbers=more.numbers + [2**32 - 1] * 7)


def all_fields(dice):
    for kind in MESSAGES:
        body = b"pallet 7" if kind in UNARY else b""
        zero = {}
        for type_name, _, made in leaves(kind):
            merge(zero, made(0 if type_name in NUMBERS else b""))
        rows = entries(5) if kind in WITH_MAP else []
        for label, largest_ones in (("every field", False), ("every field largest", True)):
            values = full(kind, dice, largest_ones)
            values = with_rows(kind, values, rows) if rows else values
            yield laid_out(f"{kind}, {label}", kind, values, body=body)
            yield laid_out(f"{kind}, {label}, last in the source first", kind, values, backwards=True, body=body)
        yield laid_out(f"{kind}, every field zero or empty", kind, zero, body=body)


def metas():
    one = {"caller": NAMES[0], "message_type": 3}
    two = {"callee": NAMES[1], "func": NAMES[2], "trans_info": entries(2)}
    failed, why = {"ret": -2}, {"error_msg": b"no window"}
    for label, values in (
        ("empty request_meta", {"request_meta": {}}),
        ("empty response_meta", {"response_meta": {}}),
        ("both empty", {"request_meta": {}, "response_meta": {}}),
        ("both empty and a number", {"request_meta": {}, "response_meta": {}, "init_window_size": 65535}),
        ("request_meta of zeros", {"request_meta": {"caller": b"", "message_type": 0}}),
        ("response_meta of zeros", {"response_meta": {"ret": 0, "error_msg": b""}}),
        ("request_meta", {"request_meta": one}),
        ("request_meta with rows", {"request_meta": two, "content_type": 2}),
        ("rows alone", {"request_meta": {"trans_info": entries(2)}}),
        ("response_meta", {"response_meta": {**failed, **why}}),
        ("rows and response_meta", {"request_meta": two, "response_meta": why}),
        ("both metas", {"request_meta": {**one, **two}, "response_meta": {**failed, **why}, "init_window_size": 65535}),
        ("numbers alone", {"init_window_size": 1, "content_type": 2, "content_encoding": 3}),
    ):
        yield laid_out(f"init, {label}", "init", values)
    for size in (127, 128, 16383, 16384):  # of the part, where its length takes a byte more
        caller = next(c for c in map(repeated, range(size, 0, -1)) if len(bytes_field(1, c)) == size)
        yield laid_out(f"init, request_meta of {size} bytes", "init", {"request_meta": {"caller": caller}})
        yield laid_out(f"init, response_meta of {size} bytes", "init", {"response_meta": {"error_msg": caller}})


def places():
    """Where contents may be in the source."""
    source = b"trpc.packing.cell"
    end = len(source)
    for kind in MESSAGES:
        names = [name for _, type_name, name in fields_of(kind) if type_name == "bytes"]
        for label, span in (
            ("all of the source", (0, end)),
            ("the last byte", (end - 1, 1)),
            ("empty at the start", (0, 0)),
            ("empty inside", (5, 0)),
            ("empty at the end", (end, 0)),
        ):
            fields = {name: span for name in names}
            if kind == "init":
                fields = {
                    "request_meta": {"present": True, "caller": span, "callee": span, "func": span},
                    "response_meta": {"present": True, "error_msg": span},
                }
            rows = [*span, *span] if kind in WITH_MAP else []
            yield Call(f"{kind}, {label}", kind, fields, rows, source)
    over = {"caller": (0, 10), "callee": (5, 10), "func": (9, 1)}
    yield Call("request, contents that share bytes", "request", over, [0, 3, 1, 3, 1, 3, 0, 4, 2, 3, 0, 17], source)
    empty = {"caller": (3, 0), "callee": (17, 0), "func": (0, 0), "message_type": 0}
    parts = {"request_meta": empty, "response_meta": {"error_msg": (17, 0)}}
    yield Call("init, absent parts with empty fields that start anywhere", "init", parts, [], source)
    yield from frames_again()


def frames_again():
    """The source is a frame, and the record what was read from it."""
    for kind in WITH_MAP:
        values = with_rows(kind, full(kind, Dice(7)), entries(4))
        values.pop("attachment_size", None)
        call = laid_out("", kind, values)
        frame = framed(kind, message(call))
        reader = Reader(kind, frame, 256)
        found = reader.read()
        for part in ("request_meta", "response_meta"):
            if part in found:
                found[part]["present"] = True
        rows = [number for row in reader.rows for place in row for number in place]
        yield Call(f"{kind}, a frame written again", kind, found, rows, frame)


def rooms():
    for kind in KINDS:
        values = {"data": {}, "feedback": {"window_size_increment": 9}}.get(kind, {"message_type": 9})
        values = {"init_window_size": 9} if kind == "init" else values
        for spare in (0, 1, 1000):
            yield laid_out(f"{kind}, {spare} bytes more than needed", kind, values, spare=spare)
        yield laid_out(f"{kind}, the largest output", kind, values, room=MOST_BYTES)


def border(total, **rest):
    """Frames of `total` bytes, around 65,536: with no body, in each kind whose message can be that long, by a byte
    field, by one in each part of Init and by a row; with a message and a body; and with no message."""
    for kind, part, name in (
        ("request", None, "caller"),
        ("response", None, "error_msg"),
        ("init", "request_meta", "caller"),
        ("init", "response_meta", "error_msg"),
        ("close", None, "msg"),
    ):
        yield by_field(total, f"{kind}, {part + '.' if part else ''}{name}", kind, part, name, **rest)
    for kind in WITH_MAP:
        yield by_row(total, f"{kind}, a row", kind, **rest)
    yield by_field(total, "request, caller and a body of a byte", "request", None, "caller", body=b"b", **rest)
    halves = {"body": repeated(35519), "attachment_size": 35000}
    yield by_field(total, "response, error_msg and half a body", "response", None, "error_msg", **halves, **rest)
    for kind in ("request", "response", "data"):
        yield Call(f"{kind}, a body, frame of {total}", kind, {}, [], b"", body=repeated(total - 16), **rest)


def by_field(total, label, kind, part, name, attachment_size=0, **rest):
    """A frame of `total` bytes by the length of a byte field."""
    fields = {} if part is None else {part: {"present": True}}
    if attachment_size:
        fields["attachment_size"] = attachment_size
    call = Call(f"{label}, frame of {total}", kind, fields, [], repeated(MOST_BYTES), **rest)
    return grown(call, total, lambda size: (fields[part] if part else fields).update({name: (3, size)}))


def by_row(total, label, kind, **rest):
    """A frame of `total` bytes by the length of a row's value."""
    fields = {"request_meta": {"present": True}} if kind == "init" else {}
    call = Call(f"{label}, frame of {total}", kind, fields, [7, 1, 0, 0], repeated(MOST_BYTES), **rest)
    return grown(call, total, lambda size: call.numbers.__setitem__(slice(2, 4), (3, size)))


def grown(call, total, put):
    """The call, with a content that `put` makes so long that the frame has `total` bytes. Lengths from 16,384 on take
    three bytes, so that the frame grows as its content does."""
    put(16384)
    put(16384 + total - 16 - len(message(call)) - len(call.body))
    assert 16 + len(message(call)) + len(call.body) == total, call.label
    return call


def largest():
    """Frames of 65,536 bytes."""
    yield from border(MOST_BYTES)
    yield init_of(MOST_BYTES, "init, 64 rows to the largest frame")


def init_of(total, label, **rest):
    """An Init frame of `total` bytes with 64 rows."""
    rows = []
    for k in range(64):
        rows += [k, k + 1, 7 * k, 900]
    call = Call(label, "init", {"request_meta": {"present": True, "func": (0, 0)}}, rows, repeated(MOST_BYTES), **rest)
    size = total - 20 - len(message(call))
    while 16 + len(message(call)) != total:
        call.fields["request_meta"]["func"] = (1, size)
        size += 1
    return call


def random_calls(dice):
    for kind in MESSAGES:
        for k in range(25):
            values = dict(random_values(kind, dice))
            if kind in WITH_MAP and dice.below(2):
                keys = dict.fromkeys(b"key %d" % dice.below(40) for _ in range(dice.below(9)))
                values = with_rows(kind, values, [(key, dice.bytes(dice.below(5))) for key in keys])
            body = dice.bytes(dice.below(30)) if kind in UNARY else b""
            if body:
                values["attachment_size"] = dice.below(len(body) + 1)
            gap, number = dice.bytes(dice.below(3)), dice.number() % 2**32
            call = laid_out(f"{kind}, random", kind, values, gap, k % 2 == 0, body=body)
            yield call.change(id=number, spare=dice.below(40))


def written():
    dice = Dice(5)
    yield from (example.change(version=0) for example in examples())
    yield from no_fields()
    yield from single_fields()
    yield from bodies()
    yield from maps()
    yield from all_fields(dice)
    yield from metas()
    yield from places()
    yield from rooms()
    yield from largest()
    yield from random_calls(dice)
