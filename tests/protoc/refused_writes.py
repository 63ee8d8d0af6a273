"""Records that the writer has to refuse: each error code on each ground, by itself and two at once."""

from itertools import combinations

from messages import KINDS, MAP, MESSAGES, SCHEMAS, UNARY, fields_of
from walk import Dice
from whole_frames import WITH_MAP, entries, leaves, mapped
from writing import MOST_BYTES, MOST_ROWS, Call, laid_out, message
from written_frames import border, init_of, repeated

TOP = 2**32 - 1


def simple(kind, label="", rows=3, **rest):
    """A call that is good as it is."""
    values = {"data": {}, "feedback": {"window_size_increment": 300}, "close": {"ret": -1, "msg": b"bay 12"}}.get(kind)
    if values is None:
        values = {"response_meta": {"ret": 1, "error_msg": b"no"}} if kind == "init" else {"message_type": 5}
    if kind in WITH_MAP:
        values = {**values, **mapped(kind, entries(rows))}
    return laid_out(f"{kind}, {label}", kind, values, **rest)


def spans_of(kind):
    """For each start and length of a record of the kind: its name, and how to set it."""

    def field(name):
        return lambda call, span: call.fields.update({name: span})

    def inside(part, name):
        return lambda call, span: call.fields.setdefault(part, {}).update({"present": True, name: span})

    def row(at):
        return lambda call, span: call.numbers.__setitem__(slice(at, at + 2), span)

    for _, type_name, name in fields_of(kind):
        if type_name == "bytes":
            yield name, field(name)
        for _, inner_type, inner in SCHEMAS.get(type_name, ()):
            if inner_type == "bytes":
                yield f"{name}.{inner}", inside(name, inner)
    if kind in WITH_MAP:
        yield from (("key", row(0)), ("value", row(2)), ("last key", row(8)), ("last value", row(10)))


# ---- 17 -------------------------------------------------------------------------------------------------------------


def past_the_source():
    for kind in MESSAGES:
        for name, put in spans_of(kind):
            size = len(simple(kind).source)
            for label, span in (
                ("empty one past the end", (size + 1, 0)),
                ("one byte at the end", (size, 1)),
                ("one byte longer than the source", (0, size + 1)),
                ("a sum of 2^32", (TOP, 1)),
                ("a sum of 2^32 and 3", (TOP - 4, 8)),
                ("the largest start and length", (TOP, TOP)),
                ("the largest start", (TOP, 0)),
                ("the largest length", (0, TOP)),
            ):
                call = simple(kind, f"{name} with {label}", wanted=17)
                put(call, span)
                yield call
    for part, name in (("request_meta", "caller"), ("response_meta", "error_msg")):
        call = simple("init", f"{name} of an absent part past the end", rows=0, wanted=17)
        call.fields = {part: {"present": False, name: (len(call.source) + 1, 0)}}
        yield call
    yield Call("request, no source", "request", {"func": (1, 0)}, [], b"", wanted=17)
    call = simple("request", "a row past the rows past the end")
    yield call.change(numbers=call.numbers + [TOP] * 4)


# ---- 18 -------------------------------------------------------------------------------------------------------------


def too_many_rows():
    for kind in KINDS:
        for count in (65, 66, 256, 2**30, 2**30 + 1, TOP):
            call = simple(kind, f"{count} rows", rows=64, count=count, wanted=18)
            yield call.change(numbers=(call.numbers + [0] * 300)[:300])
        yield simple(kind, "65 rows and none lent", rows=0, count=65, wanted=18)
    for kind in ("data", "feedback"):
        for count in (1, 64):
            yield simple(kind, f"{count} rows of 64", count=count, wanted=18).change(numbers=[0] * 256)
        yield simple(kind, "a row and none lent", count=1, wanted=18)


def too_few_numbers():
    for kind in WITH_MAP:
        for count in (1, 2, 64):
            for lent in (4 * count - 1, 4 * count - 4, 0):
                call = simple(kind, f"{count} rows and {lent} row numbers", rows=count, wanted=18)
                yield call.change(numbers=call.numbers[:lent])


def equal_keys():
    for kind in WITH_MAP:
        for label, rows in (
            ("two equal keys", [(b"k", b"1"), (b"k", b"2")]),
            ("two equal rows", [(b"k", b"1"), (b"k", b"1")]),
            ("first and last key equal", [*entries(63), (b"trpc-0", b"")]),
            ("the last two keys of 64 equal", [*entries(63), (b"trpc-62", b"x")]),
            ("two empty keys", [(b"", b"1"), (b"a", b"2"), (b"", b"3")]),
            ("64 equal keys", [(b"k", b"%d" % k) for k in range(64)]),
        ):
            yield laid_out(f"{kind}, {label}", kind, mapped(kind, rows), wanted=18)
        call = laid_out(f"{kind}, two keys at one place", kind, mapped(kind, entries(2)), wanted=18)
        call.numbers[4:6] = call.numbers[0:2]
        yield call
        call = laid_out(f"{kind}, two empty keys at two places", kind, mapped(kind, entries(2)), wanted=18)
        call.numbers[0:2], call.numbers[4:6] = (0, 0), (3, 0)
        yield call


def absent_parts():
    for type_name, name, made in leaves("init"):
        if "." in name:
            part = name.split(".")[0]
            other = {"request_meta": "response_meta", "response_meta": "request_meta"}[part]
            for value in {"uint32": (1,), "int32": (1, -1), "bytes": (b"x",)}[type_name]:
                for present in (False, True):
                    label = f"init, absent part with {name} {value!r}, the other {'present' if present else 'absent'}"
                    call = laid_out(label, "init", made(value), wanted=18)
                    call.fields[part]["present"] = False
                    call.fields[other] = {"present": present}
                    yield call
    for present in (False, True):
        label = f"init, rows, no request_meta and response_meta {'present' if present else 'absent'}"
        call = laid_out(label, "init", mapped("init", entries(1)), wanted=18)
        call.fields = {"response_meta": {"present": present}}
        yield call


# ---- 15, 19 and 27 --------------------------------------------------------------------------------------------------


def bodies():
    for kind in sorted(UNARY):
        for size, body in ((1, 0), (5, 4), (6, 5), (TOP, 5), (MOST_BYTES, MOST_BYTES - 100)):
            label, values = f"{kind}, attachment {size} of {body} bytes", {"attachment_size": size}
            yield laid_out(label, kind, values, body=repeated(body), wanted=15)
    for kind in ("init", "feedback", "close"):
        for size in (1, 300, MOST_BYTES):
            yield simple(kind, f"body of {size} bytes", body=repeated(size), wanted=15)
            yield laid_out(f"{kind}, no field, body of {size} bytes", kind, {}, body=repeated(size), wanted=15)


def large_frames():
    """Frames over 65,536 bytes, with messages on both sides of what bytes 9-10 can hold, too."""
    source = repeated(MOST_BYTES)
    caller = MOST_BYTES - 16 - 4
    for more, label in ((1, "65,537"), (15, "message of 65,535"), (16, "message of 65,536")):
        yield from border(MOST_BYTES + more, wanted=19)
        fields = {"func": (0, 40000), "caller": (20000, caller + more - 40004)}
        yield Call(f"request, two fields, {label}", "request", fields, [], source, wanted=19)
        yield init_of(MOST_BYTES + more, f"init, 64 rows, {label}", wanted=19)
    for kind in WITH_MAP:
        rows = [number for k in range(64) for number in (k, k, 0, MOST_BYTES)]
        fields = {"request_meta": {"present": True}} if kind == "init" else {}
        yield Call(f"{kind}, 64 rows of 65,536 bytes", kind, fields, rows, source, wanted=19)
        yield Call(f"{kind}, key of 65,536 bytes", kind, fields, [0, MOST_BYTES, 0, 0], source, wanted=19)
    fields = {"caller": (0, MOST_BYTES), "callee": (0, MOST_BYTES), "func": (0, MOST_BYTES)}
    yield Call("request, every field of 65,536 bytes", "request", fields, [], source, wanted=19)
    failed = {"response_meta": {"present": True, "error_msg": (0, MOST_BYTES)}}
    yield Call("init, error_msg of 65,536 bytes", "init", failed, [], source, wanted=19)
    parts = {"request_meta": {**fields, "present": True}, **failed}
    yield Call("init, every field of 65,536 bytes", "init", parts, [], source, wanted=19)
    for kind in sorted(UNARY):
        label, body = f"{kind}, header of 2 and body of 65,519 bytes", repeated(MOST_BYTES - 17)
        yield Call(label, kind, {"version": 1}, [], b"", body=body, wanted=19)


def no_room():
    for kind in KINDS:
        total = 16 + len(message(simple(kind)))
        for room in sorted({0, 1, 15, total - 1}):
            yield simple(kind, f"output of {room} bytes", room=room, wanted=27)
        yield laid_out(f"{kind}, no field, output of 15 bytes", kind, {}, room=15, wanted=27)
    tight = {"room": MOST_BYTES - 1, "wanted": 27}
    yield Call("data, output of 65,535 bytes", "data", {}, [], b"", body=repeated(MOST_BYTES - 16), **tight)
    caller = {"caller": (0, MOST_BYTES - 20)}
    yield Call("request, output of 65,535 bytes", "request", caller, [], repeated(MOST_BYTES), **tight)
    yield Call("response, no room for the last byte", "response", {}, [], b"", body=repeated(9), room=24, wanted=27)


# ---- Two grounds and more -------------------------------------------------------------------------------------------


def over(call):
    missing = 4 * call.count - len(call.numbers)
    call.count = MOST_ROWS + 1
    call.numbers += [0] * (4 * call.count - missing - len(call.numbers))


def row_too_many(call):
    call.count, call.numbers = 1, call.numbers or [0] * 4


def short(call):
    call.numbers = call.numbers[: 4 * call.count - 1]


def past_field(call):
    put = next(put for _, put in spans_of(call.kind))
    put(call, (TOP, 1))


def past_row(call):
    call.numbers[2:4] = (TOP, 1)


def equal(call):
    call.numbers[4:6] = call.numbers[0:2]


def absent(call):
    call.fields["response_meta"]["present"] = False


def rows_absent(call):
    call.fields["request_meta"]["present"] = False


def body_wrong(call):
    if call.kind in UNARY:
        call.fields["attachment_size"] = max(TOP, len(call.body) + 1)
    else:
        call.body = call.body or b"x"


def too_large(call):
    call.body = repeated(MOST_BYTES)


def long_value(call):
    call.source = (call.source * MOST_BYTES)[:MOST_BYTES]
    call.numbers[10:12] = (0, MOST_BYTES)


def no_output(call):
    call.room = 0


# In document 01's order, without 20 (document 02, P9): what is wrong, the error code, the kinds that can have it.
GROUNDS = (
    (over, 18, KINDS),
    (row_too_many, 18, ("data", "feedback")),
    (short, 18, WITH_MAP),
    (past_field, 17, WITH_MAP),
    (past_row, 17, WITH_MAP),
    (equal, 18, WITH_MAP),
    (absent, 18, ("init",)),
    (rows_absent, 18, ("init",)),
    (body_wrong, 15, ("request", "response", "init", "feedback", "close")),
    (too_large, 19, ("request", "response", "data")),
    (long_value, 19, WITH_MAP),
    (no_output, 27, KINDS),
)


def several_grounds():
    """All pairs of grounds, and all grounds at once; the first in the order is reported. The later grounds are made first,
    as the earlier ones change the row numbers."""
    for kind in KINDS:
        here = [(make, code) for make, code, kinds in GROUNDS if kind in kinds]
        for some in [*combinations(here, 1), *combinations(here, 2), here]:
            names = ", ".join(f"{make.__name__.replace('_', ' ')} ({code})" for make, code in some)
            call = simple(kind, names, wanted=some[0][1])
            for make, _ in reversed(some):
                make(call)
            yield call


# ---- Random numbers in every place ----------------------------------------------------------------------------------


def any_number(dice, limit):
    """Mostly small, and sometimes any number."""
    return dice.number() % 2**32 if dice.below(40) == 0 else dice.below(limit)


def random_fields(schema, dice, size):
    fields = {"present": dice.below(4) > 0}
    for _, type_name, name in schema:
        if type_name in SCHEMAS:
            fields[name] = random_fields(SCHEMAS[type_name], dice, size)
        elif type_name == "bytes":
            start = any_number(dice, size + 1)
            fields[name] = (start, any_number(dice, max(size - start, 0) + 1 + dice.below(40) // 39))
        elif type_name != MAP:
            number = dice.below(2) * dice.number() % 2**32
            fields[name] = number - 2**32 if type_name == "int32" and number >= 2**31 else number
    return fields


def random_calls(dice):
    for kind in KINDS:
        for _ in range(60):
            source = dice.bytes(5 + dice.below(60))
            fields = random_fields(fields_of(kind), dice, len(source))
            if "attachment_size" in fields:
                fields["attachment_size"] = any_number(dice, 20)
            numbers = []
            for _ in range(dice.below(6) if kind in WITH_MAP else dice.below(2)):
                for _ in range(2):
                    start = any_number(dice, len(source) - 3)
                    numbers += [start, any_number(dice, 4)]
            call = Call(f"{kind}, random numbers", kind, fields, numbers, source, wanted=None)
            call.count = any_number(dice, call.count + 2) if dice.below(6) == 0 else call.count
            bodies = 25 if kind in UNARY or kind == "data" else 1 + dice.below(8) // 7
            room = 16 + dice.below(150) if dice.below(3) == 0 else 300
            yield call.change(body=dice.bytes(dice.below(bodies)), room=room, id=dice.number() % 2**32)


def refused():
    yield from past_the_source()
    yield from too_many_rows()
    yield from too_few_numbers()
    yield from equal_keys()
    yield from absent_parts()
    yield from bodies()
    yield from large_frames()
    yield from no_room()
    yield from several_grounds()
    yield from random_calls(Dice(15))
