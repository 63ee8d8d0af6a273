"""Calls of the writer, and document 01's writing of a record, with the version of document 02 (P2)."""

from messages import KINDS, MAP, NUMBERS, SCHEMAS, UNARY, fields_of, framed
from values import quoted
from walk import bytes_field, number_field

MOST_ROWS = 64
MOST_BYTES = 65536  # of a frame; and the program's buffers are as long
SLOTS = 16
ROOM = 300


class Call:
    """A record, the source that its starts refer to, the row numbers that are lent, a body and the room of the output.

    `fields` has numbers and spans (start, length) by name, and for a part of Init a dict of its fields with the mark
    `present`; what is missing is zero. `wanted` is the error code that the case is made for, 0 for a frame, None where
    nobody says. `version` is None where it is by the call's number. With no `room` the output is `spare` bytes longer
    than the frame, or ROOM bytes where there is none."""

    def __init__(self, label, kind, fields, numbers, source, **rest):
        self.label, self.kind, self.fields, self.numbers, self.source = label, kind, fields, list(numbers), source
        self.body, self.id, self.version, self.wanted = b"", 7, None, 0
        self.count, self.room, self.spare = len(self.numbers) // 4, None, 9
        self.change(**rest)

    def change(self, **changes):
        for name, value in changes.items():
            assert hasattr(self, name), name
            setattr(self, name, value)
        return self

    def output(self):
        return ROOM if self.room is None else self.room

    def at(self, span):
        return self.source[span[0] : span[0] + span[1]]

    def rows(self):
        """The spans of the rows' keys and values."""
        numbers = self.numbers[: 4 * self.count]
        return [(numbers[i : i + 2], numbers[i + 2 : i + 4]) for i in range(0, len(numbers), 4)]


def laid_out(label, kind, values, gap=b"-", backwards=False, **rest):
    """The call that writes `values`, which are as protoc takes them. Each content is in the source after a gap."""
    source, fields, numbers = b"", {}, []

    def place(content):
        nonlocal source
        if not content:
            return (0, 0)
        source += gap + content
        return (len(source) - len(content), len(content))

    def put(values, fields):
        for name, value in reversed(values.items()) if backwards else values.items():
            if isinstance(value, dict):
                fields[name] = {"present": True}
                put(value, fields[name])
            elif isinstance(value, list):
                numbers.extend(number for key, content in value for number in (*place(key), *place(content)))
            else:
                fields[name] = place(value) if isinstance(value, bytes) else value

    put(values, fields)
    return Call(label, kind, fields, numbers, source + gap, **rest)


# ---- Document 01's grounds of refusal -------------------------------------------------------------------------------


def spans(call):
    """Every start and length of the record, those of empty fields and of absent parts too."""
    for _, type_name, name in fields_of(call.kind):
        if type_name == "bytes":
            yield call.fields.get(name, (0, 0))
        for _, inner_type, inner in SCHEMAS.get(type_name, ()):
            if inner_type == "bytes":
                yield call.fields.get(name, {}).get(inner, (0, 0))
    for key, value in call.rows():
        yield key
        yield value


def absent_parts(call):
    """Those parts of Init that are marked absent and not all zero, empty and rowless."""
    for _, type_name, name in fields_of(call.kind):
        part = call.fields.get(name, {}) if type_name in SCHEMAS else {"present": True}
        if not part.get("present"):
            for _, inner_type, inner in SCHEMAS[type_name]:
                value = part.get(inner, 0)
                if call.count if inner_type == MAP else value[1] if isinstance(value, tuple) else value:
                    yield name


def grounds(call):
    """The error codes in document 01's order, without 20 (document 02, P9), each with whether its ground holds; one by
    one, since a later ground is only looked at where those before it do not hold."""
    yield 18, call.count > MOST_ROWS
    yield 18, call.count > 0 and call.kind in ("feedback", "data")
    yield 18, 4 * call.count > len(call.numbers)
    yield 17, any(start + length > len(call.source) for start, length in spans(call))
    keys = [call.at(key) for key, _ in call.rows()]
    yield 18, len(keys) != len(set(keys))
    yield 18, any(absent_parts(call))
    yield 15, call.kind in UNARY and call.fields.get("attachment_size", 0) > len(call.body)
    yield 15, call.kind in ("init", "feedback", "close") and call.body != b""
    total = 16 + len(message(call)) + len(call.body)
    yield 19, total > MOST_BYTES
    if call.room is None:
        call.room = min(total + call.spare, MOST_BYTES)
    yield 27, total > call.room


def refusal(call):
    return next((code for code, holds in grounds(call) if holds), 0)


# ---- Document 01's writing ------------------------------------------------------------------------------------------


def message(call):
    return fields_written(call, fields_of(call.kind), call.fields)


def fields_written(call, schema, fields):
    written = b""
    for number, type_name, name in sorted(schema):
        value = fields.get(name, 0)
        if type_name == MAP:
            for key, content in call.rows():
                written += bytes_field(number, bytes_field(1, call.at(key)) + bytes_field(2, call.at(content)))
        elif type_name in SCHEMAS:
            if value and value.get("present"):
                written += bytes_field(number, fields_written(call, SCHEMAS[type_name], value))
        elif type_name in NUMBERS:
            if value:
                written += number_field(number, value % 2**64)
        elif value and value[1]:
            written += bytes_field(number, call.at(value))
    return written


# ---- For protoc, and for the program --------------------------------------------------------------------------------


def text_of(call, schema=None, fields=None):
    """The values of the record in protoc's text format, zero and empty ones too."""
    schema, fields = (fields_of(call.kind), call.fields) if schema is None else (schema, fields)
    lines = []
    for _, type_name, name in schema:
        value = fields.get(name, 0)
        if type_name == MAP:
            for key, content in call.rows():
                lines.append(f"{name} {{ key: {quoted(call.at(key))} value: {quoted(call.at(content))} }}\n")
        elif type_name in SCHEMAS:
            if value and value.get("present"):
                lines.append(f"{name} {{\n{text_of(call, SCHEMAS[type_name], value)}}}\n")
        else:
            shown = value if type_name in NUMBERS else quoted(call.at(value or (0, 0)))
            lines.append(f"{name}: {shown}\n")
    return "".join(lines)


def slots(schema, fields):
    """The fields as the program takes them: in the order of the schema, without the map."""
    for _, type_name, name in schema:
        value = fields.get(name, 0)
        if type_name in SCHEMAS:
            part = value or {}
            yield 1 if part.get("present") else 0
            yield from slots(SCHEMAS[type_name], part)
        elif type_name in NUMBERS:
            yield value % 2**32
        elif type_name != MAP:
            yield from value or (0, 0)


def period(content):
    """How many bytes of the content have to be repeated to make it; all of a short content."""
    if len(content) < 1000:
        return len(content)
    fits = [0]  # for each place, how long a start of the content ends there
    for byte in content[1:]:
        k = fits[-1]
        while k and content[k] != byte:
            k = fits[k - 1]
        fits.append(k + 1 if content[k] == byte else 0)
    return len(content) - fits[-1]


def packed(label, call):
    source, body = period(call.source), period(call.body)
    kind = KINDS.index(call.kind)
    fields = list(slots(fields_of(call.kind), call.fields))
    head = [len(label), len(call.numbers), len(call.source), len(call.body), call.output(), source, body]
    head += [kind, call.id, call.count, call.version, *fields, *[0] * (SLOTS - len(fields))]
    return joined(head) + label + joined(call.numbers) + call.source[:source] + call.body[:body]


def joined(numbers):
    return b"".join(number.to_bytes(4, "big") for number in numbers)


def frame_of(call, header):
    return framed(call.kind, header, call.body, call.id, call.version)
