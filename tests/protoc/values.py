"""The values of messages: as protoc takes them, as protoc prints them, and joined.

Values are a dict by field name: a number, bytes, a list of key and value for a map, a dict for a message.
"""

import os
import re

from messages import MESSAGES, SOURCE
from walk import protoc


def quoted(content):
    return '"' + "".join(f"\\{byte:03o}" for byte in content) + '"'


def text(values):
    """The values in protoc's text format."""
    lines = []
    for name, value in values.items():
        if isinstance(value, dict):
            lines.append(f"{name} {{\n{text(value)}}}\n")
        elif isinstance(value, list):
            lines += [f"{name} {{ key: {quoted(k)} value: {quoted(v)} }}\n" for k, v in value]
        else:
            lines.append(f"{name}: {quoted(value) if isinstance(value, bytes) else value}\n")
    return "".join(lines)


def read_text(lines):
    """The values in what protoc prints, unknown fields left out; up to a closing brace."""
    values = {}
    for line in lines:
        if line.strip() == "}":
            break
        name, open_brace, value = re.fullmatch(r" *(\w+)(?:: (?=.)| (\{)$)(.*)", line).groups()
        if open_brace:
            inner = read_text(lines)
            if name == "trans_info":
                values.setdefault(name, []).append((inner.get("key", b""), inner.get("value", b"")))
            elif not name.isdigit():
                values[name] = inner
        elif not name.isdigit():
            values[name] = unquoted(value[1:-1]) if value.startswith('"') else int(value)
    return values


def unquoted(content):
    letters = {"t": "\t", "n": "\n", "r": "\r"}

    def byte(escape):
        code = escape[1]
        return chr(int(code, 8)) if code.isdigit() else letters.get(code, code)

    return re.sub(r"\\([0-7]{3}|.)", byte, content).encode("latin-1")


class Protoc:
    """protoc over trpc.proto, and over the same with every number and byte field `optional`."""

    def __init__(self, folder):
        self.folder = folder
        explicit = re.sub(r"^  (uint32|int32|bytes) ", r"  optional \1 ", SOURCE, flags=re.M)
        for name, source in (("trpc.proto", SOURCE), ("explicit.proto", explicit)):
            with open(os.path.join(folder, name), "w", encoding="ascii") as written:
                written.write(source)

    def run(self, action, kind, file, given, *options):
        return protoc([f"-I{self.folder}", f"--{action}=trpc.{MESSAGES[kind]}", *options, file], given)

    def encode(self, kind, values, explicit):
        return self.run("encode", kind, "explicit.proto" if explicit else "trpc.proto", text(values).encode("ascii"))

    def decode(self, kind, header):
        """The values that protoc finds, or None where it refuses."""
        told = self.run("decode", kind, "trpc.proto", header)
        return None if told is None else read_text(iter(told.decode("ascii").splitlines()))


def merge(into, values):
    """Joins values to those before, as Protobuf does: the last number and the last bytes win, messages are merged, and
    a key that comes again keeps its place and takes the new value, as in a dict."""
    for name, value in values.items():
        if isinstance(value, dict):
            merge(into.setdefault(name, {}), value)
        elif isinstance(value, list):
            into.setdefault(name, {}).update(value)
        else:
            into[name] = value


def on_the_wire(values):
    """The values that proto3 writes and prints: no zeros and no empty bytes, but messages even if empty."""
    written = {}
    for name, value in values.items():
        if isinstance(value, dict) and name != "trans_info":
            written[name] = on_the_wire(value)
        elif value:
            written[name] = value
    return written
