"""What make-corpus, make-records and make-writes share: the field walk of document 01, running protoc, the bytes of
fields, a fixed sequence of numbers, and the stored files."""

import os
import subprocess
import sys

HERE = os.path.dirname(os.path.abspath(__file__))
TOP = os.path.dirname(os.path.dirname(HERE))

# What protoc and document 01 treat differently.
CLASSES = {
    "tenth byte": "the tenth byte of a varint is above 1",
    "wide tag": "a tag is above 4,294,967,295",
    "long tag": "a tag takes more than five bytes",
    "long length": "a length takes more than five bytes",
    "wide length": "a length inside bytes that protoc tries as a message is above 4,294,967,295",
    "deep groups": "more than 32 groups are nested",
}

# ---- Document 01's walk ---------------------------------------------------------------------------------------------


class Refused(Exception):
    def __init__(self, code):
        super().__init__(code)
        self.code = code


class Walk:
    """The fields of a string by document 01, "Fields (Protobuf encoding)". `met` collects those of CLASSES that are met
    on the way."""

    groups = 32

    def __init__(self, string):
        self.string = string
        self.met = set()
        self.in_bytes = False

    def varint(self, at, end):
        value = 0
        for k in range(10):
            if at + k >= end:
                raise Refused(10)
            byte = self.string[at + k]
            if k == 9 and byte > 1:
                self.met.add("tenth byte")
                raise Refused(10)
            value |= (byte & 127) << (7 * k)
            if byte < 128:
                return value, at + k + 1
        raise AssertionError("a tenth byte of at most 1 is the last")

    def tag(self, at, end):
        value, behind = self.varint(at, end)
        if value > 4294967295:
            self.met.add("wide tag")
            raise Refused(11)
        if behind - at > 5:
            self.met.add("long tag")
        number, wire_type = value // 8, value % 8
        if number == 0 or wire_type > 5:
            raise Refused(11)
        return number, wire_type, behind

    def fixed(self, at, end, size):
        if size > end - at:
            raise Refused(12)
        return int.from_bytes(self.string[at : at + size], "little"), at + size

    def extent(self, at, end):
        length, start = self.varint(at, end)
        if start - at > 5:
            self.met.add("long length")
        if length > end - start:
            if length > 4294967295:
                self.met.add("wide length")
            raise Refused(12)
        return (start, start + length), start + length

    def group(self, at, end, number, depth):
        found = []
        while at < end:
            inner, wire_type, behind = self.tag(at, end)
            if wire_type == 4:
                if inner != number:
                    raise Refused(11)
                return found, behind
            value, at = self.value(behind, end, inner, wire_type, depth)
            found.append((inner, wire_type, value))
        raise Refused(12)

    def value(self, at, end, number, wire_type, depth):
        if wire_type == 0:
            return self.varint(at, end)
        if wire_type == 1:
            return self.fixed(at, end, 8)
        if wire_type == 2:
            return self.extent(at, end)
        if wire_type == 3:
            if depth == 0:
                self.met.add("deep groups")
                raise Refused(13)
            return self.group(at, end, number, depth - 1)
        if wire_type == 5:
            return self.fixed(at, end, 4)
        raise Refused(11)

    def each(self, at, end, depth):
        """The fields one by one, so that what the caller does with one comes before the next."""
        while at < end:
            number, wire_type, behind = self.tag(at, end)
            value, at = self.value(behind, end, number, wire_type, depth)
            yield number, wire_type, value

    def fields(self, at, end, depth):
        return list(self.each(at, end, depth))


# ---- protoc ---------------------------------------------------------------------------------------------------------


def protoc(arguments, given):
    """What protoc prints, or None where it refuses to parse."""
    try:
        done = subprocess.run(["protoc", *arguments], input=given, capture_output=True, check=False)
    except FileNotFoundError:
        sys.exit("protoc is missing: apt-get install protobuf-compiler")
    if done.returncode == 0:
        return done.stdout
    if not done.stderr.endswith(b"Failed to parse input.\n") or done.stdout:
        sys.exit(f"protoc failed otherwise: {done.stderr!r}")
    return None


# ---- The bytes of fields --------------------------------------------------------------------------------------------


def varint(value, size=0):
    """`value` in the fewest bytes, or in `size` bytes with zero groups after it."""
    groups = [value & 127]
    while value > 127 or len(groups) < size:
        value >>= 7
        groups.append(value & 127)
    return bytes([g | 128 for g in groups[:-1]] + groups[-1:])


def tag(number, wire_type, size=0):
    return varint(number * 8 + wire_type, size)


def number_field(number, value):
    return tag(number, 0) + varint(value)


def bytes_field(number, content):
    return tag(number, 2) + varint(len(content)) + content


def group(number, inside=b""):
    return tag(number, 3) + inside + tag(number, 4)


def groups(depth, inside=b""):
    return tag(1, 3) * depth + inside + tag(1, 4) * depth


class Dice:
    """A fixed sequence of numbers, the same with every Python."""

    def __init__(self, seed):
        self.state = seed

    def below(self, limit):
        self.state = (self.state * 6364136223846793005 + 1442695040888963407) % 2**64
        return (self.state >> 33) % limit

    def bytes(self, size):
        return bytes(self.below(256) for _ in range(size))

    def number(self):
        bits = self.below(65)
        return sum(self.below(256) << (8 * k) for k in range(8)) % 2**bits


# ---- The files ------------------------------------------------------------------------------------------------------


def store(make, usage):
    """Writes the files that `make` makes, or with --check compares them with what is stored."""
    if sys.argv[1:] not in ([], ["--check"]):
        sys.exit(usage)
    for name, content in make().items():
        path = os.path.join(TOP, name)
        if sys.argv[1:] == ["--check"]:
            with open(path, "rb") as stored:
                if stored.read() != content:
                    sys.exit(f"{name} differs")
        else:
            with open(path, "wb") as stored:
                stored.write(content)
