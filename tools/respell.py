#!/usr/bin/env python3
"""Brings the repository's own definitions and lemmas to today's spelling: words in snake case, types and modules in camel case.

    tools/respell.py           rewrites crates/, tests/, docs/ and the pages, once, after the port's own scripts
    tools/respell.py --check   prints the names that it would turn, and those that would fall together

A name is the repository's own where a file of specs/ or a lemma file of proofs/ declares it. Functions of src/, names that Rattle
makes and names of the library keep their spelling. In a page or a must-fail edit, a name turns where it is spelled as one of the own
names would be, in code spans and, in an edit, anywhere.
"""

import pathlib
import re
import sys

ROOT = pathlib.Path.cwd()
CRATES = sorted(d for d in (ROOT / "crates").iterdir() if (d / "src").is_dir())
NAMES = {c.name for c in CRATES}
WORD = re.compile(r"[^\s(){}.;,@\"«»⌜⌝`]+")
COMMENT = re.compile(r"(?<![^\s(){}.;,])--[^\n]*")
DECLARED = re.compile(
    r"^[ ]*(?:\| )?(?:(?:abbrev|unfoldable|pub|ruleset|data|record)\s+)*((?:[^\s(){}.;,@\"«»:=λ]+\s+)*?)"
    r"(?=(?:[({][^\n]*)?(?::|=)\s)",
    re.M,
)
USE = re.compile(r"^(?:ghost )?(?:pub )?use ([^\s{;]+?)\.\{([^}]*)\}", re.M | re.S)
CAMEL = re.compile(r"(?<=[a-z0-9])(?=[A-Z])")
SPAN = re.compile(r"`[^`\n]+`")
FENCE = re.compile(r"^```.*?^```", re.M | re.S)


# The names that take another spelling, in the files that declare or import them.
OTHERS = {"dataType": "data_type_of", "streamType": "stream_type_of", "headerSize": "header_size_of", "ground": "ground_of"}
# Those in the files of one crate, or in one file.
HERE = {
    "thm_numbers/": {"last-field": "last_field_call", "content-error": "content_error_call", "skip-field": "skip_field_call"},
    "message/": {"body-at": "body_at_is"},
    "refusals/proofs/Order": {"by_number": "by_number_lem"},
    "writer_checks/proofs/GroundLaws": {"none_after": "none_after_lem"},
    "writer_checks/proofs/keys/no_key": {"none_after": "none_after_lem"},
    "thm_round_trip/proofs/GroundTests": {"rows_ok": "rows_ok_lem", "no_key": "no_key_lem"},
    "thm_round_trip/proofs/Exactly": {"rows_ok": "rows_ok_lem"},
    "thm_round_trip/proofs/Keys": {"no_key": "no_key_lem"},
    "thm_round_trip/proofs/FrameBack": {"kind_fits": "kind_fits_lem"},
    "queue/proofs/Changes": {"same-pair": "same_pair_lem"},
    "thm_queue/": {"same-pair": "same_pair_lem"},
    "thm_numbers/proofs/FieldNumbers": {"last-of": "last_of_lem"},
    "thm_refusals/proofs/Fields": {"no-field": "no_field_lem"},
}


def is_old(name):
    """Whether a name of lower case has a dash or a capital, and is no operator."""
    return bool(re.match(r"[a-z]", name)) and not re.search(r"[◌→≡×]", name) and ("-" in name or bool(CAMEL.search(name)))


def snake(name):
    return re.sub(r"_+", "_", "_".join(part.lower() if re.match(r"[A-Z][a-z0-9']", part) else part for part in CAMEL.split(name.replace("-", "_"))))


def own_files(crate):
    yield from sorted((crate / "specs").rglob("*.antt"))
    yield from sorted((crate / "proofs").glob("*.antt"))


def library_names():
    found = set()
    for crate in CRATES:
        for file in [*crate.rglob("*.antt"), *crate.rglob("*.rt")]:
            for use in USE.finditer(file.read_text()):
                path = use[1].split(".")
                if path[0] == "Rattle" and len(path) > 1 and path[1] in NAMES and path[2:3] != ["proofs"] * (len(path) > 3 and path[3][:1].islower()):
                    continue
                for item in re.split(r",\s*", use[2]):
                    found |= {word.strip() for word in item.split(" as ")[:1]}
    return found


def declared(text):
    text = COMMENT.sub("", text)
    for line in DECLARED.finditer(text):
        for name in line[1].split():
            if is_old(name):
                yield name
    for use in USE.finditer(text):
        for item in re.split(r",\s*", use[2]):
            if " as " in item and is_old(item.split(" as ")[1].strip()):
                yield item.split(" as ")[1].strip()
    for alias in re.finditer(r"^use \S+ as (\S+)$", text, re.M):
        if is_old(alias[1]):
            yield alias[1]


def own_names():
    library, found, all_names = library_names(), {}, set()
    for crate in CRATES:
        for file in own_files(crate):
            text = file.read_text()
            for name in declared(text):
                if name not in library:
                    found.setdefault(name, file)
            for line in DECLARED.finditer(COMMENT.sub("", text)):
                all_names |= set(line[1].split())
    return found, library, all_names


def turn(text, table):
    return WORD.sub(lambda m: table.get(m[0], m[0]), text)


def turn_code(text, table):
    """Code turns whole; of a comment, code spans, and the words that have a capital inside."""
    out, at = [], 0
    for note in re.finditer(r"(?<![^\s(){}.;,])--[^\n]*|//[^\n]*", text):
        out.append(turn(text[at : note.start()], table))
        capitals = {old: new for old, new in table.items() if CAMEL.search(old) and "-" not in old}
        out.append(SPAN.sub(lambda m: "`" + turn(m[0][1:-1], table) + "`", turn(note[0], capitals)))
        at = note.end()
    out.append(turn(text[at:], table))
    return "".join(out)


def write(file, new):
    if new != file.read_text():
        file.write_text(new)


def main():
    if (ROOT / "docs" / "PORT.md").exists() and "--check" not in sys.argv[1:]:
        sys.exit("respell: this tree has today's spelling")
    found, library, all_names = own_names()
    table = {name: snake(name) for name in found}
    capital = {new for old, new in table.items() if "-" not in old}
    table = {old: new + "_lem" if "-" in old and new in capital else new for old, new in table.items()}
    if "--check" in sys.argv[1:]:
        back = {}
        for old, new in table.items():
            back.setdefault(new, []).append(old)
        for old, new in sorted(table.items()):
            print(old, "->", new, "at", found[old].relative_to(ROOT))
        for new, olds in sorted(back.items()):
            if len(olds) > 1 or new in all_names or new in library:
                print("together:", new, *olds, "(declared)" if new in all_names else "", "(library)" if new in library else "")
        return
    final = set(table.values()) | {n for n in all_names if re.match(r"[a-z]", n)}
    for crate in CRATES:
        for file in [*crate.glob("specs/**/*.antt"), *crate.glob("proofs/**/*.antt"), *crate.glob("src/**/*.rt")]:
            text, rows = file.read_text(), dict(table)
            if file.name == "AsksNothing.antt":
                rows = {old: snake(old) for old in table}
            here = set(declared(text)) | {word for use in USE.finditer(text) for word in re.split(r",\s*", use[2])}
            rows.update({old: new for old, new in OTHERS.items() if old in here or re.search(rf"^(abbrev |unfoldable |pub )+{old} :", text, re.M)})
            for place, more in HERE.items():
                if str(file.relative_to(ROOT / "crates")).startswith(place):
                    rows.update(more)
            write(file, turn_code(text, rows))

    def loose(m):
        word = m[0]
        if word in library or not is_old(word):
            return word
        return table.get(word) or (snake(word) if snake(word) in final else word)

    for file in [*ROOT.glob("crates/*/must-fail/*.edit"), *ROOT.glob("tests/edits*/*/*.edit")]:
        head = re.compile(r"^(file|above|slow):.*$", re.M)
        lines = [line if head.match(line) else WORD.sub(loose, line) for line in file.read_text().split("\n")]
        write(file, "\n".join(lines))
    for file in [*ROOT.glob("*.md"), *ROOT.glob("docs/*.md"), *ROOT.glob("crates/*/README.md"), *ROOT.glob("tests/README.md")]:
        span = lambda m: WORD.sub(loose, m[0])
        text = file.read_text()
        write(file, SPAN.sub(span, FENCE.sub(span, text)))


main()
