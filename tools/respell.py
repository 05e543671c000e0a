#!/usr/bin/env python3
"""respell.py: brings this repository's own definitions, fields and lemmas to the spelling of today's Rattle, once, after
the kit's port.py: words in snake case (`mapNumber` is `map_number`), a dash only where it joins two names (`count-up` is
`count_up`, `length-put` stays). It goes over the .antt and .rt files of crates/ and over the edits beside them. Names of
functions of src/, of exports, strings, files and folders stay. A name that would meet another stays as it is, or gets
`_lem` where a lemma would have its function's name. Prints what it turned and what it left.

    respell.py          turns the files in place
    respell.py --list   prints old and new name, a tab between, and writes nothing
"""
import collections
import glob
import os
import re
import sys

ROOT = os.path.dirname(os.path.dirname(os.path.realpath(__file__)))
# A part of a name in camel case that begins with a small letter.
CAMEL = re.compile(r"(?<![A-Za-z0-9_])[a-z][a-z0-9_]*[A-Z][A-Za-z0-9_]*")
NAME = re.compile(r"(?<![\w'◌₀-₉-])[A-Za-z_◌ℕ⊎][\w'◌₀-₉⊎ℕ-]*")
DECLARED = re.compile(r"^(\s*)(?:(?:abbrev|unfoldable|pub)\s+)*([A-Za-z_][\w'₀-₉-]*) : ", re.M)
RECORD = re.compile(r"^(\s*)(?:pub )?(?:record|data) ", re.M)
USE = re.compile(r"use ([\w.◌-]+)\.\{([^}]*)\}")
# Lemmas that would have the name of the function that they speak of get `_lem`, in these files.
LEMMA_FILES = {
    "item_from": ["locklist/proofs/Places.antt", "locklist/proofs/Packs.antt"],
    "item_in": ["locklist/proofs/Places.antt", "locklist/proofs/Packs.antt"],
    "met_at": ["packing/proofs/Sound.antt"],
    "open_of": ["rules/proofs/SoundList.antt"],
}


def read(path):
    with open(path, encoding="utf-8") as file:
        return file.read()


def texts():
    found = []
    for pattern in ("**/*.antt", "**/*.rt", "*/must-fail/*.edit", "*/edits/*.edit"):
        found += glob.glob(os.path.join(ROOT, "crates", pattern), recursive=True)
    return sorted(p for p in found if "/out/" not in p)


def snake(text):
    return CAMEL.sub(lambda m: re.sub(r"(?<=[a-z0-9])[A-Z]", lambda c: "_" + c.group().lower(), m.group()), text)


def fields_of(text):
    """The names of the fields and constructors of the records and the data types that a text declares."""
    inside, depth = False, 0
    for line in text.split("\n"):
        begins = RECORD.match(line)
        indent = len(line) - len(line.lstrip())
        if begins:
            inside, depth = True, indent
        elif line.strip() and indent <= depth:
            inside = False
        elif inside:
            declared = DECLARED.match(line)
            if declared:
                yield declared.group(2)


def of_library(text):
    """Names that a text takes from a library of the kit."""
    for module, names in USE.findall(text):
        parts = module.split(".")
        own = parts[0] == "Rattle" and os.path.isdir(os.path.join(ROOT, "crates", parts[1]))
        if not own:
            for name in names.split(","):
                yield name.split(" as ")[0].strip()


def joined(name, names, is_field):
    """The name with an underscore for each dash that joins no two names."""
    parts = name.split("-")
    new = parts[0]
    for part in parts[1:]:
        left = re.split("[-]", new)[-1]
        both = not is_field and left in names and part in names
        new += ("-" if both else "_") + part
    return new


def turned_names(files):
    contents = {p: read(p) for p in files}
    library = {n for p, t in contents.items() if p.endswith((".antt", ".rt")) for n in of_library(t)}
    declared, fields, words = set(), set(), set()
    for path, text in contents.items():
        if not path.endswith(".antt") or re.search(r"/proofs/.*/Proof\.antt$", path):
            continue
        own = {m.group(2) for m in DECLARED.finditer(text)}
        declared |= own
        fields |= set(fields_of(text))
        if "/specs/" in path:
            words |= {snake(n) for n in own}
    words |= {n for n in library if NAME.fullmatch(n)}
    tokens = collections.defaultdict(set)
    for text in contents.values():
        for token in NAME.findall(text):
            tokens[snake(token)].add(token)
    new = {}
    for name in sorted(declared):
        plain = snake(name)
        if "-" in name and name not in library:
            better = joined(plain, words - fields, name in fields)
            if better != plain and better not in tokens and better not in new.values():
                plain = better
        if plain != name and name not in library:
            new[name] = plain
    for names in tokens.values():
        for name in names:
            if name not in new and name not in library and snake(name) != name:
                new[name] = snake(name)
    left = [n for n in sorted(declared) if "-" in n and n not in new and n not in library]
    return new, left


def turn(text, names, comment):
    """A text with its names turned; in comments only what stands between backquotes."""
    def code(part):
        return NAME.sub(lambda m: names.get(m.group(), m.group()), part)

    out = []
    for line in text.split("\n"):
        at = re.search(rf"(?:^|(?<=\s)){comment}", line)
        cut = at.start() if at else len(line)
        tail = re.sub(r"`[^`]*`", lambda m: code(m.group()), line[cut:])
        out.append(code(line[:cut]) + tail)
    return "\n".join(out)


def turn_files(files, new, first):
    """Turns the names in every file; the first time the lemmas that need `_lem` too."""
    for path in files:
        text = read(path)
        names = dict(new)
        short = os.path.relpath(path, os.path.join(ROOT, "crates"))
        for lemma, where in LEMMA_FILES.items():
            if first and short in where:
                names[lemma] = lemma + "_lem"
        comment = "//" if path.endswith(".rt") or (path.endswith(".edit") and "file: src/" in text) else "--"
        after = turn(text, names, comment)
        if after != text:
            with open(path, "w", encoding="utf-8") as file:
                file.write(after)


def main():
    files = texts()
    new, left = turned_names(files)
    if sys.argv[1:] == ["--list"]:
        for name in sorted(new):
            print(f"{name}\t{new[name]}")
        return 0
    turned = {}
    first = True
    while new:
        turn_files(files, new, first)
        turned.update(new)
        first = False
        new, left = turned_names(files)
    print(f"respell: {len(turned)} names turned; {len(left)} with a dash stay")
    return 0


if __name__ == "__main__":
    sys.exit(main())
