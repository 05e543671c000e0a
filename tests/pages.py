#!/usr/bin/env python3
"""Looks at the pages: prose lines have at most 120 columns, and the document that the engine is made from has one name.

    pages.py          prints each line that is wrong; ends with 1 if there is one
    pages.py --wrap   wraps anew each paragraph and list item of a page that has too long a line

Pages are the .md files. Tables, code and headings may be longer. In pages, and in the text files of crates, include,
machine, host, tests, fuzz, bench and .ci, the document is "document 01", the changes to it "document 02"."""
import pathlib
import re
import sys
import textwrap

ROOT = pathlib.Path(__file__).resolve().parent.parent
COLUMNS = 120
OTHER_NAMES = re.compile(r"\b(the|this|that) papers?\b|\bpaper's\b|\bscope document\b|\bthe build definition\b")
FOLDERS = ["crates", "include", "machine", "host", "tests", "fuzz", "bench", ".ci"]
ITEM = re.compile(r" *(?:[-*]|\d+\.) +")


def pages():
    return sorted(p for p in ROOT.rglob("*.md") if not {"target", "crates"} & set(p.relative_to(ROOT).parts))


def texts():
    found = [p for folder in FOLDERS for p in (ROOT / folder).rglob("*") if p.is_file()]
    own = pathlib.Path(__file__).resolve()
    return [p for p in found if not {"target", "out"} & set(p.parts) and p.suffix not in (".lock", ".pyc") and p != own]


# ---- Blocks of a page

def blocks(lines):
    """(is prose, lines): paragraphs, list items, and everything else."""
    fenced = False
    block = []
    for line in lines:
        if line.startswith("```"):
            fenced = not fenced
        begins_item = ITEM.match(line) is not None
        plain = not (fenced or line.startswith("```") or line == "" or is_code(line, block) or line[0] in "|#<!")
        if block and (not plain or begins_item):
            yield True, block
            block = []
        if plain:
            block.append(line)
        else:
            yield False, [line]
    if block:
        yield True, block


def is_code(line, block):
    """An indented line that continues no list item."""
    return line.startswith("    ") and not (block and ITEM.match(block[0]))


def wrapped(block):
    mark = ITEM.match(block[0])
    first = mark.group() if mark else block[0][: len(block[0]) - len(block[0].lstrip())]
    text = " ".join([block[0][len(first):].strip(), *(line.strip() for line in block[1:])])
    # What stands between backquotes stays in one line.
    text = re.sub(r"`[^`]*`", lambda code: code.group().replace(" ", "\0"), text)
    lines = textwrap.wrap(text, COLUMNS, initial_indent=first, subsequent_indent=" " * len(first),
                          break_long_words=False, break_on_hyphens=False)
    return [line.replace("\0", " ") for line in lines]


def wrap(path):
    lines = path.read_text().splitlines()
    out = []
    for prose, block in blocks(lines):
        too_long = prose and any(len(line) > COLUMNS for line in block)
        out.extend(wrapped(block) if too_long else block)
    if out != lines:
        path.write_text("\n".join(out) + "\n")
        print(f"wrapped {path.relative_to(ROOT)}")


# ---- The two checks

def long_lines(path):
    number = 0
    for prose, block in blocks(path.read_text().splitlines()):
        for line in block:
            number += 1
            if prose and len(line) > COLUMNS:
                yield number, f"{len(line)} columns"


def other_names(path):
    for number, line in enumerate(path.read_text(errors="replace").splitlines(), 1):
        found = OTHER_NAMES.search(line)
        if found:
            yield number, f'"{found.group()}" for document 01'


def check():
    wrong = [(path, *fault) for path in pages() for fault in long_lines(path)]
    wrong += [(path, *fault) for path in {*pages(), *texts()} for fault in other_names(path)]
    for path, number, what in sorted(wrong):
        print(f"{path.relative_to(ROOT)}:{number}: {what}")
    if not wrong:
        print(f"pages: {len(pages())} pages, all lines and names as they should be")
    return 1 if wrong else 0


def main():
    if sys.argv[1:] == ["--wrap"]:
        for path in pages():
            wrap(path)
        return 0
    if sys.argv[1:]:
        print("use: pages.py [--wrap]", file=sys.stderr)
        return 2
    return check()


if __name__ == "__main__":
    sys.exit(main())
