#!/usr/bin/env python3
"""forms.py [-l POINT] [COMMIT]: counts the older forms in the crates' src/ (and answers in proofs/), a row for each, in the
working tree or at a commit. -l POINT lists the places of a row, as -l 3a. Rows 1e, 2a, 2b, 4a and 6b go by the names that
the places had at first: under a new name they are not seen, and have to be looked for by eye."""

import re
import subprocess
import sys

ROWS = [
    ("1b", "refusals as numbers: constants", r"^pub const [A-Z_]+: u32 = \d+( \+ 256 \* \d+)?;"),
    ("1c", "refusals as numbers: returned", r"\breturn [A-Z][A-Z_]+;|^\s+[A-Z][A-Z_]+$"),
    ("1d", "refusals as numbers: asked for", r"\bif (code|refused|full|lacking|why|field_reason\(.*\)) != 0 "),
    ("1e", "a flag or a code with a value beside it", r"^pub struct (Wrote|Spot)\b"),
    ("1f", "numbers for kinds and modes", r"\.(kind|mode) (==|!=) \d|\b(kind|mode): \d|\b(mode|kind) (==|!=) \d|\d < it\.(kind|mode)|kinds_by\(\d"),
    ("2a", "twins for the two sizes of drive", r"\bfn \w*(small|large)\w*\("),
    ("2b", "twins for a length, an item's test or a step", r"\bfn (eleven_from|name_from|sixteen_from|three_of|is_limit_byte|is_rule_byte|first_mark|second_mark|any_open|any_against|locked_by_other|print_\w+|search_first|search_next|write_random|write_zero_fill)\("),
    ("2c", "the same lines at the head of functions", r"let told = told_kind|let chosen = routine_of|self\.items\[i\] = it\.unless"),
    ("3a", "while loops", r"^\s*('\w+: )?while "),
    ("4a", "equality, conversion and printing by hand", r"\bfn (same_name|same_file|same|is_mark|zero_name|is_number|any_differs|word_of|three_of|three_bytes|two_bytes|wide|one_if|spell|last_digit|image_number|image_entry|is_sound)\("),
    ("4b", "casts", r"\bas (u8|u16|u32|u64|usize)\b"),
    ("6a", "a buffer with its length beside it", r"line: &mut \[u8; 128\]|let mut text = \[0u8; 128\]"),
    ("6b", "parallel arrays", r"^\s*let mut (opens|locks) = \[0u8; 16\]"),
    ("7a", "a switch on a function number or a routine", r"\bmatch (routine|function)\b|\bfunction == \d"),
]


def files(commit, ending):
    words = ["git", "ls-tree", "-r", "--name-only", commit] if commit else ["git", "ls-files"]
    names = subprocess.run(words, check=True, capture_output=True, text=True).stdout.split("\n")
    return [n for n in names if re.match(r"crates/\w+/" + ending, n)]


def text(commit, name):
    if not commit:
        with open(name, encoding="utf-8") as f:
            return f.read()
    return subprocess.run(["git", "show", f"{commit}:{name}"], check=True, capture_output=True, text=True).stdout


def clauses(source):
    """The facts that the requires of each function states, names of values left out."""
    for m in re.finditer(r"requires \w* ?\{(.*?)\}\n", source):
        yield {re.sub(r"\b(image|list|fcb|dma|vector|first|second|seen|s)\.(now|old)\b", r"\1", fact.strip(" ()")) for fact in m[1].split(" × ")}


def mixed(source):
    """The enums of which some variants hold a value and some hold none, as Option's and Result's own shape is."""
    for m in re.finditer(r"(?m)^(?:pub )?enum (\w+) \{\n(.*?)^\}", source, re.DOTALL):
        variants = re.findall(r"(?m)^    [A-Z]\w*(\(?)", m[2])
        if "(" in variants and "" in variants:
            yield m[1]


def main():
    words = sys.argv[1:]
    wanted = None
    if words[:1] == ["-l"]:
        wanted, words = words[1], words[2:]
    commit = words[0] if words else None
    sources = {n: text(commit, n) for n in files(commit, r"src/\w+\.rt$")}
    enums = [(n, name) for n, source in sources.items() for name in mixed(source)]
    if wanted is None:
        print(f"1a  {len(enums):4}  own enums with and without a value in a variant")
    if wanted == "1a":
        for n, name in enums:
            print(n, name)
    for point, what, pattern in ROWS:
        places = [(n, i, line) for n, s in sources.items() for i, line in enumerate(s.split("\n"), 1) if re.search(pattern, line)]
        if wanted == point:
            for n, i, line in places:
                print(f"{n}:{i}:{line.strip()}")
        if wanted is None:
            print(f"{point}  {len(places):4}  {what}")
    if wanted is None or wanted.startswith("5"):
        facts = {}
        for n, s in sources.items():
            for clause in clauses(s):
                for fact in clause:
                    facts[fact] = facts.get(fact, 0) + 1
        often = {f: k for f, k in facts.items() if k >= 3}
        if wanted is None:
            print(f"5a  {len(often):4}  facts required by three or more functions, {sum(often.values())} times in all")
        if wanted == "5a":
            for f, k in sorted(often.items(), key=lambda x: -x[1]):
                print(f"{k:4}  {f}")
        many = [(n, m[1]) for n, s in sources.items() for m in re.finditer(r"\bfn (\w+)[^(\n]*\(([^)]*)\)", s) if m[2].count(":") >= 8]
        if wanted is None:
            print(f"5b  {len(many):4}  functions of eight parameters or more")
        if wanted == "5b":
            for n, f in many:
                print(n, f)
    if wanted is None:
        answers = [text(commit, n) for n in files(commit, r"proofs/.*Answers\.antt$")]
        count = sum(len(re.findall(r"(?m)^pub \S+ : goal", a)) for a in answers)
        print(f"8a  {count:4}  answers, in {len(answers)} files")
        invariants = files(commit, r"proofs/.*Invariants\.antt$")
        print(f"8b  {len(invariants):4}  files of invariants and measures")


main()
