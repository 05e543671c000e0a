#!/usr/bin/env python3
"""answers.py CRATE NAMES: turns each proof that walks the code (proofs/F/Proof.antt, as an older Rattle had it) of a crate
into the files of today's Rattle: Invariants.antt for loops and measures, Answers.antt for the goals that need more than
`search rules`. NAMES is the file that `rt check --generated FOLDER --old-names` writes in the crate's folder. An answer
goes to the goal that stands at its place. Prints what wants a look; writes nothing over a function it cannot turn.
"""
import difflib
import json
import os
import re
import sys

ROOT = os.path.dirname(os.path.dirname(os.path.realpath(__file__)))
OLD = {"loop-holds": "loop-init", "loop-less": "loop-smaller", "loop-again": "loop-preserved", "loop-next": "loop-preserved"}


def norm(name):
    name = name.replace("_", "-")
    for old, new in OLD.items():
        name = re.sub(rf"^{old}(?=-|$)", new, name)
    return name


def items(body):
    """(comment before it, text) of each argument of `tie.spec`."""
    found, comment, at, n = [], None, 0, len(body)
    while at < n:
        if body[at].isspace():
            at += 1
        elif body.startswith("--", at):
            end = body.find("\n", at)
            comment = body[at + 2 : end].strip()
            at = end
        elif body[at] == "(":
            depth, end = 0, at
            while True:
                depth += {"(": 1, ")": -1}.get(body[end], 0)
                end += 1
                if depth == 0:
                    break
            found.append((comment, body[at:end]))
            comment, at = None, end
        elif body[at] == ")":
            break
        else:
            m = re.match(r"[^\s()]+", body[at:])
            found.append((comment, m.group()))
            comment, at = None, at + m.end()
    return found


def blocks(text):
    """The head (comments and uses) and the declarations, each a run of lines up to a line that begins a new one."""
    head, decls, current = [], [], None
    for line in text.split("\n"):
        if current is None and (line.startswith("--") or line.startswith("use ") or not line.strip()):
            head.append(line)
            continue
        if re.match(r"(abbrev |unfoldable |pub )*[\w'-]+ :", line) or (current is None):
            current = [line]
            decls.append(current)
        elif re.match(r"(pub )?ruleset ", line):
            current = [line]
            decls.append(current)
        else:
            current.append(line)
    return head, ["\n".join(d).rstrip() for d in decls]


def context(term, places):
    """Today's paths in a term that cites the facts known at its goal."""
    def path(m):
        step = m.group(1)
        for name in (step, step.replace("-", "_")):
            if name in places:
                return "c." + places[name]
        return "c." + step

    return re.sub(r"\bc(?:\.before)*\.([\w-]+)", path, term)


def turn(crate, folder, names, said):
    function = os.path.relpath(folder, os.path.join(ROOT, "crates", crate, "proofs"))
    key = [k for k in names if k == f"Rattle-{crate}-proofs.{function.replace('/', '.')}.Lts"]
    if not key:
        said(f"{function}: no names")
        return False
    info = names[key[0]]
    text = open(os.path.join(folder, "Proof.antt"), encoding="utf-8").read()
    head, decls = blocks(text)
    spec = [d for d in decls if re.match(r"pub [\w'-]+[-_]spec :", d)]
    if len(spec) != 1 or "(tie.spec" not in spec[0]:
        said(f"{function}: no spec of the known form")
        return False
    spec = spec[0]
    unfolding = re.search(r"^unfolding (.*)$", spec, re.M)
    unfolding = unfolding.group(1) if unfolding else None
    args = items(spec[spec.index("(tie.spec") + len("(tie.spec") :])
    loops = info.get("loops", [])
    given, rest = args[: 2 * len(loops)], args[2 * len(loops) :]
    needs = info["needs"]
    places = {p[2][0]: p[2][1] for p in info["places"] if p[2][0]}
    for loop in loops:
        places[loop[0][0]] = loop[0][1]
    if len(rest) != len(needs):
        a = [norm(c or "?") for c, _ in rest]
        b = [norm(o) for o, _ in needs]
        pairs = []
        for op, i, j, k, l in difflib.SequenceMatcher(a=a, b=b, autojunk=False).get_opcodes():
            if op == "equal" or (op == "replace" and j - i == l - k):
                pairs += list(zip(rest[i:j], needs[k:l]))
        said(f"{function}: {len(rest)} answers, {len(needs)} goals: {set(a) ^ set(b)}")
    else:
        pairs = list(zip(rest, needs))
        for (comment, _), (old, new) in pairs:
            if comment and norm(comment) != norm(old):
                said(f"{function}: `{comment}` stands at `{old}`, `{new}`")
    module = f"Rattle.{crate}.proofs.{function.replace('/', '.')}"
    uses = [h for h in head if h.startswith("use ") and not h.startswith(f"use {module}.")]
    own = {re.match(r"(?:abbrev |unfoldable |pub )*([\w'-]+) :", d).group(1): d for d in decls if d is not spec and re.match(r"(?:abbrev |unfoldable |pub )*([\w'-]+) :", d)}
    invariants, answers, taken = [], [], set()
    for i, loop in enumerate(loops):
        for j, word in ((2 * i, "invariant"), (2 * i + 1, "decreases")):
            name = given[j][1]
            label = loop[0][1]
            d = own.get(name)
            taken.add(name)
            if d is None:
                said(f"{function}: {word} `{name}` is not declared here")
                continue
            m = re.match(r"(?:abbrev |pub )*[\w'-]+ :[^\n]*\n((?:unfolding [^\n]*\n)?)[\w'-]+([^=]*)=\s*(.*)", d, re.S)
            params, body = m.group(2).split(), m.group(3).rstrip()
            paths = {q: f"l.{q}" if q == q.rstrip("₀") else f"l.initial.{q.rstrip('₀')}" for q in params if q != "_"}
            names_in = "|".join(re.escape(q) for q in sorted(paths, key=len, reverse=True))
            if names_in:
                body = re.sub(rf"(?<![\w'.₀-₉])(?:{names_in})(?![\w'₀-₉])", lambda m: paths[m.group()], body)
            # what the loop does not change has one name
            changed = dict(zip(loop[1], info["changed"][i])) if info.get("changed") else {}
            for var, moves in changed.items():
                if not moves:
                    body = body.replace(f"l.initial.{var}", f"l.{var}")
            invariants.append(f"abbrev pub {word}-{label} : goal.{word}-{label}\n{word}-{label} l = {body}\n")
    for (comment, term), (old, new) in pairs:
        taken.add(term)
        opened = unfolding
        if term.startswith("("):
            m = re.match(r"\(λ c(?: κs)?\.\s*(.*)\)$", term, re.S)
            body = m.group(1) if m else None
        else:
            d = own.get(term)
            m = re.match(r"(?:abbrev |pub )*[\w'-]+ :[^\n]*\n((?:unfolding ([^\n]*)\n)?)[\w'-]+ c(?: κs)?\s*=\s*(.*)", d, re.S) if d else None
            body = m.group(3).rstrip() if m else None
            opened = m.group(2) if m and m.group(2) else opened
        if body is None:
            said(f"{function}: answer of `{new}` not read: {term[:60]}")
            continue
        if body == "search rules" and not opened:
            continue
        line = f"unfolding {opened}\n" if opened else ""
        answers.append(f"pub {new} : goal.{new}\n{line}{new} c = {context(body, places)}\n")
    helpers = [d for n, d in own.items() if n not in taken] + [d for d in decls if d is not spec and d.startswith(("ruleset", "pub ruleset"))]
    title = [h for h in head if h.startswith("--")]

    def write(name, parts, goal):
        lines = title + uses + [f"use {module}.{goal} as goal", ""]
        with open(os.path.join(folder, name), "w", encoding="utf-8") as file:
            file.write("\n".join(lines) + "\n" + "\n".join(p.rstrip() + "\n" for p in parts))

    if invariants:
        write("Invariants.antt", invariants, "Given")
    if answers:
        write("Answers.antt", [h + "\n" for h in helpers] + answers, "Goals")
    elif helpers:
        said(f"{function}: helpers left over")
    os.remove(os.path.join(folder, "Proof.antt"))
    return True


def main():
    crate, names = sys.argv[1], json.load(open(sys.argv[2], encoding="utf-8"))
    only = set(sys.argv[3:])
    proofs = os.path.join(ROOT, "crates", crate, "proofs")
    turned = left = 0
    for folder, _, files in sorted(os.walk(proofs)):
        if "Proof.antt" in files and (not only or os.path.relpath(folder, proofs) in only):
            done = turn(crate, folder, names, lambda text: print(f"look: {text}"))
            turned, left = turned + done, left + (not done)
            if done and not os.listdir(folder):
                os.rmdir(folder)
    print(f"answers: {crate}: {turned} turned, {left} left")
    return 0


if __name__ == "__main__":
    sys.exit(main())
