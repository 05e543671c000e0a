#!/usr/bin/env python3
"""Holds what crates/engine_c exports for C against the functions of crates/engine: the same functions in the same order,
each with the same comment, head and clauses, and each export hands its parameters on, in order, to the function of its
name. Nothing else stands in engine_c. Prints what differs; ends with 1 if something does."""
import pathlib
import re
import sys

ROOT = pathlib.Path(__file__).resolve().parent.parent
FUNCTION = re.compile(
    r"(?P<comment>(?://[^\n]*\n)+)(?P<marks>(?:#\[[^\n]*\n)*)"
    r'pub (?P<abi>extern "C" )?fn (?P<name>\w+)\((?P<parameters>[^)]*)\) -> u32\n(?P<clauses>(?:    [^\n]*\n)+)\{\n'
    r"(?P<body>.*?)\n\}\n",
    re.S,
)
IMPORT = re.compile(r"ghost use ([\w.]+)\.\{([^}]*)\};")


def read(crate):
    text = (ROOT / "crates" / crate / "src" / "lib.rt").read_text(encoding="utf-8")
    imports = {(path, name.strip()) for path, names in IMPORT.findall(text) for name in names.split(",")}
    return text, imports, list(FUNCTION.finditer(text))


def words(text):
    """Without the layout, which depends on a line's length."""
    return re.sub(r",? *\)", ")", " ".join(text.split())).strip(", ")


def promise(function):
    """All that a caller reads."""
    return [words(function[part]) for part in ("comment", "name", "parameters", "clauses")]


def hands_on(function):
    names = ", ".join(re.findall(r"(\w+):", function["parameters"]))
    return re.sub(r"\( ", "(", words(function["body"])) == f"engine::{function['name']}({names})"


def differences():
    _, meant, functions = read("engine")
    text, imports, exports = read("engine_c")
    if [it["name"] for it in functions] != [it["name"] for it in exports]:
        yield "engine_c does not export just the functions of engine, in their order"
    for function, export in zip(functions, exports):
        if promise(function) != promise(export):
            yield f"{export['name']}: comment, parameters or clauses are not those of engine"
        if "#[unsafe(no_mangle)]\n" not in export["marks"] or not export["abi"]:
            yield f"{export['name']}: is not exported"
        if not hands_on(export):
            yield f"{export['name']}: does not hand its parameters on in order"
    if not imports <= meant:
        yield "the words of the clauses are not imported from where engine has them"
    if text.count("fn ") != len(exports):
        yield "engine_c has something else than exports"


def main():
    found = list(differences())
    for line in found:
        print(f"exports: {line}")
    if not found:
        print(f"exports: {len(read('engine_c')[2])} functions, each as engine has it")
    return 1 if found else 0


if __name__ == "__main__":
    sys.exit(main())
