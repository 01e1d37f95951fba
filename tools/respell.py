#!/usr/bin/env python3
"""Spells this repository's own definitions and lemmas in snake case: codeAt becomes code_at, onDone-agrees on_done-agrees.

usage: python3 tools/respell.py        at the top of the repository, once, after the kit's port.py

Types, modules and opcodes (IF, TOALT) keep their capitals. Functions of src/, exported names, strings, inputs and outputs are left
alone: only names that stand in a file of specs/ or proofs/ are turned, there, in clauses and comments of src/, in the edits of
must-fail/ and in the pages. Lemmas that had the snake-case name of another word already get the ending _lem first.
"""

import os
import re

NAME = re.compile(r"(?<![A-Za-z0-9_'])[A-Za-z_][A-Za-z0-9_']*(?:-[A-Za-z0-9_']+)*")
# lemmas that would fall together with a definition of another spelling
LEMMAS = ["at_last", "entries_from", "goes_on", "one_more", "put_written", "same_bytes", "too_long"]
# names whose parts the rule does not tell
GIVEN = {"upTo60": "up_to_60"}


def files(endings):
    for folder, dirs, names in os.walk("crates"):
        dirs[:] = sorted(d for d in dirs if d != "out")
        for name in sorted(names):
            if name.endswith(endings):
                yield os.path.join(folder, name)


def pages():
    yield from (p for p in ("README.md", "CONTRIBUTING.md") if os.path.exists(p))
    yield from (os.path.join("docs", p) for p in sorted(os.listdir("docs")) if p.endswith(".md"))


def read(path):
    with open(path, encoding="utf-8") as f:
        return f.read()


def is_camel(part):
    return re.match("[a-z_]", part) is not None and re.search("[A-Z]", part) is not None


def snake(name):
    parts = []
    for part in name.split("-"):
        if part in GIVEN:
            part = GIVEN[part]
        elif is_camel(part):
            part = re.sub("(?<=[a-z0-9])([A-Z])", r"_\1", part).lower()
        parts.append(part)
    return "-".join(parts)


def library(own):
    """What is imported from modules that are not the repository's."""
    words = set()
    for path in files((".antt", ".rt")):
        for module, list in re.findall(r"use ([A-Za-z0-9_.]+)\.\{([^}]*)\}", read(path)):
            if not (module.startswith("Rattle.") and module.split(".")[1] in own):
                words |= {w.strip().split(" as ")[0] for w in list.split(",")}
    return words


def main():
    own = set(os.listdir("crates"))
    kept = library(own)
    turned = {}
    for path in files((".antt",)):
        for name in NAME.findall(read(path)):
            if name not in kept and snake(name) != name:
                turned[name] = snake(name)
    lemmas = {name: name + "_lem" for name in LEMMAS}
    declared = {}
    for path in files((".antt",)):
        names = set(re.findall(r"(?m)^\s*(?:(?:abbrev|unfoldable|pub|data|record) )*([A-Za-z_][A-Za-z0-9_'-]*) :", read(path)))
        for name in names & set(LEMMAS):
            declared.setdefault(name, []).append(path)

    def spelled(text, names):
        return NAME.sub(lambda m: names.get(m.group(0), m.group(0)), text)

    def of_source(text, names):
        """Everything but strings."""
        return "".join(part if i % 2 else spelled(part, names) for i, part in enumerate(re.split(r'("(?:[^"\\\n]|\\.)*")', text)))

    done = 0
    for path in list(files((".antt", ".rt", ".edit"))) + list(pages()):
        if os.path.basename(path) == "PORT.md":
            continue
        old = read(path)
        text = spelled(old, lemmas) if path.endswith(".antt") else old
        text = of_source(text, turned) if path.endswith((".rt", ".edit")) else spelled(text, turned)
        if text != old:
            done += 1
            with open(path, "w", encoding="utf-8") as f:
                f.write(text)
    print(f"{len(turned)} names turned in {done} files; lemmas that got another name: {declared}")


if __name__ == "__main__":
    main()
