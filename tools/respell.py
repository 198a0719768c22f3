#!/usr/bin/env python3
"""Spells the repository's own definitions, fields, constructors and lemmas in snake case: `cost-and-next` becomes `cost_and_next`.

usage: tools/respell.py     at the top of the repository, once, behind the kit's port.py

A name is the repository's own where a file of some crate's specs/ or proofs/ declares or binds it. Left as they are: a name that begins with a fact
(`All-append`), what the toolchain names (goals, steps of a walk), text in strings, Rust code and comments but for what stands in backticks there.
It stops before it writes where two names of one repository would fall together.
"""

import os
import re
import sys

KINDS = r"(?:(?:pub|abbrev|unfoldable|data|record)\s+)*"
NAME = r"[^\s(){}.;,\":]+"
DECLARED = re.compile(r"^\s*" + KINDS + rf"({NAME}(?:\s+{NAME})*)\s+(?:[({{].*?)?(?<!\S):(?!\S)")
BOUND = re.compile(rf"[({{]({NAME}(?:\s+{NAME})*)\s+:(?!\S)")
WORD = re.compile(r"[^\s(){}.;,\"\[\]⌜⌝`]+")


def files(endings):
    for crate in sorted(os.listdir("crates")):
        for folder, folders, names in os.walk(os.path.join("crates", crate)):
            folders[:] = sorted(f for f in folders if f != "out")
            for name in sorted(names):
                if name.endswith(endings):
                    yield os.path.join(folder, name)


def own_files():
    for path in files((".antt",)):
        if re.fullmatch(r"crates/\w+/(specs|proofs)/\w+\.antt", path):
            yield path


def declared():
    found, imported, crates = set(), set(), set(os.listdir("crates"))
    for path in own_files():
        for line in open(path, encoding="utf-8"):
            used = re.match(r"(?:pub )?use (?:Rattle\.)?(\w+)\S*\.\{(.*)\}", line)
            if used:
                imported.update(set() if used[1] in crates else re.split(r", | as ", used[2]))
            elif not line.lstrip().startswith("--"):
                for names in DECLARED.findall(line) + BOUND.findall(line):
                    found.update(names.split())
    return found - imported


def snake(name):
    return name if name[0].isupper() else re.sub(r"(?<=\w)-(?=\w)", "_", name)


def turned(text, names):
    return WORD.sub(lambda word: names.get(word.group(), word.group()), text)


def antt(line, names):
    code, mark, comment = line.partition("-- ") if line.lstrip().startswith("-- ") else re.match(r"(.*?)((?:\s-- |$))(.*)", line, re.S).groups()
    return turned(code, names) + mark + re.sub(r"`[^`]*`", lambda m: turned(m.group(), names), comment)


def rattle(line, names):
    if line.lstrip().startswith("//"):
        return re.sub(r"`[^`]*`", lambda m: turned(m.group(), names), line)
    pieces = re.split(r"(\"(?:[^\"\\]|\\.)*\")", line)
    return "".join(piece if i % 2 else turned(piece, names) for i, piece in enumerate(pieces))


def main():
    every = declared()
    every |= {part for name in every for part in name.split("◌") if "◌" in name and part}
    names = {name: snake(name) for name in every if snake(name) != name}
    together = sorted(name for name, new in names.items() if new in every)
    if together or len(set(names.values())) < len(names):
        sys.exit(f"respell: these names fall together with another: {together}")
    for path in files((".antt", ".rt")):
        with open(path, encoding="utf-8") as f:
            lines = f.readlines()
        respelled = [(antt if path.endswith(".antt") else rattle)(line, names) for line in lines]
        if respelled != lines:
            with open(path, "w", encoding="utf-8") as f:
                f.writelines(respelled)
    print(f"respell: {len(names)} names")


if __name__ == "__main__":
    main()
