#!/usr/bin/env python3
"""Brings this repository's own definitions and lemmas to snake case, once, after port.py: `boundOfP` becomes `bound_of_p`.

usage: python3 tools/respell.py     at the top of the repository

A name of antt that begins small and has a capital inside is respelled, part by part between dashes. Types, modules, facts and constructors begin
with a capital and stay; functions of src/, strings and exported names are in snake case already. Names of the library that have capitals inside stay.
Where a new name was there before in the same crate, and not as a function of src/, the script stops and says so; `OTHER` has what is written
for these. Every .rules file is left as it is: what it makes is read from it no more.
"""
import os
import re
import sys

# Names of the kit's library or of its tactics that begin small and have a capital inside.
KEEPS = set()
# Old name: new name, where the rule's own would fall together with another name.
OTHER = {
    "goesOn": "going_on",
    "left_by": "left_by_lem",
    "ended_at": "ended_at_lem",
    "handed_out": "handed_out_lem",
    "getD-within": "get_or-within",
    "getD-taken": "get_or-taken",
    "getD-drop": "get_or-drop",
    "set-getD": "set-get_or",
    "not0B": "not_0b",
    "not0C": "not_0c",
    "not0D": "not_0d",
    "not2D": "not_2d",
    "not2E": "not_2e",
    "not2F": "not_2f",
    "not3C": "not_3c",
    "not3D": "not_3d",
    "not3E": "not_3e",
}
NAME = re.compile(r"(?<![\w'◌\-.·])[a-z][\w'\-]*|(?<=[.·])[a-z][\w'\-]*")


def snake(part):
    if not re.match(r"[a-z]", part) or not re.search(r"[A-Z]", part):
        return part
    part = re.sub(r"(?<=[a-z0-9])(?=[A-Z])", "_", part)
    return part.lower()


def new_name(name):
    if name in OTHER:
        return OTHER[name]
    if name in KEEPS or not re.search(r"[a-z0-9][A-Z]", name):
        return name
    return "-".join(snake(part) for part in name.split("-"))


def files(top="crates"):
    for folder, dirs, names in os.walk(top):
        dirs[:] = sorted(d for d in dirs if d != "out")
        for name in sorted(names):
            if name.endswith((".antt", ".rt")):
                yield os.path.join(folder, name)


def main():
    texts = {path: open(path, encoding="utf-8").read() for path in files()}
    met = {}
    for path, text in texts.items():
        crate = path.split(os.sep)[1]
        met.setdefault(crate, set()).update(NAME.findall(text))
    # A function of src/ may have the name of the definition that says what it returns.
    functions = set(re.findall(r"\bfn (\w+)", "\n".join(text for path, text in texts.items() if path.endswith(".rt"))))
    everywhere = set().union(*met.values())
    renamed = {name: new_name(name) for name in everywhere if new_name(name) != name}
    taken, clash = {}, False
    for old, new in sorted(renamed.items()):
        crates = sorted(crate for crate, names in met.items() if old in names and new in names and new not in functions)
        if (crates or new in taken) and old not in OTHER and new not in OTHER:
            clash = True
            print(f"{old} -> {new}: {'there already in ' + ', '.join(crates) if crates else 'also of ' + taken[new]}")
        taken[new] = old
    if "--list" in sys.argv:
        for old, new in sorted(renamed.items()):
            print(old, new)
    if clash or "--list" in sys.argv:
        return 1
    for path, text in texts.items():
        turned = NAME.sub(lambda m: renamed.get(m.group(0), m.group(0)), text)
        if turned != text:
            open(path, "w", encoding="utf-8").write(turned)
    print(f"{len(renamed)} names respelled")
    return 0


sys.exit(main())
