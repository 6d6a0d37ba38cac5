#!/usr/bin/env python3
"""Sets each statement and definition of an older checkout's specs/ and proofs/ beside today's, word by word.

usage: python3 tools/statements.py OLD NEW [--moved | --names]
OLD and NEW are folders with crates/ (OLD after port.py and tools/respell.py, so that the spellings agree). A declaration is found by crate, module (of
specs/ or of proofs/) and name, else by module and name in another crate. Imports, white space, brackets that only group, and the paths of modules are left out of the
comparison; of a theorem the statement counts with the module that it stands in, of a data type, a record or an abbreviation the whole text.
--moved lists what stands in another of the two folders now, file by file.
"""
import os
import re
import sys

MADE = ("Answers.antt", "Invariants.antt", "Proof.antt", "Lib.antt")


def files(root):
    for crate in sorted(os.listdir(f"{root}/crates")):
        for part in ("specs", "proofs"):
            for top, dirs, names in os.walk(f"{root}/crates/{crate}/{part}"):
                dirs[:] = sorted(d for d in dirs if d != "out")
                for name in sorted(names):
                    # a file of proofs/ itself holds lemmas, whatever its name
                    if name.endswith(".antt") and (name not in MADE or top.endswith("/proofs") and name != "Lib.antt"):
                        path = os.path.join(top, name)
                        yield crate, part, os.path.relpath(path, f"{root}/crates/{crate}/{part}")[:-5].replace("/", "."), path


# Two names of the library for the same, of which port.py writes one in what a contract cites and the other elsewhere.
ALIKE = {"nat_lt": "ltb", "nat_le": "leb", "nat_eq": "eqb", "slice_index_or": "get_or", "slice_set": "set"}


def plain(text):
    text = re.sub(r"--.*", "", text)
    text = re.sub(r"\w+", lambda m: ALIKE.get(m.group(0), m.group(0)), text)
    return " ".join(re.sub(r"[(){}]", " ", text).split())


def declarations(path):
    """Name, kind and text of each declaration: of a theorem or a definition by clauses the signature and, where it is an abbreviation, its clauses."""
    lines = [line for line in open(path, encoding="utf-8").read().split("\n") if not line.startswith(("use ", "pub use ", "open "))]
    modules, found, at = [], [], 0
    while at < len(lines):
        line = lines[at]
        if not line.strip() or line.strip().startswith("--"):
            at += 1
            continue
        depth = len(line) - len(line.lstrip())
        while modules and modules[-1][0] >= depth:
            modules.pop()
        head = line.strip()
        if re.match(r"(pub )?module ", head):
            text = [head]
            while not re.search(r"\bwhere$", text[-1]):
                at += 1
                text.append(lines[at].strip())
            modules.append((depth, " ".join(text)))
            at += 1
            continue
        block = [line]
        at += 1
        while at < len(lines) and (not lines[at].strip() or len(lines[at]) - len(lines[at].lstrip()) > depth):
            block.append(lines[at])
            at += 1
        whole = "\n".join(block)
        if m := re.match(r"\s*(?:unfoldable |abbrev )?(?:pub )?(?:unfoldable |abbrev )?(data|record) (\S+)", whole):
            found.append([m.group(2), m.group(1), whole, modules[:]])
        elif m := re.match(r"\s*((?:(?:unfoldable|abbrev|pub) )*)(\S+)(?: \{[^}]*\})* : ", whole):
            found.append([m.group(2), "abbrev" if "abbrev" in m.group(1) or "unfoldable" in m.group(1) else "theorem", whole, modules[:]])
        elif found and (m := re.match(r"\s*(\S+)", whole)):
            if found[-1][1] == "abbrev" and not whole.strip().startswith("unfolding"):
                found[-1][2] += "\n" + whole
    for name, kind, text, around in found:
        yield name, kind, plain(" ".join(header for _, header in around) + " " + text)


def read(root):
    found = {}
    for crate, part, module, path in files(root):
        for name, kind, text in declarations(path):
            found.setdefault((crate, module, name), []).append((part, kind, text, path))
    return found


def main(old_root, new_root, flag=""):
    old, new = read(old_root), read(new_root)
    elsewhere = {}
    for (crate, module, name), entries in new.items():
        elsewhere.setdefault(name, []).extend((crate, module, entry) for entry in entries)
    same, moved, changed, gone = 0, {}, [], []
    for key, entries in old.items():
        for part, kind, text, path in entries:
            here = [entry for entry in new.get(key, [])]
            if any(entry[2] == text for entry in here):
                same += 1
                if all(entry[0] != part for entry in here if entry[2] == text):
                    moved.setdefault((key[0], key[1], part), []).append(key[2])
                continue
            others = [(c, m, entry) for c, m, entry in elsewhere.get(key[2], []) if entry[2] == text]
            if others:
                same += 1
                moved.setdefault((key[0], key[1], part), []).append(f"{key[2]} (now {others[0][0]} {others[0][2][0]} {others[0][1]})")
            elif here:
                changed.append((key, part, kind, text, here[0][2]))
            else:
                gone.append((key, part, kind, text))
    if flag == "--moved":
        for (crate, module, part), names in sorted(moved.items()):
            print(f"- {crate}, {module}: " + ", ".join(f"`{name}`" for name in names))
        return
    print(f"{same} the same, {len(changed)} changed, {len(gone)} not found")
    for key, part, kind, was, now in changed:
        print(f"changed: {kind} {' '.join(key)} ({part})\n  - {was}\n  + {now}")
    for key, part, kind, was in gone:
        print(f"not found: {kind} {' '.join(key)} ({part})\n  - {was}")


main(*sys.argv[1:])
