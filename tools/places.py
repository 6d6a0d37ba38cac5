#!/usr/bin/env python3
"""Counts the places of docs/DESIGN-PASS.md in crates/*/src at a commit, point by point: tools/places.py COMMIT [--list]"""

import re
import subprocess
import sys

# a name, and the pattern of a line that may be such a place; what is none of them is told in the page
PATTERNS = {
    "1 enums, by hand those of the shape of Option or Result": r"^\s*(pub(\([a-z]+\))? )?enum ",
    "1 a verdict beside what it speaks of": r"^\s+pub verdict:",
    "1 refusals by a bare number": r"Refused\([0-9A-Z_]+\)|return 2;|: u32 = (2|14);",
    "1 kinds by a number: a code as u8": r"\bcode: u8\b",
    "1 kinds by a number: answers and kept numbers": r"\banswer: u32\b|\bkept: \[usize",
    "2 one thing for two or more sizes or types, by its name": (
        r"\bfn (read|write|put|four|eight)_?(one|two|four|eight|byte|word|triple|long|at)\b"
        r"|\bfn (one|two|three|four|eight)_bytes?\b|\bfn literal_|\bfn by_(fetch|check|throw|reach|done)\b"
        r"|\bfn (put|set)?_?(frames?|levels?|local|cell)(_at|_apart|_whole)?\(|\bfn (narrowed|ended|refused|wide)\("
        r"|\bfn store_(long|word|byte|short)\(|\bfn extend_(byte|word)\("
    ),
    "3 loops by while": r"^\s*while ",
    "4 sums and differences by std::num": r"std::num::wrapping_",
    "4 comparisons and conversions by hand": r"\bfn (is_foreign|differ|wide|narrowed|number|numbered)\(|=> (true|false),$",
    "5 clauses that say p <= 64": r"requires.*p ≤ cells_depth",
    "5 clauses that say how long memory is": r"requires.*length mem\.(now|old) ≡ memory_length",
    "5 clauses that say what the table of cycles is": r"requires.*costs\.now",
    "5 clauses that say that the rows are laid": r"(requires|ensures).*\bLaid rows",
    "5 parameters rows with copies": r"^\s*copies: &(mut )?\[usize|copies: &(mut )?\[usize; ",
    "6 a length or a count beside a text or a buffer": r"\bcount: usize\b",
    "7 matches on a code or an operation": r"^\s*match (code|op) \{",
}


def main(argv):
    if not argv:
        sys.exit(__doc__)
    for name, pattern in PATTERNS.items():
        found = subprocess.run(
            ["git", "grep", "-nP", pattern, argv[0], "--", "crates/*/src/*.rt"], capture_output=True, text=True, check=False
        ).stdout.splitlines()
        print(f"{len(found):4}  {name}")
        if "--list" in argv:
            print("\n".join("      " + re.sub(r"^[^:]*:crates/", "", line)[:110] for line in found))


main(sys.argv[1:])
