#!/usr/bin/env python3
"""The public functions of two checkouts whose clauses differ.

    bench/clauses.py OLD NEW

Functions are told by crate, type and name; one that moved to another crate with the same clauses counts as moved. For
each that differs the clauses that are gone and those that are new are shown, and at the end the names that are gone.
A clause may be weaker where a line with `-` has no line with `+` that says at least as much.
"""
import os
import re
import sys

FUNCTION = re.compile(r"^( *)pub fn (\w+)(.*?)^\1\{", re.M | re.S)
TYPE = re.compile(r"^impl(?:<[^>]*>)? (?:[\w<>' ]+ for )?(\w+)", re.M)
CLAUSE = re.compile(r"^\s*((?:requires|ensures)[^\n]*)$", re.M)


def sources(root):
    """Each source of a crate with its text."""
    for folder, _, files in os.walk(os.path.join(root, "crates")):
        parts = os.path.relpath(folder, os.path.join(root, "crates")).split(os.sep)
        if "out" not in parts and "src" in parts:
            for file in (f for f in files if f.endswith(".rt")):
                yield parts[0], open(os.path.join(folder, file), encoding="utf8").read()


def functions(root):
    """The clauses of each public function."""
    found = {}
    for crate, text in sources(root):
        for at in FUNCTION.finditer(text):
            types = TYPE.findall(text[: at.start()]) if at.group(1) else []
            name = "::".join(types[-1:] + [at.group(2)])
            found[crate, name] = [" ".join(clause.split()) for clause in CLAUSE.findall(at.group(3))]
    return found


def main():
    old, new = functions(sys.argv[1]), functions(sys.argv[2])
    elsewhere = {(name, tuple(clauses)) for (_, name), clauses in new.items()}
    moved = [key for key in old if key not in new and (key[1], tuple(old[key])) in elsewhere]
    gone = [key for key in old if key not in new and key not in moved]
    changed = [key for key in old if key in new and old[key] != new[key]]
    same = len(old) - len(moved) - len(gone) - len(changed)
    print(len(old), "public functions:", same, "with the same clauses,", len(moved), "moved,", len(changed), "changed,", len(gone), "gone or renamed")
    for key in sorted(changed):
        print("==", *key)
        for clause in old[key]:
            if clause not in new[key]:
                print("  -", clause)
        for clause in new[key]:
            if clause not in old[key]:
                print("  +", clause)
    print("gone or renamed:", ", ".join("%s %s" % key for key in sorted(gone)))


if __name__ == "__main__":
    main()
