#!/usr/bin/env python3
"""Tries all must-fail edits, those too that the gate leaves out.

    bench/edits.py [--changed REV] [CRATE | CRATE/EDIT ..]

The gate tries crates/*/must-fail/*.edit. Beside them stand as .md the edits of which a row, a test or another edit of the
gate refuses the same body, and those of crates that are dear to prove once more. Here both kinds are tried, on a copy of the
checkout: the prover must refuse each. Named are crates, or single edits of them without their ending. With --changed all
edits of each crate are tried of which a file differs from that commit; that is a step before a landing. With nothing named
all are tried, which takes some two hours of one processor where the crates have been proved and four where they haven't.
Ends with the status of `rt must-fail`.
"""
import argparse
import os
import shutil
import subprocess
import sys
import tempfile

ROOT = os.path.dirname(os.path.dirname(os.path.abspath(__file__)))


def copied(to):
    """Copies what the prover reads, and makes an edit of each text beside the edits."""
    os.mkdir(os.path.join(to, ".git"))
    for name in ("crates.txt", "HANDLES"):
        shutil.copy2(os.path.join(ROOT, name), to)
    shutil.copytree(os.path.join(ROOT, "crates"), os.path.join(to, "crates"), ignore=shutil.ignore_patterns("out"))
    for folder, _, files in os.walk(os.path.join(to, "crates")):
        if os.path.basename(folder) == "must-fail":
            for file in (f for f in files if f.endswith(".md")):
                os.rename(os.path.join(folder, file), os.path.join(folder, file[:-3] + ".edit"))


def told_by_git(*words):
    ran = subprocess.run(["git", *words, "--", "crates"], cwd=ROOT, stdout=subprocess.PIPE, text=True, check=True)
    return ran.stdout.splitlines()


def changed_since(rev):
    """The crates with edits of which a file differs from this commit."""
    files = told_by_git("diff", "--name-only", rev) + told_by_git("ls-files", "--others", "--exclude-standard")
    names = sorted({file.split("/")[1] for file in files if file.count("/") > 1})
    return [name for name in names if os.path.isdir(os.path.join(ROOT, "crates", name, "must-fail"))]


def left_alone(to, words):
    """Leaves of the crates of which single edits are named these alone, and returns the names of all crates that are named."""
    chosen = {}
    for word in words:
        crate, _, edit = word.partition("/")
        chosen.setdefault(crate, set()).add(edit)
    for crate, edits in chosen.items():
        folder = os.path.join(to, "crates", crate, "must-fail")
        if "" in edits:
            continue
        lacking = [edit for edit in edits if not os.path.isfile(os.path.join(folder, edit + ".edit"))]
        if lacking:
            sys.exit(f"{crate} has no edit {lacking[0]}")
        for file in os.listdir(folder):
            if file.removesuffix(".edit") not in edits:
                os.remove(os.path.join(folder, file))
    return list(chosen)


def main():
    parser = argparse.ArgumentParser()
    parser.add_argument("--changed", metavar="REV")
    parser.add_argument("names", nargs="*", metavar="CRATE | CRATE/EDIT")
    words = parser.parse_args()
    names = words.names + (changed_since(words.changed) if words.changed else [])
    if words.changed and not names:
        print(f"no crate with edits differs from {words.changed}")
        return 0
    with tempfile.TemporaryDirectory(prefix="edits-") as room:
        copied(room)
        return subprocess.run(["rt", "must-fail", *left_alone(room, names)], cwd=room, check=False).returncode


if __name__ == "__main__":
    sys.exit(main())
