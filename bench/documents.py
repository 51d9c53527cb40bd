#!/usr/bin/env python3
"""Runs the commands of the documents beside which stands what they print, and shows what differs.

    bench/documents.py [--program PATH] [--wads FOLDER] [--only README.md,docs/GUIDE.md]

In a block of indented lines, and between .nf and .fi of the man page, a line that begins with a known command is run,
and the lines behind it, up to the next one, are what it has to print on standard output. Where none follow, it only has
to end with 0. In a table whose head begins with `Call` and `Line`, each row's call is run and has to print its line.
`rt try -- ..` and `rt run -- ..` are run by the program itself, without a proof.

Each document has a folder of its own with u.wad, the WADs of Debian's packages freedoom and freedm, and map01.wad, the
first map of freedoom2.wad alone. A block goes on until it needs a file or a command that isn't there; then the rest of
it is left out, and counted. Without --only the lists in PROVED of what a reader has to read are tried too
(bench/reading.py). The status is 1 where anything differs.
"""
import argparse
import os
import re
import shutil
import subprocess
import sys
import tempfile

import reading
from wads import FREEDOOM, maps, wad

ROOT = os.path.dirname(os.path.dirname(os.path.abspath(__file__)))
DOCUMENTS = (
    "README.md", "docs/GUIDE.md", "docs/TOOLCHAIN.md", "docs/FREEDOOM.md", "docs/FORMATS.md", "docs/pictures/README.md",
    "release/README.md", "man/doomsight.1",
)
RUN = ("doomsight", "rt", "glbsp", "zdbsp", "grep", "cat", "cmp", "python3")
LEFT_OUT = ("cd", "release/make.sh", "release/provenance.sh")
SCRIPT = "#!/bin/sh"
# `rt` as the documents use it: a run of the program, or nothing.
SHIM = '#!/bin/sh\ncase $1 in try | run) while [ "$1" != -- ]; do shift; done; shift; exec doomsight "$@" ;; esac\n'


class Step:
    """A command of a document, the line on which it stands, and the lines that it has to print."""

    def __init__(self, at, command):
        self.at, self.command, self.wanted = at, command, []


def plain(line):
    """A line of the man page as a terminal shows it, without the prompt."""
    return re.sub(r"^\$ ", "", line.replace("\\-", "-").replace("\\(aq", "'"))


def indented(lines):
    """The blocks of a page: lists of numbered lines, without their indent."""
    block, inside = [], False
    for at, line in enumerate(lines, 1):
        if line in (".nf", ".fi"):
            inside = line == ".nf"
        shown = plain(line) if inside and line != ".nf" else line.strip() if re.match(r" {4}", line) else None
        if shown is not None:
            block.append((at, shown))
        elif block:
            yield block
            block = []
    if block:
        yield block


def steps_of(block):
    """The commands of a block; none where it begins with something else."""
    steps = []
    for at, line in block:
        word = line.split(" ")[0]
        if word in RUN or word in LEFT_OUT or line == SCRIPT:
            steps.append(Step(at, re.sub(r"^cd \S+ && ", "", line)))
        elif steps:
            steps[-1].wanted.append(line)
        else:
            return []
    return steps


def rows_of(lines):
    """The calls of tables whose head begins with `Call` and `Line`."""
    inside = False
    for at, line in enumerate(lines, 1):
        cells = [cell.strip() for cell in line.strip("|").split("|")] if line.startswith("|") else []
        inside = cells[:2] == ["Call", "Line"] or inside and bool(cells)
        if inside and cells[0].startswith("`"):
            step = Step(at, "doomsight " + cells[0].strip("`"))
            step.wanted = [cells[1].strip("`")]
            yield step


def furnish(folder, program, wads):
    """Puts into the folder what the commands of a document name."""
    os.makedirs(os.path.join(folder, "bin"))
    os.makedirs(os.path.join(folder, "data"))
    os.makedirs(os.path.join(folder, "examples"))
    os.symlink(program, os.path.join(folder, "bin", "doomsight"))
    with open(os.path.join(folder, "bin", "rt"), "w", encoding="utf8") as shim:
        shim.write(SHIM)
    os.chmod(shim.name, 0o755)
    for name in ("bench", "release"):
        os.symlink(os.path.join(ROOT, name), os.path.join(folder, name))
    for place in ("u.wad", "data/u.wad", "examples/u.wad"):
        shutil.copyfile(os.path.join(ROOT, "crates/doomsight/data/u.wad"), os.path.join(folder, place))
    for name in FREEDOOM:
        if os.path.exists(os.path.join(wads, name)):
            os.symlink(os.path.join(wads, name), os.path.join(folder, name))
    if os.path.exists(os.path.join(folder, "freedoom2.wad")):
        held = open(os.path.join(folder, "freedoom2.wad"), "rb").read()
        with open(os.path.join(folder, "map01.wad"), "wb") as cut:
            cut.write(wad(*next(maps(held))))


def is_possible(step, folder):
    """Whether the command and each WAD that it reads are there."""
    words = step.command.split(" ")
    reads = [w for w in words if w in FREEDOOM]
    path = os.path.join(folder, "bin") + os.pathsep + os.environ["PATH"]
    return bool(shutil.which(words[0], path=path)) and all(os.path.exists(os.path.join(folder, w)) for w in reads)


def ran(step, folder):
    """What the command printed, line by line, and its status."""
    path = os.path.join(folder, "bin") + os.pathsep + os.environ["PATH"]
    with tempfile.TemporaryFile("w+") as out:
        ended = subprocess.run(
            ["sh", "-c", step.command], cwd=folder, env=dict(os.environ, PATH=path), stdout=out,
            stderr=subprocess.DEVNULL, timeout=600, check=False)
        out.seek(0)
        return out.read().splitlines(), ended.returncode


def try_block(name, steps, folder):
    """Runs the commands of a block, and shows what differs: how many agreed, differed and were left out."""
    counts = [0, 0, 0]
    for k, step in enumerate(steps):
        if step.command.split(" ")[0] in LEFT_OUT:
            continue
        if step.command == SCRIPT or not is_possible(step, folder):
            counts[2] += len(steps) - k
            break
        printed, status = ran(step, folder)
        agrees = printed == step.wanted if step.wanted else status == 0
        counts[0 if agrees else 1] += 1
        if not agrees:
            print("%s:%d: %s\n  wanted  %s\n  printed %s (status %d)" % (
                name, step.at, step.command, " / ".join(step.wanted) or "(status 0)", " / ".join(printed), status))
    return counts


def main():
    words = argparse.ArgumentParser()
    words.add_argument("--program", default="crates/doomsight/out/doomsight")
    words.add_argument("--wads", default="/usr/share/games/doom")
    words.add_argument("--only", default="")
    words = words.parse_args()
    program, wads, bad = os.path.abspath(words.program), os.path.abspath(words.wads), 0
    for name in [d for d in DOCUMENTS if not words.only or d in words.only.split(",")]:
        lines = open(os.path.join(ROOT, name), encoding="utf8").read().splitlines()
        with tempfile.TemporaryDirectory() as folder:
            furnish(folder, program, wads)
            blocks = [steps_of(block) for block in indented(lines)] + [[step] for step in rows_of(lines)]
            counts = [sum(column) for column in zip([0, 0, 0], *(try_block(name, steps, folder) for steps in blocks))]
        print("%s: %d commands agree, %d differ, %d left out" % (name, *counts))
        bad += counts[1]
    bad += not (words.only or reading.is_right())
    sys.exit(1 if bad else 0)


if __name__ == "__main__":
    main()
