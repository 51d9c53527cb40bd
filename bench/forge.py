#!/usr/bin/env python3
"""Tries to have a wrong table accepted by a certificate of version 3, and exact builds by another program.

    bench/forge.py [--archive FILE | --judge PROGRAM ..] [--first N] [--maps N] [--seconds N] [--wads WAD ..]

Nothing of the proofs is used. rustc compiles forge/, and plain_table.rs with it, which share no code with doomsight. It draws
random maps: grids of cells with moved corners, voids, solid and passable walls, sectors of several faces, walls inside a
sector, wrong side names, faces of several sectors. Of each

- the table has to be that of plain_table.rs;
- the certificate has to be accepted, and so have one whose trees the forger's own walks make, and one over another mesh;
- each flipped bit of the table has to be refused (400 at random, where there are more);
- each pair that sees is claimed not to (100 at random), and so are 50 sets of such pairs. The rays of what is claimed are
  left out, the bits are set, and ranks, masks, rows and trees are those of an honest walk under the claims. Where it comes
  to what is claimed not to be seen, it writes the way as open, as blocked by some ends, or leaves it out. All have to be
  refused; and each walk has to come to such a place, since one that doesn't makes a certificate with no fault;
- so have to be sets that grow: to one wrong claim others are added, each of which would hide a way to what is claimed;
- the same over a mesh that is as good, and over wrong ones; and certificates with bits, bytes, records, lengths, rays or
  nodes altered: with them no table may be accepted but the right one.

The judge is the library for C programs, over c/judge.c: `rt lib` in crates/doomsight_c makes the archive. Or it is any
program that answers as forge/judge.rs says. The counts are followed by one line for each trial and kind of answer, as
doomsight.h numbers them (0 is yes). The status is 1 where anything isn't as it has to be. Map K is always the same: it is
tried again by `--first K --maps 1`. Takes some five minutes of one processor. With `--wads` the maps of these WADs are tried
in place of random ones, those of up to 128 groups, half a minute for each.
"""
import argparse
import os
import subprocess
import sys
import tempfile

from wads import maps

HERE = os.path.dirname(os.path.abspath(__file__))
ROOT = os.path.dirname(HERE)


def judge_of(archive, folder):
    """Compiles the judge that asks the library."""
    judge = os.path.join(folder, "judge")
    include = os.path.join(ROOT, "include")
    sources = [os.path.join(HERE, "c", "judge.c"), os.path.join(include, "doomsight_heap.c")]
    subprocess.run(["cc", "-std=c99", "-O2", "-I" + include, *sources, archive, "-o", judge], check=True)
    return [judge]


def names_of(file):
    """The names of the maps of a WAD."""
    with open(file, "rb") as wad:
        return [name for name, _ in maps(wad.read())]


def main():
    parser = argparse.ArgumentParser()
    parser.add_argument("--archive", default=os.path.join(ROOT, "crates", "doomsight_c", "out", "libdoomsight_c.a"))
    parser.add_argument("--judge", nargs="+")
    parser.add_argument("--first", default=1, type=int)
    parser.add_argument("--maps", default=10870, type=int)
    parser.add_argument("--seconds", default=3600, type=int)
    parser.add_argument("--wads", nargs="*", default=[])
    words = parser.parse_args()
    with tempfile.TemporaryDirectory() as folder:
        forge = os.path.join(folder, "forge")
        subprocess.run(["rustc", "--edition", "2021", "-O", "-o", forge, os.path.join(HERE, "forge", "main.rs")], check=True)
        judge = words.judge or judge_of(words.archive, folder)
        if words.wads:
            tried = [[file, ",".join(names_of(file)), "0"] for file in words.wads]
        else:
            tried = [[str(words.first), str(words.maps), str(words.seconds)]]
        ended = [subprocess.run([forge, *each, *judge], check=False).returncode for each in tried]
        return 1 if any(ended) else 0


if __name__ == "__main__":
    sys.exit(main())
