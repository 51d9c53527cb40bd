#!/usr/bin/env python3
"""What workers bring: `build` with 1, 2 and 4 of them, in turn; and that each number gives the same table.

    bench/workers.py [--program PATH] [--before PATH] [--wads FOLDER] [--only E1M7,E3M4,MAP25] [--runs 5] [--all]

Times are seconds from start to end and of processor time, the median of the runs; the walks are a build less an audit,
which has all that comes before them. With --before the same of an older program that knows no workers, in the same turns.
With --all every map of Debian's packages freedoom and freedm that the audit accepts is built with 1 and with 4 workers: the
tables must be equal byte for byte, and `check` must say yes of both certificates. The status is 1 where they aren't.
"""
import argparse
import os
import statistics
import sys
import tempfile

from wads import FREEDOOM, Run, maps, wad

WORKERS = (1, 2, 4)


def built(program, source, name, output, cert, *options):
    return Run([program, "build", source, name, output, "--cert", cert, *options])


def turns(program, before, source, name, folder, runs):
    """The runs of each kind, in turn: audits, builds by so many workers, builds of the older program."""
    output, cert = (os.path.join(folder, n) for n in ("out.wad", "cert"))
    kinds = {"audit": lambda: Run([program, "audit", source, name])}
    for count in WORKERS:
        kinds[count] = lambda count=count: built(program, source, name, output, cert, "--workers", str(count))
    if before:
        kinds["before"] = lambda: built(before, source, name, output, cert)
    found = {kind: [] for kind in kinds}
    for _ in range(runs):
        for kind, run in kinds.items():
            found[kind].append(run())
    return found


def timed(program, before, label, source, name, folder, runs):
    """A row for each number of workers."""
    found = turns(program, before, source, name, folder, runs)
    median = lambda kind, part: statistics.median(getattr(run, part) for run in found[kind])
    audit = median("audit", "wall")
    one = median(1, "wall")
    for kind in [k for k in found if k != "audit"]:
        wall = median(kind, "wall")
        cells = [label, kind, "%.3f" % wall, "%.3f" % median(kind, "seconds"), "%.3f" % (wall - audit), "%.2f" % (one / wall), "%.2f" % ((one - audit) / (wall - audit))]
        print("| " + " | ".join(map(str, cells)) + " |", flush=True)


def same(program, label, source, name, folder):
    """Whether 1 and 4 workers give one table, and the checker accepts both certificates."""
    tables = []
    for count in ("1", "4"):
        output, cert = (os.path.join(folder, n + count) for n in ("out.wad", "cert"))
        built(program, source, name, output, cert, "--workers", count)
        tables.append(open(output, "rb").read())
        if Run([program, "check", output, name, cert]).status != 0:
            print(label, "certificate with", count, "workers refused")
            return False
    if tables[0] != tables[1]:
        print(label, "tables differ")
    return tables[0] == tables[1]


def main():
    words = argparse.ArgumentParser()
    words.add_argument("--program", default="crates/doomsight/out/doomsight")
    words.add_argument("--before")
    words.add_argument("--wads", default="/usr/share/games/doom")
    words.add_argument("--only", default="E1M7,E3M4,MAP25")
    words.add_argument("--runs", type=int, default=5)
    words.add_argument("--all", action="store_true")
    words = words.parse_args()
    program, right, tried = os.path.abspath(words.program), True, 0
    if not words.all:
        print("| map | workers | wall s | processor s | walks, wall s | build, times faster | walks, times faster |\n|" + "---|" * 7)
    with tempfile.TemporaryDirectory() as folder:
        for file in FREEDOOM:
            path = os.path.join(words.wads, file)
            if not os.path.exists(path):
                print("%s isn't here: passed over" % file)
                continue
            for name, lumps in maps(open(path, "rb").read()):
                label, source = "%s %s" % (file[:-4], name), os.path.join(folder, "in.wad")
                if not words.all and (name not in words.only.split(",") or file == "freedm.wad"):
                    continue
                open(source, "wb").write(wad(name, lumps))
                if Run([program, "audit", source, name]).status != 0:
                    continue
                if words.all:
                    right, tried = same(program, label, source, name, folder) and right, tried + 1
                else:
                    timed(program, words.before and os.path.abspath(words.before), label, source, name, folder, words.runs)
    if words.all:
        print("%d maps, tables %s" % (tried, "equal, certificates accepted" if right else "or certificates WRONG"))
    return 0 if right else 1


if __name__ == "__main__":
    sys.exit(main())
