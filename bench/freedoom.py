#!/usr/bin/env python3
"""Builds and checks every map of Debian's packages freedoom and freedm, and prints the tables of docs/FREEDOOM.md.

    bench/freedoom.py [--program PATH] [--wads FOLDER] [--only MAP01,E1M7]

Each map is cut out into a WAD of its own first, so that a run measures the map and not the 28 MB around it; builds have one
worker. `zero` is measured on the whole WADs, and its output is compared lump by lump with its input. For each pair that the shipped
REJECT rejects and ours clears, `ray` must accept the ray of our certificate. Where the WADs are missing the script says
so and ends with 0.
"""
import argparse
import os
import sys
import tempfile

from wads import FREEDOOM, Certificate, Run, directory, maps, rejects, wad


def zeroed(program, folder, path):
    """One row: `zero` on the first map of the WAD, and whether just its REJECT changed."""
    held = open(path, "rb").read()
    name = next(maps(held))[0]
    output = os.path.join(folder, "out.wad")
    run = Run([program, "zero", path, name, output])
    before, after = list(directory(held)), list(directory(open(output, "rb").read()))
    changed = [k for k, (old, new) in enumerate(zip(before, after)) if old != new]
    first = [k for k, e in enumerate(before) if e[0] == name.encode()][-1]
    reject = next(k for k in range(first, len(before)) if before[k][0] == b"REJECT")
    kept = len(before) == len(after) and changed in ([], [reject]) and not any(after[reject][1])
    return [os.path.basename(path), "%.1f" % (len(held) / 1e6), run.line, "%.2f" % run.seconds, "yes" if kept else "NO"]


def refuted(program, source, name, sectors, shipped, cert):
    """Pairs that the shipped table rejects and ours clears because a ray joins them or a face belongs to both: each with its ray, if it
    has one, and whether `ray` accepts that."""
    found = []
    for (a, b), ray in cert.seen().items():
        if rejects(shipped, sectors, a, b) or rejects(shipped, sectors, b, a):
            found.append((a, b, ray, ray is None or Run([program, "ray", source, name, ray]).status == 0))
    return found


def seen_by_shipped(sectors, shipped, table):
    """Pairs a < b that ours rejects and the shipped table doesn't: sight tests saved."""
    return sum(
        1
        for a in range(sectors)
        for b in range(a + 1, sectors)
        if rejects(table, sectors, a, b) and not rejects(shipped, sectors, a, b)
    )


class Row:
    """What one map shows: built and checked, or refused by the audit."""

    def __init__(self, program, folder, label, name, lumps):
        source, output, cert = (os.path.join(folder, n) for n in ("in.wad", "out.wad", "cert"))
        open(source, "wb").write(wad(name, lumps))
        lumps = dict(lumps)
        self.label, self.lines, self.sectors = label, len(lumps[b"LINEDEFS"]) // 14, len(lumps[b"SECTORS"]) // 26
        self.audit = Run([program, "audit", source, name])
        self.sound = self.audit.status == 0
        if not self.sound:
            return
        self.read = Run([program, "zero", source, name, output])
        self.build = Run([program, "build", source, name, output, "--cert", cert, "--workers", "1"])
        self.check = Run([program, "check", output, name, cert])
        held = open(cert, "rb").read()
        cert = Certificate(held)
        self.cert = len(held)
        self.treeless = len(cert.groups) - cert.trees
        self.files = len(held) + os.path.getsize(source)
        table = dict(next(maps(open(output, "rb").read()))[1])[b"REJECT"]
        shipped = lumps.get(b"REJECT", b"")
        self.refuted = refuted(program, source, name, self.sectors, shipped, cert)
        self.saved = seen_by_shipped(self.sectors, shipped, table)

    def peak(self):
        return max(self.build.megabytes, self.check.megabytes)

    def cells(self):
        said = self.audit.line.split()
        counts = self.build.line.split()
        count = lambda word: counts[counts.index(word) + 1]
        return [
            self.label, self.lines, said[said.index("points") + 1], self.sectors,
            "%.2f" % self.read.seconds, "%.2f" % (self.audit.seconds - self.read.seconds),
            "%.2f" % (self.build.seconds - self.audit.seconds), "%.2f" % self.build.seconds, "%.2f" % self.check.seconds,
            "%.1f" % (self.cert / 1e6), "%.0f" % self.peak(), "%.1f" % (self.peak() * 1e6 / self.files),
            count("set"), count("clear"), count("listed"), self.treeless,
            self.check.line.split()[0], "%d of %d" % (sum(r[3] for r in self.refuted), len(self.refuted)), self.saved,
        ]


HEAD = (
    "map | lines | points | sectors | read s | audit s | walk s | build s | check s | cert MB | peak MB | peak to files"
    " | set | clear | listed | no tree | check | shipped bits refuted | pairs saved"
)


def print_table(head, rows):
    print("| " + head + " |\n" + "|---" * (head.count("|") + 1) + "|")
    for row in rows:
        print("| " + " | ".join(map(str, row)) + " |")


def main():
    words = argparse.ArgumentParser()
    words.add_argument("--program", default="crates/doomsight/out/doomsight")
    words.add_argument("--wads", default="/usr/share/games/doom")
    words.add_argument("--only", default="")
    words = words.parse_args()
    wads = [n for n in FREEDOOM if os.path.exists(os.path.join(words.wads, n))]
    if not wads:
        print("skipped: the WADs of freedoom and freedm are not there")
        return
    program, rows = os.path.abspath(words.program), []
    with tempfile.TemporaryDirectory() as folder:
        print_table("WAD | MB | line of zero | seconds | only REJECT changed",
                    [zeroed(program, folder, os.path.join(words.wads, file)) for file in wads])
        for file in wads:
            for name, lumps in maps(open(os.path.join(words.wads, file), "rb").read()):
                if words.only and name not in words.only.split(","):
                    continue
                rows.append(Row(program, folder, "%s %s" % (file[:-4], name), name, lumps))
                print(rows[-1].label, rows[-1].audit.line, file=sys.stderr)
    sound = [row for row in rows if row.sound]
    print()
    print_table(HEAD, [row.cells() for row in sound])
    seconds = [sum(run.seconds for run in runs) for runs in zip(*[(r.audit, r.build, r.check) for r in sound])]
    if sound:
        print("\nSeconds of processor time in all: audit %.1f, build %.1f, check %.1f; %d maps accepted.\n" % (*seconds, len(sound)))
    print_table("map | sectors | ray that refutes the shipped bit",
                [[r.label, "%d %d" % (a, b), "`%s`" % ray if ray else "a face belongs to both"] for r in sound for a, b, ray, accepted in r.refuted if accepted])
    print()
    print_table("refused map | lines | sectors | why", [[r.label, r.lines, r.sectors, r.audit.line] for r in rows if not r.sound])


if __name__ == "__main__":
    sys.exit(main())
