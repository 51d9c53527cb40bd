#!/usr/bin/env python3
"""Turns every map of Debian's packages freedoom and freedm to Hexen's format, and compares what the verbs say of both.

    bench/hexen.py [--program PATH] [--wads FOLDER] [--only MAP01,E1M7] [--budget N] [--zdbsp PATH]

LINEDEFS records get their six bytes here, with a special and arguments that aren't 0, and 16 bytes of BEHAVIOR stand
behind the map's lumps. Builds run with one worker: with more, two of the same map may differ in their certificates. For each map the lines of `audit` have to be equal; where the map is sound, those of `build` and `check`, the
REJECT and the certificate too, byte for byte, and every other lump has to stay. With `--zdbsp` that node builder (Debian's
package zdbsp) reads each turned map and writes it anew with its own vertices and nodes, and the lines and the REJECT have to be those
of the first again. Where the WADs are missing the script says so and ends with 0.
"""
import argparse
import os
import struct
import subprocess
import sys
import tempfile

from wads import FREEDOOM, Run, directory, maps, wad

BEHAVIOR = (b"BEHAVIOR", b"\x5a" * 16)


def turned(linedefs):
    """LINEDEFS in Hexen's format: six bytes that the program has no use for in place of special and tag."""
    records = []
    for k in range(len(linedefs) // 14):
        record = linedefs[14 * k:14 * k + 14]
        records.append(record[:6] + struct.pack("<6B", *((k + i) % 255 + 1 for i in range(6))) + record[10:])
    return b"".join(records)


def hexen(name, run):
    """The WAD with this one map in Hexen's format."""
    return wad(name, [(n, turned(b) if n == b"LINEDEFS" else b) for n, b in run] + [BEHAVIOR])


def rebuilt(zdbsp, folder, held):
    """The WAD as zdbsp writes it anew, with all sides and sectors, and the REJECT as it was."""
    before, after = (os.path.join(folder, n) for n in ("before.wad", "after.wad"))
    with open(before, "wb") as file:
        file.write(held)
    subprocess.run([zdbsp, "-q", "-E", "-t", "-o", after, before], check=True, stdout=subprocess.DEVNULL, stderr=subprocess.DEVNULL)
    return open(after, "rb").read()


class Side:
    """What the verbs say of a map in one format: the lines, the table and the certificate, and whether the rest stayed."""

    def __init__(self, program, folder, name, held, budget):
        source, output, cert = (os.path.join(folder, n) for n in ("in.wad", "out.wad", "cert"))
        with open(source, "wb") as file:
            file.write(held)
        self.audit = Run([program, "audit", source, name])
        self.lines, self.table, self.cert, self.kept = [self.audit.line], None, None, True
        if self.audit.status != 0:
            return
        for words in (["build", source, name, output, "--cert", cert, "--budget", budget, "--workers", "1"], ["check", output, name, cert]):
            self.lines.append(Run([program] + words).line)
        after = list(directory(open(output, "rb").read()))
        self.table = dict(after)[b"REJECT"]
        self.cert = open(cert, "rb").read()
        self.kept = [e for e in after if e[0] != b"REJECT"] == [e for e in directory(held) if e[0] != b"REJECT"]


def main():
    here = os.path.dirname(os.path.abspath(__file__))
    words = argparse.ArgumentParser()
    words.add_argument("--program", default=os.path.join(here, "../crates/doomsight/out/doomsight"))
    words.add_argument("--wads", default="/usr/share/games/doom")
    words.add_argument("--only", default="")
    words.add_argument("--budget", default="16384")
    words.add_argument("--zdbsp", default="")
    words = words.parse_args()
    program, only = os.path.abspath(words.program), [n for n in words.only.split(",") if n]
    paths = [os.path.join(words.wads, n) for n in FREEDOOM if os.path.exists(os.path.join(words.wads, n))]
    if not paths:
        print("no WADs in", words.wads)
        return 0
    seen = sound = differ = 0
    with tempfile.TemporaryDirectory() as folder:
        for path in paths:
            held = open(path, "rb").read()
            for name, run in maps(held):
                if only and name not in only:
                    continue
                doom = Side(program, folder, name, wad(name, run), words.budget)
                other = Side(program, folder, name, hexen(name, run), words.budget)
                same = (doom.lines, doom.table, doom.cert) == (other.lines, other.table, other.cert) and doom.kept and other.kept
                if words.zdbsp:
                    other = Side(program, folder, name, rebuilt(words.zdbsp, folder, hexen(name, run)), words.budget)
                    same = same and (doom.lines, doom.table) == (other.lines, other.table) and other.kept
                seen, sound, differ = seen + 1, sound + (doom.table is not None), differ + (not same)
                if not same:
                    print(os.path.basename(path), name, "DIFFERS:", doom.lines, other.lines)
    print("maps %d sound %d differ %d" % (seen, sound, differ))
    return 1 if differ else 0


if __name__ == "__main__":
    sys.exit(main())
