#!/usr/bin/env python3
"""What it takes to decide every pair: `--exact` beside the default and `--budget full`.

    bench/exact.py [--program PATH] [--wads FOLDER] [--only E1M7,..] [--rooms N] [--pillars N] [--all]

For single-map WADs cut out of Debian's packages freedoom and freedm, for rows of rooms that all see each other and for a hall
of thin pillars: millions of instructions of a build (one worker, with a certificate) and of a check, counted by valgrind's
callgrind, with their shares of the default's; bytes of the certificate; peak memory. With --all nothing is counted: every map that the
audit accepts, with `--large` where it is needed, is built both ways, by one worker and by four. The tables must be equal byte for
byte, the exact certificates of one worker and of four too, nothing may be listed, and `check` must say yes. The status is 1 where that isn't so.
"""
import argparse
import os
import sys
import tempfile

from against import instructions
from growth import hall_of_pillars, row_of_rooms
from wads import FREEDOOM, Run, directory, maps, wad

MAPS = "E1M7,E2M9,E3M4,MAP19,MAP22,MAP25,MAP29"
WAYS = {"default": [], "full": ["--budget", "full"], "exact": ["--exact"]}


def cells(program, source, name, folder):
    """Instructions of build and check, bytes and peak memory, for each way."""
    found = {}
    for way, more in WAYS.items():
        out, cert = os.path.join(folder, "out.wad"), os.path.join(folder, "cert")
        build = [program, "build", source, name, out, "--cert", cert, "--workers", "1", "--large"] + more
        check = [program, "check", out, name, cert, "--large"]
        found[way] = (instructions(build, folder), instructions(check, folder), os.path.getsize(cert), Run(build).megabytes, Run(check).megabytes)
    row = []
    for column, form in enumerate(("%.0f", "%.0f", "%d", "%.0f", "%.0f")):
        base = found["default"][column]
        row += ["%s (%.2f)" % (form % found[way][column], found[way][column] / base) if way != "default" else form % base for way in WAYS]
    return row


def is_same(program, source, name, folder, label):
    """Whether all ways of building the map agree; None where it is refused."""
    made = {}
    for way, more in (("full", ["--budget", "full", "--workers", "4"]), ("one", ["--exact", "--workers", "1"]), ("four", ["--exact", "--workers", "4"])):
        out, cert = os.path.join(folder, way + ".wad"), os.path.join(folder, way + ".cert")
        run = Run([program, "build", source, name, out, "--cert", cert, "--large"] + more)
        if run.status:
            print(label, run.line, flush=True)
            return None
        with open(out, "rb") as it:
            table = dict(directory(it.read()))[b"REJECT"]
        with open(cert, "rb") as it:
            made[way] = run, table, it.read(), Run([program, "check", out, name, cert, "--large"]).line
    run, table, cert, answer = made["one"]
    right = [
        table == made["full"][1] == made["four"][1], cert == made["four"][2], run.line == made["full"][0].line, " listed 0" in run.line,
        answer.startswith("yes "),
    ]
    print(label, "same" if all(right) else "DIFFERS %s" % right, run.line, len(cert), "bytes for", len(made["full"][2]), "%.2f s for %.2f" % (run.seconds, made["full"][0].seconds), flush=True)
    return all(right)


def main():
    words = argparse.ArgumentParser()
    words.add_argument("--program", default="crates/doomsight/out/doomsight")
    words.add_argument("--wads", default="/usr/share/games/doom")
    words.add_argument("--only", default=MAPS)
    words.add_argument("--rooms", type=int, default=990)
    words.add_argument("--pillars", type=int, default=17)
    words.add_argument("--all", action="store_true")
    words = words.parse_args()
    program = os.path.abspath(words.program)
    with tempfile.TemporaryDirectory() as folder:
        source = os.path.join(folder, "in.wad")
        given = []
        if not words.all:
            print("| map | " + " | ".join("%s: %s" % (what, way) for what in ("build M", "check M", "certificate", "build MB", "check MB") for way in WAYS) + " |")
            print("|---" * 16 + "|")
        for file in FREEDOOM:
            if not os.path.exists(os.path.join(words.wads, file)):
                continue
            with open(os.path.join(words.wads, file), "rb") as it:
                held = it.read()
            for name, lumps in maps(held):
                if not words.all and name not in words.only.split(","):
                    continue
                with open(source, "wb") as it:
                    it.write(wad(name, lumps))
                label = "%s %s" % (file[:-4], name)
                if words.all:
                    given.append(is_same(program, source, name, folder, label))
                else:
                    print("| %s | %s |" % (label, " | ".join(cells(program, source, name, folder))), flush=True)
        if words.all:
            print("%d maps are the same, %d differ, %d are refused" % (given.count(True), given.count(False), given.count(None)))
            return 1 if False in given else 0
        for label, made in (("row of %d rooms" % words.rooms, row_of_rooms(words.rooms)), ("hall of %d x %d thin pillars" % (words.pillars, words.pillars), hall_of_pillars(words.pillars))):
            with open(source, "wb") as it:
                it.write(wad("MAP01", made))
            print("| %s | %s |" % (label, " | ".join(cells(program, source, "MAP01", folder))), flush=True)
    return 0


if __name__ == "__main__":
    sys.exit(main())
