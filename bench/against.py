#!/usr/bin/env python3
"""A program against an older one: instructions, times in turns, peak memory, and whether they write the same bytes.

    bench/against.py --before PATH [--program PATH] [--wads FOLDER] [--only E1M7,..] [--runs 5] [--all]

Builds (one worker, with a certificate) and checks of single-map WADs cut out of Debian's package freedoom, and `grid 18`.
Instructions are counted by valgrind's callgrind and don't depend on what else the machine does; each count is shown with
its share of the older program's. Times are medians of runs in turns; memory is the peak of a build, with its share of
certificate and WAD together, and that of a check by both programs. With --all every map of freedoom and freedm that the audit accepts is built by both, without
counting: the tables must be equal byte for byte, and so must the certificates, or the map is named. The status is 1 where
a table differs.
"""
import argparse
import os
import re
import statistics
import subprocess
import sys
import tempfile

from wads import FREEDOOM, Run, maps, wad

MAPS = "E1M7,E2M9,E3M4,MAP19,MAP22,MAP25"


def instructions(words, folder):
    """Millions of instructions of one run."""
    counted = ["valgrind", "--tool=callgrind", "--callgrind-out-file=" + os.path.join(folder, "callgrind")]
    ended = subprocess.run(counted + words, capture_output=True, text=True, check=False)
    return int(re.findall(r"Collected : (\d+)", ended.stderr)[0]) / 1e6


def builds(program, source, name, folder, mark):
    output, cert = (os.path.join(folder, part + mark) for part in ("out.wad", "cert"))
    return [program, "build", source, name, output, "--cert", cert, "--workers", "1"], output, cert


def same(first, second):
    return open(first, "rb").read() == open(second, "rb").read()


def against(label, kinds, folder, runs):
    """A row: instructions, median times and their shares, of two commands by both programs."""
    cells = [label]
    for now, before in kinds:
        counts = [instructions(words, folder) for words in (now, before)]
        times = [[], []]
        for _ in range(runs):
            for kept, words in zip(times, (now, before)):
                kept.append(Run(words).seconds)
        middle = [statistics.median(kept) for kept in times]
        cells += ["%.0f / %.0f (%.2f)" % (counts[0], counts[1], counts[0] / counts[1]), "%.3f / %.3f (%.2f)" % (middle[0], middle[1], middle[0] / middle[1])]
    return cells


def map_row(words, label, name, lumps, folder):
    source = os.path.join(folder, "in.wad")
    open(source, "wb").write(wad(name, lumps))
    now, out_now, cert_now = builds(words.program, source, name, folder, ".now")
    before, out_before, cert_before = builds(words.before, source, name, folder, ".before")
    run = Run(now)
    Run(before)
    held = os.path.getsize(cert_now) + os.path.getsize(source)
    checks = [words.program, "check", out_now, name, cert_now], [words.before, "check", out_before, name, cert_before]
    peaks = "%.0f / %.0f" % tuple(Run(check).megabytes for check in checks)
    cells = against(label, [(now, before), checks], folder, words.runs)
    equal = "yes" if same(cert_now, cert_before) else "no"
    return cells + ["%.0f (%.2f)" % (run.megabytes, run.megabytes * 1e6 / held), peaks, equal], same(out_now, out_before)


def all_maps(words, folder):
    """Whether both programs give each map one table; maps whose certificates differ are named."""
    right, tried, others = True, 0, []
    for file in FREEDOOM:
        path = os.path.join(words.wads, file)
        for name, lumps in maps(open(path, "rb").read()) if os.path.exists(path) else ():
            source = os.path.join(folder, "in.wad")
            open(source, "wb").write(wad(name, lumps))
            now, out_now, cert_now = builds(words.program, source, name, folder, ".now")
            before, out_before, cert_before = builds(words.before, source, name, folder, ".before")
            ends = [Run(line) for line in (now, before)]
            if (ends[0].status, ends[0].line) != (ends[1].status, ends[1].line):
                print(file, name, "answers differ:", ends[0].line, "|", ends[1].line)
                right = False
            elif ends[0].status == 0:
                tried += 1
                if not same(out_now, out_before):
                    print(file, name, "tables differ")
                    right = False
                if not same(cert_now, cert_before):
                    others.append("%s %s" % (file, name))
    print(tried, "maps built by both; certificates that differ:", ", ".join(others) or "none")
    return right


def main():
    words = argparse.ArgumentParser()
    words.add_argument("--program", default="crates/doomsight/out/doomsight")
    words.add_argument("--before", required=True)
    words.add_argument("--wads", default="/usr/share/games/doom")
    words.add_argument("--only", default=MAPS)
    words.add_argument("--runs", type=int, default=5)
    words.add_argument("--all", action="store_true")
    words = words.parse_args()
    words.program, words.before = os.path.abspath(words.program), os.path.abspath(words.before)
    right, only = True, set(words.only.split(","))
    with tempfile.TemporaryDirectory() as folder:
        if words.all:
            return 0 if all_maps(words, folder) else 1
        print("| map | build, M instructions | build, s | check, M instructions | check, s | peak of the build, MB | of the check, now / before, MB | certificates equal |\n|" + "---|" * 8)
        for file in FREEDOOM[:2]:
            path = os.path.join(words.wads, file)
            for name, lumps in maps(open(path, "rb").read()) if os.path.exists(path) else ():
                if name in only:
                    cells, equal = map_row(words, "%s %s" % (file[:-4], name), name, lumps, folder)
                    right = right and equal
                    print("| " + " | ".join(cells) + " |", flush=True)
        grid = [[program, "grid", "18", "--workers", "1"] for program in (words.program, words.before)]
        print("| " + " | ".join(against("grid 18", [grid], folder, words.runs)) + " | | | | | |", flush=True)
    return 0 if right else 1


if __name__ == "__main__":
    sys.exit(main())
