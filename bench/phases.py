#!/usr/bin/env python3
"""Where the time goes: the phases of `audit`, and `build` and `check` whole, on the maps of many lines.

    bench/phases.py [--program PATH] [--wads FOLDER] [--least 2000] [--runs 7] [--only MAP25,E1M7]

The maps are those of Debian's packages freedoom and freedm that the audit accepts, and `grid 12` and `grid 18`, which
build and check in one run. Lines, segments and mesh are shares of a sampled profile (Debian's package linux-perf), cut
where the first sample of the next phase comes; each is the median of the runs. Build and check are the least of five
runs, a build with one worker. Where the plain program's figures are known (the same algorithms in plain Rust, without proofs and without checks
of overflow), each column says how many times they are.
"""
import argparse
import os
import statistics
import subprocess
import sys
import tempfile

from wads import FREEDOOM, Run, maps, wad

# Milliseconds of the plain program on a machine of this kind: lines, segments, mesh, build, check.
PLAIN = {
    "freedoom1 E1M7": (21, 18, 1.3, 404, 106),
    "freedoom1 E2M9": (14, 16, 1.1, 434, 89),
    "freedoom1 E3M9": (23, 21, 1.5, 505, 116),
    "freedoom2 MAP08": (7.4, 11, 0.8, 369, 95),
    "freedoom2 MAP10": (12, 13, 1.1, 394, 92),
    "freedoom2 MAP25": (32, 22, 1.5, 664, 134),
    "grid 12": (5.0, 4.2, 0.4, 26, 5.1),
    "grid 18": (25, 11, 0.8, 99, 19),
}
# The phases in order, each with a part of the symbols that it begins with.
STARTS = (("lines", "line_spans"), ("segments", "greedy_segments"), ("mesh", "add_left"), ("labels", "tri_sectors"))
SAMPLES = 5000  # a second


def phases(words, folder):
    """Milliseconds of lines, segments and mesh in one profiled run of a program."""
    record = os.path.join(folder, "perf.data")
    profile = ["perf", "record", "-q", "-e", "cpu-clock", "-F", str(SAMPLES), "-o", record]
    subprocess.run(profile + words, stdout=subprocess.DEVNULL, check=True)
    listed = subprocess.run(["perf", "script", "-i", record, "-F", "ip,sym"], capture_output=True, text=True, check=True)
    counts, at = [0] * (len(STARTS) + 1), 0
    for symbol in filter(str.strip, listed.stdout.split("\n")):
        at = next((k + 1 for k in range(at, len(STARTS)) if STARTS[k][1] in symbol), at)
        counts[at] += 1
    return [count * 1000 / SAMPLES for count in counts[1:4]]


def median_phases(words, folder, runs):
    return [statistics.median(times) for times in zip(*(phases(words, folder) for _ in range(runs)))]


def least(words):
    """Milliseconds of the least of five runs."""
    return min(Run(words).seconds for _ in range(5)) * 1000


def short(time):
    return "%.0f" % time if time >= 100 else "%.3g" % time


def beside(ours, plain):
    return "%s / %s (%.1f)" % (short(ours), short(plain), ours / plain)


def points_of(lumps):
    """How many points the lines of the map have."""
    lines, vertices = dict(lumps)[b"LINEDEFS"], dict(lumps)[b"VERTEXES"]
    ends = {int.from_bytes(lines[k + e:k + e + 2], "little") for k in range(0, len(lines), 14) for e in (0, 2)}
    return len({vertices[4 * e:4 * e + 4] for e in ends})


def map_row(program, folder, label, name, lumps, runs):
    """The cells of one map; None where the audit refuses it."""
    source, output, cert = (os.path.join(folder, n) for n in ("in.wad", "out.wad", "cert"))
    open(source, "wb").write(wad(name, lumps))
    if Run([program, "audit", source, name]).status != 0:
        return None
    lines, points = len(dict(lumps)[b"LINEDEFS"]) // 14, points_of(lumps)
    parts = median_phases([program, "audit", source, name], folder, runs)
    build = least([program, "build", source, name, output, "--cert", cert, "--workers", "1"])
    ours = parts + [build - sum(parts), build, least([program, "check", output, name, cert])]
    cells = [short(one) for one in ours]
    if label in PLAIN:
        plain = PLAIN[label]
        cells = [beside(*both) for both in zip(ours, plain[:3] + (plain[3] - sum(plain[:3]),) + plain[3:])]
    return [label, str(lines), str(points)] + cells + ["%.1f" % (ours[0] * 2e6 / lines / lines), "%.1f" % (ours[1] * 1e3 / points)]


def grid_row(program, folder, count, runs):
    words, plain = [program, "grid", str(count), "--workers", "1"], PLAIN["grid %d" % count]
    ours = median_phases(words, folder, runs) + [least(words)]
    return ["grid %d" % count] + [beside(*both) for both in zip(ours, plain[:3] + (plain[3] + plain[4],))]


def table(*heads):
    print("| " + " | ".join(heads) + " |\n|" + "---|" * len(heads))


def main():
    words = argparse.ArgumentParser()
    words.add_argument("--program", default="crates/doomsight/out/doomsight")
    words.add_argument("--wads", default="/usr/share/games/doom")
    words.add_argument("--least", type=int, default=2000)
    words.add_argument("--runs", type=int, default=7)
    words.add_argument("--only", default="")
    words = words.parse_args()
    program, only = os.path.abspath(words.program), set(filter(None, words.only.split(",")))
    table("map", "lines", "points", "lines, ms", "segments", "mesh", "walk and the rest", "build", "check", "ns a pair of lines", "µs a point, segments")
    with tempfile.TemporaryDirectory() as folder:
        for file in FREEDOOM:
            path = os.path.join(words.wads, file)
            if not os.path.exists(path):
                print("%s isn't here: passed over" % file)
                continue
            for name, lumps in maps(open(path, "rb").read()):
                if len(dict(lumps)[b"LINEDEFS"]) // 14 < words.least or only and name not in only:
                    continue
                row = map_row(program, folder, "%s %s" % (file[:-4], name), name, lumps, words.runs)
                if row:
                    print("| " + " | ".join(row) + " |", flush=True)
        print()
        table("made map", "lines, ms", "segments", "mesh", "build and check")
        for count in (12, 18):
            print("| " + " | ".join(grid_row(program, folder, count, words.runs)) + " |", flush=True)


if __name__ == "__main__":
    sys.exit(main())
