#!/usr/bin/env python3
"""Maps above the usual limits, with `--large`: Freedoom's six, made ones of up to 16,132 points, hostile ones.

    bench/large.py [--program PATH] [--wads FOLDER] [--only six,all,made,counts,limits,hostile] [--plot FILE.svg]

- six: the maps of Debian's packages freedoom and freedm that the usual limits refuse, built under three budgets by one
  worker, with a certificate, and checked. `full` is given two minutes.
- all: each WAD whole, without the option and with it. Every lump that isn't a REJECT has to stay, a map within the
  usual limits has to get one table by both, and one of the six that of `build` on the map alone.
- made: the maps of `grid` for 18, 26 and 37 rooms a side, with the phases as `bench/phases.py` tells them.
- counts: instructions and peak memory of builds and checks of the six usual maps and of `grid 18` (valgrind).
- limits: maps just within and just above each limit, and certificates that are of another map.
- hostile: maps that are hard for one of the phases, under 8 GB of memory that may be asked for and under less. A run
  has to end by itself with an answer, or with code 12.

With --plot the seconds of build and check of all of Freedoom's maps and of made ones are drawn against their points.
The status is 1 where a run is otherwise than said here.
"""
import argparse
import math
import mmap
import os
import struct
import subprocess
import sys
import tempfile

from against import MAPS, instructions
from growth import hard_maps
from phases import median_phases
from wads import FREEDOOM, Certificate, Run, directory, maps, rejects, wad

BUDGETS = ("16384", "262144", "full")
GRIDS = (18, 26, 37)
PLOTTED_GRIDS = (10, 14, 18, 22, 26, 30, 34, 37)
MOST_POINTS, MOST_LINES, MOST_SECTORS = 16_383, 32_768, 16_384
MEMORY = 8_000_000  # KB that a hostile run may ask for
LESS = 400_000
SECONDS = 1800
RUNS = 5
wrong = []


def judge(what, is_right):
    """Keeps what is otherwise than it should be."""
    if not is_right:
        wrong.append(what)
        print("wrong: %s" % what, flush=True)
    return is_right


def table(*heads):
    print("\n| " + " | ".join(heads) + " |\n|" + "---|" * len(heads))


def row(*cells):
    print("| " + " | ".join(map(str, cells)) + " |", flush=True)


def word_after(line, word):
    """The number behind a word of a line; None where the word isn't there."""
    said = line.split()
    return int(said[said.index(word) + 1]) if word in said else None


class Made:
    """A made map: its lines one by one, whose points and sides are numbered in the order of their first use."""

    def __init__(self):
        self.numbers, self.records, self.sides, self.next = {}, [], [], 0

    def line(self, first, second, *sectors):
        """A line with the sector on its right, and the one on its left where it is passable."""
        ends = [self.numbers.setdefault(point, len(self.numbers)) for point in (first, second)]
        left = self.next + 1 if len(sectors) == 2 else 0xFFFF
        self.records.append(struct.pack("<7H", *ends, 4 if len(sectors) == 2 else 1, 0, 0, self.next, left))
        self.sides += [struct.pack("<hh8s8s8sH", 0, 0, b"-", b"-", b"-", sector) for sector in sectors]
        self.next += len(sectors)

    def lumps(self, sectors):
        places = b"".join(struct.pack("<hh", *point) for point in self.numbers)
        return [(b"LINEDEFS", b"".join(self.records)), (b"SIDEDEFS", b"".join(self.sides)), (b"VERTEXES", places),
                (b"SECTORS", bytes(26 * sectors))]


def grid(n):
    """The map of the verb `grid`, for any number of rooms a side."""
    made = Made()
    east = lambda i, j: n * n + j * (n - 1) + i
    north = lambda i, j: n * n + n * (n - 1) + j * n + i

    def wall(first, a, b, last, room, corridor):
        if corridor is None:
            return made.line(first, last, room)
        made.line(first, a, room)
        made.line(a, b, room, corridor)
        made.line(b, last, room)

    for x, y, i, j in ((192 * i, 192 * j, i, j) for j in range(n) for i in range(n)):
        at = lambda a, b, x=x, y=y: (x + a, y + b)
        room = j * n + i
        wall(at(0, 0), at(0, 48), at(0, 80), at(0, 128), room, east(i - 1, j) if i else None)
        wall(at(0, 128), at(48, 128), at(80, 128), at(128, 128), room, north(i, j) if j + 1 < n else None)
        wall(at(128, 128), at(128, 80), at(128, 48), at(128, 0), room, east(i, j) if i + 1 < n else None)
        wall(at(128, 0), at(80, 0), at(48, 0), at(0, 0), room, north(i, j - 1) if j else None)
    for x, y, i, j in ((192 * i, 192 * j, i, j) for j in range(n) for i in range(n - 1)):
        made.line((x + 128, y + 80), (x + 192, y + 80), east(i, j))
        made.line((x + 192, y + 48), (x + 128, y + 48), east(i, j))
    for x, y, i, j in ((192 * i, 192 * j, i, j) for j in range(n - 1) for i in range(n)):
        made.line((x + 48, y + 128), (x + 48, y + 192), north(i, j))
        made.line((x + 80, y + 192), (x + 80, y + 128), north(i, j))
    return made.lumps(n * n + 2 * n * (n - 1))


def open_room(side, cut):
    """One square room of so many times so many square sectors, of which the first are cut in two by a diagonal: all of
    them see each other."""
    made, step = Made(), 64_000 // side
    at = lambda i, j: (step * i - 32_000, step * j - 32_000)
    upper = lambda i, j: j * side + i
    lower = lambda i, j: upper(i, j) + side * side if upper(i, j) < cut else upper(i, j)
    for i, j in ((i, j) for j in range(side) for i in range(side)):
        made.line(at(i, j), at(i, j + 1), upper(i, j), *([lower(i - 1, j)] if i else []))
        made.line(at(i + 1, j), at(i, j), lower(i, j), *([upper(i, j - 1)] if j else []))
        if upper(i, j) < cut:
            made.line(at(i, j), at(i + 1, j + 1), lower(i, j), upper(i, j))
    for k in range(side):
        made.line(at(side, k + 1), at(side, k), lower(side - 1, k))
        made.line(at(k, side), at(k + 1, side), upper(k, side - 1))
    return made.lumps(side * side + cut)


CORNERS = [(-32_700, -32_700), (-32_700, 32_700), (32_700, 32_700), (32_700, -32_700)]


def boxed(lines):
    """A room of one sector with these passable lines in it."""
    made = Made()
    for first, second in zip(CORNERS, CORNERS[1:] + CORNERS[:1]):
        made.line(first, second, 0)
    for first, second in lines:
        made.line(first, second, 0, 0)
    return made.lumps(1)


def strips(count):
    """A room of so many strips, each of them a sector, side by side: a walk out of the first is as deep as it gets."""
    made, step, end = Made(), 64_000 // count, 32_000
    at = lambda k, y: (step * k - end, y)
    made.line(at(0, -end), at(0, end), 0)
    for k in range(count):
        made.line(at(k, end), at(k + 1, end), k)
        made.line(at(k + 1, -end), at(k, -end), k)
        if k + 1 < count:
            made.line(at(k + 1, end), at(k + 1, -end), k, k + 1)
    made.line(at(count, end), at(count, -end), count - 1)
    return made.lumps(count)


def rows(count):
    """Two far rows of short lines."""
    step = 64_000 // (count // 4)
    starts = [step * k - 32_000 for k in range(count // 4)]
    return [((x, y), (x + step // 2, y)) for x in starts for y in (-32_000, 32_000)]


def needles(count):
    """Lines from one far row to the other."""
    step = 64_000 // (count // 2)
    return [((step * k - 32_000, -32_000), (step * k - 32_000 + k % min(step, 7), 32_000)) for k in range(count // 2)]


class Bench:
    """The program, a folder for its files, and the orders."""

    def __init__(self, program, folder, option="--large"):
        self.program, self.option = os.path.abspath(program), [option] if option else []
        self.source, self.output, self.cert = (os.path.join(folder, n) for n in ("in.wad", "out.wad", "cert"))
        self.folder = folder

    def put(self, name, lumps):
        open(self.source, "wb").write(wad(name, lumps))

    def audit(self, name):
        return [self.program, "audit", self.source, name, *self.option]

    def build(self, name, budget="16384", workers="1"):
        words = [self.program, "build", self.source, name, self.output, "--cert", self.cert, "--budget", budget]
        return words + ["--workers", workers, *self.option]

    def check(self, name):
        return [self.program, "check", self.output, name, self.cert, *self.option]

    def usual(self):
        """The same without the option."""
        return Bench(self.program, self.folder, None)


def bounded(words, kilobytes=None, seconds=SECONDS):
    """Words that run others for so many seconds, and with so much memory that they may ask for."""
    limit = "ulimit -v %d; " % kilobytes if kilobytes else ""
    return ["/bin/sh", "-c", limit + 'exec timeout %d "$@"' % seconds, "sh", *words]


def quiet(words):
    """Words that run others without what they say on standard error, where the option is named."""
    return ["/bin/sh", "-c", 'exec "$@" 2>/dev/null', "sh", *words]


def of_wads(folder):
    """The label, the name and the lumps of each map."""
    for file in FREEDOOM:
        path = os.path.join(folder, file)
        for name, lumps in maps(open(path, "rb").read()) if os.path.exists(path) else ():
            yield "%s %s" % (file[:-4], name), name, lumps


def refuted(bench, name, lumps):
    """How many pairs that the shipped table rejects the certificate shows to see each other, and of how many `ray`
    accepts the ray, or a face belongs to both."""
    shipped, sectors, found = dict(lumps).get(b"REJECT", b""), len(dict(lumps)[b"SECTORS"]) // 26, []
    with open(bench.cert, "rb") as file, mmap.mmap(file.fileno(), 0, access=mmap.ACCESS_READ) as held:
        for (a, b), ray in Certificate(held).seen().items():
            if rejects(shipped, sectors, a, b) or rejects(shipped, sectors, b, a):
                words = [bench.program, "ray", bench.source, name, ray, *bench.option]
                found.append(ray is None or Run(words).status == 0)
    return "%d of %d" % (sum(found), len(found))


def is_above(line):
    return line.startswith("refused: limit")


def six(bench, wads):
    """The maps above the usual limits, under each budget."""
    table("map", "lines", "points", "sectors", "without the option", "budget", "set", "clear", "listed", "build s",
          "build MB", "cert MB", "check s", "check MB", "check", "shipped bits refuted")
    for label, name, lumps in of_wads(wads):
        bench.put(name, lumps)
        refused = Run(quiet(bench.usual().audit(name)))
        if not is_above(refused.line):
            continue
        said = Run(bench.audit(name)).line
        sizes = [word_after(said, word) for word in ("lines", "points", "sectors")]
        for budget in BUDGETS:
            build = Run(bounded(bench.build(name, budget), seconds=120))
            if build.status == 124:
                row(label, *sizes, refused.line, budget, "not done in two minutes")
                continue
            check = Run(bench.check(name))
            counts = [word_after(build.line, word) for word in ("set", "clear", "listed")]
            judge("%s: %s / %s" % (label, build.line, check.line), check.line.split()[3:] == build.line.split()[4:])
            row(label, *sizes, "`%s`" % refused.line, budget, *counts, "%.2f" % build.seconds, "%.0f" % build.megabytes,
                "%.1f" % (os.path.getsize(bench.cert) / 1e6), "%.2f" % check.seconds, "%.1f" % check.megabytes,
                check.line.partition(" ")[0], refuted(bench, name, lumps))


def reject_of(path, name):
    return dict(dict(maps(open(path, "rb").read()))[name]).get(b"REJECT")


def others_of(path):
    """The names of all lumps of a WAD, and the bytes of those that aren't a REJECT."""
    return [(name, name == b"REJECT" or held) for name, held in directory(open(path, "rb").read())]


def whole(bench, wads):
    """Each WAD whole, without the option and with it."""
    table("WAD", "without the option", "s", "MB", "with it", "s", "MB", "other lumps as they were", "tables as wanted")
    built = tried = 0
    for file in [n for n in FREEDOOM if os.path.exists(os.path.join(wads, n))]:
        path, found = os.path.join(wads, file), []
        for option in ([], ["--large"]):
            output = os.path.join(bench.folder, "whole%d.wad" % len(option))
            found.append((Run(quiet([bench.program, "all", path, output, *option])), output))
        (usual, without), (large, with_it) = found
        built, tried = built + word_after(large.line, "built"), tried + word_after(large.line, "maps")
        kept, tables = others_of(path) == others_of(with_it), 0
        for name, run in maps(open(path, "rb").read()):
            bench.put(name, run)
            wanted = without
            if is_above(Run(quiet(bench.usual().audit(name))).line):
                Run(bench.build(name))
                wanted = bench.output
            tables += reject_of(wanted, name) == reject_of(with_it, name)
        judge("%s: a lump differs, or a table" % file, kept and tables == word_after(large.line, "maps"))
        row(file, usual.line, "%.1f" % usual.seconds, "%.0f" % usual.megabytes, large.line, "%.1f" % large.seconds,
            "%.0f" % large.megabytes, "yes" if kept else "NO", "%d of %d" % (tables, word_after(large.line, "maps")))
    print("\n%d of %d maps are built with --large." % (built, tried))


def made(bench, _):
    """The maps of `grid`, phase by phase: those of an audit by a sampled profile, the others by runs."""
    table("rooms a side", "points", "lines", "sectors", "lines, ms", "segments", "mesh", "walk and the rest", "build",
          "check", "build MB", "cert MB", "check MB", "audit, M instructions", "build", "check")
    for n in GRIDS:
        bench.put("MAP01", grid(n))
        said = Run(bench.audit("MAP01")).line
        parts = median_phases(bench.audit("MAP01"), bench.folder, RUNS)
        builds, checks = ([Run(words("MAP01")) for _ in range(RUNS)] for words in (bench.build, bench.check))
        least = lambda found: min(run.seconds for run in found) * 1000
        counts = [instructions(words("MAP01"), bench.folder) for words in (bench.audit, bench.build, bench.check)]
        judge("grid of %d: %s" % (n, checks[0].line), checks[0].line.split()[3:] == builds[0].line.split()[4:])
        if n <= 18:
            line = Run([bench.program, "grid", str(n), "--workers", "1"]).line
            judge("the verb: %s" % line, line.split()[2:10] == builds[0].line.split()[2:])
        row(n, *(word_after(said, word) for word in ("points", "lines", "sectors")), *("%.1f" % part for part in parts),
            "%.0f" % (least(builds) - sum(parts)), "%.0f" % least(builds), "%.0f" % least(checks),
            "%.0f" % builds[0].megabytes, "%.1f" % (os.path.getsize(bench.cert) / 1e6), "%.0f" % checks[0].megabytes,
            *("%.0f" % count for count in counts))


def counts(bench, wads):
    """Instructions and peaks of the six usual maps, read by the usual limits."""
    table("map", "build, M instructions", "check, M instructions", "build MB", "cert MB", "check MB", "build s",
          "check s")
    bench = bench.usual()
    for label, name, lumps in of_wads(wads):
        if name not in MAPS.split(",") or label.startswith("freedm"):
            continue
        bench.put(name, lumps)
        words = bench.build(name), bench.check(name)
        counted = ["%.1f" % instructions(each, bench.folder) for each in words]
        build, check = (Run(each) for each in words)
        row(label, *counted, "%.1f" % build.megabytes, "%.2f" % (os.path.getsize(bench.cert) / 1e6),
            "%.1f" % check.megabytes, "%.2f" % build.seconds, "%.2f" % check.seconds)
    words = [bench.program, "grid", "18", "--workers", "1"]
    row("grid 18", "%.1f" % instructions(words, bench.folder), "", "%.1f" % Run(words).megabytes, "", "", "", "")


def polygon(count):
    """A round polygon of so many points."""
    return dict(hard_maps(count))["polygon"]


def sectors_alone(count):
    """A room, and sectors that no side names."""
    return boxed([])[:3] + [(b"SECTORS", bytes(26 * count))]


def limits(bench, _):
    """Maps within a limit and above it, without the option and with it."""
    table("map", "without the option", "code", "with it", "code")
    one = [((0, 0), (0, 64))]
    tried = [
        ("4,096 points", boxed(polygon(4_092)), 0, 0),
        ("4,097 points", boxed(polygon(4_093)), 9, 0),
        ("16,383 points", boxed(polygon(MOST_POINTS - 4)), 9, 0),
        ("16,384 points", boxed(polygon(MOST_POINTS - 3)), 9, 9),
        ("16,384 lines, of which all but five are one", boxed(one * (16_384 - 4)), 10, 10),
        ("16,385 lines", boxed(one * (16_385 - 4)), 9, 10),
        ("32,768 lines", boxed(one * (MOST_LINES - 4)), 9, 10),
        ("32,769 lines", boxed(one * (MOST_LINES - 3)), 9, 9),
        ("4,096 sectors, of which no side names all but one", sectors_alone(4_096), 0, 0),
        ("4,097 sectors", sectors_alone(4_097), 9, 0),
        ("16,384 sectors", sectors_alone(MOST_SECTORS), 9, 0),
        ("16,385 sectors", sectors_alone(MOST_SECTORS + 1), 9, 9),
    ]
    for label, lumps, *codes in tried:
        bench.put("MAP01", lumps)
        ends = [Run(quiet(each.audit("MAP01"))) for each in (bench.usual(), bench)]
        judge("%s: %s" % (label, [end.line for end in ends]), [end.status for end in ends] == codes)
        row(label, *(cell for end in ends for cell in ("`%s`" % end.line, end.status)))
        # standard error names the option once, just where a limit refused the map and the option wasn't given
        named = [hints(each.audit("MAP01")) for each in (bench.usual(), bench)]
        judge("%s: the option is named %s times" % (label, named), named == [1 if codes[0] == 9 else 0, 0])
    others(bench)


def hints(words):
    """How often standard error names the option of the larger limits."""
    return subprocess.run(words, capture_output=True, text=True, check=False).stderr.count("try --large")


def others(bench):
    """Certificates of another map, and with more triangles than a map of so few points may have."""
    table("certificate", "handed to", "line of the check")
    bench.put("MAP01", boxed(polygon(MOST_POINTS - 4)))
    Run(bench.build("MAP01"))
    large = open(bench.cert, "rb").read()
    for label, lumps in (("4,096 points", boxed(polygon(4_092))), ("16,132 points", grid(37))):
        bench.put("MAP01", lumps)
        Run(bench.build("MAP01"))
        own = open(bench.cert, "rb").read()
        open(bench.cert, "wb").write(large)
        end = Run(bench.check("MAP01"))
        judge(end.line, end.status == 1)
        row("of 16,383 points", "a map of " + label, "`%s`" % end.line)
        if "4,096" in label:
            open(bench.cert, "wb").write(own[:14] + struct.pack("<I", 8_193) + own[18:])
            end = Run(bench.check("MAP01"))
            judge(end.line, end.line.startswith("no cert: range"))
            row("its own, said to have 8,193 triangles", "a map of " + label, "`%s`" % end.line)


def held_by(bench, name, kilobytes):
    """A build and a check with so much memory: both runs, the second only where there is a certificate."""
    for path in (bench.output, bench.cert):
        if os.path.exists(path):
            os.remove(path)
    build = Run(bounded(bench.build(name), kilobytes))
    return build, Run(bounded(bench.check(name), kilobytes)) if build.status == 0 else None


def ended(run):
    """The cells of a run: code and line, seconds, peak memory."""
    return "%d `%s`" % (run.status, run.line), "%.1f" % run.seconds, "%.0f" % run.megabytes


def hostile(bench, _):
    """Maps that are hard for a phase: each with ample memory, and with less."""
    strewn = dict(hard_maps(16_376))["strewn"]
    tried = [
        ("two far rows of short lines", boxed(rows(16_376))),
        ("needles from one far row to the other", boxed(needles(16_378))),
        ("a round polygon", boxed(polygon(16_376))),
        ("short lines strewn about", boxed(strewn)),
        ("a room of 2,047 strips", strips(2_047)),
        ("an open room of 64 times 64 sectors", open_room(63, 127)),
        ("an open room of 16,384 sectors", open_room(120, MOST_SECTORS - 120 * 120)),
    ]
    table("map", "points", "lines", "sectors", "memory, GB", "code, line of the build", "s", "peak MB", "cert MB",
          "code, line of the check", "s", "peak MB")
    for label, lumps in tried:
        bench.put("MAP01", lumps)
        said = Run(bench.audit("MAP01")).line
        sizes = [word_after(said, word) for word in ("points", "lines", "sectors")]
        for kilobytes in (MEMORY, LESS):
            ends = held_by(bench, "MAP01", kilobytes)
            judge("%s: %s" % (label, [end and (end.status, end.line) for end in ends]),
                  all(end is None or end.status in (0, 12) for end in ends))
            cells = [ended(end) if end else ("",) * 3 for end in ends]
            cert = "%.1f" % (os.path.getsize(bench.cert) / 1e6) if ends[1] else ""
            row(label, *sizes, kilobytes / 1e6, *cells[0], cert, *cells[1])


STYLE = """
.b{fill:#1f77b4;stroke:#1f77b4}
.c{fill:#ff7f0e;stroke:#ff7f0e}
.g{fill:none;stroke-width:2}
.x{stroke:#c8c8c8;stroke-width:1}
.h{stroke:#9a9a9a;stroke-width:1;stroke-dasharray:5 4}
text{font-family:sans-serif;font-size:13px;fill:#000;stroke:none}
"""


class Plot:
    """A picture of seconds against points, both by logarithms."""

    WIDE, HIGH, LEFT, TOP = 760, 480, 62, 24
    POINTS, TIMES = (500, 18_000), (0.004, 12)

    def __init__(self):
        self.parts = []

    def place(self, points, seconds):
        share = lambda value, ends: math.log(value / ends[0]) / math.log(ends[1] / ends[0])
        x = self.LEFT + (self.WIDE - self.LEFT - 16) * share(points, self.POINTS)
        y = self.HIGH - 44 - (self.HIGH - 44 - self.TOP) * share(seconds, self.TIMES)
        return x, y

    def text(self, x, y, said, anchor="start"):
        self.parts.append('<text x="%.1f" y="%.1f" text-anchor="%s">%s</text>' % (x, y, anchor, said))

    def straight(self, kind, first, second):
        ends = (*self.place(*first), *self.place(*second))
        self.parts.append('<line class="%s" x1="%.1f" y1="%.1f" x2="%.1f" y2="%.1f"/>' % (kind, *ends))

    def axes(self):
        for points in (500, 1_000, 2_000, 4_000, 8_000, 16_000):
            self.straight("x", (points, self.TIMES[0]), (points, self.TIMES[1]))
            self.text(self.place(points, 1)[0], self.HIGH - 26, "{:,}".format(points), "middle")
        for seconds in (0.01, 0.03, 0.1, 0.3, 1, 3, 10):
            self.straight("x", (self.POINTS[0], seconds), (self.POINTS[1], seconds))
            self.text(self.LEFT - 6, self.place(500, seconds)[1] + 4, "%g s" % seconds, "end")
        self.text(self.WIDE // 2, self.HIGH - 6, "points", "middle")

    def dots(self, kind, found):
        for points, seconds in found:
            self.parts.append('<circle class="%s" cx="%.1f" cy="%.1f" r="2.5"/>' % (kind, *self.place(points, seconds)))

    def curve(self, kind, found):
        places = " ".join("%.1f,%.1f" % self.place(*one) for one in sorted(found))
        self.parts.append('<polyline class="%s g" points="%s"/>' % (kind, places))

    def svg(self):
        head = '<svg xmlns="http://www.w3.org/2000/svg" viewBox="0 0 %d %d">' % (self.WIDE, self.HIGH)
        ground = '<rect width="%d" height="%d" fill="#fff"/>' % (self.WIDE, self.HIGH)
        return "\n".join([head, "<style>%s</style>" % STYLE, ground, *self.parts, "</svg>"]) + "\n"


def timed(bench, name, lumps):
    """The points of a map, and the seconds of its build and its check; none where it is refused, or has few points."""
    bench.put(name, lumps)
    points = word_after(Run(bench.audit(name)).line, "points")
    if points is None or points < Plot.POINTS[0]:
        return None
    return points, Run(bench.build(name)).seconds, Run(bench.check(name)).seconds


def draw(bench, wads, path):
    """The picture: Freedoom's maps as dots, the made ones as a curve, and how a square would grow."""
    plot = Plot()
    plot.axes()
    real = [timed(bench, name, lumps) for _, name, lumps in of_wads(wads)]
    grids = [timed(bench, "MAP01", grid(n)) for n in PLOTTED_GRIDS]
    for kind, at in (("b", 1), ("c", 2)):
        plot.dots(kind, [(each[0], each[at]) for each in real if each])
        plot.curve(kind, [(each[0], each[at]) for each in grids if each])
    plot.straight("h", (500, 0.004), (16_000, 0.004 * 32))
    plot.straight("h", (500, 0.004), (16_000, 0.004 * 32 ** 2))
    for k, (kind, said) in enumerate((("b", "build"), ("c", "check"))):
        plot.parts.append('<circle class="%s" cx="84" cy="%d" r="4"/>' % (kind, 40 + 18 * k))
        plot.text(94, 44 + 18 * k, said)
    plot.text(78, 80, "dots: Freedoom's maps; curves: `grid`;")
    plot.text(78, 96, "dashed: as the points, and as their square")
    open(path, "w", encoding="utf8").write(plot.svg())
    table("map", "points", "build s", "check s")
    for each in filter(None, real + grids):
        row("", each[0], "%.3f" % each[1], "%.3f" % each[2])


PARTS = {"six": six, "all": whole, "made": made, "counts": counts, "limits": limits, "hostile": hostile}


def main():
    words = argparse.ArgumentParser()
    words.add_argument("--program", default="crates/doomsight/out/doomsight")
    words.add_argument("--wads", default="/usr/share/games/doom")
    words.add_argument("--only", default=",".join(PARTS))
    words.add_argument("--plot")
    words = words.parse_args()
    with tempfile.TemporaryDirectory() as folder:
        bench = Bench(words.program, folder)
        for part in filter(None, words.only.split(",")):
            PARTS[part](bench, words.wads)
        if words.plot:
            draw(bench, words.wads, words.plot)
    return 1 if wrong else 0


if __name__ == "__main__":
    sys.exit(main())
