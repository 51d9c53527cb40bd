#!/usr/bin/env python3
"""Compares the pictures of the verb draw, byte for byte, with those that are put together here.

    bench/draw.py [--program PATH] [--wads FOLDER] [--only E1M7,MAP22] [--rows 20] [--pairs 40] [--leaks 3] [--seed 1]

Needs Debian's packages freedoom and freedm, or a folder with freedoom1.wad and freedoom2.wad. Of six maps, or of those
that are named, it asks for the plan, the plan with --faults and with --heat, the rows of some sectors in a REJECT that
a build wrote, and some pairs of sectors. With four random lines laid over the map it asks for --faults again; the pairs
that clash are found here by fractions. Of every third one-sided line (--leaks) it asks for --faults of the map without
that line: an arrow has to lead through the hole, and none may cross a line. The triangles and the groups are those of
the build's certificate, and so are the trees, by which it finds what sight out of a group enters; the ray of a pair is
the one that `why` says. A pair is compared to its end where one of the first sector's groups has a tree and the sector
has no other group.
The status is 1 where anything differs.
"""
import argparse
import os
import random
import re
import struct
import subprocess
import sys
import tempfile
from fractions import Fraction
from math import floor

from plans import Plan, Proof, crossing, entered
from wads import maps, rejects, wad

MAPS = ("E1M1", "E1M7", "E2M9", "MAP01", "MAP19", "MAP22")
STYLE = ("path,circle{fill:none;stroke-linecap:round}.w,.u,.o{stroke:#000}.p{stroke:#9a9a9a}.k,.r{stroke:#d62728}"
         ".i{stroke:#fff}.a{fill:#1f77b4}.b{fill:#ff7f0e}.c{fill:#9ecae1}.s{fill:#e4e4e4}"
         ".f{fill:#a1d99b;stroke:#41ab5d}.k,.f,.u,.n{pointer-events:none}path,circle{stroke-width:%d}"
         ".w,.o{stroke-width:%d}.r,.u{stroke-width:%d}.k{stroke-width:%d}.i{stroke-width:%d}"
         "@supports(vector-effect:non-scaling-stroke){path,circle{vector-effect:non-scaling-stroke;stroke-width:1}"
         ".f{stroke-width:.5}.w,.o{stroke-width:2}.r,.u{stroke-width:3}.k{stroke-width:4}.i{stroke-width:6}}"
         ".h0{fill:#ffffcc}.h1{fill:#ffeda0}.h2{fill:#fed976}.h3{fill:#feb24c}.h4{fill:#fd8d3c}.h5{fill:#fc4e2a}"
         ".h6{fill:#e31a1c}.h7{fill:#b10026}"
         "text{font:bold %dpx sans-serif;fill:#000;stroke:#fff;paint-order:stroke;stroke-width:%d}"
         "@media(prefers-color-scheme:dark){.paper{fill:#181818}.w,.u,.o{stroke:#f2f2f2}.p{stroke:#8a8a8a}"
         ".k,.r{stroke:#ff6b6b}.a{fill:#4da3e8}.b{fill:#ff9a3c}.c{fill:#2c4f6e}.s{fill:#383838}"
         ".f{fill:#24592b;stroke:#74c476}.i{stroke:#181818}text{fill:#f2f2f2;stroke:#181818}.h0{fill:#2a1636}"
         ".h1{fill:#451a4a}.h2{fill:#65205a}.h3{fill:#872a5c}.h4{fill:#aa3655}.h5{fill:#cc4a49}.h6{fill:#e76a3c}"
         ".h7{fill:#f99a3e}}")


class Sheet:
    """The texts of a picture of a map, as docs/FORMATS.md has them, whose unit is the last of so many decimal places."""

    def __init__(self, name, plan, places=0):
        self.name, self.plan, self.places = name, plan, places
        xs, ys = zip(*plan.points)
        self.west, self.north = min(xs), max(ys)
        self.width, self.height = max(xs) - self.west, self.north - min(ys)
        self.longer = max(self.width, self.height)
        self.margin, self.stroke = self.longer // 50 + 1, self.longer // 1200 + 1
        self.wide, self.high = self.width + 2 * self.margin, self.height + 4 * self.margin
        self.strip = self.height + 2 * self.margin

    def head(self, about):
        size, s = (self.margin, self.margin, self.wide, self.high), self.stroke
        shown = tuple(1000 * side // (self.longer + 2 * self.margin) for side in (self.wide, self.high))
        yield ('<svg xmlns="http://www.w3.org/2000/svg" viewBox="-%d -%d %d %d" width="%d" height="%d">'
               % (size + shown))
        yield "<title>%s%s</title>" % (self.name.replace("&", "&amp;").replace("<", "&lt;"), about)
        yield "<style>%s</style>" % (STYLE % (s, 2 * s, 3 * s, 4 * s, 6 * s, self.margin, self.margin // 4))
        yield '<rect class="paper" fill="#fff" x="-%d" y="-%d" width="%d" height="%d"/>' % size
        length, told = self.bar()
        yield ('<path class="u" d="M0 %d' % self.strip + 'H%d"/>' % length
               + self.text(length, self.strip, 'dx=".6em" dy=".36em" class="n"', told))

    def bar(self):
        """How long the bar of the scale is, in the map's unit, and in map units."""
        quarter, unit = self.width // 4, 10 ** self.places
        if quarter >= unit:
            whole = quarter // unit
            told = next(whole // grain * grain for grain in (1024, 128, 16, 1) if whole >= grain)
            return told * unit, told
        length = int(str(quarter)[0].ljust(len(str(quarter)), "0"))
        return length, ("%.*f" % (self.places, Fraction(length, unit))).rstrip("0").rstrip(".") or "0"

    def units(self, n):
        """A number in map units, without zeros at its end."""
        whole, rest = divmod(abs(n), 10 ** self.places)
        digits = ("%0*d" % (self.places, rest) if self.places else "").rstrip("0")
        return "-" * (n < 0) + str(whole) + ("." + digits if digits else "")

    def text(self, x, y, moved, words):
        return '<text x="%d" y="%d" %s>%s</text>' % (x, y, moved, words)

    def ring(self, proof, letter, sector):
        """A ring in the largest triangle of a sector, the first one where several are as large."""
        best = None
        for t in proof.corners:
            if t[3] is not None and sector in proof.groups[t[3]]:
                p, q, r = (self.plan.points[k] for k in t[:3])
                area = (q[0] - p[0]) * (r[1] - p[1]) - (q[1] - p[1]) * (r[0] - p[0])
                if best is None or area > best[0]:
                    best = area, (p, q, r)
        if best is None:
            return
        x = sum(p[0] - self.west for p in best[1]) // 3
        y = sum(self.north - p[1] for p in best[1]) // 3
        circles = "".join('<circle class="%s" cx="%d" cy="%d" r="%d"/>' % (kind, x, y, self.margin) for kind in "io")
        yield ("<g><title>%s: sector %d</title>%s%s</g>"
               % (letter, sector, circles, self.text(x, y, 'dx="1em" dy="-.5em"', letter)))

    def round(self, title, point):
        """A ring round a point at fault."""
        x, y = point[0] - self.west, self.north - point[1]
        circles = "".join('<circle class="%s" cx="%d" cy="%d" r="%d"/>' % (kind, x, y, self.margin) for kind in "ir")
        return "<g><title>%s</title>%s</g>" % (title, circles)

    def legend(self, most):
        """Of each shade that some count has the least such count."""
        shown = ""
        for shade in range(8):
            least = next((c for c in range(most + 1) if 8 * c // (most + 1) == shade), None)
            if least is not None:
                x, width = self.wide // 2 + self.wide // 20 * shade, self.wide // 20
                shown += ('<rect class="h%d" x="%d" y="%d" width="%d" height="%d"/>%s'
                          % (shade, x, self.strip, width, self.margin, self.text(x, self.strip, 'dy="-.2em"', least)))
        yield '<g class="n">%s</g>' % shown

    def place(self, point):
        return "%d %d" % (point[0] - self.west, self.north - point[1])

    def spot(self, point):
        """A point that need not be whole, cut down to thousandths."""
        cut = [int(1000 * Fraction(v)) for v in (point[0] - self.west, self.north - point[1])]
        return " ".join("%d.%03d" % divmod(t, 1000) for t in cut)

    def outline(self, numbers):
        return "M" + "L".join(self.place(self.plan.points[k]) for k in numbers)

    def faces(self, proof, kind_of, told=lambda names: ""):
        for group, names in enumerate(proof.groups):
            shape = "".join(self.outline(t[:3]) + "z" for t in proof.corners if t[3] == group)
            title = "sector" + "".join(" %d" % name for name in names) + told(names)
            yield '<path class="%s" id="G%d" d="%s"><title>%s</title></path>' % (kind_of(names), group, shape, title)

    def lines(self):
        for line in sorted(self.plan.lines, key=lambda line: line.solid):
            title = str(line.number)
            title += "" if line.right is None else " front %d" % line.right
            title += "" if line.left is None else " back %d" % line.left
            path = "M" + "L".join(self.place(p) for p in line.ends)
            yield ('<path class="%s" id="L%d" d="%s"><title>%s</title></path>'
                   % ("w" if line.solid else "p", line.number, path, title))

    def whole(self, about, under, over):
        return "\n".join([*self.head(about), *under, *self.lines(), *over, "</svg>", ""])


def plain(sheet, proof):
    return sheet.whole("", sheet.faces(proof, lambda names: "s"), [])


def heat(sheet, proof):
    """The picture of how much each sector may see, and its line without the map's name."""
    plan = sheet.plan
    seen = [sum(not rejects(plan.table, plan.sectors, a, b) for b in range(plan.sectors)) for a in range(plan.sectors)]

    def count(names):
        return max((seen[a] for a in names), default=0)

    most = max(map(count, proof.groups), default=0)
    faces = sheet.faces(proof, lambda names: "h%d" % (8 * count(names) // (most + 1)),
                        lambda names: " sees %d" % count(names))
    return sheet.whole(" heat", faces, sheet.legend(most)), "heat most %d" % most


def turn(p, q, r):
    return (q[0] - p[0]) * (r[1] - p[1]) - (q[1] - p[1]) * (r[0] - p[0])


def clash(one, other):
    """What two lines have in common besides an end of both, and where that is, if they aren't parallel."""
    p, q, r, s = *one.ends, *other.ends
    along, across = turn(p, q, r) - turn(p, q, s), turn(r, s, p) - turn(r, s, q)
    if along == 0:
        low, high = max(min(p, q), min(r, s)), min(max(p, q), max(r, s))
        return ("overlap", None) if turn(p, q, r) == 0 and low < high else None
    first, second = Fraction(turn(r, s, p), across), Fraction(turn(p, q, r), along)
    if not (0 <= first <= 1 and 0 <= second <= 1):
        return None
    ends = [share in (0, 1) for share in (first, second)]
    place = tuple(floor(a + first * (b - a)) for a, b in zip(p, q))
    return None if all(ends) else ("touch" if any(ends) else "cross", place)


def crossed(sheet):
    """The picture of a map whose lines clash, and its line without the map's name."""
    lines = sheet.plan.lines
    found = [(i, j, told) for k, i in enumerate(lines) for j in lines[k + 1:] for told in [clash(i, j)] if told]
    kept, left_out = found[:1000], max(0, len(found) - 1000)
    marked = {line.number: line for i, j, _ in kept for line in (i, j)}
    shape = "".join("M" + "L".join(sheet.place(p) for p in marked[number].ends) for number in sorted(marked))
    over = ['<path class="k" id="fault" d="%s"/>' % shape]
    for i, j, (word, place) in kept:
        if place:
            told = tuple(map(sheet.units, place))
            over.append(sheet.round("lines %d and %d %s at %s, %s" % (i.number, j.number, word, *told), place))
    about = " faults" + (", %d clashes left out" % left_out if left_out else "")
    return sheet.whole(about, [], over), "faults %s %d %d" % (found[0][2][0], found[0][0].number, found[0][1].number)


def row(sheet, proof, a):
    """The picture of a row, and its line without the map's name."""
    plan = sheet.plan
    bits = [rejects(plan.table, plan.sectors, a, b) for b in range(plan.sectors)]

    def kind_of(names):
        return "a" if a in names else "s" if all(bits[b] for b in names) else "c"

    drawn = sheet.whole(" row %d" % a, sheet.faces(proof, kind_of), sheet.ring(proof, "A", a))
    return drawn, "row %d set %d clear %d" % (a, sum(bits), len(bits) - sum(bits))


def pair_faces(sheet, proof, a, b):
    return sheet.faces(proof, lambda names: "a" if a in names else "b" if b in names else "s")


def rings(sheet, proof, a, b):
    return [*sheet.ring(proof, "A", a), *sheet.ring(proof, "B", b)]


def sight(sheet, proof, a, b, ray):
    ends = "M" + "L".join(sheet.spot(crossing(sheet.plan, ray, side)) for side in ray.split(",")[:2])
    over = ['<path class="r" id="ray" d="%s"><title>%s</title></path>' % (ends, ray), *rings(sheet, proof, a, b)]
    return sheet.whole(" pair %d %d" % (a, b), pair_faces(sheet, proof, a, b), over), "pair %d %d sight" % (a, b)


def leaving(proof, solid, within):
    """The segments by which one could pass from these triangles to others."""
    for (u, v), k in proof.on_edge.items():
        beyond = proof.on_edge.get((v, u))
        if k in within and beyond is not None and beyond not in within and (u, v) not in solid:
            yield tuple(sorted((u, v)))


def blind(sheet, proof, a, b, group):
    plan = sheet.plan
    solid = {e for line in plan.lines if line.solid for e in (plan.edge(line), plan.edge(line)[::-1])}
    inside, _ = entered(plan, proof, group)
    within = inside | {k for k, t in enumerate(proof.corners) if t[3] == group}
    stops = sorted(set(leaving(proof, solid, within)))
    shown = "".join(sheet.outline(proof.corners[k][:3]) + "z" for k in sorted(inside))
    title = "<title>sight out of sector %d</title>" % a
    under = [*pair_faces(sheet, proof, a, b), '<path class="f" id="open" d="%s">%s</path>' % (shown, title)]
    over = ['<path class="k" id="stops" d="%s"/>' % "".join(sheet.outline(edge) for edge in stops)]
    drawn = sheet.whole(" pair %d %d" % (a, b), under, over + rings(sheet, proof, a, b))
    return drawn, "pair %d %d blind %d stops %d" % (a, b, len(inside), len(stops))


def said(words):
    ran = subprocess.run(words, capture_output=True, text=True)
    return ran.stdout.rstrip("\n")


class Asked:
    """The program on a map that it built, in a folder of its own."""

    def __init__(self, program, folder, name, held):
        self.program, self.name, self.wrong, self.count = program, name, 0, 0
        self.source, self.built, self.cert, self.out = (os.path.join(folder, n) for n in ("a.wad", "b.wad", "b.cert", "b.svg"))
        open(self.source, "wb").write(held)
        print(said([program, "build", self.source, name, self.built, "--cert", self.cert]), flush=True)

    def compare(self, words, wanted, line, source=None):
        """Whether `draw` with these words writes this picture and says this line."""
        got = said([self.program, "draw", source or self.built, self.name, self.out, *map(str, words)])
        drawn = open(self.out, encoding="ascii", newline="").read()
        self.count += 1
        if got != "drawn %s %s" % (self.name, line) or drawn != wanted:
            self.wrong += 1
            print("%s draw %s: %s, not %s%s" % (self.name, words, got, line, "" if drawn == wanted else "; another picture"))

    def why(self, a, b):
        return said([self.program, "why", self.built, self.name, str(a), str(b)])


def laid(lumps, count):
    """The map with so many lines more, between random vertexes, that name no sector."""
    vertexes = len(dict(lumps)[b"VERTEXES"]) // 4
    more = b"".join(struct.pack("<7H", *random.sample(range(vertexes), 2), 1, 0, 0, 0xFFFF, 0xFFFF) for _ in range(count))
    return [(lump, content + more if lump == b"LINEDEFS" else content) for lump, content in lumps]


def compare_crossed(asked, lumps):
    with open(asked.source, "wb") as it:
        it.write(wad(asked.name, laid(lumps, 4)))
    asked.compare(["--faults"], *crossed(Sheet(asked.name, Plan(asked.source, asked.name))), source=asked.source)


def distance(p, a, b):
    """How far the point is from the segment."""
    wide, high = b[0] - a[0], b[1] - a[1]
    share = max(0, min(1, ((p[0] - a[0]) * wide + (p[1] - a[1]) * high) / (wide * wide + high * high)))
    return ((p[0] - a[0] - share * wide) ** 2 + (p[1] - a[1] - share * high) ** 2) ** 0.5


def across(p, q, r, s):
    """Whether two segments cross at an inner point of both."""
    return turn(p, q, r) * turn(p, q, s) < 0 and turn(r, s, p) * turn(r, s, q) < 0


def through(arrow, ends):
    """Whether an arrow crosses the segment, or comes to it but for what is cut down to whole units."""
    first, second, tip = arrow
    middle = tuple((u + v) / 2 for u, v in zip(first, second))
    return across(middle, tip, *ends) or distance(tip, *ends) < 1.5


def arrows_of(sheet, drawn):
    """The arrows of a picture, in the map's coordinates: two points of the base, and the tip."""
    for found in re.findall(r'<path class="r" d="M(\d+) (\d+)L(\d+) (\d+)L(\d+) (\d+)z">', drawn):
        n = [int(v) for v in found]
        yield [(n[k] + sheet.west, sheet.north - n[k + 1]) for k in (0, 2, 4)]


def leak(asked, lumps, number):
    """Whether an arrow leads through the hole that is there without this line, and none of them over another line.
    None where the map is closed without it, as at a pillar."""
    records = dict(lumps)[b"LINEDEFS"]
    less = records[:number * 14] + records[number * 14 + 14:]
    with open(asked.source, "wb") as it:
        it.write(wad(asked.name, [(lump, less if lump == b"LINEDEFS" else content) for lump, content in lumps]))
    if " faults open " not in said([asked.program, "draw", asked.source, asked.name, asked.out, "--faults"]):
        return None
    sheet = Sheet(asked.name, Plan(asked.source, asked.name))
    arrows = list(arrows_of(sheet, open(asked.out, encoding="ascii", newline="").read()))
    hole = next(line for line in Plan(asked.built, asked.name).lines if line.number == number).ends
    over = [a for a in arrows for line in sheet.plan.lines if far_over(a, line.ends)]
    return any(through(a, hole) for a in arrows) and not over


def far_over(arrow, ends):
    """Whether the arrow crosses the line with more than what is cut down on either side of it."""
    first, second, tip = arrow
    middle = tuple((u + v) / 2 for u, v in zip(first, second))
    return across(middle, tip, *ends) and min(distance(middle, *ends), distance(tip, *ends)) > 1.5


def compare_leaks(asked, lumps, step):
    one_sided = [line for line in Plan(asked.built, asked.name).lines if (line.right is None) != (line.left is None)]
    lines = one_sided[::step]
    led = [leak(asked, lumps, line.number) for line in lines]
    leaks = len(led) - led.count(None)
    asked.count += leaks
    asked.wrong += led.count(False)
    print("%s: %d leaks, %d without an arrow" % (asked.name, leaks, led.count(False)), flush=True)


def compare_map(asked, rows, pairs):
    plan, proof = Plan(asked.built, asked.name), Proof(asked.cert)
    sheet = Sheet(asked.name, plan)
    asked.compare([], plain(sheet, proof), "lines %d sectors %d" % (len(plan.lines), plan.sectors))
    asked.compare(["--faults"], plain(sheet, proof), "faults none")
    asked.compare(["--heat"], *heat(sheet, proof))
    for a in random.sample(range(plan.sectors), min(rows, plan.sectors)):
        asked.compare([a], *row(sheet, proof, a))
    for _ in range(pairs):
        a, b = random.randrange(plan.sectors), random.randrange(plan.sectors)
        answer, groups = asked.why(a, b), proof.with_sector(a)
        if answer.startswith("sight"):
            asked.compare([a, b], *sight(sheet, proof, a, b, answer.split()[-1]))
        elif answer.startswith("blind") and len(groups) == 1 and groups[0] in proof.places:
            asked.compare([a, b], *blind(sheet, proof, a, b, groups[0]))


def main():
    words = argparse.ArgumentParser()
    words.add_argument("--program", default="crates/doomsight/out/doomsight")
    words.add_argument("--wads", default="/usr/share/games/doom")
    words.add_argument("--only", default=",".join(MAPS))
    words.add_argument("--rows", type=int, default=20)
    words.add_argument("--pairs", type=int, default=40)
    words.add_argument("--leaks", type=int, default=3)
    words.add_argument("--seed", type=int, default=1)
    words = words.parse_args()
    random.seed(words.seed)
    program, only, wrong = os.path.abspath(words.program), words.only.split(","), 0
    for file in ("freedoom1.wad", "freedoom2.wad"):
        path = os.path.join(words.wads, file)
        if not os.path.exists(path):
            print("%s isn't here: passed over" % file)
            continue
        with open(path, "rb") as it:
            held = it.read()
        for name, lumps in maps(held):
            if name in only:
                with tempfile.TemporaryDirectory() as folder:
                    asked = Asked(program, folder, name, wad(name, lumps))
                    compare_map(asked, words.rows, words.pairs)
                    compare_crossed(asked, lumps)
                    compare_leaks(asked, lumps, words.leaks)
                    print("%s: %d pictures, %d differ" % (name, asked.count, asked.wrong), flush=True)
                    wrong += asked.wrong
    return 1 if wrong else 0


if __name__ == "__main__":
    sys.exit(main())
