#!/usr/bin/env python3
"""How the work grows: `grid` from 2 to 18, rows of rooms whose walks are deep, and maps that are hard to triangulate.

    bench/growth.py [--program PATH] [--rooms 16,64,256]

A row of k rooms with a passable line between neighbours has one long sequence from each room to each other, so a walk
from its end is k portals deep: nanoseconds a pair of rooms against k show whether a step's cost depends on the depth. At
most 990 rooms fit between the least and the greatest coordinate.

The hard maps have 4,080 points: a round polygon, two far rows of short lines, needles from one row to the other, and
short lines strewn about. Their sectors aren't closed, which `audit` says after segments and mesh are made.
"""
import argparse
import math
import os
import random
import struct
import sys
import tempfile

from wads import Run, wad

ROOM = 64


def row_of_rooms(count):
    """The lumps of a map of `count` square rooms in a row, each open to the next."""
    points, numbers, lines, sides = [], {}, b"", b""

    def number(point):
        if point not in numbers:
            numbers[point] = len(points)
            points.append(point)
        return numbers[point]

    def line(first, second, *sectors):
        nonlocal lines, sides
        side = len(sides) // 30
        sides += b"".join(struct.pack("<hh8s8s8sH", 0, 0, b"-", b"-", b"-", sector) for sector in sectors)
        left = side + 1 if len(sectors) == 2 else 0xFFFF
        lines += struct.pack("<7H", number(first), number(second), 4 if len(sectors) == 2 else 1, 0, 0, side, left)

    for k in range(count):
        x = -32000 + ROOM * k
        line((x, ROOM), (x + ROOM, ROOM), k)
        line((x + ROOM, 0), (x, 0), k)
        if k + 1 < count:
            line((x + ROOM, ROOM), (x + ROOM, 0), k, k + 1)
    line((-32000, 0), (-32000, ROOM), 0)
    end = -32000 + ROOM * count
    line((end, ROOM), (end, 0), count - 1)
    places = b"".join(struct.pack("<hh", *point) for point in points)
    return [(b"LINEDEFS", lines), (b"SIDEDEFS", sides), (b"VERTEXES", places), (b"SECTORS", bytes(26 * count))]


def hall_of_pillars(side, thin=2):
    """The lumps of a hall of `side` times `side` open cells, a sector each, with a pillar at each corner of a cell that reaches so far
    along its walls."""
    numbers, lines, sides, step = {}, b"", b"", 64000 // side

    def line(first, second, *sectors):
        nonlocal lines, sides
        number = len(sides) // 30
        sides += b"".join(struct.pack("<hh8s8s8sH", 0, 0, b"-", b"-", b"-", sector) for sector in sectors)
        ends = [numbers.setdefault(point, len(numbers)) for point in (first, second)]
        lines += struct.pack("<7H", *ends, 4 if len(sectors) == 2 else 1, 0, 0, number, number + 1 if len(sectors) == 2 else 0xFFFF)

    for i, j in ((i, j) for j in range(side) for i in range(side)):
        cell, x, y = j * side + i, step * i - 32000, step * j - 32000
        at = lambda a, b, x=x, y=y: (x + a, y + b)
        far, end = step - thin, step
        # clockwise, so that the cell is on the right of each
        line(at(0, thin), at(0, far), cell, *([cell - 1] if i else []))
        line(at(0, far), at(thin, end), cell)
        if j + 1 == side:
            line(at(thin, end), at(far, end), cell)
        line(at(far, end), at(end, far), cell)
        if i + 1 == side:
            line(at(end, far), at(end, thin), cell)
        line(at(end, thin), at(far, 0), cell)
        line(at(far, 0), at(thin, 0), cell, *([cell - side] if j else []))
        line(at(thin, 0), at(0, thin), cell)
    places = b"".join(struct.pack("<hh", *point) for point in numbers)
    return [(b"LINEDEFS", lines), (b"SIDEDEFS", sides), (b"VERTEXES", places), (b"SECTORS", bytes(26 * side * side))]


def hard_maps(count=4080):
    """The lines of each hard map, by its name."""
    turns = [2 * math.pi * k / count for k in range(count)]
    circle = [(round(32000 * math.cos(a)), round(32000 * math.sin(a))) for a in turns]
    yield "polygon", list(zip(circle, circle[1:] + circle[:1]))
    yield "rows", [((-32000 + 62 * k, y), (-31969 + 62 * k, y)) for k in range(count // 4) for y in (-32000, 32000)]
    yield "needles", [((-32000 + 31 * k, -32000), (-32000 + 31 * k + k % 7, 32000)) for k in range(count // 2)]
    strewn = random.Random(1)
    places = strewn.sample([(x, y) for x in range(-32000, 32000, 64) for y in range(-32000, 32000, 64)], count // 2)
    yield "strewn", [((x, y), (x + strewn.randrange(1, 60), y + strewn.randrange(1, 60))) for x, y in places]


def lumps_of(lines):
    """The lumps of a map with these passable lines in one sector."""
    points = sorted({point for line in lines for point in line})
    numbers = {point: k for k, point in enumerate(points)}
    records = b"".join(struct.pack("<7H", numbers[p], numbers[q], 4, 0, 0, 2 * k, 2 * k + 1) for k, (p, q) in enumerate(lines))
    sides = struct.pack("<hh8s8s8sH", 0, 0, b"-", b"-", b"-", 0) * (2 * len(lines))
    places = b"".join(struct.pack("<hh", *point) for point in points)
    return [(b"LINEDEFS", records), (b"SIDEDEFS", sides), (b"VERTEXES", places), (b"SECTORS", bytes(26))]


def main():
    words = argparse.ArgumentParser()
    words.add_argument("--program", default="crates/doomsight/out/doomsight")
    words.add_argument("--rooms", default="64,128,256,512,990")
    words = words.parse_args()
    program = os.path.abspath(words.program)
    print("| grid | seconds | line |\n|---|---|---|")
    for n in range(2, 19, 2):
        run = Run([program, "grid", str(n), "--workers", "1"])
        print("| %d | %.2f | %s |" % (n, run.seconds, run.line))
    print("\n| rooms in a row | pairs | build s | check s | ns a pair of build | ns a pair of check |\n|---|---|---|---|---|---|")
    with tempfile.TemporaryDirectory() as folder:
        source, output, cert = (os.path.join(folder, n) for n in ("in.wad", "out.wad", "cert"))
        for count in map(int, words.rooms.split(",")):
            open(source, "wb").write(wad("MAP01", row_of_rooms(count)))
            audit = Run([program, "audit", source, "MAP01"])
            build = Run([program, "build", source, "MAP01", output, "--cert", cert, "--budget", "full", "--workers", "1"])
            check = Run([program, "check", output, "MAP01", cert])
            total = count * (count - 1) // 2
            walk = (build.seconds - audit.seconds) * 1e9 / total
            print("| %d | %d | %.2f | %.2f | %.0f | %.0f |" % (count, total, build.seconds, check.seconds, walk, check.seconds * 1e9 / total))
        print("\n| hard map | points | audit s | peak MB | line |\n|---|---|---|---|---|")
        for name, lines in hard_maps():
            open(source, "wb").write(wad("MAP01", lumps_of(lines)))
            run = Run([program, "audit", source, "MAP01"])
            print("| %s | %d | %.2f | %.0f | %s |" % (name, len({p for line in lines for p in line}), run.seconds, run.megabytes, run.line))


if __name__ == "__main__":
    sys.exit(main())
