"""A map's plan, the triangles and trees of a certificate, and what sight out of a sector enters by them: for bench/draw.py.

The certificate is trusted: judge it with `doomsight check` first.
"""
import struct
from fractions import Fraction

from wads import Certificate, directory, maps


class Line:
    """A line that isn't passed over: its ends, whether it is solid, and the sectors of its right and left side."""

    def __init__(self, number, ends, flags, right, left):
        self.number, self.ends, self.right, self.left = number, ends, right, left
        self.solid = not flags & 4 or right is None or left is None


class Plan:
    """The lines of a map in Doom's or Hexen's format, its points in the program's order, its sectors and its table."""

    def __init__(self, path, name):
        held = open(path, "rb").read()
        lumps = [dict(run) for n, run in maps(held) if n == name.upper()][-1]
        names = [entry[0] for entry in directory(held)]
        marker = len(names) - 1 - names[::-1].index(name.upper().encode())
        hexen = names[marker + len(lumps) + 1:marker + len(lumps) + 2] == [b"BEHAVIOR"]
        self.sectors = len(lumps[b"SECTORS"]) // 26
        self.table = lumps.get(b"REJECT", b"")
        self.lines = [line for line in lines_of(lumps, 16 if hexen else 14) if line.ends[0] != line.ends[1]]
        self.points = sorted({p for line in self.lines for p in line.ends})
        self.numbers = {p: k for k, p in enumerate(self.points)}

    def edge(self, line):
        return tuple(self.numbers[p] for p in line.ends)


def lines_of(lumps, size):
    """The lines of LINEDEFS, whose records have so many bytes."""
    vertexes = list(struct.iter_unpack("<hh", lumps[b"VERTEXES"]))
    sector = [side[0] for side in struct.iter_unpack("<28xH", lumps[b"SIDEDEFS"])]
    for number in range(len(lumps[b"LINEDEFS"]) // size):
        start, end, flags = struct.unpack_from("<3H", lumps[b"LINEDEFS"], size * number)
        sides = struct.unpack_from("<2H", lumps[b"LINEDEFS"], size * number + size - 4)
        right, left = (None if side == 0xFFFF else sector[side] for side in sides)
        yield Line(number, (vertexes[start], vertexes[end]), flags, right, left)


class Proof(Certificate):
    """The certificate with its triangles, its listed pairs and the bytes of its trees."""

    def __init__(self, path):
        self.held = held = open(path, "rb").read()
        super().__init__(held)
        version, = struct.unpack_from("<H", held, 4)
        at = 28 if version == 1 else 30 + sum(2 + 2 * len(group) for group in self.groups)
        self.corners = [struct.unpack_from("<4H", held, at + 8 * k) for k in range(self.triangles)]
        at += 8 * self.triangles + 24 * len(self.by_groups)
        self.left_open = {struct.unpack_from("<2H", held, at + 4 * k) for k in range(self.listed)}
        self.places = trees_from(held, self.trees, at + 4 * self.listed)
        self.on_edge = {(t[i], t[(i + 1) % 3]): k for k, t in enumerate(self.corners) for i in range(3)}

    def with_sector(self, sector):
        return [g for g, names in enumerate(self.groups) if sector in names]

    def label(self, triangle):
        return self.corners[triangle][3]


def trees_from(held, count, at):
    """Where the nodes of each source's tree begin."""
    places = {}
    for _ in range(count):
        source, nodes = struct.unpack_from("<HQ", held, at)
        at += 10
        places[source] = at
        for _ in range(nodes):
            at += 1 + 2 * held[at]
    return places


def roots(plan, proof, source):
    """The directed edges by which one leaves the source, in the order of its tree."""
    for line in plan.lines:
        start, end = plan.edge(line)
        for edge in () if line.solid else ((end, start), (start, end)):
            if proof.label(proof.on_edge[edge]) == source != proof.label(proof.on_edge[edge[::-1]]):
                yield edge[::-1]


def ways(proof, solid, source, edge):
    """The edges of a triangle's two ways out, left before right, but for walls and for ways into the source."""
    left, right = edge
    third = next(p for p in proof.corners[proof.on_edge[edge]][:3] if p not in edge)
    for way in ((left, third), (third, right)):
        if way not in solid and proof.label(proof.on_edge[way]) != source:
            yield way


def entered(plan, proof, source):
    """The triangles that open nodes of the source's tree enter, and the edges of its blocked nodes."""
    solid = {e for line in plan.lines if line.solid for e in (plan.edge(line), plan.edge(line)[::-1])}
    at, inside, stops = proof.places[source], set(), set()
    waiting = list(roots(plan, proof, source))[::-1]
    while waiting:
        edge = waiting.pop()
        ends = proof.held[at]
        at += 1 + 2 * ends
        if ends:
            stops.add(tuple(sorted(edge)))
        else:
            inside.add(proof.on_edge[edge])
            waiting += list(ways(proof, solid, source, edge))[::-1]
    return inside, stops


def crossing(plan, ray, side):
    """Where a ray crosses the line of a side, exactly."""
    a, b, c = map(int, ray.split(",")[2:])
    (x, y), (v, w) = next(line.ends for line in plan.lines if line.number == int(side[:-1]))
    before, after = a * x + b * y + c, a * v + b * w + c
    share = Fraction(before, before - after)
    return x + share * (v - x), y + share * (w - y)
