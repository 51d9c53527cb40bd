#!/usr/bin/env python3
"""Turns the maps of a WAD, in Doom's or Hexen's format, to UDMF.

    bench/udmf.py WAD OUT [--odd SEED] [--times FACTOR] [--turn A/B] [--noise SEED]

Each map's lumps become one TEXTMAP, as editors write it, and its REJECT stays; behind it stands ENDMAP. All other
entries are copied. With --odd the text is spelled in any way that the format allows, by the seed: kinds of blocks
shuffled, comments, hexadecimal and octal numbers, odd case, blanks or none, keys twice. With --times the coordinates
are multiplied by a whole number or a fraction like 1/8. With --turn the map is rotated about the origin, exactly, by the
angle whose half has the tangent A/B: 1/2 has the cosine 0.6 and the sine 0.8, and 3/4 has 0.28 and 0.96. An angle whose
cosine has no end in decimals is refused. With --noise each point is moved at last by some thousandths, less than a half
along x and along y, by the seed. Only what says where lines and sectors are is written, and the flag that blocks
sound; what a map has beside it is left out. For comparisons of tables and certificates of a map in both spellings: but
for the noise, all these maps have the table of the binary one.
"""
import argparse
import fractions
import random
import struct

LUMPS = "THINGS LINEDEFS SIDEDEFS VERTEXES SEGS SSECTORS NODES SECTORS REJECT BLOCKMAP BEHAVIOR".split()


def entries_of(data):
    _, count, at = struct.unpack_from("<4sII", data)
    entries = []
    for k in range(count):
        start, size, name = struct.unpack_from("<II8s", data, at + 16 * k)
        entries.append((name.split(b"\0")[0].decode("latin-1").upper(), data[start:start + size], name))
    return entries


class Moved:
    """Where points come to lie: rotated and scaled, and then moved a little where there are dice. All vertices at one place
    stay at one place."""

    def __init__(self, factor, tangent, dice):
        square = tangent * tangent
        self.across, self.along = factor * (1 - square) / (1 + square), factor * 2 * tangent / (1 + square)
        self.dice, self.places = dice, {}

    def __call__(self, x, y):
        if (x, y) not in self.places:
            place = x * self.across - y * self.along, x * self.along + y * self.across
            by = (0, 0) if self.dice is None else (self.dice.randint(-499, 499), self.dice.randint(-499, 499))
            self.places[x, y] = [value + fractions.Fraction(n, 1000) for value, n in zip(place, by)]
        return self.places[x, y]


def number(value):
    """A coordinate in decimals, exactly."""
    for digits in range(28):
        scaled = value * 10**digits
        if scaled.denominator == 1:
            text = str(abs(scaled.numerator)).rjust(digits + 1, "0")
            sign = "-" if value < 0 else ""
            return sign + (text[:-digits] + "." + text[-digits:] if digits else text + ".000")
    raise SystemExit("a coordinate has no end in decimals")


def blocks_of(lumps, hexen, moved):
    """Vertices, lines, sides and sectors, each as a list of keys with their values; `moved` says where a point comes to
    lie."""
    lines, record = [], 16 if hexen else 14
    for at in range(0, len(lumps["LINEDEFS"]), record):
        v1, v2, flags = struct.unpack_from("<HHH", lumps["LINEDEFS"], at)
        front, back = struct.unpack_from("<HH", lumps["LINEDEFS"], at + record - 4)
        pairs = [("v1", v1), ("v2", v2)]
        pairs += [("sidefront", front)] if front != 65535 else []
        pairs += [("sideback", back)] if back != 65535 else []
        pairs += [("twosided", True)] if flags & 4 else []
        pairs += [("blocksound", True)] if flags & 64 else []
        lines.append(pairs)
    ends = struct.iter_unpack("<hh", lumps["VERTEXES"])
    vertices = [[(key, number(value)) for key, value in zip("xy", moved(*point))] for point in ends]
    at_sides = range(0, len(lumps["SIDEDEFS"]), 30)
    sides = [[("sector", struct.unpack_from("<H", lumps["SIDEDEFS"], at + 28)[0])] for at in at_sides]
    sectors = [[("heightfloor", 0), ("texturefloor", '"FLAT1"')] for _ in range(len(lumps["SECTORS"]) // 26)]
    return {"vertex": vertices, "linedef": lines, "sidedef": sides, "sector": sectors}


def plain(blocks):
    text = ['namespace = "doom";\n']
    for kind, records in blocks.items():
        for k, pairs in enumerate(records):
            text.append(f"\n{kind} // {k}\n{{\n")
            text += [f"{key} = {str(value).lower()};\n" for key, value in pairs]
            text.append("}\n")
    return "".join(text)


def odd(blocks, dice):
    def gap():
        return dice.choice(["", "", " ", "\t", "\r\n", " // ; } \"\n", "/* = */", "/**/ "])

    def cased(word):
        return "".join(dice.choice([c.lower(), c.upper()]) for c in word)

    def spelled(value):
        if value is True:
            return cased("true")
        if isinstance(value, int):
            return dice.choice(["%d", "+%d", "0x%x", "0X%X", "0%o"]) % value
        if value.startswith('"'):
            return '"a \\" ; } // b"'
        forms = [value, value + "0", value + "e0"]
        if value.rstrip("0").endswith("."):
            forms += [value.split(".")[0], value.split(".")[0] + "."]
        return dice.choice(forms)

    def assigned(key, value):
        return gap() + cased(key) + gap() + "=" + gap() + spelled(value) + gap() + ";"

    def doubled(pairs):
        whole = [key for key, value in pairs if isinstance(value, int) and value is not True]
        return [(key, dice.randrange(99)) for key in whole if dice.random() < 0.1]

    order = [kind for kind, records in blocks.items() for _ in records]
    dice.shuffle(order)
    left = {kind: iter(records) for kind, records in blocks.items()}
    text = [gap(), cased("namespace"), gap(), "=", gap(), '"', cased("doom"), '"', gap(), ";"]
    for kind in order:
        pairs = next(left[kind])
        pairs = doubled(pairs) + dice.sample(pairs, len(pairs))
        text += [gap(), cased(kind), gap(), "{", *(assigned(key, value) for key, value in pairs), gap(), "}"]
        if dice.random() < 0.05:
            text += [gap(), 'thing{x=1.5;type=1;comment="";}']
    return "".join(text)


def end_of(entries, k):
    """Behind the lumps of the map whose marker is entry k, none twice."""
    end, seen = k + 1, set()
    while end < len(entries) and entries[end][0] in LUMPS and entries[end][0] not in seen:
        seen.add(entries[end][0])
        end += 1
    return end


def main():
    parser = argparse.ArgumentParser(description=__doc__, formatter_class=argparse.RawDescriptionHelpFormatter)
    parser.add_argument("wad")
    parser.add_argument("out")
    parser.add_argument("--odd", type=int)
    parser.add_argument("--times", type=fractions.Fraction, default=fractions.Fraction(1))
    parser.add_argument("--turn", type=fractions.Fraction, default=fractions.Fraction(0))
    parser.add_argument("--noise", type=int)
    words = parser.parse_args()
    dice = random.Random(words.odd)
    noise = None if words.noise is None else random.Random(words.noise)
    data = open(words.wad, "rb").read()
    entries, made, k = entries_of(data), [], 0
    while k < len(entries):
        end = end_of(entries, k)
        lumps = {name: body for name, body, _ in entries[k + 1:end]}
        if not {"LINEDEFS", "SIDEDEFS", "VERTEXES", "SECTORS"} <= lumps.keys():
            made.append((entries[k][2], entries[k][1]))
            k += 1
            continue
        blocks = blocks_of(lumps, "BEHAVIOR" in lumps, Moved(words.times, words.turn, noise))
        text = plain(blocks) if words.odd is None else odd(blocks, dice)
        made += [(entries[k][2], entries[k][1]), (b"TEXTMAP\0", text.encode())]
        made += [(b"REJECT\0\0", lumps["REJECT"])] if "REJECT" in lumps else []
        made.append((b"ENDMAP\0\0", b""))
        k = end
    bodies, directory = b"".join(body for _, body in made), b""
    at = 12
    for name, body in made:
        directory += struct.pack("<II8s", at, len(body), name)
        at += len(body)
    with open(words.out, "wb") as out:
        out.write(struct.pack("<4sII", data[:4], len(made), 12 + len(bodies)) + bodies + directory)


if __name__ == "__main__":
    main()
