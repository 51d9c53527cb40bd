#!/usr/bin/env python3
"""Tables compared, byte for byte, with those of an independent program (plain_table.rs, which rustc compiles).

    bench/independent.py [--program PATH] [--wads FOLDER] [--of WAD ..] [--only MAP ..] [--threads N] [--budget full]

Each map of Debian's packages freedoom and freedm, or of the WADs that are named, is built with `--exact`, or with the
budget that is named, with `--large` where the usual limits refuse it. Where it is built nothing may be listed, and its
REJECT has to be the table that the other program finds. What the program refuses is told with its line; plain_table makes
no audit. The status is 1 where a table differs.

A WAD that is named may have maps of UDMF (`bench/udmf.py` makes some). Their texts are read here, by regular expressions
and fractions, and the other program is given lumps with the coordinates times a power of ten by which all are whole.
"""
import argparse
import fractions
import os
import re
import struct
import subprocess
import sys
import tempfile

from wads import FREEDOOM, directory, maps, texts, wad

HERE = os.path.dirname(os.path.abspath(__file__))
GAP = r"[\0- ]|//[^\n]*|/\*.*?\*/"
TOKEN = re.compile(rf"(?P<token>\"(?:\\.|[^\"\\])*\"|[{{}}=;]|(?:(?!{GAP})[^{{}}()=;\"'])+)|{GAP}", re.DOTALL)


def blocks_of(text):
    """The blocks of each kind, in their order: what each key is, of one that stands twice the last value."""
    tokens = iter([it["token"] for it in TOKEN.finditer(text) if it["token"]])
    blocks, block, name = {}, None, ""
    for token in tokens:
        if token == "{":
            block = {}
            blocks.setdefault(name, []).append(block)
        elif token == "}":
            block = None
        elif token != "=":
            name = token.lower()
        elif block is not None:
            block[name] = next(tokens).lower()
    return blocks


def number(word):
    """A number, exactly: hexadecimal, octal or in decimals."""
    digits = word.lstrip("+-")
    if re.fullmatch("0x[0-9a-f]+|0[0-7]+", digits):
        value = fractions.Fraction(int(digits, 16 if "x" in digits else 8))
    else:
        value = fractions.Fraction(digits)
    return -value if word.startswith("-") else value


def lumps_of(text):
    """The lumps of a text for plain_table, with coordinates times the least power of ten by which they are whole."""
    blocks = blocks_of(text.decode("latin-1"))
    vertices = blocks["vertex"]
    linedefs, places = b"", {}
    for line in blocks["linedef"]:
        first, second = int(number(line["v1"])), int(number(line["v2"]))
        for v in (first, second):
            places[v] = number(vertices[v]["x"]), number(vertices[v]["y"])
        flags = 4 if line.get("twosided") == "true" else 0
        sides = [int(number(line.get(key, "-1"))) & 65535 for key in ("sidefront", "sideback")]
        linedefs += struct.pack("<7H", first, second, flags, 0, 0, *sides)
    unit = 1
    while any(value * unit % 1 for place in places.values() for value in place):
        unit *= 10
    ends = [places.get(v, (0, 0)) for v in range(len(vertices))]
    return [
        (b"LINEDEFS", linedefs),
        (b"SIDEDEFS", b"".join(struct.pack("<28xH", int(number(side["sector"]))) for side in blocks["sidedef"])),
        (b"VERTEX32", b"".join(struct.pack("<ii", int(x * unit), int(y * unit)) for x, y in ends)),
        (b"SECTORS", bytes(26 * len(blocks["sector"]))),
    ]


def given(held):
    """The name of each map, a WAD with it alone, and the same for plain_table."""
    for name, lumps in maps(held):
        yield name, wad(name, lumps), wad(name, lumps)
    for name, text in texts(held):
        yield name, wad(name, [(b"TEXTMAP", text), (b"ENDMAP", b"")]), wad(name, lumps_of(text))


def built(program, source, name, folder, how):
    """The line of the build with nothing left open, and its table, or None."""
    out = os.path.join(folder, "out.wad")
    for more in ([], ["--large"]):
        words = [program, "build", source, name, out] + how + more
        line = subprocess.run(words, stdout=subprocess.PIPE, stderr=subprocess.DEVNULL, text=True).stdout.strip()
        if not line.startswith("refused: limit:"):
            break
    if not line.startswith("built "):
        return line, None
    with open(out, "rb") as it:
        return line, dict(directory(it.read()))[b"REJECT"]


def main():
    parser = argparse.ArgumentParser(description=__doc__, formatter_class=argparse.RawDescriptionHelpFormatter)
    parser.add_argument("--program", default="crates/doomsight/out/doomsight")
    parser.add_argument("--wads", default="/usr/share/games/doom")
    parser.add_argument("--of", nargs="+", metavar="WAD")
    parser.add_argument("--only", nargs="*", default=[])
    parser.add_argument("--threads", default="4")
    parser.add_argument("--budget")
    words = parser.parse_args()
    how = ["--workers", words.threads] + (["--budget", words.budget] if words.budget else ["--exact"])
    same = refused = 0
    wrong = []
    with tempfile.TemporaryDirectory() as folder:
        plain = os.path.join(folder, "plain_table")
        subprocess.run(["rustc", "-O", "-o", plain, os.path.join(HERE, "plain_table.rs")], check=True)
        for path in words.of or [os.path.join(words.wads, label) for label in FREEDOOM]:
            label = os.path.basename(path)
            with open(path, "rb") as it:
                held = it.read()
            for name, ours, theirs in given(held):
                if words.only and name not in words.only:
                    continue
                source, other, found = (os.path.join(folder, end) for end in ("map.wad", "other.wad", "table"))
                for place, data in ((source, ours), (other, theirs)):
                    with open(place, "wb") as it:
                        it.write(data)
                line, table = built(words.program, source, name, folder, how)
                if table is None:
                    refused += 1
                    print("%s %s refused: %s" % (label, name, line), flush=True)
                    continue
                said = subprocess.run([plain, other, name, found, words.threads], capture_output=True, text=True, check=True)
                with open(found, "rb") as it:
                    is_same = it.read() == table and " listed 0" in line
                same += is_same
                if not is_same:
                    wrong.append((label, name))
                print("%s %s %s: %s; %s" % (label, name, "same" if is_same else "DIFFERS", line, said.stdout.strip()), flush=True)
    print("%d tables are the same, %d differ, %d maps are refused" % (same, len(wrong), refused))
    return 1 if wrong else 0


if __name__ == "__main__":
    sys.exit(main())
