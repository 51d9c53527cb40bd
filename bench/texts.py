#!/usr/bin/env python3
"""Changes texts of UDMF, and looks at what the program says of them.

    bench/texts.py PROGRAM [--changes N] [--seed S] [--at-once K]

Four worked texts, one of them with decimals, are cut at every byte, and N times (10,000) one of them is changed at random
in one to four places: a byte replaced, put in or taken away, a stretch repeated or taken away, a number or a word
exchanged. Of each the program is asked for a clear table (`zero`) and for an audit. It has to end by itself with a code
and a line of those that docs/FORMATS.md has for a map of UDMF, the same fault of the text by both verbs, and to leave OUT
alone unless it ends with 0. Told are how many texts came to which words. The status is 1 where anything is otherwise.
"""
import argparse
import collections
import concurrent.futures
import os
import random
import re
import struct
import subprocess
import tempfile

PAIR = (
    'namespace="doom";' + "".join(f"vertex{{x={x};y={y};}}" for x, y in ((0, 0), (0, 64), (64, 64), (64, 0), (128, 64), (128, 0)))
    + "linedef{v1=0;v2=1;sidefront=0;}linedef{v1=1;v2=2;sidefront=1;}linedef{v1=2;v2=3;sidefront=2;sideback=3;twosided=true;}"
    "linedef{v1=3;v2=0;sidefront=4;}linedef{v1=2;v2=4;sidefront=5;}linedef{v1=4;v2=5;sidefront=6;}linedef{v1=5;v2=3;sidefront=7;}"
    + "".join(f"sidedef{{sector={s};}}" for s in (0, 0, 0, 1, 0, 1, 1, 1)) + "sector{}sector{}\n"
)
SQUARE = """// a comment } first
NameSpace /* = */ = "ZDoom" ;
LineDef{V1=0x0;V2=01;SideFront=0;user_note="a \\" ; } // b";}linedef{v1=+1;v2=2;sidefront=1;}
sector{}
linedef { v1 = 9; v1 = 2; v2 = 3; sidefront = 2; sideback = -1; twosided = FALSE; }
linedef{v1=3;v2=0;sidefront=3;special=1;arg0=4;}
sidedef{sector=0;}sidedef{sector=0;}sidedef{sector=0;}sidedef{sector=00;}
vertex{x=0;y=-0.0;}vertex{x=0e5;y=6.4e1;zfloor=1.5;}vertex{x=64000.E-3;y=64.;}vertex{x=.64e2;y=0;}
thing { x = 1.5; type = 1; }
"""
PLAIN = "namespace = \"hexen\";\n\n" + "".join(
    f"vertex // {k}\n{{\nx = {x}.000;\ny = {y}.000;\n}}\n\n" for k, (x, y) in enumerate(((0, 0), (0, 96), (96, 96), (96, 0)))
) + "".join(
    f"linedef // {k}\n{{\nv1 = {k};\nv2 = {(k + 1) % 4};\nsidefront = {k};\nspecial = 0;\nblocking = true;\n}}\n\n" for k in range(4)
) + "".join(f"sidedef // {k}\n{{\nsector = 0;\ntexturemiddle = \"STONE2\";\n}}\n\n" for k in range(4)) + "sector // 0\n{\nheightfloor = 0;\n}\n"
# the points of PAIR, some of them with up to seven decimals
DECIMALS = PAIR
for given, made in (("y=64;", "y=.64;"), ("x=64;", "x=+.00640e2;"), ("x=128;", "x=1.2800000;"), ("x=0;y=0;", "x=-0.0000001;y=1e-7;")):
    DECIMALS = DECIMALS.replace(given, made)
TEXTS = [text.encode() for text in (PAIR, SQUARE, PLAIN, DECIMALS)]
WORDS = b"""vertex linedef sidedef sector namespace x y v1 v2 sidefront sideback twosided special true false -1 0 65535 0x7fffffff 1e9
.5 6.41 -.0000001 .00000001 3.3554432 3.3554433 33554432 -33554433 33554.433 1e-30 { } = ; \"""".split()

# what may be said: code, and the line
TEXT = r"refused: bad lump: (?:text|namespace|value|portal of line|coordinate of vertex) \d+"
LUMPS = r"refused: bad lump: (?:vertex of line|side of line|sector of side) \d+"
LIMITS = r"refused: limit: (?:vertices|sides|sectors|lines|points)"
SAYS = {
    "zero": {0: r"zero MAP01 sectors \d+ bytes \d+", 8: f"{TEXT}|{LUMPS}", 9: LIMITS},
    "audit": {
        0: r"sound lines \d+ points \d+ sectors \d+ triangles \d+", 8: f"{TEXT}|{LUMPS}", 9: LIMITS,
        10: r"refused: bad map: (?:open \d+[LR]|(?:cross|touch|overlap) \d+ \d+)",
    },
}


def wad(text):
    head, body = bytearray(12), bytearray()
    for name, data in ((b"MAP01", b""), (b"TEXTMAP", text), (b"ENDMAP", b"")):
        body += struct.pack("<II8s", len(head), len(data), name)
        head += data
    struct.pack_into("<4sII", head, 0, b"PWAD", 3, len(head))
    return bytes(head + body)


def changed(text, dice):
    text = bytearray(text)
    for _ in range(dice.randint(1, 4)):
        at = dice.randrange(len(text) + 1)
        end = min(len(text), at + dice.randint(1, 12))
        kind = dice.randrange(6)
        if kind == 0 and at < len(text):
            text[at] = dice.randrange(256)
        elif kind == 1:
            text[at:at] = bytes([dice.choice(b"{}=;\"/*\\ \n-+.eE0x9a\x00\xff'()")])
        elif kind == 2:
            del text[at:at + 1]
        elif kind == 3:
            text[at:at] = text[at:end]
        elif kind == 4:
            del text[at:end]
        else:
            found = list(re.finditer(rb"[\w.+-]+", text))
            if found:
                one = dice.choice(found)
                text[one.start():one.end()] = dice.choice(WORDS)
    return bytes(text)


def said(program, folder, text):
    """The kind of what is said of the text, and what is wrong of it."""
    with tempfile.TemporaryDirectory(dir=folder) as here:
        with open(f"{here}/w", "wb") as it:
            it.write(wad(text))
        told = {}
        for verb, words in (("zero", ["zero", "w", "MAP01", "o"]), ("audit", ["audit", "w", "MAP01"])):
            run = subprocess.run([program, *words], cwd=here, capture_output=True, text=True, timeout=60)
            line = run.stdout[:-1]
            if not re.fullmatch(SAYS[verb].get(run.returncode, "(?!)"), line) or not run.stdout.endswith("\n"):
                return None, f"{verb}: {run.returncode} {run.stdout!r}"
            told[verb] = run.returncode, line
        if os.path.exists(f"{here}/o") != (told["zero"][0] == 0):
            return None, f"OUT with code {told['zero'][0]}"
        if told["zero"][0] and told["zero"] != told["audit"]:
            return None, f"{told['zero']} and {told['audit']}"
        return re.sub(r"\d+[LR]?", "N", told["audit"][1]), None


def main():
    words = argparse.ArgumentParser(description=__doc__, formatter_class=argparse.RawDescriptionHelpFormatter)
    words.add_argument("program")
    words.add_argument("--changes", type=int, default=10_000)
    words.add_argument("--seed", type=int, default=1)
    words.add_argument("--at-once", type=int, default=2)
    given = words.parse_args()
    program, dice = os.path.abspath(given.program), random.Random(given.seed)
    texts = [text[:end] for text in TEXTS for end in range(len(text))]
    texts += [changed(dice.choice(TEXTS), dice) for _ in range(given.changes)]
    kinds, wrong = collections.Counter(), 0
    with tempfile.TemporaryDirectory() as folder, concurrent.futures.ThreadPoolExecutor(given.at_once) as pool:
        for text, (kind, fault) in zip(texts, pool.map(lambda text: said(program, folder, text), texts)):
            kinds[kind] += 1
            if fault:
                wrong += 1
                print(f"{fault} of {text!r}")
    for kind, count in kinds.most_common():
        print(f"{count:6} {kind}")
    print(f"{len(texts)} texts, {wrong} wrong")
    return 1 if wrong else 0


if __name__ == "__main__":
    raise SystemExit(main())
