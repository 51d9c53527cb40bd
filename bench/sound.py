#!/usr/bin/env python3
"""Compares the verb sound with linuxdoom's flood of a noise (P_RecursiveSound, all doors open), written here anew.

    bench/sound.py [--program PATH] [--wads FOLDER] [--only E1M1,..] [--pairs 20] [--seed 1]

For each map of Debian's packages freedoom and freedm that the program reads: the counts of heard and silent pairs against a flood
from every sector, and, for some pairs drawn by chance, the path against the first of the shortest ones as a search finds it
here. The longest time of a count is shown. The status is 1 where an answer differs.
"""
import argparse
import collections
import os
import random
import struct
import sys
import tempfile

from wads import FREEDOOM, Run, maps, wad

TWO_SIDED, BLOCKS_SOUND, NO_SIDE = 4, 64, 0xFFFF


def doors(lumps):
    """The sides that lead on: (from, line, 'L' or 'R', to, does the line block sound)."""
    points = [struct.unpack_from("<hh", lumps[b"VERTEXES"], k) for k in range(0, len(lumps[b"VERTEXES"]) // 4 * 4, 4)]
    sector = [struct.unpack_from("<H", lumps[b"SIDEDEFS"], k + 28)[0] for k in range(0, len(lumps[b"SIDEDEFS"]) // 30 * 30, 30)]
    found = []
    for line in range(len(lumps[b"LINEDEFS"]) // 14):
        start, end, flags, _, _, right, left = struct.unpack_from("<7H", lumps[b"LINEDEFS"], 14 * line)
        if flags & TWO_SIDED and NO_SIDE not in (right, left) and points[start] != points[end]:
            blocks = bool(flags & BLOCKS_SOUND)
            found.append((sector[right], line, "R", sector[left], blocks))
            found.append((sector[left], line, "L", sector[right], blocks))
    return found


def flood(ways, start):
    """The sectors that P_RecursiveSound reaches: each is entered anew only with fewer lines that block sound behind it."""
    traversed, pending = {}, [(start, 0)]
    while pending:
        sector, blocks = pending.pop()
        if sector in traversed and traversed[sector] <= blocks + 1:
            continue
        traversed[sector] = blocks + 1
        for _, _, _, other, is_blocking in ways[sector]:
            if not is_blocking:
                pending.append((other, blocks))
            elif not blocks:
                pending.append((other, 1))
    return traversed


def first_path(ways, start, goal):
    """The first of the shortest paths, sides compared by line number, right before left; None where there is none."""
    layer, seen = {(start, 0): []}, {(start, 0)}
    while layer:
        ended = [path for (sector, _), path in layer.items() if sector == goal]
        if ended:
            return min(ended)
        behind = {}
        for (sector, used), path in layer.items():
            for _, line, side, other, is_blocking in ways[sector]:
                state = (other, used + is_blocking)
                if used + is_blocking > 1 or state in seen:
                    continue
                longer = path + [(line, side == "L")]
                if state not in behind or longer < behind[state]:
                    behind[state] = longer
        seen |= set(behind)
        layer = behind
    return None


def differences(program, source, name, lumps, words, chance):
    """What the program says otherwise than this script, of one map, and the seconds of its count."""
    run = Run([program, "sound", source, name])
    if run.status != 0:
        return None, 0.0
    sectors = len(lumps[b"SECTORS"]) // 26
    ways = collections.defaultdict(list)
    for door in doors(lumps):
        ways[door[0]].append(door)
    heard = sum(1 for a in range(sectors) for b in flood(ways, a) if a <= b)
    wanted = "sound %s sectors %d heard %d silent %d" % (name, sectors, heard, sectors * (sectors + 1) // 2 - heard)
    found = [] if run.line == wanted else [(run.line, wanted)]
    for _ in range(words.pairs):
        a, b = chance.randrange(sectors), chance.randrange(sectors)
        path = first_path(ways, a, b)
        wanted = "no noise %d %d" % (a, b) if path is None else "noise %d %d" % (a, b)
        if path:
            wanted += " by " + " ".join("%d%s" % (line, "L" if left else "R") for line, left in path)
        line = Run([program, "sound", source, name, str(a), str(b)]).line
        found += [] if line == wanted else [(line, wanted)]
    return found, run.seconds


def main():
    here = os.path.dirname(os.path.abspath(__file__))
    words = argparse.ArgumentParser()
    words.add_argument("--program", default=os.path.join(here, "../crates/doomsight/out/doomsight"))
    words.add_argument("--wads", default="/usr/share/games/doom")
    words.add_argument("--only", default="")
    words.add_argument("--pairs", type=int, default=20)
    words.add_argument("--seed", type=int, default=1)
    words = words.parse_args()
    program, only, chance = os.path.abspath(words.program), [n for n in words.only.split(",") if n], random.Random(words.seed)
    paths = [os.path.join(words.wads, n) for n in FREEDOOM if os.path.exists(os.path.join(words.wads, n))]
    if not paths:
        print("no WADs in", words.wads)
        return 0
    seen = read = differ = 0
    longest = (0.0, "")
    with tempfile.TemporaryDirectory() as folder:
        source = os.path.join(folder, "in.wad")
        for path in paths:
            for name, run in maps(open(path, "rb").read()):
                if only and name not in only:
                    continue
                open(source, "wb").write(wad(name, run))
                found, seconds = differences(program, source, name, dict(run), words, chance)
                seen, read, longest = seen + 1, read + (found is not None), max(longest, (seconds, name))
                differ += bool(found)
                for said, wanted in found or []:
                    print(os.path.basename(path), name, "SAYS:", said, "WANTED:", wanted)
    print("maps %d read %d differ %d, the longest count took %.3f s (%s)" % (seen, read, differ, *longest))
    return 1 if differ else 0


if __name__ == "__main__":
    sys.exit(main())
