#!/usr/bin/env python3
"""Compares what the verb why says of pairs of sectors with the table and the list of a build with the same budget.

    bench/why.py [--program PATH] [--wads FOLDER] [--only E1M7,MAP22] [--budget N|full|enough] [--pairs 5000] [--seed 1]
                 [--threads 4]

Six maps of Debian's package freedoom are built, or those that --only names: E1M1, E1M7 and E2M9 of freedoom1.wad,
MAP01, MAP19 and MAP22 of freedoom2.wad. Of a map with at most 20,000 pairs of sectors, a sector with itself counted too (E1M1 and MAP01), `why` is
asked for every pair; of a greater one for so many pairs (--pairs) drawn at random with a fixed seed, and for each that
the build lists. Each pair is asked for once, in an order that is drawn too.

Where the bit is set `why` has to say `blind`; where the build lists the pair, `listed`; where the certificate's groups
have both sectors in one, `touch`; else `sight` by a ray. Of each such ray `ray` has to name two sectors of which the one
shares a face with the first of the pair, or is it, and the other with the second. A budget much below that of the program
makes long lists, all of which are asked for; without --budget both have that of a build. The status is 1 where an answer
differs.
"""
import argparse
import collections
import concurrent.futures
import os
import random
import subprocess
import sys
import tempfile

from wads import Certificate, maps, rejects, wad

MAPS = {"freedoom1.wad": ("E1M1", "E1M7", "E2M9"), "freedoom2.wad": ("MAP01", "MAP19", "MAP22")}
ALL_UP_TO = 20000


def said(words):
    """The status of a run and its line."""
    ended = subprocess.run(words, stdout=subprocess.PIPE, stderr=subprocess.DEVNULL, text=True, check=False)
    return ended.returncode, ended.stdout.strip()


class Built:
    """A map that was built: its table, the pairs that the build lists, and the groups that its certificate names."""

    def __init__(self, program, folder, name, lumps, budget):
        self.program, self.name, self.budget = program, name, budget
        self.source, output, cert, report = (os.path.join(folder, n) for n in ("in.wad", "out.wad", "cert", "report"))
        with open(self.source, "wb") as it:
            it.write(wad(name, lumps))
        self.sectors = len(dict(lumps)[b"SECTORS"]) // 26
        status, self.line = said([program, "build", self.source, name, output, "--cert", cert, "--report", report] + budget)
        if status:
            raise SystemExit("%s isn't built: %s" % (name, self.line))
        with open(output, "rb") as it:
            self.table = dict(next(maps(it.read()))[1])[b"REJECT"]
        with open(report, encoding="ascii") as it:
            lines = [line.split() for line in it]
        self.listed = {(int(line[1]), int(line[2])) for line in lines if line[0] == "listed"}
        with open(cert, "rb") as it:
            groups = Certificate(it.read()).groups
        self.named_with = collections.defaultdict(set)
        for group in groups:
            for a in group:
                self.named_with[a].update(group)

    def pairs(self, wanted, chance):
        """The pairs for which `why` is asked, each in one of its two orders."""
        chosen = [(a, b) for a in range(self.sectors) for b in range(a, self.sectors)]
        if len(chosen) > ALL_UP_TO:
            chosen = sorted(set(chance.sample(chosen, min(wanted, len(chosen)))) | self.listed)
        return [pair if chance.random() < 0.5 else pair[::-1] for pair in chosen]

    def wanted(self, a, b):
        """The first word of the line that the build calls for."""
        if rejects(self.table, self.sectors, a, b):
            return "blind"
        if (min(a, b), max(a, b)) in self.listed:
            return "listed"
        return "touch" if b in self.named_with[a] else "sight"

    def is_ray_of(self, a, b, ray):
        """Whether `ray` accepts the ray, from a face of the first sector to a face of the second."""
        status, line = said([self.program, "ray", self.source, self.name, ray])
        words = line.split()
        if status or len(words) != 3 or words[0] != "sight":
            return False
        return int(words[1]) in self.named_with[a] and int(words[2]) in self.named_with[b]

    def judged(self, pair):
        """The first word of what `why` says of the pair, and what is wrong with it, if anything is."""
        a, b = pair
        status, line = said([self.program, "why", self.source, self.name, str(a), str(b)] + self.budget)
        wanted = self.wanted(a, b)
        head = "%s %d %d" % (wanted, a, b)
        if status == 0 and wanted == "sight" and line.startswith(head + " by "):
            ray = line[len(head + " by "):]
            return wanted, None if self.is_ray_of(a, b, ray) else "no ray of the pair: " + line
        if status == 0 and wanted != "sight" and line == head:
            return wanted, None
        return line.split(" ")[0], "says %s, wanted %s" % (line or status, head)


def compared(built, pairs, threads):
    """How often each answer came, and what is wrong."""
    with concurrent.futures.ThreadPoolExecutor(threads) as pool:
        found = list(pool.map(built.judged, pairs))
    return collections.Counter(word for word, _ in found), [fault for _, fault in found if fault]


def main():
    words = argparse.ArgumentParser()
    words.add_argument("--program", default="crates/doomsight/out/doomsight")
    words.add_argument("--wads", default="/usr/share/games/doom")
    words.add_argument("--only", default="")
    words.add_argument("--budget", default="16384")
    words.add_argument("--pairs", type=int, default=5000)
    words.add_argument("--seed", type=int, default=1)
    words.add_argument("--threads", type=int, default=4)
    words = words.parse_args()
    program, only = os.path.abspath(words.program), [n for n in words.only.split(",") if n]
    budget = ["--budget", words.budget]
    asked = wrong = 0
    for file, names in MAPS.items():
        path = os.path.join(words.wads, file)
        if not os.path.exists(path):
            print("%s isn't here: passed over" % file)
            continue
        with open(path, "rb") as it:
            held = it.read()
        for name, lumps in maps(held):
            if name not in (only or names):
                continue
            with tempfile.TemporaryDirectory() as folder:
                built = Built(program, folder, name, lumps, budget)
                pairs = built.pairs(words.pairs, random.Random(words.seed))
                counts, faults = compared(built, pairs, words.threads)
            asked, wrong = asked + len(pairs), wrong + len(faults)
            told = " ".join("%s %d" % (word, counts[word]) for word in sorted(counts))
            print("%s; asked %d: %s, wrong %d" % (built.line, len(pairs), told, len(faults)), flush=True)
            for fault in faults[:20]:
                print("  " + fault)
    print("pairs %d wrong %d" % (asked, wrong))
    return 1 if wrong else 0


if __name__ == "__main__":
    sys.exit(main())
