#!/usr/bin/env python3
"""The rays of a certificate: why two sectors see each other, or which bits of a table are wrong.

    bench/rays.py WAD MAP CERT A B
    bench/rays.py WAD MAP CERT

With two sectors: the ray between them, as a word that `doomsight ray` and `doomsight trace` take, or `a face belongs to
both`, or `no ray` (the two don't see each other, or the build left the pair open). Without: a line `A B RAY` for each
pair of which the map's REJECT has a bit set that the certificate refutes. The script trusts the certificate; `doomsight
ray` judges each ray.
"""
import argparse

from wads import Certificate, maps, rejects

SHARED = "a face belongs to both"


def main():
    words = argparse.ArgumentParser()
    for word in ("wad", "map", "cert"):
        words.add_argument(word)
    words.add_argument("pair", nargs="*", type=int, metavar="A B")
    words = words.parse_args()
    if len(words.pair) not in (0, 2):
        raise SystemExit("two sectors or none")
    seen = Certificate(open(words.cert, "rb").read()).seen()
    if words.pair:
        print(seen.get(tuple(sorted(words.pair)), "no ray") or SHARED)
        return
    lumps = [dict(run) for name, run in maps(open(words.wad, "rb").read()) if name == words.map.upper()][-1]
    sectors, table = len(lumps[b"SECTORS"]) // 26, lumps.get(b"REJECT", b"")
    for (a, b), ray in sorted(seen.items()):
        if rejects(table, sectors, a, b) or rejects(table, sectors, b, a):
            print(a, b, ray or SHARED)


if __name__ == "__main__":
    main()
