#!/usr/bin/env python3
"""Builds the libraries of a checkout for `rt check` in its crates, those first with the longest chain of others behind them.

    bench/libraries.py [--lanes N] [--from CHECKOUT] [CRATE ..]

Each crate, or each that the named ones stand on and these themselves, is proved over what was proved before, and its work is
kept in its `out` folder. With --from the libraries and the kept work of another checkout are taken first, as links to the
same files: of a clone only what it changed is then proved anew. A line tells of each crate, and what the prover said stands
in out/libraries.log. The status is 1 where a crate isn't proved.

`rt all check` does the same, crate by crate as crates.txt has them. With the kit 13b it makes the stamp of a crate anew for
each way that leads to it through crates.txt, which takes half a minute for a high one; here each is made once. This is no
gate: `rt ci` alone is. With nothing kept it takes four processors some 40 minutes, and 2 GB a lane.
"""
import argparse
import copy
import os
import shutil
import subprocess
import sys
import threading
import time
from concurrent.futures import FIRST_COMPLETED, ThreadPoolExecutor, wait

ROOT = os.path.dirname(os.path.dirname(os.path.abspath(__file__)))


def kit_tools():
    """The kit's own module of crates, in which the stamp of a crate is made once in a call for it."""
    page = subprocess.run(["rt", "doc"], capture_output=True, text=True, check=True).stdout.strip()
    sys.dont_write_bytecode = True
    sys.path.insert(0, os.path.join(os.path.dirname(page), "bin"))
    import rtlib

    stamp, made = rtlib.Crate.stamp, threading.local()

    def stamp_once(crate):
        is_first = getattr(made, "stamps", None) is None
        made.stamps = {} if is_first else made.stamps
        try:
            if crate.folder not in made.stamps:
                made.stamps[crate.folder] = stamp(crate)
            return made.stamps[crate.folder]
        finally:
            made.stamps = None if is_first else made.stamps

    rtlib.Crate.stamp = stamp_once
    rtlib.guarded()
    return rtlib


def chosen(crates, names):
    """The crates of these names with all that they stand on, or all crates."""
    unknown = set(names) - {crate.name for crate in crates}
    if unknown:
        sys.exit(f"no crate {sorted(unknown)[0]}")
    wanted = {below.name for crate in crates if crate.name in names for below in [crate, *crate.below()]}
    return [crate for crate in crates if not names or crate.name in wanted]


def take(crate, checkout):
    """Links the library and the kept work of the crate in another checkout, where nothing is kept here."""
    theirs, ours = (os.path.join(at, "crates", crate.name, "out") for at in (checkout, ROOT))
    if os.path.isdir(theirs) and not os.path.isdir(ours):
        shutil.copytree(theirs, ours, symlinks=True, copy_function=os.link)


def lengths(crates):
    """For each crate the lines of the longest chain of crates from it upwards."""
    length = {}
    for crate in reversed(crates):
        above = [length[other.name] for other in crates if crate.name in {it.name for it in other.deps}]
        length[crate.name] = crate.count(rb"\n") + max(above, default=0)
    return length


def proved(crate, is_library, jobs):
    """Proves a crate over its kept work, and returns its status and the seconds that it took."""
    crate, begun = copy.copy(crate), time.time()
    os.makedirs(os.path.join(crate.folder, "out"), exist_ok=True)
    with open(os.path.join(crate.folder, "out", "libraries.log"), "w+", errors="replace") as crate.out:
        flags = ["--jobs", str(jobs)]
        status = crate.build_rlib(flags, anew=False) if is_library else crate.check(flags)
    return status, time.time() - begun


def prove_all(crates, lanes):
    """Proves the crates side by side, each once those that it stands on are proved."""
    length = lengths(crates)
    left, running, done = sorted(crates, key=lambda crate: -length[crate.name]), {}, {}
    with ThreadPoolExecutor(lanes) as pool:
        while left or running:
            ready = [crate for crate in left if all(below.name in done for below in crate.below())]
            for place, crate in enumerate(ready):
                idle = lanes - sum(jobs for _, jobs in running.values())
                if any(done[below.name] for below in crate.below()):
                    left.remove(crate)
                    done[crate.name] = 1
                    print(f"{crate.name}: not tried, since one below it isn't proved", flush=True)
                elif idle > 0:
                    left.remove(crate)
                    jobs = max(1, idle // (len(ready) - place))
                    is_library = not crate.is_program and not crate.is_static
                    running[pool.submit(proved, crate, is_library, jobs)] = crate, jobs
            for future in wait(running, return_when=FIRST_COMPLETED).done if running else ():
                crate, _ = running.pop(future)
                done[crate.name], seconds = future.result()
                print(f"{crate.name}: {'not ' * bool(done[crate.name])}proved, {seconds:.0f} s", flush=True)
    return 1 if any(done.values()) else 0


def main():
    parser = argparse.ArgumentParser()
    parser.add_argument("--lanes", type=int, default=len(os.sched_getaffinity(0)))
    parser.add_argument("--from", dest="checkout")
    parser.add_argument("names", nargs="*", metavar="CRATE")
    words = parser.parse_args()
    crates = sorted(kit_tools().crates_below(ROOT), key=lambda crate: len(crate.below()))
    crates = chosen(crates, words.names)
    for crate in crates if words.checkout else ():
        take(crate, words.checkout)
    return prove_all(crates, words.lanes)


if __name__ == "__main__":
    sys.exit(main())
