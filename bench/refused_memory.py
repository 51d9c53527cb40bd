#!/usr/bin/env python3
"""Each request for memory of a run refused, one a run.

    bench/refused_memory.py [--program PATH] [--cc CC]

A small library stands before the C library's malloc and its like, and before the start of threads. It refuses the first request of a run, of the
next run the second, and so on, until a run makes fewer; requests of threads, and of the C library where it starts them, count too, and so
does the start of a thread. The program is run for every verb over real files; its outputs hold something else before, so that one sees whether
they were touched.

Each run has to end by itself, within a minute, with each thread joined that it started, with no file under any other name than before and those of
its outputs, and in one of these ways:

- memory: code 12, no line, and no file touched;
- done: code, line and files of the run to which nothing is refused (of a build by three workers `check` says yes to table and certificate);
- read fault or write fault, where the shelf got no memory for a name, or opening a file or printing was refused: no file touched, or those
  whole that had their names before one didn't get its name.

An output that is the standard output stands there whole, with no line behind it, or not at all.

Orders in which two names mean one file are refused; there each run has to end by that, by memory, or by a read fault, with every file as
before. So has each run in which a call of the system that asks what stands under a name fails (`strace` makes it fail, where it is there). And an
output whose name is that under which another one is written at first is whole in the end, and so is the other.

Of some orders it is told how many threads they start: builds by three workers, exact ones too, and the judges of `all`, by certificates of
versions 2 and 3. Builds by one worker start none.

And certificates whose counts no bytes bear out: `check` asks for fewer bytes, all requests together, than for the whole certificate that
they were made of.
The status is 1 where anything is otherwise.

Found on 2026-11-29, before `why` came: the runs of fifteen orders make 3,692 requests (a build of U by three workers
with certificate and report 388, one of a made map 528; a check of U 182, of a row of rooms 522, of a certificate longer than a piece 173).
With one refused the run ended by memory 2,957 times and was done 666 times, among them where the list of a sweep over
lines was refused, which then looks at each pair; 16 times it ended by a read fault and 51 times by a write fault, where
opening a file, or the name beside an output, got no memory. (Threads make two requests more or fewer from run to run.)
Nothing else came, and each thread that was started was joined. For damaged certificates `check` asked for at most as
many bytes as for whole ones.
"""
import argparse
import collections
import os
import re
import shutil
import struct
import subprocess
import sys
import tempfile

from growth import row_of_rooms
from wads import wad

HERE = os.path.dirname(os.path.abspath(__file__))
CRATES = os.path.join(HERE, "..", "crates")

LIBRARY = r"""
#define _GNU_SOURCE
#include <dlfcn.h>
#include <errno.h>
#include <fcntl.h>
#include <pthread.h>
#include <stdlib.h>
#include <sys/mman.h>

void *__libc_malloc(size_t), *__libc_calloc(size_t, size_t), *__libc_realloc(void *, size_t), *__libc_memalign(size_t, size_t);

/* The number of the request to refuse, how many came, and for how many bytes; how many threads were started, and how many joined. */
static volatile unsigned long *page;
static int (*create)(pthread_t *, const pthread_attr_t *, void *(*)(void *), void *), (*join)(pthread_t, void **);

static int is_refused(size_t size) {
    if (!page) return 0;
    __atomic_add_fetch(&page[2], size, __ATOMIC_SEQ_CST);
    if (__atomic_add_fetch(&page[1], 1, __ATOMIC_SEQ_CST) != page[0]) return 0;
    errno = ENOMEM;
    return 1;
}

void *malloc(size_t size) { return is_refused(size) ? 0 : __libc_malloc(size); }
void *calloc(size_t many, size_t size) { return is_refused(size && many > -1UL / size ? -1UL : many * size) ? 0 : __libc_calloc(many, size); }
void *realloc(void *old, size_t size) { return is_refused(size) ? 0 : __libc_realloc(old, size); }
void *memalign(size_t align, size_t size) { return is_refused(size) ? 0 : __libc_memalign(align, size); }
void *aligned_alloc(size_t align, size_t size) { return memalign(align, size); }
int posix_memalign(void **place, size_t align, size_t size) {
    void *made = memalign(align, size);
    if (!made) return ENOMEM;
    *place = made;
    return 0;
}

int pthread_create(pthread_t *thread, const pthread_attr_t *how, void *(*what)(void *), void *with) {
    int fault = is_refused(0) ? EAGAIN : create(thread, how, what, with);
    if (!fault && page) __atomic_add_fetch(&page[3], 1, __ATOMIC_SEQ_CST);
    return fault;
}
int pthread_join(pthread_t thread, void **given) {
    int fault = join(thread, given);
    if (!fault && page) __atomic_add_fetch(&page[4], 1, __ATOMIC_SEQ_CST);
    return fault;
}

__attribute__((constructor)) static void begin(void) {
    create = dlsym(RTLD_NEXT, "pthread_create");
    join = dlsym(RTLD_NEXT, "pthread_join");
    int file = open(getenv("REQUESTS"), O_RDWR);
    void *made = mmap(0, 4096, PROT_READ | PROT_WRITE, MAP_SHARED, file, 0);
    if (made == MAP_FAILED) abort();
    page = made;
}
"""

OLD = b"what was there before"
ROLES = {"wad": "out.wad", "cert": "new.cert", "report": "report", "picture": "out.svg"}

# The words of each verb, and its outputs in order. `u.wad` has no table, `built.wad` and `u.cert` are those of a build of it. In `open.wad` a line
# is missing. The certificate of a row of rooms is longer than a piece that is read; that of U with bytes behind it has more than 500 pieces.
ORDERS = [
    ("build u.wad MAP01 out.wad --cert new.cert --report report --workers 3", ["out.wad", "new.cert", "report"]),
    ("build u.wad MAP01 out.wad --cert new.cert --report report --workers 1", ["out.wad", "new.cert", "report"]),
    ("build u.wad MAP01 out.wad --budget 1", ["out.wad"]),
    ("build u.wad MAP01 out.wad --exact --cert new.cert --workers 3", ["out.wad", "new.cert"]),
    ("grid 2 --workers 3", []),
    ("zero u.wad MAP01 out.wad", ["out.wad"]),
    ("all u.wad out.wad --report report --workers 1", ["out.wad", "report"]),
    ("all open.wad out.wad --refused clear --report report --workers 1", ["out.wad", "report"]),
    ("all u.wad out.wad --exact --workers 3", ["out.wad"]),
    ("check built.wad MAP01 u.cert", []),
    ("check built.wad MAP01 u.cert --json", []),
    ("check built.wad MAP01 row.cert --json", []),
    ("verify built.wad --report report --workers 3", ["report"]),
    ("verify u.wad --report report --workers 1", ["report"]),
    ("verify u.wad --report report --json --workers 1", ["report"]),
    ("maps built.wad --report report", ["report"]),
    ("check row.wad MAP01 row.cert", []),
    ("check built.wad MAP01 behind.cert", []),
    ("audit u.wad MAP01", []),
    ("audit u.wad MAP01 --report report", ["report"]),
    ("audit open.wad MAP01 --report report", ["report"]),
    ("audit open.wad MAP01 --report report --json", ["report"]),
    ("need u.wad MAP01", []),
    ("trace u.wad MAP01 5L,5R,-1,0,32", []),
    ("ray u.wad MAP01 5L,5R,-1,0,32", []),
    ("sound u.wad MAP01", []),
    ("sound u.wad MAP01 0 2", []),
    ("why u.wad MAP01 0 1", []),
    ("why u.wad MAP01 0 2 --budget 1", []),
    ("draw u.wad MAP01 out.svg", ["out.svg"]),
    ("draw u.wad MAP01 out.svg --faults", ["out.svg"]),
    ("draw built.wad MAP01 out.svg 0", ["out.svg"]),
    ("draw built.wad MAP01 out.svg --heat", ["out.svg"]),
    ("draw u.wad MAP01 out.svg 0 1", ["out.svg"]),
    ("draw u.wad MAP01 out.svg 0 2", ["out.svg"]),
    ("paint u.wad MAP01 out.wad", ["out.wad"]),
]

# Orders in which two names mean one file: files that hold something before, and names under which nothing stands.
ONE_FILE = [
    ("zero a.wad MAP01 ./a.wad", []),
    ("check a.wad MAP01 ./a.wad", []),
    ("draw a.wad MAP01 ./a.wad", []),
    ("build a.wad MAP01 ./a.wad --workers 1", []),
    ("build a.wad MAP01 out.wad --report ./a.wad --workers 1", ["out.wad"]),
    ("build a.wad MAP01 out.wad --cert ./out.wad --workers 1", ["out.wad"]),
    ("build a.wad MAP01 gone.wad --cert ./gone.wad --workers 1", []),
    ("all a.wad out.wad --report ./a.wad --workers 1", ["out.wad"]),
    ("all a.wad out.wad --report ./out.wad --workers 1", ["out.wad"]),
    ("verify a.wad --report ./a.wad --workers 1", []),
    ("maps a.wad --report ./a.wad", []),
]

# Orders in which an output has the name that the new file of another one would have first, and what comes of them.
BESIDE = [
    ("build u.wad MAP01 .r.doomsight-0 --report r --workers 1", [".r.doomsight-0", "r"], 0),
    ("build u.wad MAP01 .c.doomsight-0 --cert c --workers 1", [".c.doomsight-0", "c"], 0),
    ("build u.wad MAP01 w --report .w.doomsight-0 --workers 1", ["w", ".w.doomsight-0"], 5),
]

# Orders whose output is the standard output; the line stands on standard error then.
PRINTED = ["zero u.wad MAP01 -", "draw u.wad MAP01 /dev/stdout"]

# Orders, and how many threads they start at least. The judges of `all` are as many as there are processors, whatever the workers.
THREADS = [
    ("build u.wad MAP01 out.wad --workers 3", 2),
    ("build u.wad MAP01 out.wad --exact --workers 3", 2),
    ("verify built.wad --workers 3", 2),
    ("all u.wad out.wad --workers 1", 1),
    ("all u.wad out.wad --exact --workers 1", 1),
    ("build u.wad MAP01 out.wad --workers 1", 0),
    ("build u.wad MAP01 out.wad --exact --workers 1", 0),
]

# Where the worked certificate of U has a count, how many bytes of it, and where it is cut off, so that the count can't be borne out.
COUNTS = [("rays", 16, 4, 140), ("listed pairs", 20, 4, 140), ("trees", 24, 4, 161), ("nodes", 142, 8, 161)]

# What standard error says of a file that couldn't be read or written.
NAMED = re.compile(rb"(?m)^(?:[a-z]+(?:\.[a-z]+)?|standard output): (?:out of memory|[^\n]* \(os error [0-9]+\))\n")
Ended = collections.namedtuple("Ended", "status line errors count asked started joined")


class Folder:
    """A folder with the files of all runs, and the library."""

    def __init__(self, place, program, compiler):
        self.place, self.program = place, os.path.abspath(program)
        self.library, self.page = os.path.join(place, "refuse.so"), os.path.join(place, "requests")
        source = os.path.join(place, "refuse.c")
        with open(source, "w") as held:
            held.write(LIBRARY)
        subprocess.run([compiler, "-O1", "-shared", "-fPIC", "-fno-builtin", "-o", self.library, source], check=True)
        shutil.copy(os.path.join(CRATES, "doomsight", "data", "u.wad"), self.path("u.wad"))
        self.refused(0, [self.program, *"build u.wad MAP01 built.wad --cert u.cert --workers 1".split()])
        self.put("rooms.wad", wad("MAP01", row_of_rooms(128)))
        self.refused(0, [self.program, *"build rooms.wad MAP01 row.wad --cert row.cert --workers 1".split()])
        self.put("open.wad", wad("MAP01", [(lump, held[14:] if lump == b"LINEDEFS" else held) for lump, held in row_of_rooms(3)]))
        self.put("behind.cert", self.held("u.cert") + bytes(33_554_432))
        shutil.copy(self.path("u.wad"), self.path("a.wad"))
        self.names = set(os.listdir(place))

    def path(self, name):
        return os.path.join(self.place, name)

    def held(self, name):
        """The bytes of a file, None where there is none."""
        if not os.path.exists(self.path(name)):
            return None
        with open(self.path(name), "rb") as file:
            return file.read()

    def put(self, name, held):
        with open(self.path(name), "wb") as file:
            file.write(held)

    def refused(self, number, words):
        """A run whose request of this number is refused; of which none is where the number is 0."""
        self.put("requests", struct.pack("<5Q", number, 0, 0, 0, 0) + bytes(4096 - 40))
        env = {"LD_PRELOAD": self.library, "REQUESTS": self.page}
        run = subprocess.run(words, cwd=self.place, env=env, stdin=subprocess.DEVNULL, capture_output=True, timeout=60)
        _, count, asked, started, joined = struct.unpack_from("<5Q", self.held("requests"))
        return Ended(run.returncode, run.stdout, run.stderr, count, asked, started, joined)

    def ordered(self, number, words, outputs):
        """The same of the program, whose outputs hold something else before."""
        for name in set(os.listdir(self.place)) - self.names:
            os.remove(self.path(name))
        for name in outputs:
            self.put(name, OLD)
        return self.refused(number, [self.program, *words.split()])

    def unseen(self, number, words, outputs):
        """The same, where that call fails which asks what stands under a name. How many there were isn't known, but that none failed."""
        trace = self.path("trace")
        inject = ["strace", "-f", "-o", trace, "-e", "trace=statx", "-e", "inject=statx:error=EIO:when=%d" % number]
        for name in set(os.listdir(self.place)) - self.names:
            os.remove(self.path(name))
        for name in outputs:
            self.put(name, OLD)
        run = subprocess.run(inject + [self.program, *words.split()], cwd=self.place, stdin=subprocess.DEVNULL, capture_output=True, timeout=60)
        failed = b"INJECTED" in self.held("trace")
        os.remove(trace)
        return Ended(run.returncode, run.stdout, run.stderr, number if failed else 0, 0, 0, 0)

    def is_whole(self, words, base, name):
        """Whether an output is what the run to which nothing is refused writes; of a certificate by several workers, whether it is accepted."""
        if name == "new.cert" and "--workers 3" in words:
            return self.refused(0, [self.program, *"check built.wad MAP01 new.cert".split()]).status == 0
        return self.held(name) == base[name]

    def way_of_one_file(self, outputs, base, run):
        """The way in which a run has ended in whose words two names mean one file, None where it is none of those that may be."""
        if set(os.listdir(self.place)) != self.names.union(outputs) or self.held("a.wad") != self.held("u.wad"):
            return None
        if any(self.held(name) != OLD for name in outputs):
            return None
        ways = {(12, b""): "memory", (4, b"refused: read fault wad\n"): "read fault", (base.status, base.line): "same name"}
        return ways.get((run.status, run.line))

    def way(self, words, outputs, base, bytes_of, run):
        """The way in which a run has ended, None where it is none of those that may be."""
        if run.started != run.joined or set(os.listdir(self.place)) != self.names.union(outputs):
            return None
        untouched = all(self.held(name) == OLD for name in outputs)
        whole = lambda names: all(self.is_whole(words, bytes_of, name) for name in names)
        # a file that couldn't be read or written is named, with the system's words
        if not base.errors.startswith(NAMED.sub(b"", run.errors) if run.status in (4, 5) else run.errors):
            return None
        # a verdict that isn't right comes with its report, and so do the faults of a map
        writes = base.status == 0 or words.startswith(("verify ", "audit ")) and "--report" in words
        if run.status == 12:
            return "memory" if untouched and not run.line else None
        if run.status == base.status and run.line == base.line:
            return "done" if (whole(outputs) if writes else untouched) else None
        if run.status == 4 and run.line in (b"refused: read fault wad\n", b"refused: read fault cert\n"):
            return "read fault" if untouched else None
        if run.status != 5:
            return None
        for role, name in ROLES.items():
            if run.line == b"refused: write fault %s\n" % role.encode() and name in outputs:
                at = outputs.index(name)
                renamed = whole(outputs[:at]) and all(self.held(other) == OLD for other in outputs[at:])
                return "write fault" if untouched or renamed else None
        if base.line.startswith(run.line):
            return "write fault" if (whole(outputs) if writes else untouched) else None
        return None


def tried(run_of, way_of):
    """How often runs ended in each way, where one request after the other is refused; the number of the first that ended in none."""
    ways, number, rest = collections.Counter(), 0, 0
    while rest < 3:
        number += 1
        try:
            run = run_of(number)
        except subprocess.TimeoutExpired:
            return ways, number, "it didn't end"
        way = way_of(run)
        if way is None:
            return ways, number, run
        # Threads make a few requests more or fewer, so the end is where three runs in turn made fewer.
        rest = rest + 1 if run.count < number else 0
        if not rest:
            ways[way] += 1
    return ways, number, None


def printed(folder):
    """Tries orders that write to the standard output: it holds the whole output, or nothing."""
    kinds, wrong = ["memory", "done", "read fault"], False
    for words in PRINTED:
        base = folder.ordered(0, words, [])
        ends = {(12, b"", b""): "memory", (4, b"", b"refused: read fault wad\n"): "read fault", (0, base.line, base.errors): "done"}
        ways, number, odd = tried(
            lambda number: folder.ordered(number, words, []), lambda run: ends.get((run.status, run.line, NAMED.sub(b"", run.errors)))
        )
        row("`%s`" % words, base.count, ways, kinds)
        if odd:
            print("wrong: %s with request %d refused: %s" % (words, number, odd))
            wrong = True
    return wrong


def row(title, count, ways, kinds):
    print("| " + " | ".join(map(str, [title, count] + [ways[kind] for kind in kinds])) + " |", flush=True)


def orders(folder):
    """Tries each verb of the program."""
    kinds, wrong = ["memory", "done", "read fault", "write fault"], False
    print("| Words | Requests | " + " | ".join(kinds) + " |\n|" + "---|" * (2 + len(kinds)))
    for words, outputs in ORDERS:
        base = folder.ordered(0, words, outputs)
        bytes_of = {name: folder.held(name) for name in outputs}
        ways, number, odd = tried(lambda number: folder.ordered(number, words, outputs), lambda run: folder.way(words, outputs, base, bytes_of, run))
        row("`%s`" % words, base.count, ways, kinds)
        if odd:
            print("wrong: %s with request %d refused: %s" % (words, number, odd))
            wrong = True
    return wrong


def one_file(folder):
    """Tries orders in which two names mean one file: each request for memory refused, and each call failed that asks what stands there."""
    kinds, wrong = ["same name", "memory", "read fault"], False
    print("| Words | Requests | " + " | ".join(kinds) + " |\n|" + "---|" * (2 + len(kinds)))
    for words, outputs in ONE_FILE:
        base = folder.ordered(0, words, outputs)
        way = lambda run: folder.way_of_one_file(outputs, base, run)
        tries = [("refused request", lambda number: folder.ordered(number, words, outputs))]
        if shutil.which("strace"):
            tries.append(("failed call", lambda number: folder.unseen(number, words, outputs)))
        for what, run_of in tries:
            ways, number, odd = tried(run_of, way)
            row("`%s`, %s" % (words, what), number - 3, ways, kinds)
            if odd or base.status != 11:
                print("wrong: %s with %s %d: %s" % (words, what, number, odd or base))
                wrong = True
    return wrong


def beside(folder):
    """Tries outputs under the names of each other's new files, where nothing stands before."""
    wrong = False
    for words, outputs, status in BESIDE:
        folder.ordered(0, words, [])
        plain = folder.ordered(0, "build u.wad MAP01 out.wad --cert new.cert --report report --workers 1", [])
        wanted = {"wad": folder.held("out.wad"), "--cert": folder.held("new.cert"), "--report": folder.held("report")}
        run = folder.ordered(0, words, [])
        held = [folder.held(name) for name in outputs]
        whole = [wanted["wad"], wanted[words.split()[4]]] if status == 0 else [None, None]
        print("`%s`: code %d" % (words, run.status))
        if plain.status != 0 or run.status != status or held != whole or set(os.listdir(folder.place)) - folder.names.union(outputs):
            print("wrong: %s: %s, %s" % (words, run, os.listdir(folder.place)))
            wrong = True
    return wrong


def threads(folder):
    """Tries whether those who share work are set to it: how many threads an order starts, and none where one worker builds."""
    wrong, processors = False, len(os.sched_getaffinity(0))
    for words, least in THREADS:
        run = folder.ordered(0, words, [])
        judges_alone = processors == 1 and words.startswith("all ")
        print("`%s`: %d threads" % (words, run.started))
        if run.status != 0 or (run.started < least and not judges_alone) or (least == 0 and run.started):
            print("wrong: %s: %s" % (words, run))
            wrong = True
    return wrong


def worked_cert():
    """The worked certificate of U, as the tests have it."""
    with open(os.path.join(CRATES, "worked_maps", "src", "certs.rt")) as held:
        digits = held.read().split('U_CERT: &str = "\\\n')[1].split('"')[0]
    return bytes.fromhex("".join(digits.split()))


def counts(folder):
    """Tries certificates whose counts no bytes bear out."""
    check = lambda: folder.refused(0, [folder.program, *"check built.wad MAP01 odd.cert".split()])
    cert = worked_cert()
    folder.put("odd.cert", cert)
    whole = check()
    wrong = whole.status != 0
    for what, at, size, cut in COUNTS:
        folder.put("odd.cert", (cert[:at] + b"\xff" * size + cert[at + size:])[:cut])
        run = check()
        is_right = run.status == 1 and run.line.startswith(b"no cert: short ") and run.asked < whole.asked
        print("%s: %s, %d bytes asked for, %d for the whole certificate" % (what, run.line.decode().strip(), run.asked, whole.asked))
        wrong = wrong or not is_right
    return wrong


def main():
    parser = argparse.ArgumentParser(description=__doc__, formatter_class=argparse.RawDescriptionHelpFormatter)
    parser.add_argument("--program", default=os.path.join(CRATES, "doomsight", "out", "doomsight"))
    parser.add_argument("--cc", default="cc")
    given = parser.parse_args()
    with tempfile.TemporaryDirectory() as place:
        folder = Folder(place, given.program, given.cc)
        wrong = orders(folder)
        wrong = printed(folder) or wrong
        print()
        wrong = one_file(folder) or wrong
        wrong = beside(folder) or wrong
        print()
        wrong = threads(folder) or wrong
        print()
        wrong = counts(folder) or wrong
    sys.exit(1 if wrong else 0)


if __name__ == "__main__":
    main()
