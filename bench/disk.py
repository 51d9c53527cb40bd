#!/usr/bin/env python3
"""What stands on a real disk after runs that fail, that are killed, or whose names are links.

    bench/disk.py [--program PATH] [--folder FOLDER] [--rooms 96] [--bulk 24000000] [--moments 50]

OUT, CERT and REPORT hold something old before each run. After it each has to hold just that, or the whole new file: never a part, never nothing. A run
that ends by itself leaves no file beside them. The runs:

- a small disk (a tmpfs of 1 MB, so this part needs root) that is filled up to so many pages, from none to more than are needed;
- outputs that are mounted files (root too), so that their renaming fails: those before it are new then, and the others old;
- names: links of either kind, `./in.wad`, one file named twice, read-only and dangling ones, folders, devices, long names;
- SIGINT and SIGKILL at so many moments of a run of `build` and of `all`: every second one spread over the run, the others over the writing,
  from the first new file on. A killed run may leave new files beside, and the run after it has to get done all the same;
- the WAD by a pipe, and outputs into pipes.

The status is 1 where anything is otherwise. Where the program refuses two names of one file (code 11), both have to be as before.
"""
import argparse
import collections
import os
import shutil
import signal
import stat
import subprocess
import sys
import tempfile
import threading
import time

from growth import row_of_rooms
from wads import wad

HERE = os.path.dirname(os.path.abspath(__file__))
CRATES = os.path.join(HERE, "..", "crates")
OLD = {"out.wad": b"the old wad", "new.cert": b"the old certificate", "report": b"the old report" * 9}
BUILD = "build in.wad MAP01 out.wad --cert new.cert --report report --workers 1"
ALL = "all in.wad out.wad --report report --workers 1"
WRITTEN = {BUILD: ["out.wad", "new.cert", "report"], ALL: ["out.wad", "report"]}
PAGE = 4096
wrong = []


def held(path):
    """The bytes of a file, None where there is none."""
    if not os.path.lexists(path):
        return None
    with open(path, "rb") as file:
        return file.read()


def put(path, content):
    with open(path, "wb") as file:
        file.write(content)


def beside(folder):
    """The new files that were begun in a folder."""
    return {name for name in os.listdir(folder) if ".doomsight-" in name}


def row(*cells):
    print("| " + " | ".join(map(str, cells)) + " |", flush=True)


def head(*cells):
    print()
    row(*cells)
    row(*["---"] * len(cells))


def judge(what, is_right):
    """Keeps what is otherwise than it should be, and gives a word of it."""
    if not is_right:
        wrong.append(what)
        print("wrong: %s" % what, flush=True)
    return is_right


class Runs:
    """Runs of the program in a folder."""

    def __init__(self, program, folder):
        self.program, self.folder = os.path.abspath(program), folder

    def path(self, name):
        return os.path.join(self.folder, name)

    def run(self, words, **more):
        more.setdefault("stdin", subprocess.DEVNULL)
        return subprocess.run([self.program, *words.split()], cwd=self.folder, capture_output=True, timeout=600, **more)

    def start(self, words):
        # Where this bench runs in the background its own SIGINT may be ignored, and so would the program's.
        default = lambda: signal.signal(signal.SIGINT, signal.SIG_DFL)
        none = {"stdin": subprocess.DEVNULL, "stdout": subprocess.DEVNULL, "stderr": subprocess.DEVNULL}
        return subprocess.Popen([self.program, *words.split()], cwd=self.folder, preexec_fn=default, **none)

    def with_old(self):
        for name, content in OLD.items():
            put(self.path(name), content)

    def new(self, words):
        """What a run of which nothing fails writes."""
        self.with_old()
        run = self.run(words)
        judge("%s: %s" % (words, run.stdout), run.returncode == 0)
        return {name: held(self.path(name)) for name in WRITTEN[words]}

    def stand(self, new):
        """Which of the outputs are old and which new; None in the place of one that is neither."""
        found = {name: held(self.path(name)) for name in new}
        return ["old" if found[name] == OLD[name] else "new" if found[name] == content else None for name, content in new.items()]


def rooms_and_bulk(bulk, count=96):
    """A WAD with two maps of so many rooms, and a lump of so many bytes."""
    rooms = row_of_rooms(count)
    return wad("MAP01", rooms + [(b"MAP02", b"")] + rooms + [(b"BULK", os.urandom(bulk))])


def small_disk(program, place, rooms):
    """A disk on which so many pages are free."""
    head("Pages free", "runs", "code 5, all old", "code 0, all new", "otherwise")
    source, small = os.path.join(place, "source"), os.path.join(place, "small")
    os.mkdir(source), os.mkdir(small)
    plain = Runs(program, source)
    put(plain.path("in.wad"), rooms_and_bulk(100_000, rooms))
    for words in (BUILD, ALL):
        new = plain.new(words)
        need = sum(-(-len(content) // PAGE) for content in new.values()) + len(new)
        ways = collections.Counter()
        for free in list(range(0, need + 8, 3)):
            subprocess.run(["mount", "-t", "tmpfs", "-o", "size=1m", "doomsight", small], check=True)
            try:
                runs = Runs(program, small)
                runs.with_old()
                filled = os.statvfs(small).f_bavail - free
                put(runs.path("filler"), bytes(PAGE * filled))
                run = runs.run(words.replace("in.wad", plain.path("in.wad")))
                stand, left = runs.stand(new), beside(small)
                way = (run.returncode, *set(stand)) if len(set(stand)) == 1 and not left else None
                ways[way] += 1
                judge("%s with %d pages free: %s, %s, %s" % (words, free, run.stdout, stand, left), way in ((5, "old"), (0, "new")))
            finally:
                subprocess.run(["umount", small], check=True)
        tries, old, done = sum(ways.values()), ways[5, "old"], ways[0, "new"]
        row("`%s`: 0 to %d" % (words.split()[0], need + 7), tries, old, done, tries - old - done)


def mounted(program, place, rooms):
    """Outputs that are mounted files, which no renaming replaces."""
    head("Mounted", "code, line", "OUT, CERT, REPORT", "new files left")
    folder = os.path.join(place, "mounted")
    os.mkdir(folder)
    runs = Runs(program, folder)
    put(runs.path("in.wad"), rooms_and_bulk(1_000, rooms))
    new = runs.new(BUILD)
    for k, (name, role) in enumerate(zip(new, ("wad", "cert", "report"))):
        runs.with_old()
        subprocess.run(["mount", "--bind", runs.path(name), runs.path(name)], check=True)
        try:
            run = runs.run(BUILD)
        finally:
            subprocess.run(["umount", runs.path(name)], check=True)
        line, stand = run.stdout.decode().strip(), runs.stand(new)
        is_right = run.returncode == 5 and line == "refused: write fault " + role and stand == ["new"] * k + ["old"] * (3 - k)
        judge("%s mounted: %s, %s" % (name, line, stand), is_right and not beside(folder))
        row(name, "%d, `%s`" % (run.returncode, line), ", ".join(map(str, stand)), len(beside(folder)))


def by_nobody():
    os.setgid(65534)
    os.setuid(65534)


def named(program, place):
    """Names that are links, or one file, or no file."""
    head("Names", "code, line", "what stands after it")
    folder = os.path.join(place, "names")
    os.mkdir(folder)
    runs = Runs(program, folder)
    shutil.copy(os.path.join(CRATES, "doomsight", "data", "u.wad"), runs.path("u.wad"))
    source = held(runs.path("u.wad"))
    judge("the worked WAD", runs.run("build u.wad MAP01 built.wad --cert u.cert --workers 1").returncode == 0)
    built, cert = held(runs.path("built.wad")), held(runs.path("u.cert"))
    long = "n" * 251 + ".wad"

    def fresh():
        for name in os.listdir(folder):
            path = runs.path(name)
            shutil.rmtree(path) if os.path.isdir(path) and not os.path.islink(path) else os.remove(path)
        put(runs.path("u.wad"), source)
        put(runs.path("out.wad"), OLD["out.wad"])
        os.chmod(runs.path("out.wad"), 0o640)
        put(runs.path("read_only.wad"), OLD["out.wad"])
        os.chmod(runs.path("read_only.wad"), 0o444)
        os.symlink("out.wad", runs.path("link.wad"))
        os.symlink("not_yet.wad", runs.path("dangling.wad"))
        os.symlink("u.wad", runs.path("link_in.wad"))
        os.link(runs.path("u.wad"), runs.path("hard.wad"))
        os.symlink("round.wad", runs.path("round.wad"))
        os.mkdir(runs.path("folder"))
        os.chmod(folder, 0o755)

    def after(name):
        content = held(runs.path(name))
        for word, known in (("old", OLD["out.wad"]), ("the WAD that was read", source), ("the new WAD", built), ("the certificate", cert), ("nothing", None)):
            if content == known:
                return word
        return None

    def tried(words, looked_at, is_right, more=None):
        fresh()
        run = runs.run(words, **(more or {}))
        stand = [after(name) for name in looked_at.split()]
        line = run.stdout.decode(errors="replace").strip()
        said = "%d, `%s`" % (run.returncode, line[:48])
        kept = "; ".join("%s: %s" % (name[:16], word) for name, word in zip(looked_at.split(), stand))
        judge("%s: %s; %s; %s" % (words, said, kept, beside(folder)), None not in stand and not beside(folder) and is_right(run.returncode, stand))
        row("`%s`" % words.replace(long, "n(251).wad").replace(folder, "FOLDER"), said, kept)

    build = "build u.wad MAP01 %s --workers 1"
    whole = lambda code, stand: code == 0 and stand[0] == "the new WAD"
    nothing = lambda code, stand: code == 5 and stand[0] in ("old", "nothing", "the WAD that was read")
    # Before it reads or writes anything the program asks the system whether two of its names mean one file. Of a name that is too
    # long, and of a link that leads round, the system doesn't tell: then two might be one, and the run ends with a read fault.
    untold = lambda code, stand: code == 4 and stand[0] == "old"
    tried(build % "out.wad", "out.wad", lambda code, stand: whole(code, stand) and stat.S_IMODE(os.stat(runs.path("out.wad")).st_mode) == 0o640)
    tried(build % "link.wad", "link.wad out.wad", lambda code, stand: whole(code, stand) and os.path.islink(runs.path("link.wad")))
    tried(build % "dangling.wad", "not_yet.wad", lambda code, stand: whole(code, stand) and os.path.islink(runs.path("dangling.wad")))
    for name in ("./u.wad", "link_in.wad", "hard.wad", folder + "/u.wad"):
        tried(build % name, "u.wad", lambda code, stand: code == 11 and stand[0] == "the WAD that was read" or code == 0)
    tried(build % "out.wad --cert ./out.wad", "out.wad", lambda code, stand: code == 0 or code == 11 and stand[0] == "old")
    tried(build % "not_yet.wad --cert dangling.wad", "not_yet.wad", lambda code, stand: code == 0 or code == 11 and stand[0] == "nothing")
    tried(build % long, long, whole)
    tried(build % ("n" + long), "out.wad", untold)
    tried(build % "no_folder/out.wad", "out.wad", nothing)
    for name in ("folder", "new/", "out.wad/x", "."):
        tried(build % name, "out.wad", nothing)
    tried(build % "round.wad", "out.wad", untold)
    tried(build % "/dev/null", "out.wad", lambda code, stand: code == 0 and not stat.S_ISREG(os.stat("/dev/null").st_mode))
    tried(build % "/dev/full", "out.wad", nothing)
    tried(build % "out.wad --cert /dev/full", "out.wad", nothing)
    if os.getuid() == 0:
        nobody = {"preexec_fn": by_nobody}
        tried(build % "read_only.wad", "read_only.wad", nothing, nobody)
        tried(build % "new.wad", "new.wad", nothing, nobody)
    fresh()


def signals(program, place, rooms, bulk, moments):
    """A signal at so many moments of a run."""
    head("Run, signal", "killed", "ended before", "all old", "all new", "some of each", "otherwise", "new files left by killed runs")
    folder = os.path.join(place, "signals")
    os.mkdir(folder)
    runs = Runs(program, folder)
    put(runs.path("in.wad"), rooms_and_bulk(bulk, rooms))
    for words in (BUILD, ALL):
        new = runs.new(words)
        begun = time.monotonic()
        runs.run(words)
        took = time.monotonic() - begun
        writing = written_for(runs, words)
        for which in (signal.SIGINT, signal.SIGKILL):
            ways, left, killed = collections.Counter(), 0, 0
            for k in range(moments):
                runs.with_old()
                before = beside(folder)
                child = runs.start(words)
                if k % 2:
                    wait_for_new(folder, before, child)
                    time.sleep(writing * k / moments * 1.1)
                else:
                    time.sleep(took * k / moments)
                child.send_signal(which)
                is_killed = child.wait() < 0
                killed += is_killed
                stand, more = runs.stand(new), beside(folder) - before
                way = None if None in stand else stand[0] if len(set(stand)) == 1 else "some"
                ways[way] += 1
                left += len(more)
                judge("%s, %s, moment %d: %s, %s" % (words, which.name, k, stand, more), way is not None and (is_killed or not more))
            row("`%s`, %s" % (words.split()[0], which.name), killed, moments - killed, ways["old"], ways["new"], ways["some"], ways[None], left)
        again = runs.run(words)
        judge("%s after killed runs" % words, again.returncode == 0 and set(runs.stand(new)) == {"new"})
        for name in beside(folder):
            os.remove(runs.path(name))


def wait_for_new(folder, before, child):
    while not beside(folder) - before and child.poll() is None:
        pass


def written_for(runs, words):
    """For how many seconds a run has new files."""
    runs.with_old()
    child = runs.start(words)
    wait_for_new(runs.folder, set(), child)
    begun = time.monotonic()
    child.wait()
    return time.monotonic() - begun


def pipes(program, place, rooms):
    """The WAD by a pipe, and outputs into pipes."""
    head("Pipes", "code", "as with files")
    folder = os.path.join(place, "pipes")
    os.mkdir(folder)
    runs = Runs(program, folder)
    put(runs.path("x.wad"), rooms_and_bulk(1_000_000, rooms))
    shell = lambda line: subprocess.run(["bash", "-c", line], cwd=folder, env={**os.environ, "D": runs.program}, capture_output=True, timeout=600)
    audit = runs.run("audit x.wad MAP01").stdout
    zero = runs.run("zero x.wad MAP01 clear.wad").stdout
    clear = held(runs.path("clear.wad"))
    runs.run("build x.wad MAP01 built.wad --report report --workers 1")
    built, report = held(runs.path("built.wad")), held(runs.path("report"))
    os.mkfifo(runs.path("fifo"))
    read = []
    reader = threading.Thread(target=lambda: read.append(held(runs.path("fifo"))))
    reader.start()
    cases = [
        ("cat x.wad | $D audit /dev/stdin MAP01", lambda run: run.stdout == audit),
        ("$D audit <(cat x.wad) MAP01", lambda run: run.stdout == audit),
        ("$D audit /dev/stdin MAP01 < x.wad", lambda run: run.stdout == audit),
        ("cat x.wad | $D zero /dev/stdin MAP01 new.wad", lambda run: held(runs.path("new.wad")) == clear),
        ("$D zero x.wad MAP01 /dev/stdout | cat", lambda run: run.stdout == clear + zero),
        ("$D zero x.wad MAP01 >(cat > new2.wad); sleep 1", lambda run: held(runs.path("new2.wad")) == clear),
        ("$D zero x.wad MAP01 fifo", lambda run: (reader.join(), read[0] == clear)[1]),
        ("mkfifo one two; $D build x.wad MAP01 one --report two --workers 1 & cat one > a; cat two > b; wait", lambda run: held(runs.path("a")) == built and held(runs.path("b")) == report),
    ]
    for line, is_same in cases:
        run = shell(line)
        row("`%s`" % line, run.returncode, "yes" if judge("%s: %s" % (line, run.stderr[:99]), run.returncode == 0 and is_same(run) and not beside(folder)) else "no")


def main():
    parser = argparse.ArgumentParser(description=__doc__, formatter_class=argparse.RawDescriptionHelpFormatter)
    parser.add_argument("--program", default=os.path.join(CRATES, "doomsight", "out", "doomsight"))
    parser.add_argument("--folder", help="where the files are made; a folder of its own is made in it")
    parser.add_argument("--rooms", type=int, default=96, help="of each of the two maps of most WADs")
    parser.add_argument("--bulk", type=int, default=24_000_000, help="bytes beside the maps of the WAD whose runs get signals")
    parser.add_argument("--moments", type=int, default=50)
    given = parser.parse_args()
    # Runs have folders of their own for their place, so a name that is told from here would lead nowhere there.
    with tempfile.TemporaryDirectory(dir=given.folder and os.path.abspath(given.folder)) as place:
        os.chmod(place, 0o755)
        if os.getuid() == 0:
            small_disk(given.program, place, given.rooms)
            mounted(given.program, place, given.rooms)
        named(given.program, place)
        signals(given.program, place, given.rooms, given.bulk, given.moments)
        pipes(given.program, place, given.rooms)
    sys.exit(1 if wrong else 0)


if __name__ == "__main__":
    main()
