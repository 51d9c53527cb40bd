#!/usr/bin/env python3
"""Makes a page of a WAD: which bits of its REJECT tables are wrong or missing, what is refused, and pictures of each map.

    release/page.py WAD FOLDER [--program PATH]

FOLDER gets index.html and pictures/, is complete in itself, and can be zipped. The page is read without a network and
without scripts, on narrow screens and dark ones too. A FOLDER that is there has to be empty, or to hold such a page and
nothing else: it is replaced once the new one is whole. The WAD is read once, and isn't changed.

The program is `doomsight` on the PATH, or else that of this checkout, unless --program names one. It is called with
--large as `verify`, `all --exact`, `audit` and `draw`; all that the page says is what these said, but for the set
bits, which are counted here.

The status is 0 where the page is written, whatever it says of the maps; 1 where the program can't be run, or ended as
it never should; 2 for wrong words; 5 where FOLDER can't be written; else what the program ends with where it refuses
the WAD: 3 there is none, 4 it can't be read, 6 it is none, 9 it is above a limit, 12 for want of memory.
"""
import argparse
import concurrent.futures
import hashlib
import os
import re
import shutil
import struct
import subprocess
import sys
import tempfile
from html import escape

MARK = '<meta name="generator" content="doomsight page">'
RUN = b"THINGS LINEDEFS SIDEDEFS VERTEXES SEGS SSECTORS NODES SECTORS REJECT BLOCKMAP".split()
SECTOR = 26
USAGE, UNREAD, UNSOUND = 2, (8, 9), 10

STYLE = """
:root { color-scheme: light dark; --ink: #1b1b1b; --paper: #fff; --soft: #5a5a5a; --edge: #d4d4d4; --band: #f4f4f2;
  --bad: #b3261e; --warn: #7a5200; --good: #1e6b34; --link: #0b5cad }
@media (prefers-color-scheme: dark) { :root { --ink: #e8e8e8; --paper: #181818; --soft: #a9a9a9; --edge: #3c3c3c;
  --band: #222; --bad: #ff8a80; --warn: #ffcc66; --good: #81c995; --link: #8ab4f8 } }
* { box-sizing: border-box }
body { margin: 0 auto; max-width: 84rem; padding: 1rem; font: 1rem/1.5 system-ui, sans-serif; color: var(--ink);
  background: var(--paper) }
h1, h2, h3, code, p, td, li { overflow-wrap: anywhere }
h1 { font-size: 1.6rem; line-height: 1.2; margin: .5rem 0 }
h2 { font-size: 1.3rem; margin: 0 0 .25rem }
a { color: var(--link) }
code { font: .95em/1.4 ui-monospace, monospace }
.soft, .none { color: var(--soft) }
.bad { color: var(--bad); font-weight: 600 }
.warn { color: var(--warn); font-weight: 600 }
.good { color: var(--good) }
table { border-collapse: collapse; width: 100%; margin: 1rem 0 }
caption { text-align: left; color: var(--soft); padding-bottom: .5rem }
th, td { padding: .3rem .7rem; text-align: right; border-bottom: 1px solid var(--edge); vertical-align: top }
th:first-child, td:first-child, th:last-child, td:last-child { text-align: left }
thead th { vertical-align: bottom; border-bottom: 2px solid var(--edge) }
tbody tr:nth-child(even) { background: var(--band) }
dl { display: grid; grid-template-columns: max-content 1fr; gap: .2rem 1rem }
dt { font-weight: 600 }
dd { margin: 0 }
section { border-top: 1px solid var(--edge); margin-top: 2rem; padding-top: 1rem }
.pictures { display: grid; grid-template-columns: repeat(auto-fit, minmax(min(26rem, 100%), 1fr)); gap: 1rem }
figure { margin: 0 }
figure img { display: block; width: 100%; height: auto; max-height: 90vh; object-fit: contain; object-position: left top;
  border: 1px solid var(--edge) }
figcaption { color: var(--soft); padding-top: .25rem }
@media (max-width: 48rem) {
  table, caption, tbody, tr, th, td { display: block; text-align: left }
  thead { position: absolute; width: 1px; height: 1px; overflow: hidden; clip-path: inset(50%) }
  tbody tr { border: 1px solid var(--edge); border-radius: .4rem; margin: .6rem 0; padding: .4rem .6rem }
  tbody th, tbody td { border: 0; padding: .1rem 0; display: grid; grid-template-columns: 9rem 1fr; gap: .6rem }
  tbody td::before { content: attr(data-head); color: var(--soft) }
  tbody tr { display: flex; flex-direction: column }
  tbody td.none { display: none }
  tbody th { display: block; order: -2; font-size: 1.15rem }
  tbody td:last-child { order: -1 }
  dl { grid-template-columns: 1fr }
  dd { margin-bottom: .5rem }
}
@media print { section { break-inside: avoid } }
"""

WORDS = (
    ("wrong", "set bits of two sectors that see each other: a monster is blind there. Each is a fault of the table."),
    ("missing", "clear bits of two sectors that never see each other: they cost the game time, and hide nothing."),
    ("set", "bits for which the game never looks, in the WAD's own table and in the one that doomsight builds."),
    ("short", "a REJECT with too few bytes: the game reads behind its end."),
    ("refused", "a map that isn't in order, so that nothing is said of its table. What is to be mended stands beside it."),
)
HEADS = ("map", "lines", "sectors", "wrong bits", "missing bits", "set in the WAD", "set as built", "what was found")


class Refused(Exception):
    """Why there is no page, and the status that says so."""

    def __init__(self, status, why):
        super().__init__(why)
        self.status = status


class Program:
    """The program, in a folder that holds the WAD as in.wad."""

    def __init__(self, path, folder):
        self.path, self.folder = path, folder

    def run(self, *words):
        """The status, the line and standard error of a call."""
        try:
            ended = subprocess.run([self.path, *words], cwd=self.folder, stdin=subprocess.DEVNULL, capture_output=True, check=False)
        except OSError as fault:
            raise Refused(1, "%s can't be run: %s" % (self.path, fault.strerror)) from fault
        if ended.returncode < 0:
            raise Refused(1, "%s %s was ended by signal %d" % (self.path, words[0], -ended.returncode))
        return ended.returncode, *(held.decode("utf8", "replace").strip() for held in (ended.stdout, ended.stderr))

    def version(self):
        """What the program says that it is."""
        status, line, _ = self.run("--version")
        if status != 0 or not line.startswith("doomsight "):
            raise Refused(1, "%s isn't doomsight: `--version` ends with %d and says `%s`" % (self.path, status, line[:80]))
        return line

    def whole(self, verb, *values, options=(), good=(0,)):
        """The line and standard error of a call; where it ends otherwise than it may, there is no page."""
        status, line, said = self.run(verb, "--large", *options, "--", *values)  # a value may begin with a hyphen
        if status in good:
            return line, said
        if status == USAGE:
            raise Refused(1, "%s is of another version, and doesn't take `%s`: %s" % (self.path, verb, said.partition("\n")[0]))
        raise Refused(status, "doomsight %s: %s" % (verb, line or "memory ran out"))

    def report(self, name):
        """The lines of a report; none where there is none."""
        path = os.path.join(self.folder, name)
        if not os.path.exists(path):
            return []
        with open(path, encoding="ascii") as file:
            return file.read().splitlines()


def tables(path):
    """Of each map's name the number of its sectors and its REJECT, of several maps of one name those of the last."""
    with open(path, "rb") as file:
        held = file.read()
    count, at = struct.unpack_from("<ii", held, 4)
    entries = [struct.unpack_from("<ii8s", held, at + 16 * k) for k in range(count)]
    entries = [(name.split(b"\0")[0].upper(), start, size) for start, size, name in entries]
    found = {}
    for k, (name, _, _) in enumerate(entries):
        run = {}
        for lump, start, size in entries[k + 1:k + 1 + len(RUN)]:
            if lump not in RUN or lump in run:
                break
            run[lump] = held[start:start + size]
        if b"SECTORS" in run:
            found[name.decode("latin1")] = len(run[b"SECTORS"]) // SECTOR, run.get(b"REJECT", b"")
    return found


def set_bits(table):
    """How many bits of a table are set, with their share, as a text; none of a table that is too short."""
    sectors, held = table
    bits = sectors * sectors
    if not bits or 8 * len(held) < bits:
        return ""
    value = int.from_bytes(held[:(bits + 7) // 8], "little") & (1 << bits) - 1
    count = bin(value).count("1")
    return "%s (%.1f %%)" % (grouped(count), 100 * count / bits)


class Map:
    """What the page says of one map."""

    def __init__(self, name, place, found):
        self.name, self.found = name, found
        self.stem = "%03d_%s" % (place, re.sub(r"[^A-Z0-9]", "_", name))
        self.is_refused = found.startswith("refused")
        counts = re.match(r"wrong (\d+) missing (\d+)(?: first (\d+) (\d+) (?:by (\S+)|touch))?$", found)
        self.wrong, self.missing = counts.group(1, 2) if counts else ("", "")
        self.pair = counts.group(3, 4) if counts and counts[3] else None
        self.ray = counts[5] if counts else None
        self.lines = self.sectors = self.before = self.after = ""
        self.audit, self.faults, self.pictures = "", [], []

    def look(self, program, folder):
        """Asks the program of this map, and has its pictures drawn into a folder."""
        good, report = (0, *UNREAD, UNSOUND), self.stem + ".txt"
        # A program of before `audit --report` refuses these words, and tells one fault alone.
        status, self.audit, _ = program.run("audit", "--large", "--report", report, "--", "in.wad", self.name)
        if status not in good:
            self.audit, _ = program.whole("audit", "in.wad", self.name, good=good)
        self.faults = [line for line in program.report(report) if line != "sound"]
        counts = re.match(r"sound lines (\d+) points \d+ sectors (\d+)", self.audit)
        if not counts:
            self.draw(program, folder, "faults", "in.wad", "what is at fault (red)", options=["--faults"], good=(0, *UNREAD))
            return
        self.lines, self.sectors = counts.groups()
        of = "%s lines, %s sectors" % (self.lines, self.sectors)
        self.draw(program, folder, "plan", "in.wad", "plan: " + of)
        self.draw(program, folder, "heat", "new.wad", "how many sectors each may see, by the table as built", options=["--heat"])
        if self.pair:
            self.draw(program, folder, "wrong", "in.wad", "the first wrong pair: sectors %s and %s see each other" % self.pair, self.pair)

    def draw(self, program, folder, kind, source, caption, pair=(), **more):
        """Has one picture drawn; there is none where the map can't be read."""
        file = "%s_%s.svg" % (self.stem, kind)
        path = os.path.join(folder, file)
        program.whole("draw", source, self.name, path, *pair, **more)
        if os.path.exists(path):
            with open(path, encoding="ascii") as picture:
                size = re.search(r' width="(\d+)" height="(\d+)"', picture.readline())
            self.pictures.append((file, caption, size.groups() if size else ("1000", "1000")))

    def verdict(self):
        """What was found, in words, and its class."""
        if self.is_refused:
            return self.found.replace("refused", "refused:", 1), "bad"
        if not self.wrong:
            return "REJECT is short: %s bytes" % self.found.replace("short ", "", 1), "bad"
        if self.wrong != "0":
            return "wrong", "bad"
        return ("right", "good") if self.missing == "0" else ("right, not complete", "good")


def cell(head, text, kind=""):
    if not text:
        return '<td role="cell" class="none">–</td>'
    return '<td role="cell" data-head="%s"><span%s>%s</span></td>' % (head, ' class="%s"' % kind if kind else "", escape(text))


def grouped(number):
    """A number with its thousands apart."""
    return "{:,}".format(int(number)) if number != "" else ""


def row(of):
    """A map's row of the table."""
    verdict, kind = of.verdict()
    texts = [grouped(of.lines), grouped(of.sectors), grouped(of.wrong), grouped(of.missing), of.before, of.after, verdict]
    kinds = ["", "", "bad" if of.wrong not in ("", "0") else "", "", "", "", kind]
    cells = "".join(cell(*parts) for parts in zip(HEADS[1:], texts, kinds))
    return '<tr role="row"><th scope="row" role="rowheader"><a href="#%s">%s</a></th>%s</tr>' % (of.stem, escape(of.name), cells)


def section(of):
    """What is shown of a map: what was found, and its pictures."""
    verdict, kind = of.verdict()
    yield '<section id="%s" aria-labelledby="%s_head">' % (of.stem, of.stem)
    yield '<h2 id="%s_head">%s</h2>' % (of.stem, escape(of.name))
    told = '<span class="%s">%s</span>' % (kind, escape(verdict))
    if of.wrong:
        told += ": wrong bits %s, missing bits %s" % (grouped(of.wrong), grouped(of.missing))
        told += "; set in the WAD %s, as built %s" % (of.before, of.after)
    told += ".<br><code>audit</code>: <code>%s</code>" % escape(of.audit)
    if of.ray:
        told += "<br>A line of sight of the first wrong pair, as <code>ray</code> and <code>trace</code> take it: "
        told += "<code>%s</code>" % escape(of.ray)
    elif of.pair:
        told += "<br>A face belongs to both sectors of the first wrong pair."
    yield "<p>%s</p>" % told
    if of.faults:
        yield "<details%s><summary>What <code>audit</code> reports: %d lines</summary>" % (" open" * (len(of.faults) <= 20), len(of.faults))
        yield "<ul>%s</ul></details>" % "".join("<li><code>%s</code></li>" % escape(fault) for fault in of.faults)
    yield '<div class="pictures">'
    for file, caption, size in of.pictures:
        alt = escape("%s, %s" % (of.name, caption))
        yield ('<figure><a href="pictures/%s" title="%s: open the picture by itself"><img src="pictures/%s" width="%s" height="%s" '
               'loading="lazy" alt="%s"></a><figcaption>%s</figcaption></figure>' % (file, alt, file, *size, alt, escape(caption)))
    yield "</div>"
    if not of.pictures:
        yield '<p class="soft">There is no picture of it, since the map can\'t be read.</p>'
    yield '<p><a href="#top">All maps</a></p></section>'


def summary(maps):
    """The sentences that say what is to be done."""
    for kind, told in (
        ("wrong", [of for of in maps if of.wrong not in ("", "0")]),
        ("short", [of for of in maps if not of.wrong and not of.is_refused]),
        ("refused", [of for of in maps if of.is_refused]),
    ):
        if told:
            named = ", ".join('<a href="#%s">%s</a>' % (of.stem, escape(of.name)) for of in told)
            yield '<p><span class="bad">%s: %d of %d maps.</span> %s</p>' % (kind, len(told), len(maps), named)
    if maps and all(of.wrong == "0" for of in maps):
        yield '<p class="good">No map has a wrong bit, none is short, and none is refused.</p>'
    if not maps:
        yield '<p class="bad">The WAD has no map of Doom\'s or Hexen\'s format.</p>'


def page(name, size, digest, version, line, said, maps):
    """The lines of the page."""
    yield '<!doctype html>\n<html lang="en">\n<head>\n<meta charset="utf-8">'
    yield '<meta name="viewport" content="width=device-width, initial-scale=1">'
    yield MARK
    yield "<title>REJECT of %s</title>\n<style>%s</style>\n</head>" % (escape(name), STYLE)
    yield '<body id="top">\n<main>\n<h1>REJECT of %s</h1>' % escape(name)
    yield '<p class="soft">%s bytes, SHA-256 <code>%s</code>. By %s: <code>%s</code></p>' % (grouped(size), digest, escape(version), escape(line))
    yield from summary(maps)
    if said:
        yield '<p>Besides it said:</p>\n<ul class="warn">'
        yield from ("<li>%s</li>" % escape(part) for part in said)
        yield "</ul>"
    if maps:
        yield '<table role="table"><caption>The maps of the WAD, in its order</caption>\n<thead role="rowgroup"><tr role="row">'
        yield "".join('<th scope="col" role="columnheader">%s</th>' % head for head in HEADS)
        yield '</tr></thead>\n<tbody role="rowgroup">'
        yield from map(row, maps)
        yield "</tbody></table>"
    yield "<h2>Words</h2>\n<dl>"
    yield from ("<dt>%s</dt><dd>%s</dd>" % words for words in WORDS)
    yield "</dl>"
    yield "<p>A picture opens by itself where it is clicked. Then the pointer shows the numbers of its lines and sectors.</p>"
    for of in maps:
        yield from section(of)
    yield "</main>\n</body>\n</html>"


def tell(what):
    """Says on a terminal how far it is."""
    if sys.stderr.isatty():
        print("page.py: " + what, file=sys.stderr)


def asked(program, folder):
    """The line of `verify`, what it says besides, and the maps, with their pictures drawn into a folder."""
    tell("verify")
    line, said = program.whole("verify", "in.wad", options=["--report", "verify.txt"], good=(0, 1))
    tell("all")
    program.whole("all", "in.wad", "new.wad", options=["--exact", "--report", "all.txt"])
    told = [line.split(" ", 1) for line in program.report("verify.txt")]
    maps = [Map(name, place, found) for place, (name, found) in enumerate(told, 1)]
    old, new = (tables(os.path.join(program.folder, name)) for name in ("in.wad", "new.wad"))
    for of in maps:
        none = 0, b""
        of.before = set_bits(old.get(of.name, none))
        of.after = "" if of.is_refused else set_bits(new.get(of.name, none))
    with concurrent.futures.ThreadPoolExecutor(os.cpu_count()) as crew:
        for of, _ in zip(maps, crew.map(lambda of: of.look(program, folder), maps)):
            tell("%s is drawn" % of.name)
    refusals = {"%s refused" % of.name for of in maps if of.is_refused}
    rest = [part for part in said.splitlines() if part and not any(refusal in part for refusal in refusals)]
    return line, rest, maps


def is_page(folder):
    """Whether a folder is empty, or has a page of this script and nothing else."""
    held = set(os.listdir(folder))
    if not held:
        return True
    if held != {"index.html", "pictures"}:
        return False
    with open(os.path.join(folder, "index.html"), encoding="utf8", errors="replace") as file:
        is_marked = MARK in file.read(1000)
    return is_marked and all(name.endswith(".svg") for name in os.listdir(os.path.join(folder, "pictures")))


def read(wad):
    """The bytes of the WAD."""
    try:
        with open(wad, "rb") as file:
            return file.read()
    except FileNotFoundError as fault:
        raise Refused(3, "%s: %s" % (wad, fault.strerror)) from fault
    except OSError as fault:
        raise Refused(4, "%s: %s" % (wad, fault.strerror)) from fault


def put(fresh, folder, old):
    """Gives a new folder its place; what was there goes to `old`, or stays."""
    if os.path.lexists(folder):
        os.rename(folder, old)
    try:
        os.rename(fresh, folder)
    except OSError:
        if os.path.lexists(old):
            os.rename(old, folder)
        raise


def make(wad, folder, path):
    """Writes the page beside the folder, and then puts it into its place."""
    folder = os.path.realpath(folder)
    if os.path.lexists(folder) and not (os.path.isdir(folder) and is_page(folder)):
        raise Refused(5, "%s is there, and is no page of this script: name another folder" % folder)
    held = read(wad)
    above = os.path.dirname(folder)
    with tempfile.TemporaryDirectory() as work, tempfile.TemporaryDirectory(dir=above, prefix=".page-") as beside:
        with open(os.path.join(work, "in.wad"), "wb") as file:
            file.write(held)
        fresh = os.path.join(beside, "new")
        os.makedirs(os.path.join(fresh, "pictures"))
        program = Program(path, work)
        version = program.version()
        line, said, maps = asked(program, os.path.join(fresh, "pictures"))
        lines = page(os.path.basename(wad), len(held), hashlib.sha256(held).hexdigest(), version, line, said, maps)
        with open(os.path.join(fresh, "index.html"), "w", encoding="utf8", errors="replace") as file:
            file.writelines(part + "\n" for part in lines)
        put(fresh, folder, os.path.join(beside, "old"))
    return line


def found_program(named):
    """The program that is named, or that of the PATH, or that of the checkout."""
    own = os.path.join(os.path.dirname(os.path.abspath(__file__)), "..", "crates", "doomsight", "out", "doomsight")
    path = named or shutil.which("doomsight") or own
    if not os.access(path, os.X_OK) or os.path.isdir(path):
        raise Refused(1, "there is no program %s" % (named or "doomsight on the PATH; name it by --program"))
    return os.path.abspath(path)


def main():
    words = argparse.ArgumentParser(usage="page.py WAD FOLDER [--program PATH]", description=__doc__.partition("\n")[0])
    words.add_argument("wad", metavar="WAD")
    words.add_argument("folder", metavar="FOLDER", help="gets index.html and pictures/")
    words.add_argument("--program", metavar="PATH", help="the program doomsight; else that of the PATH")
    words = words.parse_args()
    try:
        print(make(words.wad, words.folder.rstrip("/") or "/", found_program(words.program)))
        return 0
    except Refused as refused:
        status, why = refused.status, str(refused)
    except OSError as fault:
        status, why = 5, "%s can't be written: %s" % (words.folder, fault.strerror)
    except KeyboardInterrupt:
        status, why = 130, "interrupted; nothing was written"
    print("page.py: " + why, file=sys.stderr)
    return status


if __name__ == "__main__":
    sys.exit(main())
