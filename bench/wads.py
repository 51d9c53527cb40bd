"""WAD files as the benches need them: their lumps, the maps in them, a map cut out, and one measured run."""
import json
import os
import struct
import subprocess
import sys

LUMPS = [b"THINGS", b"LINEDEFS", b"SIDEDEFS", b"VERTEXES", b"SEGS", b"SSECTORS", b"NODES", b"SECTORS", b"REJECT", b"BLOCKMAP"]
NEEDED = [b"LINEDEFS", b"SIDEDEFS", b"VERTEXES", b"SECTORS"]
FREEDOOM = ("freedoom1.wad", "freedoom2.wad", "freedm.wad")


def directory(held):
    """The name and the bytes of each lump, in order."""
    count, at = struct.unpack_from("<II", held, 4)
    for k in range(count):
        start, size, name = struct.unpack_from("<II8s", held, at + 16 * k)
        yield name.split(b"\0")[0].upper(), held[start:start + size]


def maps(held):
    """The name and the lumps of each map, in order."""
    entries = list(directory(held))
    for k, (name, _) in enumerate(entries):
        run = []
        for entry in entries[k + 1:]:
            if entry[0] not in LUMPS or entry[0] in [e[0] for e in run]:
                break
            run.append(entry)
        if name not in LUMPS and all(n in [e[0] for e in run] for n in NEEDED):
            yield name.decode(), run


def texts(held):
    """The name and the text of each map of UDMF, in order."""
    entries = list(directory(held))
    for (name, _), (behind, text) in zip(entries, entries[1:]):
        if behind == b"TEXTMAP":
            yield name.decode(), text


def wad(name, run):
    """A WAD with this one map."""
    body, entries, at = b"", b"", 12
    for lump, content in [(name.encode(), b"")] + run:
        entries += struct.pack("<II8s", at, len(content), lump)
        body += content
        at += len(content)
    return struct.pack("<4sII", b"PWAD", len(run) + 1, at) + body + entries


# A process counts the memory of the one that started it as its own peak until it has more, so runs are started by a
# small process that holds no WAD, and by GNU time where it is there, which is smaller still.
STARTER = """
import json, os, sys, tempfile, time
TIME = "/usr/bin/time"
for words in sys.stdin:
    words = json.loads(words)
    with tempfile.NamedTemporaryFile() as out, tempfile.NamedTemporaryFile() as peak:
        if os.path.exists(TIME):
            words = [TIME, "-o", peak.name, "-f", "%M"] + words
        begun = time.monotonic()
        child = os.posix_spawn(words[0], words, os.environ, file_actions=[(os.POSIX_SPAWN_DUP2, out.fileno(), 1)])
        _, status, usage = os.wait4(child, 0)
        wall = time.monotonic() - begun
        out.seek(0)
        line = out.read().decode().strip()
        said = peak.read().split()
    kilobytes = int(said[-1]) if said else usage.ru_maxrss
    seconds = usage.ru_utime + usage.ru_stime
    print(json.dumps([os.waitstatus_to_exitcode(status), line, seconds, kilobytes * 1024 / 1e6, wall]))
    sys.stdout.flush()
"""
starter = subprocess.Popen([sys.executable, "-c", STARTER], stdin=subprocess.PIPE, stdout=subprocess.PIPE, text=True)


class Run:
    """One run of a program: its status, its line, seconds of processor time, peak memory in MB (at least that of the
    process that starts it: 2 with GNU time, 12 without), and seconds from start to end."""

    def __init__(self, words):
        starter.stdin.write(json.dumps(words) + "\n")
        starter.stdin.flush()
        self.status, self.line, self.seconds, self.megabytes, self.wall = json.loads(starter.stdout.readline())


class Certificate:
    """The counts, the groups and the rays of a certificate of any version; in version 1 each sector is a group. In version 3 no pair is
    listed, and `trees` counts the groups whose tree has a byte."""

    def __init__(self, held):
        version, sectors = struct.unpack_from("<HH", held, 4)
        count, at = (sectors, 28) if version == 1 else (struct.unpack_from("<H", held, 12)[0], 22 if version == 3 else 30)
        if version == 3:
            self.triangles, rays = struct.unpack_from("<II", held, at - 8)
            self.listed = 0
        else:
            self.triangles, rays, self.listed, self.trees = struct.unpack_from("<IIII", held, at - 16)
        self.groups = [(a,) for a in range(sectors)]
        if version > 1:
            self.groups, at = groups_from(held, count, at)
        self.by_groups = dict(rays_from(held, rays, at + 8 * self.triangles))
        if version == 3:
            lengths = struct.unpack_from("<%dQ" % count, held, at + 8 * self.triangles + 24 * rays)
            self.trees = sum(1 for length in lengths if length)

    def seen(self):
        """Why two sectors see each other, for each pair of which that is shown: None where a face belongs to both, else a ray, as
        words of the command line."""
        found = {(a, b): None for group in self.groups for a in group for b in group if a < b}
        for (f, g), ray in self.by_groups.items():
            for a in self.groups[f]:
                for b in self.groups[g]:
                    if a != b:
                        found.setdefault((min(a, b), max(a, b)), ray)
        return found


def groups_from(held, count, at):
    """So many groups from this place on, each a list of sectors, and the place behind them."""
    groups = []
    for _ in range(count):
        size, = struct.unpack_from("<H", held, at)
        groups.append(struct.unpack_from("<%dH" % size, held, at + 2))
        at += 2 + 2 * size
    return groups, at


def rays_from(held, count, at):
    """So many rays from this place on, each with its pair."""
    for k in range(count):
        a, b, first, last, x, y, c = struct.unpack_from("<HHHHiiq", held, at + 24 * k)
        sides = ["%d%s" % (s & 32767, "L" if s & 32768 else "R") for s in (first, last)]
        yield (a, b), ",".join(sides + [str(x), str(y), str(c)])


def rejects(table, n, a, b):
    """Whether the bit of the pair is set; a table that is too short has no further bit."""
    place = a * n + b
    return place // 8 < len(table) and table[place // 8] >> place % 8 & 1
