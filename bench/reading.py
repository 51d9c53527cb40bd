#!/usr/bin/env python3
"""What a reader of the headline laws has to read: the definitions of specs/ that they reach, and how many there are.

    bench/reading.py [--write | --lists]

docs/PROVED.md says in which files these definitions stand, how many they are and how many lines they take; of the first
list it has the names too, and with --lists all names are printed. Here they are found anew, and the status is 1 where
the page says otherwise; with --write that part of the page is written anew.

A headline law is a statement of run_laws that has the premise `WasDone`. It reaches what the text of its definition
names, what the text of that names, and so on, as each file's `use` lines tell the names. `WasDone` itself is a premise
and isn't opened; the words have a list of their own. Not counted are what the code declares, words of the kit's
library, and operators.
"""
import glob
import os
import re
import sys

ROOT = os.path.dirname(os.path.dirname(os.path.abspath(__file__)))
PAGE = os.path.join(ROOT, "docs", "PROVED.md")
BEGIN, END = "<!-- made by bench/reading.py --write -->", "<!-- as far as here -->"
HEAD = re.compile(r"(?:(?:abbrev|unfoldable) pub|pub (?:record|data)) ([^\s:]+)")
WORD = re.compile(r"(?<![\w.'])[A-Za-z_][\w']*(?:\.[A-Za-z_][\w']*)*")
WIDTH = 120
# What the lists are of: their heads, and whose definitions they begin with; those of the laws follow by themselves.
RIGHT = ("What a right table is", ["run_laws/Headline.IsRightTable"])
FOUND = ("Which map a name finds in the bytes of a WAD, and its REJECT",
         ["sight_run/Reading.found_of", "sight_run/Check.reject_bytes"])
WORDS = ("Which order words are", ["sight_run/Words.asked_of"])
HEADS = {
    "CheckedIsRight": "For `check`, which pairs the certificate lists that the bytes of FILE spell",
    "BuiltIsRight": "For `build`, which pairs are listed within a budget",
    "ExactIsRight": "For `build --exact`, what the line says",
    "BuildLeavesLumps": "Which lumps `build` leaves",
    "BuildsLeaveOneWad": "For two builds, what they have in common",
}


def snake(name):
    return re.sub(r"(?<!^)(?=[A-Z])", "_", name).lower()


class Definition:
    """A definition of specs/: where it stands, its text without comments, and how many lines it takes with them."""

    def __init__(self, name, file):
        self.name, self.file, self.lines, self.count = name, file, [], 0

    def words(self):
        """The names in its text."""
        return set(WORD.findall(re.sub(r'"[^"]*"', "", "\n".join(self.lines))))


class File:
    """A file of specs/: its room and name, its definitions, and what its `use` lines call what."""

    def __init__(self, path):
        self.crate, inside = re.match(r".*crates/(\w+)/specs/(.*)\.antt", path).groups()
        self.module = "Rattle.%s.specs.%s" % (self.crate, inside.replace("/", "."))
        *room, name = inside.split("/")
        self.label = "%s/%s" % (snake(room[0]) if room else self.crate, name)
        self.definitions, self.variants, self.uses, self.modules = {}, {}, {}, {}
        self.read(open(path, encoding="utf8").read().split("\n"))

    def read(self, lines):
        comments, now, within = 0, None, ""
        for line in lines:
            # what stands in a module with parameters stands two columns further to the right, and names their types
            within = line if line.startswith("module ") else within if line[:2] in ("", "  ") else ""
            line = line[2:] if within and line.startswith("  ") else line
            head = HEAD.match(line)
            used = re.match(r"use ([\w.]+?)(?:\.\{(.*)\}| as (\w+))$", line)
            if used:
                self.use(*used.groups())
            elif head:
                now = self.definitions.setdefault(head[1], Definition(head[1], self))
                now.count += comments
                now.lines.append(within)
            elif line.startswith(("--", "module ")) or not line.strip():
                now = None
            if now:
                now.count += 1
                if not line.strip().startswith("--"):
                    now.lines.append(line)
                variant = re.match(r"  ([\w']+) :", line)
                if variant and now.lines[1].startswith("pub data"):
                    self.variants[variant[1]] = now
            comments = comments + 1 if line.startswith("--") and not line.startswith("-- ----") else 0

    def defined(self, name):
        """The definition of that name, or of which that is a variant."""
        return self.definitions.get(name) or self.variants.get(name)

    def use(self, module, names, other):
        for name in (names or "").split(", "):
            own, _, called = name.partition(" as ")
            self.uses[called or own] = (module, own)
        if other:
            self.modules[other] = module


class Specs:
    """All files of specs/, by module and by label."""

    def __init__(self):
        paths = sorted(glob.glob(os.path.join(ROOT, "crates/*/specs/**/*.antt"), recursive=True))
        files = [File(path) for path in paths]
        self.by_module, self.by_label = {f.module: f for f in files}, {f.label: f for f in files if f.definitions}

    def at(self, label):
        file, name = label.rsplit(".", 1)
        if file not in self.by_label or name not in self.by_label[file].definitions:
            sys.exit("bench/reading.py: there is no %s any more" % label)
        return self.by_label[file].definitions[name]

    def named(self, file, word):
        """The definition of specs/ that a word means in a file, if it means one."""
        first, _, rest = word.partition(".")
        if first in file.modules:
            module, name = file.modules[first], rest.split(".")[0]
        elif file.defined(first):
            return file.defined(first)
        else:
            module, name = file.uses.get(first, (None, None))
        return module in self.by_module and self.by_module[module].defined(name)

    def reached(self, roots, apart=()):
        """All that the definitions reach, these among it, without what is set apart."""
        found, waiting = set(), list(roots)
        while waiting:
            one = waiting.pop()
            if one not in found and one not in apart:
                found.add(one)
                waiting += [d for d in (self.named(one.file, word) for word in one.words()) if d]
        return found

    def laws(self, premise):
        """The statements of run_laws that have this premise."""
        files = [file for label, file in sorted(self.by_label.items()) if label.startswith("run_laws/")]
        stated = [d for file in files for d in file.definitions.values() if d.lines[1].endswith(d.name + " : Type 0")]
        return [d for d in stated if premise in [self.named(d.file, word) for word in d.words()]]


def lines_of(found):
    return sum(definition.count for definition in found)


def in_order(files):
    """The files, each behind those of them that it uses."""
    placed, left = [], sorted(files, key=lambda file: file.label)
    while left:
        modules = {file.module for file in left}
        ready = [f for f in left if not modules - {f.module} & {module for module, _ in f.uses.values()}] or left
        placed.append(ready[0])
        left.remove(ready[0])
    return placed


def wrapped(first, rest, text):
    """The text in lines of the page's width, words between backticks unbroken."""
    lines, line = [], first
    for word in text.split(" "):
        if len(line) + len(word) + 1 > WIDTH and line.strip():
            lines.append(line.rstrip())
            line = rest
        line += ("" if line.endswith(" ") or not line else " ") + word
    return lines + [line]


def by_room(files):
    """The labels of the files in their order, a room that several in a row are of named once."""
    rooms = []
    for room, name in (file.label.split("/") for file in files):
        if rooms and rooms[-1][0] == room:
            rooms[-1][1].append(name)
        else:
            rooms.append((room, [name]))
    return "; ".join("%s/%s" % (room, ", ".join(names)) for room, names in rooms)


def listed(number, head, found, with_names):
    """An item of the page: which definitions, file by file, in the order in which they stand; or the files alone."""
    many = "%d definition%s, %d lines" % (len(found), "s" if len(found) > 1 else "", lines_of(found))
    files = in_order({definition.file for definition in found})
    if not with_names:
        return wrapped("%d. " % number, "   ", "%s (%s). In %s." % (head, many, by_room(files)))
    lines = wrapped("%d. " % number, "   ", "%s (%s):" % (head, many))
    for file in files:
        names = ["`%s`" % d.name for d in file.definitions.values() if d in found]
        lines += wrapped("   - ", "     ", "%s: %s." % (file.label, ", ".join(names)))
    return lines


def page(with_names=False):
    """What the page has to say, line by line; of each list the names, or of the first one alone."""
    specs = Specs()
    premise, words = specs.at("run_laws/Headline.WasDone"), specs.reached([specs.at(WORDS[1][0])])
    laws = specs.laws(premise)
    whole = {law: specs.reached([law], {premise} | words) - {law} for law in laws}
    lists = [(head, specs.reached([specs.at(label) for label in labels])) for head, labels in (RIGHT, FOUND)]
    lists += [(HEADS.get(law.name, "For `%s`, what it says besides" % snake(law.name)), whole[law]) for law in laws]
    lists, said, lines = lists + [(WORDS[0], words)], set(), []
    places = []
    for head, found in lists:
        new = found - said
        said |= found
        if new:
            places.append(new)
            lines += listed(len(places), head, new, with_names or len(places) == 1)
    first = places[0] | places[1]
    lines += ["", "| What | Lists | Definitions | Lines |", "|---|---|---|---|"]
    rows = [("that set bits are right, of each law that says it", first)]
    rows += [("all of `%s`" % snake(law.name), whole[law]) for law in laws] + [("the words", words)]
    rows += [("`RunEnds`, which needn't be opened", specs.reached([specs.at("sight_run/Run.RunEnds")]))]
    for what, found in rows:
        needed = ", ".join(str(k) for k, new in enumerate(places, 1) if new & found) if found <= said else ""
        lines.append("| %s | %s | %s | %s |" % (what, needed, f"{len(found):,}", f"{lines_of(found):,}"))
    return lines


def is_right(write=False):
    """Whether the page's lists are those that the laws reach; shows what differs, or writes them anew."""
    text = open(PAGE, encoding="utf8").read()
    before, _, rest = text.partition(BEGIN + "\n")
    old, _, behind = rest.partition(END + "\n")
    new = "\n".join(page()) + "\n\n"
    if not behind:
        sys.exit("docs/PROVED.md: the marks of bench/reading.py aren't there")
    if write:
        open(PAGE, "w", encoding="utf8").write(before + BEGIN + "\n" + new + END + "\n" + behind)
    elif old != new:
        for sign, lines, others in (("- ", old, new), ("+ ", new, old)):
            others = set(others.split("\n"))
            print("\n".join(sign + line for line in lines.split("\n") if line not in others))
        print("docs/PROVED.md: its lists aren't those that the laws reach (bench/reading.py --write)")
    return write or old == new


if __name__ == "__main__":
    if "--lists" in sys.argv[1:]:
        print("\n".join(page(with_names=True)))
        sys.exit(0)
    sys.exit(0 if is_right("--write" in sys.argv[1:]) else 1)
