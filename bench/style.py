#!/usr/bin/env python3
"""Lines of the documents above 120 characters, sentences above 40 words, and links that lead nowhere.

    bench/style.py [FILE ..]

With no files: README.md, CHANGELOG.md, release/README.md and all of docs/. Tables, blocks of code and headings are
passed over; a span of code counts as one word. A link leads to a file, and behind `#` to a heading of it; those of
release/README.md are tried where it is packed. The status is 1 where there is any.
"""
import glob
import os
import re
import sys

ROOT = os.path.dirname(os.path.dirname(os.path.abspath(__file__)))
WIDTH, WORDS = 120, 40


def paragraphs(lines):
    """The paragraphs and list items of a page: the number of the first line, and the lines."""
    held, begun, fenced = [], 0, False
    for at, line in enumerate(lines + [""], 1):
        fenced ^= line.startswith("```")
        prose = bool(line.strip()) and not fenced and not re.match(r"```| {4}|#|\||!\[|<", line)
        if held and (not prose or re.match(r" *(- |\* |\d+\. )", line)):
            yield begun, held
            held = []
        if prose:
            begun = begun if held else at
            held.append(line)


def anchors(text):
    """What links to the headings of a page have behind `#`."""
    heads = (re.sub(r"\[([^]]*)\]\([^)]*\)|[`*]", r"\1", head) for head in re.findall(r"(?m)^#+ (.*)$", text))
    return {re.sub(r"[^\w\- ]", "", head.lower()).replace(" ", "-") for head in heads}


def astray(name, text):
    """The links of a page that lead nowhere."""
    for link in re.findall(r"\]\(([^)]*)\)", text):
        file, _, place = link.partition("#")
        path = os.path.join(os.path.dirname(name), file) if file else name
        if link.startswith(("http:", "https:")):
            continue
        if not os.path.exists(path) or place and place not in anchors(open(path, encoding="utf8").read()):
            yield link


def main():
    pages = ["README.md", "CHANGELOG.md", "release/README.md"] + sorted(glob.glob("docs/*.md", root_dir=ROOT))
    names = sys.argv[1:] or [os.path.join(ROOT, page) for page in pages]
    bad = 0
    for name in names:
        whole = open(name, encoding="utf8").read()
        for link in [] if name.endswith("release/README.md") else astray(name, whole):
            bad += 1
            print("%s: no %s" % (os.path.relpath(name, ROOT), link))
        for at, held in paragraphs(whole.split("\n")):
            for k, line in enumerate(held):
                if len(line) > WIDTH:
                    bad += 1
                    print("%s:%d: %d characters" % (os.path.relpath(name, ROOT), at + k, len(line)))
            text = re.sub(r"`[^`]*`", "code", " ".join(line.strip() for line in held))
            for sentence in re.split(r"(?<=[.!?])[)*\"]* +(?=[A-Z(*`\[\d]|code|doomsight)", text):
                if len(sentence.split()) > WORDS:
                    bad += 1
                    where = "%s:%d" % (os.path.relpath(name, ROOT), at)
                    print("%s: %d words: %s .." % (where, len(sentence.split()), sentence[:60]))
    sys.exit(1 if bad else 0)


if __name__ == "__main__":
    main()
