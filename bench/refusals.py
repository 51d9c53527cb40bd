#!/usr/bin/env python3
"""Tells whether anything but a refusal makes want of memory.

    bench/refusals.py

`Memory` has a private field, an `AllocError`: who answers want of memory was handed one. But `AllocError` itself is a
public name of the library. So are `AllocFailed` and `SpawnError`, which turn into one, and have a public field and no
other. And a word of a fault can be made too, or of the system's number for it; and the library for C tells it by a
number, its code 12, and of a line by the greatest number. So here the sources are read, but for those of tests. The
names may stand as types, in an import, as `AllocError::from` and in a pattern, and the kinds of faults that tell want
of memory nowhere but at the edge. The four lines of EDGE are all that may make one. The status is 1 where another line
does.
"""
import glob
import os
import re
import sys

ROOT = os.path.dirname(os.path.dirname(os.path.abspath(__file__)))
TESTS = re.compile(r"\w*_tests|worked_maps|refused_run|run_orders")
# the field itself, and want of memory as the system and clap tell it, and as C is told of a line
EDGE = {
    ("sight_names/src/names.rt", "refused: AllocError,"),
    ("shelf_io/src/refused.rt", "ErrorKind::OutOfMemory => Some(AllocError.into()),"),
    ("order_words/src/wanting.rt", "ErrorKind::OutOfMemory => Some(AllocError.into()),"),
    ("doomsight_c/src/exports.rt", "Err(_) => usize::MAX,"),
}
# `Result<(), AllocError>`, `From<AllocError>`, `(refused: AllocError)`, `AllocError::from`, `Err(AllocError) =>`; `From<AllocFailed<T>>`
HARMLESS = re.compile(
    r"(?<=<)AllocError\b(?=>)|(?<=, )AllocError\b(?=>)|(?<=: )AllocError\b(?=\))|AllocError::from\b|Err\(AllocError\) =>"
    r"|(?<=From<)AllocFailed<\w+>(?=>)|(?<=: )AllocFailed<\w+>(?=\))")
# What can be written without a refusal, and is one or is turned into one.
MAKES = re.compile(r"AllocError|AllocFailed|SpawnError|OutOfMemory|from_raw_os_error|\b(?:two|wide)\(12\b|\bcode: 12\b")


def code(text):
    """The lines of the code, without comments, texts and imports."""
    for out in (r"//[^\n]*|'\"'|\"(?:[^\"\\]|\\.)*\"", r"^[ \t]*(?:pub |ghost )?use [^;]*;"):
        text = re.sub(out, lambda m: "\n" * m[0].count("\n"), text, flags=re.M | re.S)
    return text.split("\n")


def main():
    found, edge = [], set()
    for path in sorted(glob.glob(f"{ROOT}/crates/*/src/**/*.rt", recursive=True)):
        name = os.path.relpath(path, f"{ROOT}/crates")
        if TESTS.fullmatch(name.split("/")[0]):
            continue
        with open(path, encoding="utf-8") as it:
            lines = code(it.read())
        for number, line in enumerate(lines, 1):
            if re.match(r"\s*(ensures|requires)\b", line):
                continue
            if (name, line.strip()) in EDGE:
                edge.add((name, line.strip()))
            elif MAKES.search(HARMLESS.sub("", line)) or name.startswith("doomsight_c/") and "usize::MAX" in line:
                found.append(f"crates/{name}:{number}: {line.strip()}")
    for line in found:
        print(f"makes want of memory: {line}")
    for name, line in EDGE - edge:
        print(f"isn't there: crates/{name}: {line}")
    print(f"refusals: {len(edge)} lines make want of memory of one, {len(found)} of something else")
    return 1 if found or edge != EDGE else 0


if __name__ == "__main__":
    sys.exit(main())
