#!/usr/bin/env python3
"""Holds docs/TRUST.md to crates/*/specs: every file of definitions is named in it once, and the lines that it
counts are those that the files have."""
import pathlib
import re
import sys

PAGE = pathlib.Path("docs/TRUST.md")
ROW = re.compile(r"^\| `(\w+)` \| ([^|]*) \| (\d+) \|$", re.M)
TOTAL = re.compile(r"^\| in all \| \| (\d+) \|$", re.M)


def lines(crate, names):
    texts = (pathlib.Path("crates", crate, "specs", f"{name}.antt") for name in names)
    return sum(len(text.read_text("utf-8").splitlines()) for text in texts)


def faults(page):
    named, total = {}, 0
    for crate, names, count in ROW.findall(page):
        names = re.findall(r"\w+", names)
        named.setdefault(crate, []).extend(names)
        try:
            found = lines(crate, names)
        except FileNotFoundError as error:
            yield f"{error.filename} is named and not there"
            continue
        total += found
        if found != int(count):
            yield f"{crate}: {', '.join(names)} have {found} lines, not {count}"
    if TOTAL.findall(page) != [str(total)]:
        yield f"the definitions have {total} lines in all"
    for spec in sorted(pathlib.Path("crates").glob("*/specs/*.antt")):
        crate, name = spec.parts[1], spec.stem
        times = named.get(crate, []).count(name)
        if name != "Lib" and times != 1:
            yield f"{spec} is named {times} times"


def main():
    found = list(faults(PAGE.read_text("utf-8")))
    for fault in found:
        print(f"trust: {fault}", file=sys.stderr)
    if found:
        sys.exit(1)
    print("trust: docs/TRUST.md counts every definition")


if __name__ == "__main__":
    main()
