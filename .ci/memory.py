#!/usr/bin/env python3
"""Compares the places where a source answers want of memory by hand with docs/MEMORY.md, which lists each with its reason.

A line of a source that makes the answer, and doesn't only hand on one of a call below, needs a row with its crate, file and
function there; a row needs such a line. A call of the library that may answer so doesn't count.
"""

import collections
import os
import re
import sys

TOP = os.path.dirname(os.path.dirname(os.path.realpath(__file__)))
ANSWER = re.compile(r"Err\((?:Fail::|Ended::)?Memory\)|ok_or\((?:Fail::)?Memory\)")
# what was refused below is handed on
HANDED_ON = re.compile(r"Memory\)* =>")
FUNCTION = re.compile(r"^\s*(?:pub(?:\(\w+\))? )?fn (\w+)")
ROW = re.compile(r"^\| `(\w+)/(\w+\.rt)` \| `(\w+)` \| (?:(\d+) )?")
# what measures and tries is no part of the program
PROGRAMS = {"eds_bench", "eds_trials", "eds_cases"}


def answered():
    """How often each function of the program's crates makes the answer."""
    found = collections.Counter()
    for crate in sorted(os.listdir(os.path.join(TOP, "crates"))):
        folder = os.path.join(TOP, "crates", crate, "src")
        if crate in PROGRAMS or not os.path.isdir(folder):
            continue
        for name in sorted(it for it in os.listdir(folder) if it.endswith(".rt") and it != "tests.rt"):
            function = ""
            with open(os.path.join(folder, name), encoding="utf-8") as file:
                for line in file:
                    function = FUNCTION.match(line)[1] if FUNCTION.match(line) else function
                    code = line.partition("//")[0]
                    if not HANDED_ON.search(code):
                        found[crate, name, function] += len(ANSWER.findall(code))
    return +found


def listed():
    """How often each function answers so by the page."""
    found = collections.Counter()
    with open(os.path.join(TOP, "docs/MEMORY.md"), encoding="utf-8") as file:
        for line in file:
            row = ROW.match(line)
            if row:
                found[row[1], row[2], row[3]] += int(row[4] or 1)
    return found


def main():
    sources, page = answered(), listed()
    failed = 0
    for place in sorted({*sources, *page}):
        if sources[place] != page[place]:
            failed += 1
            print("%s/%s, %s: the source answers want of memory by hand %d times, docs/MEMORY.md has %d" % (*place, sources[place], page[place]))
    print("memory by hand: %d passed, %d failed" % (sum(sources[it] == page[it] for it in sources), failed))
    return 1 if failed else 0


if __name__ == "__main__":
    sys.exit(main())
