#!/usr/bin/env python3
"""Measures how the time to build the names of a sheet, and to look them up, grows with their number.

  bench/names.py [PROGRAM]

Makes sheets of 512 types in 8 files up to 4,096 types in 64 files, the most that a sheet may have. In each file all types but
one are integer types, and the last is a container with one entry of each of them, so that each is looked up once. Runs
`PROGRAM check FILE...` on them (by default crates/eds_prog/out/eds_prog) and prints the least processor time of some turns,
which other work on the machine hardly changes, and that time for each type. Where time grows with the number of names, the
last column stays.
"""

import json
import os
import subprocess
import sys
import tempfile

SHEETS = [(512, 8), (1024, 16), (2048, 32), (4096, 64)]
TURNS = 5


def integer(name):
    return ["IntegerDataType", {"name": name}, ["IntegerDataEncoding", {"sizeInBits": "8", "encoding": "unsigned"}]]


def sheet_file(number, types):
    names = ["Type_%02d_%03d" % (number, i) for i in range(types - 1)]
    entries = [["Entry", {"name": "entry_%03d" % i, "type": name}] for i, name in enumerate(names)]
    container = ["ContainerDataType", {"name": "All_%02d" % number}, ["EntryList"] + entries]
    package = ["Package", {"name": "Bench/Part_%02d" % number}, ["DataTypeSet"] + [integer(name) for name in names] + [container]]
    return json.dumps(["PackageFile", package], separators=(",", ":"))


def write_files(folder, types, files):
    paths = []
    for number in range(files):
        path = os.path.join(folder, "part_%02d.json" % number)
        with open(path, "w", encoding="ascii") as file:
            file.write(sheet_file(number, types // files))
        paths.append(path)
    return paths


def run(words):
    """The processor time that a command takes, in seconds, and its status."""
    child = subprocess.Popen(words, stdout=subprocess.DEVNULL)
    _, status, usage = os.wait4(child.pid, 0)
    return usage.ru_utime + usage.ru_stime, os.waitstatus_to_exitcode(status)


def main():
    program = sys.argv[1] if len(sys.argv) > 1 else "crates/eds_prog/out/eds_prog"
    for types, files in SHEETS:
        with tempfile.TemporaryDirectory() as folder:
            words = [program, "check"] + write_files(folder, types, files)
            turns = [run(words) for _ in range(TURNS)]
        time = min(turn[0] for turn in turns)
        print("%d types in %d files: %.1f ms, %.1f us for each, status %d" % (types, files, time * 1e3, time * 1e6 / types, turns[0][1]))


if __name__ == "__main__":
    main()
