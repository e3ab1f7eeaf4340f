#!/usr/bin/env python3
"""Measures how long a large sheet takes to be read and judged.

  bench/tree.py [PROGRAM]

Makes a sheet of about 4 MiB with more than 60,000 elements, runs `PROGRAM check SHEET` on it (by default
crates/eds_prog/out/eds_prog), and `python3 -c "import json; json.load(open(SHEET))"` in the same run. Prints the least
processor time of some turns of each, which other work on the machine hardly changes, their ratio, and how many times its own
size the sheet takes in memory.
"""

import os
import subprocess
import sys
import tempfile

LIMIT = 4_194_304
TURNS = 5


def entry(number):
    return '["Entry",{"name":"entry_%06d_of_a_container","type":"Unsigned8"}]' % number


def container(number, entries):
    first = number * entries
    items = ",".join(entry(first + i) for i in range(entries))
    return '["ContainerDataType",{"name":"Container_%04d"},["EntryList",%s]]' % (number, items)


def sheet():
    """The largest sheet of this form that one file may be."""
    front = '["PackageFile",["Package",{"name":"Large"},["DataTypeSet",["IntegerDataType",{"name":"Unsigned8"},["IntegerDataEncoding",{"sizeInBits":"8","encoding":"unsigned"}]]'
    back = "]]]"
    pieces = []
    size = len(front) + len(back)
    number = 0
    while True:
        piece = "," + container(number, 30)
        if size + len(piece) > LIMIT:
            break
        pieces.append(piece)
        size += len(piece)
        number += 1
    return front + "".join(pieces) + back


def run(words):
    """The processor time that a command takes, in seconds, the most memory, in octets, and its status."""
    child = subprocess.Popen(words, stdout=subprocess.DEVNULL)
    _, status, usage = os.wait4(child.pid, 0)
    return usage.ru_utime + usage.ru_stime, usage.ru_maxrss * 1024, os.waitstatus_to_exitcode(status)


def least(words):
    turns = [run(words) for _ in range(TURNS)]
    return min(turn[0] for turn in turns), max(turn[1] for turn in turns), turns[0][2]


def main():
    program = sys.argv[1] if len(sys.argv) > 1 else "crates/eds_prog/out/eds_prog"
    text = sheet()
    with tempfile.TemporaryDirectory() as folder:
        path = os.path.join(folder, "large.json")
        with open(path, "w", encoding="ascii") as file:
            file.write(text)
        ours, memory, status = least([program, "check", path])
        theirs, _, _ = least([sys.executable, "-c", "import json; json.load(open(%r))" % path])
    print("sheet: %d octets, %d elements" % (len(text), text.count("[")))
    print("status: %d" % status)
    print("ours: %.1f ms, json.load: %.1f ms, ratio %.2f" % (ours * 1e3, theirs * 1e3, ours / theirs))
    print("memory: %.1f times the sheet" % (memory / len(text)))


if __name__ == "__main__":
    main()
