#!/usr/bin/env python3
"""Measures how the time to read an object grows with its members.

  bench/objects.py [PROGRAM]

Makes sheets of one container with 4,095, 8,191, 16,383 and 32,767 entries, the most that there may be, and for each a value
whose members stand in another order than the entries. Prints the least processor time of some turns of `PROGRAM pack` (by
default crates/eds_prog/out/eds_prog) less that of `PROGRAM check` on the same sheet, for each octet of the value's text.
Where reading takes time in proportion to the text, this hardly changes.
"""

import json
import os
import subprocess
import sys
import tempfile

COUNTS = (4_095, 8_191, 16_383, 32_767)
TURNS = 5


def entry_name(number):
    return "entry_%05d" % number


def sheet(count):
    octet = ["IntegerDataType", {"name": "Octet"}, ["IntegerDataEncoding", {"sizeInBits": "8", "encoding": "unsigned"}]]
    entries = [["Entry", {"name": entry_name(i), "type": "Octet"}] for i in range(count)]
    container = ["ContainerDataType", {"name": "All"}, ["EntryList", *entries]]
    return ["PackageFile", ["Package", {"name": "Wide"}, ["DataTypeSet", octet, container]]]


def value(count):
    """The members by turns from the end and from the start."""
    order = [i // 2 if i % 2 else count - 1 - i // 2 for i in range(count)]
    return {entry_name(i): i % 256 for i in order}


def least(words):
    """The least processor time of a command, in seconds."""
    times = []
    for _ in range(TURNS):
        child = subprocess.Popen(words, stdout=subprocess.DEVNULL)
        _, status, usage = os.wait4(child.pid, 0)
        if status != 0:
            sys.exit("%s ends with %d" % (" ".join(words), os.waitstatus_to_exitcode(status)))
        times.append(usage.ru_utime + usage.ru_stime)
    return min(times)


def main():
    program = os.path.abspath(sys.argv[1] if len(sys.argv) > 1 else "crates/eds_prog/out/eds_prog")
    with tempfile.TemporaryDirectory() as folder:
        os.chdir(folder)
        for count in COUNTS:
            with open("sheet.json", "w", encoding="ascii") as file:
                json.dump(sheet(count), file, separators=(",", ":"))
            with open("value.json", "w", encoding="ascii") as file:
                json.dump(value(count), file, separators=(",", ":"))
            octets = os.path.getsize("value.json")
            seconds = least([program, "pack", "Wide/All", "value.json", "sheet.json"]) - least([program, "check", "sheet.json"])
            print("%d members, %d octets: %.1f ms, %.0f ns an octet" % (count, octets, seconds * 1e3, seconds * 1e9 / octets))


if __name__ == "__main__":
    main()
