#!/usr/bin/env python3
"""Measures how the time to find that no two containers of a family overlap grows with the family.

  bench/families.py [PROGRAM]
  bench/families.py read [PROGRAM]

Makes sheets with one family of 64 to 512 containers, the most that a family may have, under an abstract container that an entry
names. In each shape one of several things tells the containers apart:

  number   one entry has another number in each
  range    one entry lies in another interval in each
  three    three entries, each of which has eight numbers at most; no two containers have the same three
  packet   four entries of an abstract container under the base, of which the last has another number in each
  levels   eight abstract containers by one entry, and those below each by another
  overlap  nothing: all overlap, so that the first two are the answer

Runs `PROGRAM check FILE` on them (by default crates/eds_prog/out/eds_prog) and prints the least processor time of some turns,
which other work on the machine hardly changes, and that time for each container. Where the time grows with the family, the
last column stays.

With `read`, PROGRAM (by default crates/eds_bench/out/eds_bench) reads and recognises a frame of the last container of a family of
4 and of one of 512, where each container wants one number on one path (number, packet, levels) and where it wants an interval
(range) or no path tells all apart (three). The time of one turn is that of many turns less that of one. Where the choice goes by
look-up, the two families take the same time.
"""

import json
import os
import struct
import subprocess
import sys
import tempfile

SIZES = [64, 128, 256, 512]
TURNS = 5
READS = 200_000


def entries(*names):
    return ["EntryList"] + [["Entry", {"name": name, "type": "Number"}] for name in names]


def value(entry, number):
    return ["ValueConstraint", {"entry": entry, "value": str(number)}]


def interval(entry, low, high):
    limits = {"rangeType": "inclusiveMinInclusiveMax", "min": str(low), "max": str(high)}
    return ["RangeConstraint", {"entry": entry}, ["MinMaxRange", limits]]


def container(name, base, constraints, *children, abstract=False):
    attributes = {"name": name}
    if base:
        attributes["baseType"] = base
    if abstract:
        attributes["abstract"] = "true"
    tried = [["ConstraintSet"] + constraints] if constraints else []
    return ["ContainerDataType", attributes] + tried + list(children)


def base(*names):
    return container("Base", None, [], entries(*names), abstract=True)


def number(size):
    return [base("key")] + [container("C%d" % i, "Base", [value("key", i)]) for i in range(size - 1)]


def ranges(size):
    return [base("key")] + [container("C%d" % i, "Base", [interval("key", 10 * i, 10 * i + 9)]) for i in range(size - 1)]


def three(size):
    def by_three(i):
        return [value("a", i % 8), value("b", i // 8 % 8), value("c", i // 64)]

    return [base("a", "b", "c")] + [container("C%d" % i, "Base", by_three(i)) for i in range(size - 1)]


def packet(size):
    def by_four(i):
        return [value("version", 0), value("type", 0), value("header", 1), value("apid", i)]

    top = [base("version"), container("Packet", "Base", [], entries("type", "header", "apid"), abstract=True)]
    return top + [container("C%d" % i, "Packet", by_four(i)) for i in range(size - 2)]


def levels(size):
    groups = [container("G%d" % g, "Base", [value("key", g)], entries("sub"), abstract=True) for g in range(8)]
    return [base("key")] + groups + [container("C%d" % i, "G%d" % (i % 8), [value("sub", i // 8)]) for i in range(size - 9)]


def overlap(size):
    return [base("key")] + [container("C%d" % i, "Base", []) for i in range(size - 1)]


SHAPES = [("number", number, 0), ("range", ranges, 0), ("three", three, 0), ("packet", packet, 0), ("levels", levels, 0), ("overlap", overlap, 1)]


def sheet_of(containers):
    encoding = ["IntegerDataEncoding", {"sizeInBits": "16", "encoding": "unsigned"}]
    types = [["IntegerDataType", {"name": "Number"}, encoding]] + containers
    types.append(container("Use", None, [], ["EntryList", ["Entry", {"name": "body", "type": "Base"}]]))
    return json.dumps(["PackageFile", ["Package", {"name": "Bench"}, ["DataTypeSet"] + types]], separators=(",", ":"))


def run(words):
    """The processor time that a command takes, in seconds, its status and what it writes."""
    child = subprocess.Popen(words, stdout=subprocess.PIPE)
    report = child.stdout.read().decode("ascii")
    _, status, usage = os.wait4(child.pid, 0)
    return usage.ru_utime + usage.ru_stime, os.waitstatus_to_exitcode(status), report.strip()


def last_frame(shape, size):
    """The numbers of the entries of the last container of a family."""
    last = {
        "number": lambda: [size - 2],
        "range": lambda: [10 * (size - 2)],
        "three": lambda: [(size - 2) % 8, (size - 2) // 8 % 8, (size - 2) // 64],
        "packet": lambda: [0, 0, 1, size - 3],
        "levels": lambda: [(size - 10) % 8, (size - 10) // 8],
    }
    return b"".join(struct.pack(">H", number) for number in last[shape]())


def turn(words):
    """The least processor time of one of many turns, in seconds."""

    def least(turns):
        took = [run([*words, str(turns)]) for _ in range(TURNS)]
        if took[0][1]:
            sys.exit("%s ends with %d" % (" ".join(words), took[0][1]))
        return min(one[0] for one in took)

    return (least(READS) - least(1)) / (READS - 1)


def read(program):
    for name, make, wanted in SHAPES:
        if wanted:
            continue
        for words in [[], ["recognise"]]:
            times = []
            for size in [12 if name == "levels" else 4, 512]:
                with tempfile.TemporaryDirectory() as folder:
                    sheet, frame = os.path.join(folder, "sheet.json"), os.path.join(folder, "frame")
                    with open(sheet, "w", encoding="ascii") as file:
                        file.write(sheet_of(make(size)))
                    with open(frame, "wb") as file:
                        file.write(last_frame(name, size))
                    times.append(turn([program, *words, "Bench/Base", frame, sheet]))
            print("%s, %s: %.2f us and %.2f us, ratio %.2f" % (name, "recognised" if words else "read", times[0] * 1e6, times[1] * 1e6, times[1] / times[0]))


def main():
    if sys.argv[1:2] == ["read"]:
        return read(sys.argv[2] if sys.argv[2:] else "crates/eds_bench/out/eds_bench")
    program = sys.argv[1] if len(sys.argv) > 1 else "crates/eds_prog/out/eds_prog"
    for name, make, wanted in SHAPES:
        for size in SIZES:
            with tempfile.TemporaryDirectory() as folder:
                path = os.path.join(folder, "sheet.json")
                with open(path, "w", encoding="ascii") as file:
                    file.write(sheet_of(make(size)))
                turns = [run([program, "check", path]) for _ in range(TURNS)]
            time = min(turn[0] for turn in turns)
            _, status, report = turns[0]
            note = "" if status == wanted else ", " + report
            print("%s, %d containers: %.1f ms, %.1f us for each, status %d%s" % (name, size, time * 1e3, time * 1e6 / size, status, note))


if __name__ == "__main__":
    main()
