#!/usr/bin/env python3
"""Measures how fast frames are read into trees of values, beside readers written by hand in Rust that build the same trees.

  bench/trees.py [PROGRAM]

PROGRAM (by default crates/eds_bench/out/eds_bench) unpacks or recognises a frame again and again by a sheet, and bench/trees.rs, built here
by `rustc -O`, reads it into a `Vec` of an enum with nothing but std. What they print has to agree. The time of one turn is that
of many turns less that of one, each the least processor time of some runs, in which the two programs take turns. The memory is
the most that a process was seen to hold, less that of one which reads a frame of next to nothing.

  array   a container of one array of 65,536 numbers of 8 bits
  list    a count of 16 bits, and 4,096 containers of a number of 8 and one of 16 bits
  scalars a packet of twenty scalars (packets.rs)
  numbers the packet of scalars, recognised without memory, beside a reader into an array of numbers by a table made at run time
  kinds   a telemetry packet of one of 64 kinds, with a length and a check (split.py), and a list
  fixed   one of the same kinds without a list or a text, so that all of it stands at fixed places
  mixed   sixteen letters, a container of numbers of 32 and 16 bits, a mode, and a count of 8 bits with eight such containers
"""

import os
import struct
import subprocess
import sys
import tempfile

from split import ended, entry, integer, kinds_recording, kinds_sheet, labels, package, scalars_sheet

HERE = os.path.dirname(os.path.abspath(__file__))
RUNS = 5


def container(name, *entries):
    return ["ContainerDataType", {"name": name}, ["EntryList", *entries]]


PAIR = container("Pair", entry("a", "U8"), entry("b", "U16"))


def pairs(field):
    return ["ListEntry", {"name": "items", "type": "Pair", "listLengthField": field}]


NUMBERS = [integer("U8", 8), integer("U16", 16), integer("U32", 32)]


def array_sheet():
    octets = ["ArrayDataType", {"name": "Octets", "dataTypeRef": "U8"}, ["DimensionList", ["Dimension", {"size": "65536"}]]]
    return package("Trees", *NUMBERS, octets, container("Whole", entry("items", "Octets")))


def list_sheet():
    return package("Trees", *NUMBERS, PAIR, container("Whole", entry("count", "U16"), pairs("count")))


def mixed_sheet():
    return package(
        "Trees",
        *NUMBERS,
        labels("Mode", 8, ("OFF", 0), ("IDLE", 1), ("NOMINAL", 4), ("SAFE", 5)),
        ["StringDataType", {"name": "Name", "length": "16"}, ["StringDataEncoding", {"encoding": "ASCII"}]],
        PAIR,
        container("Time", entry("seconds", "U32"), entry("fraction", "U16")),
        container("Whole", entry("name", "Name"), entry("time", "Time"), entry("mode", "Mode"), entry("count", "U8"), pairs("count")),
    )


def some_pairs(count):
    return b"".join(struct.pack(">BH", i % 256, 7919 * i % 65536) for i in range(count))


def packet_of(body):
    """The first packet of the recording of kinds that has such a body."""
    recording, at = kinds_recording(64), 0
    while recording[at + 1] % 4 != body:
        at += 7 + int.from_bytes(recording[at + 4 : at + 6], "big")
    return recording[at : at + 7 + int.from_bytes(recording[at + 4 : at + 6], "big")]


# The first packet of packets.rs.
SCALARS = bytes.fromhex("6c576fac826886b3a5fa4199620355cdcba276b4802181e60546013410bf51ed")

FRAMES = {
    "array": ("Trees/Whole", array_sheet, bytes(range(256)) * 256, 400),
    "list": ("Trees/Whole", list_sheet, struct.pack(">H", 4096) + some_pairs(4096), 2_000),
    "scalars": ("Bench/Housekeeping", scalars_sheet, SCALARS, 500_000),
    "numbers": ("Bench/Housekeeping", scalars_sheet, SCALARS, 500_000),
    "kinds": ("Kinds/Packet", kinds_sheet, kinds_recording(1), 1_000_000),
    "fixed": ("Kinds/Packet", kinds_sheet, packet_of(0), 1_000_000),
    "mixed": ("Trees/Whole", mixed_sheet, b"ATTITUDE CONTROL" + struct.pack(">IHBB", 1_700_000_000, 9, 4, 8) + some_pairs(8), 500_000),
}


def run(words):
    """The processor time in seconds, the most memory in KiB, and the line that is printed."""
    with tempfile.TemporaryFile("w+") as out:
        seconds, memory, status = ended(subprocess.Popen(words, stdout=out))
        out.seek(0)
        line = out.read()
    if status != 0:
        sys.exit(f"{' '.join(words)} ends with {status}: {line}")
    return seconds, memory, line


def least(commands):
    """The least time and the most memory of each. They have to print the same line."""
    taken = [[] for _ in commands]
    for _ in range(RUNS):
        lines = set()
        for words, results in zip(commands, taken):
            seconds, memory, line = run(words)
            results.append((seconds, memory))
            lines.add(line)
        if len(lines) != 1:
            sys.exit("the programs disagree: " + " and ".join(sorted(map(repr, lines))))
    return [(min(it[0] for it in results), max(it[1] for it in results)) for results in taken]


def main():
    program = sys.argv[1] if sys.argv[1:] else "crates/eds_bench/out/eds_bench"
    with tempfile.TemporaryDirectory() as folder:

        def kept(name, content):
            path = os.path.join(folder, name)
            with open(path, "wb") as file:
                file.write(content.encode() if isinstance(content, str) else content)
            return path

        hand = os.path.join(folder, "trees")
        subprocess.run(["rustc", "-O", "--edition", "2021", "-o", hand, os.path.join(HERE, "trees.rs")], check=True)

        def commands(kind, octets, turns):
            type_name, sheet, _, _ = FRAMES[kind]
            frame = kept("frame", octets)
            words = ["recognise"] if kind == "numbers" else []
            return [[program, *words, type_name, frame, kept("sheet", sheet()), str(turns)], [hand, "kinds" if kind == "fixed" else kind, frame, str(turns)]]

        empty = least(commands("list", b"\0\0", 10_000))
        for kind, (_, _, octets, turns) in FRAMES.items():
            ones = least(commands(kind, octets, 1))
            manies = least(commands(kind, octets, turns))
            ours, theirs = [(many[0] - one[0]) / (turns - 1) * 1e6 for many, one in zip(manies, ones)]
            memory = [many[1] - none[1] for many, none in zip(manies, empty)]
            print(f"{kind}: ours {ours:.2f} us, by hand {theirs:.2f} us, ratio {ours / theirs:.2f}; memory {memory[0]:,} and {memory[1]:,} KiB")


if __name__ == "__main__":
    main()
