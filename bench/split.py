#!/usr/bin/env python3
"""Measures `split` on recordings, beside programs written by hand in Rust that print the same lines.

  bench/split.py [--turns N] [PROGRAM]

PROGRAM (by default crates/eds_prog/out/eds_prog) and the programs of packets.rs and kinds.rs, built here by `rustc -O`, split
the same recording; what they print has to agree octet by octet. The time is the least processor time of N turns (by default 5),
in which the programs take turns, each as often the first, with the ratio of the medians beside it, and the memory the most that a process was seen to
hold. On a machine that shares its processors with others, five turns are too few.

  scalars    packets of twenty scalars (packets.rs), as many as a report takes: with `write!`, and with digits put one by one
  kinds      telemetry packets of 64 kinds, with a length and a check (below)
  octets     16,777,216 packets of one octet, a number alone: lines of 2 to 4 octets, which a report takes
  past       the same, each a container: the report is past its limit after some 3 million packets

A packet of kinds.rs has the primary header of CCSDS 133.0-B (version 0, a type bit, a bit for a second header, the application,
two sequence flags, a count of 14 bits, the length of what follows less one), a body by its application modulo 4, and a
CRC16_CCITT. The bodies: 0, a number of 16 bits and one in two's complement; 1, a count and so many numbers of 16 bits in two's
complement; 2, a mode of 8 bits and a number of 32; 3, eight letters and a number of 8 bits.
"""

import argparse
import binascii
import json
import os
import random
import re
import statistics
import struct
import subprocess
import sys
import tempfile
import time

HERE = os.path.dirname(os.path.abspath(__file__))
SCALARS, KINDS, OCTETS = 193_000, 400_000, 16_777_216


def integer(name, bits, encoding="unsigned"):
    return ["IntegerDataType", {"name": name}, ["IntegerDataEncoding", {"sizeInBits": str(bits), "encoding": encoding}]]


def labels(name, bits, *pairs):
    listing = [["Enumeration", {"label": label, "value": str(value)}] for label, value in pairs]
    return ["EnumeratedDataType", {"name": name}, ["IntegerDataEncoding", {"sizeInBits": str(bits), "encoding": "unsigned"}], ["EnumerationList", *listing]]


def entry(name, of):
    return ["Entry", {"name": name, "type": of}]


def package(name, *types):
    return json.dumps(["PackageFile", ["Package", {"name": name}, ["DataTypeSet", *types]]])


def kinds_sheet():
    header = [entry("Version", "U3"), entry("Type", "Bit"), entry("SecHdr", "Bit"), entry("Apid", "U11"), entry("SeqFlags", "Flags"), entry("SeqCount", "U14")]
    length = ["LengthEntry", {"name": "Length", "type": "U16"}, ["PolynomialCalibrator", ["Term", {"coefficient": "7", "exponent": "0"}], ["Term", {"coefficient": "1", "exponent": "1"}]]]
    check = ["ErrorControlEntry", {"name": "Crc", "type": "U16", "errorControlType": "CRC16_CCITT"}]
    bodies = [
        [entry("Volt", "U16"), entry("Amp", "I16")],
        [entry("Count", "U8"), ["ListEntry", {"name": "Temps", "type": "I16", "listLengthField": "Count"}]],
        [entry("Mode", "Mode"), entry("Rate", "U32")],
        [entry("Name", "Text"), entry("Level", "U8")],
    ]
    kinds = [
        ["ContainerDataType", {"name": f"K{i}", "baseType": "Packet"}, ["ConstraintSet", ["ValueConstraint", {"entry": "Apid", "value": str(i)}]], ["EntryList", *bodies[i % 4]]]
        for i in range(64)
    ]
    return package(
        "Kinds",
        *(integer(f"U{n}", n) for n in (3, 8, 11, 14, 16, 32)),
        integer("I16", 16, "twosComplement"),
        ["BooleanDataType", {"name": "Bit"}, ["BooleanDataEncoding", {"sizeInBits": "1"}]],
        labels("Flags", 2, ("CONT", 0), ("FIRST", 1), ("LAST", 2), ("UNSEG", 3)),
        labels("Mode", 8, ("OFF", 0), ("IDLE", 1), ("NOMINAL", 4), ("SAFE", 5)),
        ["StringDataType", {"name": "Text", "length": "8"}, ["StringDataEncoding", {"encoding": "ASCII"}]],
        ["ContainerDataType", {"name": "Packet", "abstract": "true"}, ["EntryList", *header, length], ["TrailerEntryList", check]],
        *kinds,
    )


def kinds_recording(count):
    made = random.Random(1)
    recording = bytearray()
    for number in range(count):
        apid = made.randrange(64)
        if apid % 4 == 0:
            body = struct.pack(">Hh", made.randrange(1 << 16), made.randrange(-(1 << 15), 1 << 15))
        elif apid % 4 == 1:
            temps = [made.randrange(-(1 << 15), 1 << 15) for _ in range(made.randrange(8))]
            body = struct.pack(f">B{len(temps)}h", len(temps), *temps)
        elif apid % 4 == 2:
            body = struct.pack(">BI", made.choice([0, 1, 4, 5]), made.randrange(1 << 32))
        else:
            body = bytes(made.choice(b"ABCDEFGHIJKLMNOPQRSTUVWXYZ") for _ in range(8)) + bytes([made.randrange(256)])
        octets = struct.pack(">HHH", apid, 0xC000 | number & 0x3FFF, len(body) + 1) + body
        recording += octets + struct.pack(">H", binascii.crc_hqx(octets, 0xFFFF))
    return bytes(recording)


def scalars_sheet():
    with open(os.path.join(HERE, "..", "crates", "eds_bench", "src", "packet_sheet.rt"), encoding="utf-8") as file:
        return re.search('r#"(.*?)"#', file.read(), re.S).group(1)


def build(folder, name):
    program = os.path.join(folder, name)
    subprocess.run(["rustc", "-O", "--edition", "2021", "-o", program, os.path.join(HERE, name + ".rs")], check=True)
    return program


def ended(child):
    """The processor time of a process in seconds, the most memory that it was seen to hold in KiB, and its status."""
    most = 0
    while True:
        # what the kernel says at the end counts the memory of this script, too, from before the program began
        try:
            with open(f"/proc/{child.pid}/status", encoding="ascii") as file:
                most = max([most, *(int(line.split()[1]) for line in file if line.startswith("VmHWM:"))])
        except OSError:
            pass
        pid, status, usage = os.wait4(child.pid, os.WNOHANG)
        if pid:
            child.returncode = os.waitstatus_to_exitcode(status)
            return usage.ru_utime + usage.ru_stime, most, child.returncode
        time.sleep(0.0005)


def run(words, folder):
    """The processor time in seconds, the most memory in MiB, the status and what was printed."""
    out = os.path.join(folder, "out")
    with open(out, "wb") as file:
        seconds, most, status = ended(subprocess.Popen(words, stdout=file))
    with open(out, "rb") as file:
        printed = file.read()
    return seconds, most / 1024, status, printed


def measure(title, folder, turns, commands, status=0):
    """Prints the least time and the most memory of each command, and the ratio of the first one to each."""
    times, memory = {name: [] for name in commands}, {}
    names = list(commands)
    for turn in range(turns):
        printed = set()
        first = turn % len(names)
        for name in names[first:] + names[:first]:
            seconds, most, ended, text = run(commands[name], folder)
            if ended != status:
                sys.exit(f"{name} ends with {ended}")
            times[name].append(seconds)
            memory[name] = max(most, memory.get(name, 0))
            printed.add(text)
        if len(printed) != 1:
            sys.exit(f"{title}: what is printed differs")
    print(f"{title}: {len(printed.pop()):,} octets printed")
    least, middle = min(times["eds"]), statistics.median(times["eds"])
    for name, taken in times.items():
        ratios = f"{least / min(taken):.2f} times as long, by the medians {middle / statistics.median(taken):.2f}"
        print(f"  {name}: {min(taken) * 1000:.0f} ms, {memory[name]:.1f} MiB; eds takes {ratios}")


def main():
    words = argparse.ArgumentParser()
    words.add_argument("--turns", type=int, default=5)
    words.add_argument("program", nargs="?", default="crates/eds_prog/out/eds_prog")
    asked = words.parse_args()
    ours, turns = asked.program, asked.turns
    with tempfile.TemporaryDirectory() as folder:

        def kept(name, content):
            path = os.path.join(folder, name)
            with open(path, "wb") as file:
                file.write(content.encode() if isinstance(content, str) else content)
            return path

        packets, kinds = build(folder, "packets"), build(folder, "kinds")
        recording = os.path.join(folder, "scalars.bin")
        subprocess.run([packets, "make", str(SCALARS), recording], check=True)
        measure("scalars", folder, turns, {
            "eds": [ours, "split", "Bench/Housekeeping", recording, kept("scalars.json", scalars_sheet())],
            "by hand with write!": [packets, "split", recording],
            "by hand with digits": [packets, "split-digits", recording],
        })
        recording = kept("kinds.bin", kinds_recording(KINDS))
        measure("kinds", folder, turns, {
            "eds": [ours, "split", "Kinds/Packet", recording, kept("kinds.json", kinds_sheet())],
            "by hand with write!": [kinds, recording],
        })
        recording = kept("octets.bin", bytes(range(256)) * (OCTETS // 256))
        sheet = kept("octets.json", package("One", integer("U8", 8), ["ContainerDataType", {"name": "Octet"}, ["EntryList", entry("n", "U8")]]))
        measure("octets", folder, turns, {"eds": [ours, "split", "One/U8", recording, sheet]})
        measure("past", folder, turns, {"eds": [ours, "split", "One/Octet", recording, sheet]}, status=7)


if __name__ == "__main__":
    main()
