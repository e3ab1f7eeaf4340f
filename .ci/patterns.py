#!/usr/bin/env python3
"""Reads and writes every pattern of every form of 4 to 12 bits, and holds the numbers to sums of places made here.

  .ci/patterns.py [PROGRAM]

PROGRAM is the built program (by default crates/eds_prog/out/eds_prog). Of each form a sheet has a container with one entry
for each pattern: one frame holds them all. Some of the patterns that are no number are read one by one, and must be
refused; of the numbers of a form the canonical pattern is written, and the numbers beside the least and the greatest are
refused.
"""

import json
import os
import subprocess
import sys
import tempfile
from concurrent.futures import ThreadPoolExecutor

TOP = os.path.dirname(os.path.dirname(os.path.abspath(__file__)))
BINARY = ["unsigned", "twosComplement", "signMagnitude", "onesComplement"]
DIGITS = {"packedBCD": 4, "BCD": 8}


def forms():
    """Each encoding, size and order of octets that a form of 4 to 12 bits has."""
    for encoding in BINARY + list(DIGITS):
        for bits in range(4, 13):
            if bits % DIGITS.get(encoding, 1) == 0:
                yield encoding, bits, "bigEndian"
                if bits % 8 == 0:
                    yield encoding, bits, "littleEndian"


def number_of(encoding, bits, pattern):
    """What a pattern stands for, place by place, or None."""
    if encoding in DIGITS:
        width = DIGITS[encoding]
        digits = [pattern >> at & 2**width - 1 for at in range(0, bits, width)]
        return None if max(digits) > 9 else sum(it * 10**at for at, it in enumerate(digits))
    places = [2**at * (pattern >> at & 1) for at in range(bits)]
    if encoding == "unsigned" or not places[-1]:
        return sum(places)
    taken = {"twosComplement": 2 ** (bits - 1), "onesComplement": 2 ** (bits - 1) - 1}
    return sum(places[:-1]) - taken[encoding] if encoding in taken else -sum(places[:-1])


def frame_of(bits, patterns):
    """The patterns side by side, filled with zeros to whole octets, as hex text."""
    text = "".join(format(it, "0%db" % bits) for it in patterns)
    text += "0" * (-len(text) % 8)
    return format(int(text, 2), "0%dx" % (len(text) // 4))


def sheet_of(encoding, bits, order, count):
    form = ["IntegerDataEncoding", {"sizeInBits": str(bits), "encoding": encoding, "byteOrder": order}]
    entries = [["Entry", {"name": "e%d" % at, "type": "N"}] for at in range(count)]
    types = [["IntegerDataType", {"name": "N"}, form], ["ContainerDataType", {"name": "All"}, ["EntryList", *entries]]]
    return ["PackageFile", ["Package", {"name": "P"}, ["DataTypeSet", *types]]]


def runs(encoding, bits, order):
    """Each a command, its input, and the wanted status and report."""
    numbers = [number_of(encoding, bits, it) for it in range(2**bits)]
    told = {it: n for it, n in enumerate(numbers) if n is not None}
    size = bits * len(told)
    value = {"$type": "P/All", **{"e%d" % at: n for at, n in enumerate(told.values())}}
    line = json.dumps(value, sort_keys=True, separators=(",", ":"))
    yield "unpack P/All", frame_of(bits, told), (0, "%s\nbits %d\n" % (line, size))
    canonical = frame_of(bits, [0 if n == 0 else it for it, n in told.items()])
    yield "pack P/All", line, (0, "%s\nbits %d\n" % (canonical, size))
    for pattern in [it for it, n in enumerate(numbers) if n is None][:: {4: 1, 8: 7, 12: 97}.get(bits, 1)]:
        yield "unpack P/N", frame_of(bits, [pattern]), (3, "fault BadDigit at $\n")
    for n in (min(told.values()) - 1, max(told.values()) + 1):
        yield "pack P/N", str(n), (3, "fault OutOfRange at $\n")


def main():
    program = os.path.abspath(sys.argv[1]) if sys.argv[1:] else os.path.join(TOP, "crates/eds_prog/out/eds_prog")

    def answer(words, folder, text):
        name = os.path.join(folder, "input")
        with open(name, "w", encoding="ascii") as file:
            file.write(text)
        ran = subprocess.run([program, *words.split(), name, os.path.join(folder, "sheet")], env={}, check=False,
                             stdin=subprocess.DEVNULL, stdout=subprocess.PIPE)  # fmt: skip
        return ran.returncode, ran.stdout.decode()

    def tried(form):
        with tempfile.TemporaryDirectory(prefix="eds-patterns-") as folder:
            encoding, bits, _ = form
            count = len([it for it in range(2**bits) if number_of(encoding, bits, it) is not None])
            with open(os.path.join(folder, "sheet"), "w", encoding="ascii") as file:
                json.dump(sheet_of(*form, count), file)
            return [(form, words, text, answer(words, folder, text), wanted) for words, text, wanted in runs(*form)]

    with ThreadPoolExecutor(os.cpu_count()) as pool:
        done = [it for found in pool.map(tried, forms()) for it in found]
    failed = [it for it in done if it[3] != it[4]]
    for form, words, text, got, wanted in failed:
        print("patterns: %s: %s of %.60s: %.200r in place of %.200r" % (form, words, text, got, wanted))
    print("patterns: %d passed, %d failed" % (len(done) - len(failed), len(failed)))
    return 1 if failed else 0


if __name__ == "__main__":
    sys.exit(main())
