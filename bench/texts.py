#!/usr/bin/env python3
"""Measures how fast a text and a binary of 64 KiB are read, and checks of it are taken, beside stock Rust.

  bench/texts.py [PROGRAM]

PROGRAM (by default crates/eds_bench/out/eds_bench) reads them with eds_codec, and bench/texts.rs with nothing but Rust's
std; it is built here by `rustc -O`. Both print what they read adds up to, and have to agree. The time of one turn is that
of TURNS turns less that of one, each the least processor time of some runs, in which the two programs take turns.
"""

import os
import subprocess
import sys
import tempfile

SIZE = 65_536
TURNS = 20_000
RUNS = 5


def build(folder):
    source = os.path.join(os.path.dirname(os.path.abspath(__file__)), "texts.rs")
    program = os.path.join(folder, "texts")
    subprocess.run(["rustc", "-O", "--edition", "2021", "-o", program, source], check=True)
    return program


def run(program, words):
    """The processor time of a run, in seconds, and the line that it prints."""
    with subprocess.Popen([program, *words], stdout=subprocess.PIPE, text=True) as process:
        line = process.stdout.read()
        _, status, used = os.wait4(process.pid, 0)
        process.returncode = os.waitstatus_to_exitcode(status)
    if process.returncode != 0:
        sys.exit(f"{program} {' '.join(words)} ended with {process.returncode}")
    return used.ru_utime + used.ru_stime, line


def least(programs, kind, bits, turns):
    """The least time of each program. They have to print the same line."""
    times = [[] for _ in programs]
    for _ in range(RUNS):
        lines = set()
        for program, taken in zip(programs, times):
            seconds, line = run(program, [kind, str(bits), str(turns)])
            taken.append(seconds)
            lines.add(line)
        if len(lines) != 1:
            sys.exit("the programs disagree: " + " and ".join(sorted(repr(line) for line in lines)))
    return [min(taken) for taken in times]


def main():
    ours = sys.argv[1] if len(sys.argv) > 1 else "crates/eds_bench/out/eds_bench"
    with tempfile.TemporaryDirectory() as folder:
        programs = [ours, build(folder)]
        for kind in ("binary", "text", "sum", "xor", "crc8", "crc16"):
            for bits in (0, 1, 7):
                ones = least(programs, kind, bits, 1)
                manies = least(programs, kind, bits, TURNS)
                rates = [SIZE * (TURNS - 1) / (many - one) / 1e6 for one, many in zip(ones, manies)]
                print("%s at bit %d: ours %.0f MB/s, stock Rust %.0f MB/s, ratio of the rates %.2f" % (kind, bits, *rates, rates[0] / rates[1]))


if __name__ == "__main__":
    main()
