#!/usr/bin/env python3
"""Measures how many packets of twenty entries are unpacked in a second, beside a reader written by hand in Rust.

  bench/packets.py [PROGRAM]
  bench/packets.py json [PROGRAM]

PROGRAM (by default crates/eds_bench/out/eds_bench) compiles a sheet and unpacks packets by it. bench/packets.rs, which
says how a packet is spelled, reads the same packets with nothing but Rust's std; it is built here by `rustc -O`. Both
print what the values that they read add up to, and have to agree. The time for one packet is that of COUNT packets less
that of one, each the least processor time of some turns, in which the two programs take turns; so the start and the sheet
do not count. Making the packets and adding up the values count for both.

With `json`, each program also writes the packets as JSON, by `to_json` and by `write!`, and they have to agree on the
octets of all texts and on the last one. The time for one text is that of COUNT packets with JSON less that without.
"""

import os
import subprocess
import sys
import tempfile

COUNT = 1_000_000
TURNS = 5


def build(folder):
    source = os.path.join(os.path.dirname(os.path.abspath(__file__)), "packets.rs")
    program = os.path.join(folder, "packets")
    subprocess.run(["rustc", "-O", "--edition", "2021", "-o", program, source], check=True)
    return program


def run(words):
    """The processor time of a run, in seconds, and the line that it prints."""
    child = subprocess.Popen(words, stdout=subprocess.PIPE, text=True)
    line = child.stdout.read()
    _, status, usage = os.wait4(child.pid, 0)
    if status != 0:
        sys.exit("%s ends with %d" % (" ".join(words), os.waitstatus_to_exitcode(status)))
    return usage.ru_utime + usage.ru_stime, line


def least(programs, *words):
    """The least time of each program. They have to print the same line."""
    times = [[] for _ in programs]
    for _ in range(TURNS):
        lines = set()
        for program, taken in zip(programs, times):
            seconds, line = run([program, *words])
            taken.append(seconds)
            lines.add(line)
        if len(lines) != 1:
            sys.exit("the programs disagree: " + " and ".join(sorted(repr(line) for line in lines)))
    print(lines.pop(), end="")
    return [min(taken) for taken in times]


def main():
    words = sys.argv[1:]
    json = words[:1] == ["json"]
    what = "texts" if json else "packets"
    named = words[1:] if json else words
    ours = named[0] if named else "crates/eds_bench/out/eds_bench"
    with tempfile.TemporaryDirectory() as folder:
        programs = [ours, build(folder)]
        firsts = least(programs, str(COUNT) if json else "1")
        manies = least(programs, *(["json"] if json else []), str(COUNT))
    ours, theirs = [(many - first) / COUNT for first, many in zip(firsts, manies)]
    print("ours: %.0f %s a second, %.0f ns for each" % (1 / ours, what, ours * 1e9))
    print("by hand: %.0f %s a second, %.0f ns for each" % (1 / theirs, what, theirs * 1e9))
    print("ratio of the times: %.1f" % (ours / theirs))


if __name__ == "__main__":
    main()
