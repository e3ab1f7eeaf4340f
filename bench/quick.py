#!/usr/bin/env python3
"""Measures what programs that are built without proof cost in speed, beside the proved one.

  bench/quick.py [--turns N] [PROGRAM]

PROGRAM (by default crates/eds_prog/out/eds_prog) is the proved one of these sources. The two programs of tools/quick are made here
of the same sources: the first, which is compiled at -O0, and the fast one, at -O1. These two check each access as they run. All
three take turns, each as often the first, and have to print the same. The time is the least processor time of N turns (by
default 9), with its ratio to that of the proved one, and the ratio of the medians in brackets.

  start      the README's first command
  kinds      split of 20,000 packets of 64 kinds (bench/split.py)
  lines      run of a script of 20,000 lines over 8 components (bench/runs.py)
  demo       demo 200

Building takes some four minutes of a processor.
"""

import argparse
import importlib.machinery
import importlib.util
import json
import os
import statistics
import sys
import tempfile

TOP = os.path.dirname(os.path.dirname(os.path.abspath(__file__)))
sys.dont_write_bytecode = True
import runs  # noqa: E402
import split  # noqa: E402


def quick():
    """tools/quick, as a module."""
    loader = importlib.machinery.SourceFileLoader("quick", os.path.join(TOP, "tools/quick"))
    module = importlib.util.module_from_spec(importlib.util.spec_from_loader("quick", loader))
    loader.exec_module(module)
    return module


def built(room):
    """The two programs without proof, in a folder."""
    tool = quick()
    tool.OUT = os.path.join(room, "kept")
    files = tool.sources()
    program = tool.kept(tool.PROGRAM, files)
    tool.read(tool.PROGRAM, files, program)
    return [tool.compiled(tool.PROGRAM, program, level, room) for level in ("-O1", "-O0")]


def tasks(room):
    """What is measured: the words of each."""
    kinds, sheet = os.path.join(room, "kinds.bin"), os.path.join(room, "kinds.json")
    with open(kinds, "wb") as file:
        file.write(split.kinds_recording(20_000))
    with open(sheet, "w", encoding="utf-8") as file:
        file.write(split.kinds_sheet())
    script = runs.write(room, "script", runs.script(20_000))
    components = runs.write(room, "components.json", json.dumps(runs.sheet(8)))
    return {
        "start": quick().WORDS,
        "kinds": ["split", "Kinds/Packet", kinds, sheet],
        "lines": ["run", script, components],
        "demo": ["demo", "200"],
    }


def measure(title, words, programs, turns, room):
    """Prints the least time of each program, and its ratio to that of the first one."""
    times = {name: [] for name in programs}
    names = list(programs)
    for turn in range(turns):
        first, printed = turn % len(names), set()
        for name in names[first:] + names[:first]:
            seconds, _, status, text = split.run([programs[name], *words], room)
            times[name].append(seconds)
            printed.add((status, text))
        if len(printed) != 1 or next(iter(printed))[0]:
            sys.exit(f"{title}: what is printed differs, or is an error")
    proved = times[names[0]]
    shown = (f"{name} {min(it) * 1000:.1f} ms, {min(it) / min(proved):.2f} ({statistics.median(it) / statistics.median(proved):.2f})" for name, it in times.items())
    print(f"{title}: {'; '.join(shown)}", flush=True)


def main():
    words = argparse.ArgumentParser()
    words.add_argument("--turns", type=int, default=9)
    words.add_argument("program", nargs="?", default=os.path.join(TOP, "crates/eds_prog/out/eds_prog"))
    asked = words.parse_args()
    os.chdir(TOP)
    with tempfile.TemporaryDirectory(prefix="eds-bench-") as room:
        fast, first = built(room)
        programs = {"proved": asked.program, "fast": fast, "first": first}
        print(f"load {os.getloadavg()[0]:.1f} on {os.cpu_count()} processors", flush=True)
        for title, each in tasks(room).items():
            measure(title, each, programs, asked.turns, room)
    return 0


if __name__ == "__main__":
    sys.exit(main())
