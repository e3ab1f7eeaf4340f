#!/usr/bin/env python3
"""Measures what an event costs at machines of many transitions: it must not grow with their number.

  bench/machines.py [--lines N] [--turns T] [PROGRAM]

PROGRAM (by default crates/eds_prog/out/eds_prog) runs a script of commands to one component with one machine of 100 states, or of
one where there are 10 transitions. Each transition waits for another command or timer of its state: nine in ten are commands, the
others timers that never come. The commands of the script start none of them, so what is measured is what is looked for: what an
event triggers, and the moment that comes next. Of each machine the least processor time of some turns counts, less that of a
script of one line.
"""

import argparse
import os
import sys
import tempfile

sys.dont_write_bytecode = True
import runs  # noqa: E402

TOP = os.path.dirname(os.path.dirname(os.path.abspath(__file__)))
SIZES = [(1, 10), (100, 1_000), (100, 10_000)]


def transitions(states, count):
    """As many transitions from each state, each with a trigger of its own."""
    for state in range(states):
        for at in range(count // states):
            event = runs.timer(10**15 + at) if at % 10 == 9 else runs.command("q", f"c{at}")
            yield ["Transition", {"fromState": f"S{state}", "toState": f"S{(state + 1) % states}"}, event]


def sheet(states, count):
    commands = [["Command", {"name": f"c{at}"}] for at in range(count // states)]
    face = ["Interface", {"name": "Ping"}, ["CommandSet", *commands, ["Command", {"name": "idle"}]]]
    names = [["EntryState", {"name": "S0"}], *(["State", {"name": f"S{at}"}] for at in range(1, states))]
    machine = ["StateMachine", {"name": "m"}, *names, *transitions(states, count)]
    ends = ["ProvidedInterfaceSet", ["Interface", {"name": "q", "type": "Ping"}]]
    component = ["Component", {"name": "C"}, ends, ["Implementation", ["StateMachineSet", machine]]]
    return ["PackageFile", ["Package", {"name": "L"}, ["DeclaredInterfaceSet", face], ["ComponentSet", component]]]


def measure(program, lines, turns):
    with tempfile.TemporaryDirectory(prefix="eds-machines-") as room:
        line = "cmd L/C:q idle {}\n"
        one, all_lines = runs.write(room, "one", line), runs.write(room, "all", line * lines)
        for states, count in SIZES:
            path = runs.write(room, f"sheet{count}", runs.json.dumps(sheet(states, count)))
            (start,), _ = runs.least([[program, "run", one, path]], turns)
            (whole,), _ = runs.least([[program, "run", all_lines, path]], turns)
            print(f"{count} transitions of {states} states: {(whole - start) / (lines - 1) * 1e6:.2f} µs a line")


def main():
    parser = argparse.ArgumentParser()
    parser.add_argument("--lines", type=int, default=200_000)
    parser.add_argument("--turns", type=int, default=5)
    parser.add_argument("program", nargs="?", default=os.path.join(TOP, "crates/eds_prog/out/eds_prog"))
    given = parser.parse_args()
    measure(given.program, given.lines, given.turns)


if __name__ == "__main__":
    main()
