#!/usr/bin/env python3
"""Measures what a statement of an activity costs, beside a small interpreter in Rust that knows nothing but std, and Python.

  bench/activities.py [--lines N] [--turns T] [PROGRAM]

PROGRAM (by default crates/eds_prog/out/eds_prog) runs a script of N commands, each of which starts an activity: an iteration of
30,000 turns over a calculation and an assignment, which is 90,001 statements and turns of the 100,000 that one event may start.
bench/activities.rs, built here by `rustc -O`, walks the same tree of statements over the same variables, and checks and counts
the same; in Python the loop is written out and checks nothing. All three have to print the same report. Of each program the
least processor time of some turns counts, less that of a script without a line, so that start and sheet don't count.
"""

import argparse
import json
import os
import subprocess
import sys
import tempfile

TOP = os.path.dirname(os.path.dirname(os.path.abspath(__file__)))
ITERATIONS = 30_000
STARTED = 1 + 3 * ITERATIONS
COMMAND = "cmd Load/C:q go {}\n"
# The calculation as Python writes it, and in postfix order.
LOOPS = {"n + 1": "n 1 add", "(n + i) - 1": "n i add 1 subtract"}
OPERATORS = {"add", "subtract", "multiply"}
VARIABLES = {"i": "U64", "n": "U64", "m": "U64", "on": "Flag", "text": "Word"}
PYTHON = """
def go(lines):
    i = n = m = 0
    for _ in range(lines):
        for i in range(1, {iterations} + 1):
            n = {loop}
            m = n
    print("end 0", "state Load/C m S", f"var Load/C i {{i}}", f"var Load/C n {{n}}", f"var Load/C m {{m}}", sep="\\n")
    print("var Load/C on false", 'var Load/C text ""', sep="\\n")


go({lines})
"""


def item(text):
    if text in OPERATORS:
        return ["Operator", {"operator": text}]
    return ["VariableRef", {"variableRef": text}] if text in VARIABLES else ["Value", {"value": text}]


def activity(items):
    math = ["MathOperation", {"outputVariableRef": "n"}, *map(item, items.split())]
    assignment = ["Assignment", {"outputVariableRef": "m"}, item("n")]
    ends = [["StartAt", item("1")], ["EndAt", item(str(ITERATIONS))]]
    return ["Activity", {"name": "go"}, ["Body", ["Iteration", {"iteratorVariableRef": "i"}, *ends, ["Do", math, assignment]]]]


def sheet(items):
    types = [
        ["IntegerDataType", {"name": "U64"}, ["IntegerDataEncoding", {"sizeInBits": 64, "encoding": "unsigned"}]],
        ["BooleanDataType", {"name": "Flag"}],
        ["StringDataType", {"name": "Word", "length": 8}],
    ]
    event = ["OnCommandPrimitive", {"interface": "q", "command": "go"}]
    transition = ["Transition", {"fromState": "S", "toState": "S"}, event, ["Do", {"activity": "go"}]]
    inside = [
        ["VariableSet", *(["Variable", {"name": name, "type": its}] for name, its in VARIABLES.items())],
        ["ActivitySet", activity(items)],
        ["StateMachineSet", ["StateMachine", {"name": "m"}, ["EntryState", {"name": "S"}], transition]],
    ]
    ends = ["ProvidedInterfaceSet", ["Interface", {"name": "q", "type": "Ping"}]]
    ping = ["DeclaredInterfaceSet", ["Interface", {"name": "Ping"}, ["CommandSet", ["Command", {"name": "go"}]]]]
    component = ["Component", {"name": "C"}, ends, ["Implementation", *inside]]
    return ["PackageFile", ["Package", {"name": "Load"}, ["DataTypeSet", *types], ping, ["ComponentSet", component]]]


def run(words):
    """The processor seconds of a run, and what it prints."""
    child = subprocess.Popen(words, stdout=subprocess.PIPE)
    report = child.stdout.read()
    _, status, usage = os.wait4(child.pid, 0)
    if status != 0:
        sys.exit("%s ends with %d: %s" % (" ".join(words), os.waitstatus_to_exitcode(status), report[:200].decode("utf-8", "replace")))
    return usage.ru_utime + usage.ru_stime, report


def least(programs, turns):
    """The least seconds of each program over some turns; they have to print the same."""
    seconds = [[] for _ in programs]
    for _ in range(turns):
        reports = set()
        for took, words in zip(seconds, programs):
            time, report = run(words)
            took.append(time)
            reports.add(report)
        if len(reports) != 1:
            sys.exit("the programs disagree: " + " and ".join(repr(it[:200]) for it in sorted(reports)))
    return list(map(min, seconds))


def build(room):
    program = os.path.join(room, "activities")
    subprocess.run(["rustc", "-O", "--edition", "2021", "-o", program, os.path.join(TOP, "bench/activities.rs")], check=True)
    return program


def write(room, name, text):
    path = os.path.join(room, name)
    with open(path, "w", encoding="utf-8") as file:
        file.write(text)
    return path


def seconds_of(program, stock, room, loop, lines, turns):
    """The least seconds of each program for a script of so many lines."""
    items = LOOPS[loop]
    script, made = write(room, "script", COMMAND * lines), write(room, "sheet", json.dumps(sheet(items)))
    python = write(room, "loop.py", PYTHON.format(iterations=ITERATIONS, loop=loop, lines=lines))
    programs = [[program, "run", script, made], [stock, str(ITERATIONS), script, *items.split()], [sys.executable, python]]
    return least(programs, turns)


def measure(program, lines, turns):
    started = STARTED * lines
    with tempfile.TemporaryDirectory(prefix="eds-activities-") as room:
        stock = build(room)
        for loop in LOOPS:
            empty, whole = (seconds_of(program, stock, room, loop, number, turns) for number in (0, lines))
            ours, theirs, python = (took - start for took, start in zip(whole, empty))
            print(f"n := {loop}, m := n; {lines} lines, {started} statements and turns")
            for name, took in [("ours", ours), ("Rust", theirs), ("Python", python)]:
                each = took * 1e9 / started
                print(f"  {name:8} {took:.3f} s; {each:.1f} ns a statement or turn, {started / took / 1e6:.1f} million a second")
            print(f"  ratio of the times {ours / theirs:.2f}")


def main():
    asked = argparse.ArgumentParser(usage=__doc__.split("\n\n")[1].strip())
    asked.add_argument("--lines", type=int, default=100)
    asked.add_argument("--turns", type=int, default=5)
    asked.add_argument("program", nargs="?", default=os.path.join(TOP, "crates/eds_prog/out/eds_prog"))
    asked = asked.parse_args()
    measure(os.path.abspath(asked.program), asked.lines, asked.turns)


if __name__ == "__main__":
    main()
