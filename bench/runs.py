#!/usr/bin/env python3
"""Measures how long a script of 200,000 lines runs, beside a discrete-event loop in Rust that knows nothing but std.

  bench/runs.py [--lines N] [--turns T] [PROGRAM]
  bench/runs.py demo [PROGRAM]

PROGRAM (by default crates/eds_prog/out/eds_prog) runs a script over sheets of 1, 8 and 64 components: in turn a frame comes to
the first component, which echoes it, and 10 nanoseconds pass, in which a timer of it comes and sends a command over a wire that
leads back to it. So two lines are three events: the frame, the firing and the delivery. The other components wait for timers
that never come. bench/runs.rs, built here by `rustc -O`, has the same components as data, and both have to print the same
report. Of each program the least processor time of some turns counts, less that of a script of its wire alone, so that start
and sheet don't count. The time of a line must not grow with the components that it doesn't touch. Memory is the most that the
process ever had, and the script's octets are what it is compared with.

With `demo` the times of `demo 500`, and of `check` of the sheet that it makes, are measured.
"""

import argparse
import json
import os
import subprocess
import sys
import tempfile

TOP = os.path.dirname(os.path.dirname(os.path.abspath(__file__)))
COMPONENTS = [1, 8, 64]
WIRE = "wire Load/C0:p Load/C0:q\n"


def integer(bits):
    return ["IntegerDataType", {"name": f"U{bits}"}, ["IntegerDataEncoding", {"sizeInBits": bits, "encoding": "unsigned"}]]


def add_one(variable):
    items = [["VariableRef", {"variableRef": variable}], ["Value", {"value": "1"}], ["Operator", {"operator": "add"}]]
    return ["MathOperation", {"outputVariableRef": variable}, *items]


def machine(name, event, activity, *arguments):
    transition = ["Transition", {"fromState": "S", "toState": "S"}, event, ["Do", {"activity": activity}, *arguments]]
    return ["StateMachine", {"name": name}, ["EntryState", {"name": "S"}], transition]


def command(interface, name):
    return ["OnCommandPrimitive", {"interface": interface, "command": name}]


def timer(nanoseconds):
    return ["OnTimer", {"nanosecondsAfterEntry": nanoseconds}]


def activity(name, *body, arguments=()):
    return ["Activity", {"name": name}, *(["Argument", {"name": n, "type": t}] for n, t in arguments), ["Body", *body]]


def variables(*names):
    return ["VariableSet", *(["Variable", {"name": it, "type": "U64"}] for it in names)]


def first():
    """The component that echoes frames, and sends itself a command each time its timer comes."""
    unit = ["ArgumentValue", {"name": "unit"}, ["ArgumentRef", {"argumentRef": "unit"}]]
    echo = activity("echo", add_one("n"), ["SendCommandPrimitive", {"interface": "bus", "command": "send"}, unit], arguments=[("unit", "Unit")])
    beat = activity("beat", ["SendCommandPrimitive", {"interface": "p", "command": "hit"}])
    machines = [machine("m", command("bus", "recv"), "echo", unit), machine("t", timer(10), "beat"), machine("c", command("q", "hit"), "count")]
    ends = [
        ["ProvidedInterfaceSet", ["Interface", {"name": "q", "type": "Ping"}]],
        ["RequiredInterfaceSet", ["Interface", {"name": "bus", "type": "Sub"}], ["Interface", {"name": "p", "type": "Ping"}]],
    ]
    inside = [variables("n", "h"), ["ActivitySet", echo, beat, activity("count", add_one("h"))], ["StateMachineSet", *machines]]
    return ["Component", {"name": "C0"}, *ends, ["Implementation", *inside]]


def other(number):
    """A component that waits for a timer that never comes."""
    inside = [variables("n"), ["ActivitySet", activity("beat", add_one("n"))], ["StateMachineSet", machine("t", timer(10**15), "beat")]]
    return ["Component", {"name": f"C{number}"}, ["Implementation", *inside]]


def sheet(components):
    unit = ["ContainerDataType", {"name": "Unit"}, ["EntryList", ["Entry", {"name": "K", "type": "U16"}], ["Entry", {"name": "V", "type": "U8"}]]]
    argument = ["Argument", {"name": "unit", "type": "Unit"}]
    send = ["Command", {"name": "send"}, argument]
    receive = ["Command", {"name": "recv"}, ["Argument", {**argument[1], "mode": "notify"}]]
    faces = [
        ["Interface", {"name": "Sub", "level": "subnetwork"}, ["CommandSet", send, receive]],
        ["Interface", {"name": "Ping"}, ["CommandSet", ["Command", {"name": "hit"}]]],
    ]
    made = [first(), *map(other, range(1, components))]
    sets = [["DataTypeSet", integer(8), integer(16), integer(64), unit], ["DeclaredInterfaceSet", *faces], ["ComponentSet", *made]]
    return ["PackageFile", ["Package", {"name": "Load"}, *sets]]


def script(lines):
    pairs = (f"frame Load/C0:bus recv {at % 65536:04x}{at % 256:02x}\ntick 10\n" for at in range(lines // 2))
    return WIRE + "".join(pairs)


def run(words):
    """The processor seconds of a run, the most octets of memory that it had, and what it prints."""
    child = subprocess.Popen(words, stdout=subprocess.PIPE)
    report = child.stdout.read()
    _, status, usage = os.wait4(child.pid, 0)
    if status != 0:
        sys.exit("%s ends with %d: %s" % (" ".join(words), os.waitstatus_to_exitcode(status), report[:200].decode("utf-8", "replace")))
    return usage.ru_utime + usage.ru_stime, usage.ru_maxrss * 1024, report


def least(programs, turns):
    """The least seconds and the most memory of each program over some turns; they have to print the same."""
    seconds, memory = [[] for _ in programs], [[] for _ in programs]
    for _ in range(turns):
        reports = set()
        for at, words in enumerate(programs):
            took, had, report = run(words)
            seconds[at].append(took)
            memory[at].append(had)
            reports.add(report)
        if len(reports) != 1:
            sys.exit("the programs disagree: " + " and ".join(repr(it[:200]) for it in sorted(reports)))
    return list(map(min, seconds)), list(map(max, memory))


def build(room):
    program = os.path.join(room, "runs")
    subprocess.run(["rustc", "-O", "--edition", "2021", "-o", program, os.path.join(TOP, "bench/runs.rs")], check=True)
    return program


def write(room, name, text):
    path = os.path.join(room, name)
    with open(path, "w", encoding="utf-8") as file:
        file.write(text)
    return path


def measure(program, lines, turns):
    with tempfile.TemporaryDirectory(prefix="eds-runs-") as room:
        stock = build(room)
        text = script(lines)
        long, short = write(room, "long", text), write(room, "short", WIRE)
        for components in COMPONENTS:
            made = write(room, "sheet", json.dumps(sheet(components)))
            (ours, theirs), _ = least([[program, "run", short, made], [stock, str(components), short]], turns)
            seconds, memory = least([[program, "run", long, made], [stock, str(components), long]], turns)
            ours, theirs = seconds[0] - ours, seconds[1] - theirs
            events = 3 * (lines // 2)
            print(f"{components} components, {lines} lines, {events} events")
            print(f"  ours      {seconds[0]:.2f} s in all; {ours * 1e9 / lines:.0f} ns a line, {events / ours:.0f} events a second")
            print(f"  by hand   {seconds[1]:.2f} s in all; {theirs * 1e9 / lines:.0f} ns a line, {events / theirs:.0f} events a second")
            print(f"  ratio of the times {ours / theirs:.1f}; memory {memory[0] >> 20} MiB, {memory[0] / len(text):.1f} times the script")


def demonstrate(program, turns):
    sys.path.insert(0, os.path.join(TOP, "bench/model"))
    import run_model

    with tempfile.TemporaryDirectory(prefix="eds-runs-") as room:
        made = write(room, "sheet", run_model.demo(500)[0].decode())
        (demo,), (memory,) = least([[program, "demo", "500"]], turns)
        (check,), _ = least([[program, "check", made]], turns)
    print(f"demo 500: {demo:.2f} s, {memory >> 20} MiB; check of its sheet: {check:.2f} s")


def main():
    asked = argparse.ArgumentParser(usage=__doc__.split("\n\n")[1].strip())
    asked.add_argument("--lines", type=int, default=200_000)
    asked.add_argument("--turns", type=int, default=5)
    asked.add_argument("words", nargs="*")
    asked = asked.parse_args()
    is_demo = asked.words[:1] == ["demo"]
    named = asked.words[1:] if is_demo else asked.words
    program = os.path.abspath(named[0] if named else os.path.join(TOP, "crates/eds_prog/out/eds_prog"))
    if is_demo:
        demonstrate(program, asked.turns)
    else:
        measure(program, asked.lines, asked.turns)


if __name__ == "__main__":
    main()
