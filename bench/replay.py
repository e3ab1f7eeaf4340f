#!/usr/bin/env python3
"""Measures how long a session of 100,000 recordings is replayed, beside `run` of the same script.

  bench/replay.py [--recordings N] [--turns T] [PROGRAM]

PROGRAM (by default crates/eds_prog/out/eds_prog) runs a script and replays a session that is this script with a recording of
each event. In the session of `lines` each line is a frame that comes to a component, which sends it back; in that of `ticks` a
timer of a component comes 10,000 times in each line and sends a frame of 7 bits. Recordings are the texts of the events, or have
their hex in other letters, or another bit behind the value, so that each frame has to be read. Names are short, since a session
holds no more octets. Of each command the least processor time of some turns counts, less that of an empty script, so that start
and sheet don't count. The last number of a line is the ratio of the two times.
"""

import argparse
import json
import os
import sys
import tempfile

sys.dont_write_bytecode = True
from runs import TOP, activity, command, integer, machine, run, timer, variables, write  # noqa: E402

FIRINGS = 10_000  # of one line, at most
HEX = "0a"  # of each frame: the value 5 in 7 bits
KINDS = {"as events' texts": HEX, "in other letters": HEX.upper(), "with other fill bits": "0b"}


def sheet():
    """A component that sends back each frame that comes, and sends one of its own at each nanosecond."""
    unit = ["ArgumentValue", {"name": "u"}, ["ArgumentRef", {"argumentRef": "u"}]]
    own = ["ArgumentValue", {"name": "u"}, ["VariableRef", {"variableRef": "n"}]]
    send = ["SendCommandPrimitive", {"interface": "b", "command": "s"}]
    echo, beat = activity("echo", [*send, unit], arguments=[("u", "U7")]), activity("beat", [*send, own])
    machines = [machine("e", command("b", "r"), "echo", unit), machine("t", timer(1), "beat")]
    commands = [["Command", {"name": name}, ["Argument", {"name": "u", "type": "U7", "mode": mode}]] for name, mode in (("s", "in"), ("r", "notify"))]
    face = ["Interface", {"name": "B", "level": "subnetwork"}, ["CommandSet", *commands]]
    inside = [variables("n"), ["ActivitySet", echo, beat], ["StateMachineSet", *machines]]
    inside[0][1][1].update(type="U7", initialValue="5")
    component = ["Component", {"name": "C"}, ["RequiredInterfaceSet", ["Interface", {"name": "b", "type": "B"}]], ["Implementation", *inside]]
    sets = [["DataTypeSet", integer(7), integer(64)], ["DeclaredInterfaceSet", face], ["ComponentSet", component]]
    return ["PackageFile", ["Package", {"name": "P"}, *sets]]


def lines(count):
    """Lines of a script, each with the events that it makes."""
    for _ in range(count):
        yield f"frame P/C:b r {HEX}", [f"0 frame P/C:b s {HEX}"]


def ticks(count):
    for first in range(1, count + 1, FIRINGS):
        last = min(first + FIRINGS, count + 1)
        yield f"tick {last - first}", [f"{at} frame P/C:b s {HEX}" for at in range(first, last)]


def session(made, recorded):
    """The lines with recordings behind them: the texts of the events, with this hex."""
    return "".join(f"{line}\n" + "".join(f"> {it.removesuffix(HEX)}{recorded}\n" for it in events) for line, events in made)


def least(words, turns):
    """The least processor seconds of a command over some turns, and its report."""
    ran = [run(words) for _ in range(turns)]
    return min(it[0] for it in ran), ran[0][2].decode()


def measure(program, recordings, turns):
    with tempfile.TemporaryDirectory(prefix="eds-replay-") as room:
        made = write(room, "sheet", json.dumps(sheet()))
        none, _ = least([program, "run", write(room, "none", ""), made], turns)
        for name, makes in (("lines", lines), ("ticks", ticks)):
            of = list(makes(recordings))
            script = write(room, "script", "".join(f"{line}\n" for line, _ in of))
            ran, report = least([program, "run", script, made], turns)
            events = [it for _, events in of for it in events]
            if report.splitlines()[: len(events)] != events:
                sys.exit(f"{name}: the run has other events")
            for kind, recorded in KINDS.items():
                replayed, report = least([program, "replay", write(room, "session", session(of, recorded)), made], turns)
                if report != f"agrees {recordings} respelled {0 if recorded == HEX else recordings}\n":
                    sys.exit(f"{name}: {report}")
                times = f"run {ran - none:.3f} s, replay {replayed - none:.3f} s"
                print(f"{recordings} recordings of {name}, {kind}: {times}: {(replayed - none) / (ran - none):.2f}", flush=True)


def main():
    asked = argparse.ArgumentParser(usage=__doc__.split("\n\n")[1].strip())
    asked.add_argument("--recordings", type=int, default=100_000)
    asked.add_argument("--turns", type=int, default=5)
    asked.add_argument("program", nargs="?", default=os.path.join(TOP, "crates/eds_prog/out/eds_prog"))
    asked = asked.parse_args()
    measure(os.path.abspath(asked.program), asked.recordings, asked.turns)


if __name__ == "__main__":
    main()
