#!/usr/bin/env python3
"""laws_runs.py SEED CASES: laws of runs on the model itself, over random sheets and scripts.

A tick of m + n does what a tick of m and one of n do. After each line every variable packs as its type, every machine's
passed moment is at least its entry and at most now, no moment at most now is still to come, and nothing waits twice."""
import os
import random
import sys

sys.path.insert(0, os.path.dirname(os.path.realpath(__file__)))
import eds_model as m
import gen_components
import gen_scripts
import run_model as r
import runs
from defaults import packs
from scripts import BadLine, Script, end_report, event_text


def split_ticks(rng, lines):
    """The lines, each tick cut in two at random."""
    out = []
    for _, line in lines:
        if line[0] == "tick":
            k = rng.randint(0, line[1])
            out += [("tick", k), ("tick", line[1] - k)]
        else:
            out.append(line)
    return out


def what_is_wrong(judge, host):
    """What a host may not be between two lines, or None."""
    for component, state in zip(judge.components, host.states):
        if not all(packs(judge, v.type, x) for v, x in zip(component.variables, state.variables)):
            return "a variable doesn't pack"
        if len(set(state.outstanding)) < len(state.outstanding):
            return "something waits twice"
        for machine, x in zip(component.machines, state.machines):
            if not x[1] <= x[2] <= host.now or any(t <= host.now for t in runs.moments(machine, x)):
                return "a machine's moments"
    return "the queue isn't empty" if host.queue else None


def ran(judge, wires, lines):
    """The host after the lines, or None where one is a Storm."""
    host = runs.Host(judge, wires)
    try:
        for line in lines:
            host.handle(line)
            wrong = what_is_wrong(judge, host)
            if wrong is not None:
                raise ValueError(wrong)
    except runs.Storm:
        return None
    return host


def text(judge, host):
    return "".join(event_text(judge, time, event) for time, event in host.outs) + end_report(judge, host)


def differs(seed):
    """How many runs one seed has, and what is wrong with them."""
    rng, out, count = random.Random(seed), [], 0
    try:
        judge = r.judged([gen_components.octets(gen_components.case(seed))])
    except m.Refused:
        return 0, []
    for _ in range(4):
        octets = gen_scripts.script(rng, judge)
        try:
            script = Script(judge, octets)
            wires = script.joined()
            whole, cut = ran(judge, wires, [line for _, line in script.lines]), ran(judge, wires, split_ticks(rng, script.lines))
        except BadLine:
            continue
        except ValueError as wrong:
            out.append((seed, str(wrong), octets))
            continue
        count += 1
        if whole is not None and text(judge, whole) != text(judge, cut):
            out.append((seed, "a tick that is cut", octets))
    return count, out


def main(seed, cases):
    count, bad = 0, 0
    for i in range(cases):
        n, out = differs(seed * 1000003 + i)
        count += n
        bad += len(out)
        for x in out:
            print(x)
    print(count, "runs of", cases, "sheets,", bad, "differ")


if __name__ == "__main__":
    main(int(sys.argv[1]), int(sys.argv[2]))
