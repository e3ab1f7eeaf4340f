"""What happens inside a run, which `eds run` does not report: wires, timers and states, by bench/model.

The model is a second reading of the rules. What it tells is used where its whole report of the run is that of eds, line by
line, and is marked on the page as told from inside.
"""

import os
import signal
import sys

MODEL = os.path.join(os.path.dirname(os.path.dirname(os.path.realpath(__file__))), "bench", "model")
PATIENCE = 60  # seconds
ARRIVES, LEAVES, WIRE, TIMER, STATE, HALT, REJECT, TICK = range(8)


class Slow(Exception):
    """The model has no answer in time."""


class Step:
    """A step of a run: its time, its kind, from which lane to which, the ends there, and what it says."""

    def __init__(self, time, kind, source, target, text, line=None, machine=None, state=None):
        self.time, self.kind, self.source, self.target = time, kind, source, target
        self.text, self.line, self.machine, self.state = text, line, machine, state


def lose_patience(*_):
    raise Slow


def traced_host(runs, scripts):
    """The model's host, made to keep each step."""

    class Reaction(runs.Reaction):
        def __init__(self, *words):
            self.taken = []
            super().__init__(*words)

        def take(self, number, machine, t):
            self.taken.append((len(self.doing.sent), number, t.to))
            super().take(number, machine, t)

    class Host(runs.Host):
        def __init__(self, judge, wires):
            super().__init__(judge, wires)
            self.steps, self.number = [], 0

        def said(self, event):
            return scripts.event_text(self.j, self.now, event).rstrip("\n").split(" ", 1)[1]

        def keep(self, kind, source, target, text, **more):
            self.steps.append(Step(self.now, kind, source, target, text, line=self.number, **more))

        def deliver(self):
            while self.queue:
                self.one_more()
                primitive = self.queue.pop(0)
                sender = self.other[primitive.end]
                sent = self.said(type(primitive)(sender, primitive.member, primitive.op, primitive.values))
                self.keep(WIRE, sender[0] + 1, primitive.end[0] + 1, sent)
                self.event(primitive.end[0], primitive)

        def event(self, number, event):
            lane, component = number + 1, self.components[number]
            if isinstance(event, int):
                self.keep(TIMER, lane, lane, component.machines[event].name, machine=event)
            done = Reaction(self.j, number, component, self.states[number], event, self.now)
            taken = list(done.taken)
            for at, it in enumerate([*done.sent, None]):
                while taken and taken[0][0] <= at:
                    _, machine, to = taken.pop(0)
                    state = component.machines[machine].states[to].name
                    self.keep(STATE, lane, lane, f"{component.machines[machine].name}: {state}", machine=machine, state=to)
                if it is None:
                    break
                if isinstance(it, runs.Halted):
                    self.outs.append((self.now, it))
                    self.keep(HALT, lane, lane, self.said(it))
                elif it.end in self.other:
                    self.queue.append(type(it)(self.other[it.end], it.member, it.op, it.values))
                else:
                    self.outs.append((self.now, it))
                    self.keep(LEAVES, lane, 0, self.said(it))

        def line_frame(self, end, member, octets):
            before = len(self.outs)
            super().line_frame(end, member, octets)
            rejected = [it for _, it in self.outs[before:] if isinstance(it, runs.Rejected)]
            if rejected:
                self.keep(REJECT, 0, end[0] + 1, self.said(rejected[0]))

    return Host


def told(sheet, script):
    """The report of the model and its steps; the report alone where nothing ran. Lines of the script are told by the caller."""
    sys.path.insert(0, MODEL)
    import run_model
    import runs
    import scripts

    judge = run_model.judged(sheet)
    read = scripts.Script(judge, script)
    host = traced_host(runs, scripts)(judge, read.joined())
    storm = None
    for number, line in read.lines:
        host.number, before = number, len(host.steps)
        if number:
            host.steps.append(Step(host.now, TICK if line[0] == "tick" else ARRIVES, 0, None, "", line=number))
        try:
            host.handle(line)
        except runs.Storm:
            storm = number
            break
        if number and line[0] == "frame" and len(host.steps) > before + 1 and host.steps[before + 1].kind == REJECT:
            del host.steps[before]
    events = "".join(scripts.event_text(judge, time, event) for time, event in host.outs)
    if storm is not None:
        return events + f"limit deliveries 10000 at line {storm}\n", host.steps
    return events + scripts.end_report(judge, host), host.steps


def steps(sheet, script, report):
    """The steps of a run, or None and why there are none."""
    if not os.path.isdir(MODEL):
        return None, "bench/model is not here"
    signal.signal(signal.SIGALRM, lose_patience)
    signal.setitimer(signal.ITIMER_REAL, PATIENCE)
    try:
        said, found = told(sheet, script)
    except Slow:
        return None, f"bench/model had no answer within {PATIENCE} seconds"
    except Exception as error:  # whatever goes wrong in there, the page can do without it
        return None, f"bench/model failed ({type(error).__name__})"
    finally:
        signal.setitimer(signal.ITIMER_REAL, 0)
    return (found, None) if said == report else (None, "bench/model reports something else than eds")
