"""Machines and runs: what components do with primitives, frames and time, and what they send."""
import collections

import eds_model as m
from activities import Doing, Halt, Primitive
from interfaces import carried

MOST_DELIVERIES = 10000
SEEN = collections.Counter()     # what happened in the runs so far, for whoever wants to know


class Storm(Exception):
    """A line has more deliveries and firings than it may have."""


class ComponentState:
    """Variables, one [state, entered, passed] per machine, and the outstanding transactions (end, member, name)."""

    def __init__(self, component):
        self.variables = [v.initial for v in component.variables]
        self.machines = [[x.entry, 0, 0] for x in component.machines]
        self.outstanding = []


class Halted:
    def __init__(self, component, machine, word):
        self.component, self.machine, self.word = component, machine, word


class Rejected:
    def __init__(self, end, member, reason, path):
        self.end, self.member, self.reason, self.path = end, member, reason, path


def moments(machine, state):
    """The coming moments of a machine."""
    at, entered, passed = state
    due = [entered + t.event.after for t in machine.transitions if t.source == at and t.event.kind == "Timer"]
    return [x for x in due if x > passed]


class Reaction:
    """A component's reaction to one event at a time: Start, a Primitive, or the number of a machine whose moment it is."""

    def __init__(self, judge, number, component, state, event, now):
        self.doing = Doing(judge, number, component, state)
        self.component, self.state, self.event, self.now = component, state, event, now
        self.arguments = event.values if isinstance(event, Primitive) else []
        if isinstance(event, Primitive):
            self.parameter_map()
        for i, machine in enumerate(component.machines):
            if not isinstance(event, int) or event == i:
                self.machine(i, machine)
        self.sent = self.doing.sent

    def parameter_map(self):
        e = self.event
        for x in self.component.maps:
            if (x.end, x.member) == (e.end[1], e.member) and e.op != "cmd":
                if e.op == "get":
                    self.doing.sent.append(Primitive(e.end, e.member, "val", [self.state.variables[x.variable]]))
                else:
                    self.state.variables[x.variable] = e.values[0]

    def matches(self, event, machine_state):
        """Whether the event of a transition is the one that came."""
        if event.kind == "Timer":
            return isinstance(self.event, int) and machine_state[1] + event.after == self.now
        if event.kind == "Start":
            return self.event == "Start"
        if not isinstance(self.event, Primitive):
            return False
        if (event.end, event.member, event.op) != (self.event.end[1], self.event.member, self.event.op):
            return False
        return event.transaction is None or (event.end, event.member, event.transaction) in self.state.outstanding

    def machine(self, number, machine):
        """Takes the first transition that matches and whose guard is true; a timer that finds none is past."""
        state = self.state.machines[number]
        for t in machine.transitions:
            if t.source == state[0] and self.matches(t.event, state):
                is_open = t.guard is None or self.doing.holds(t.guard, self.arguments)
                SEEN["guards that are %s" % ("true" if is_open else "false")] += t.guard is not None
                if is_open:
                    self.take(number, machine, t)
                    return
        if isinstance(self.event, int):
            state[2] = self.now

    def take(self, number, machine, t):
        SEEN["transitions"] += 1
        if t.event.transaction is not None:
            SEEN["transactions that end"] += 1
            self.state.outstanding.remove((t.event.end, t.event.member, t.event.transaction))
        old, new = machine.states[t.source], machine.states[t.to]
        for action, arguments in ((old.at_exit, []), (t.action, self.arguments), (new.at_entry, [])):
            if action is not None:
                self.act(number, action, arguments)
        self.state.machines[number] = [t.to, self.now, self.now]

    def act(self, number, action, arguments):
        try:
            self.doing.action(action, arguments)
        except Halt as halt:
            self.doing.sent.append(Halted(self.doing.number, number, halt.word))


class Host:
    """A run: the time, the components' states, and the queue of primitives on wires. `outs` are pairs of time and event."""

    def __init__(self, judge, wires):
        self.j, self.components = judge, judge.components
        self.now, self.queue, self.outs, self.count = 0, [], [], 0
        self.states = [ComponentState(x) for x in self.components]
        self.other = {}
        for lower, upper in wires:
            self.other[lower], self.other[upper] = upper, lower

    def handle(self, line):
        """Handles one line of a script: its kind and what it holds."""
        self.count = 0
        getattr(self, "line_" + line[0])(*line[1:])

    def line_start(self):
        for number in range(len(self.components)):
            self.event(number, "Start")
        self.deliver()

    def line_primitive(self, primitive):
        self.event(primitive.end[0], primitive)
        self.deliver()

    def line_frame(self, end, member, octets):
        x = self.components[end[0]].ends[end[1]]
        t = carried(x.members[member], not x.required)[0].type
        bits = m.bits_of(octets)
        try:
            value, read = m.Reader(self.j, bits).read(t)
            if len(bits) - read > 7:
                raise m.Fault("Trailing", "")
        except m.Fault as fault:
            self.outs.append((self.now, Rejected(end, member, fault.reason, fault.path)))
            return
        self.line_primitive(Primitive(end, member, "cmd", [value]))

    def line_tick(self, n):
        until = self.now + n
        while True:
            due = [(x, i, k) for i, component in enumerate(self.components) for k, machine in enumerate(component.machines)
                   for x in moments(machine, self.states[i].machines[k])]
            if not due or min(due)[0] > until:
                break
            self.now, component, machine = min(due)
            self.one_more()
            SEEN["timers"] += 1
            self.event(component, machine)
            self.deliver()
        self.now = until

    def deliver(self):
        while self.queue:
            self.one_more()
            SEEN["deliveries"] += 1
            primitive = self.queue.pop(0)
            self.event(primitive.end[0], primitive)

    def one_more(self):
        """Counts a delivery or firing of this line."""
        if self.count == MOST_DELIVERIES:
            raise Storm
        self.count += 1

    def event(self, number, event):
        """Offers an event to a component, and passes on what it sends."""
        done = Reaction(self.j, number, self.components[number], self.states[number], event, self.now)
        for x in done.sent:
            if isinstance(x, Primitive) and x.end in self.other:
                self.queue.append(Primitive(self.other[x.end], x.member, x.op, x.values))
            else:
                self.outs.append((self.now, x))
