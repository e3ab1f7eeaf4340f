"""Snapshots: the texts of what runs end in, and runs that go on from them."""
import re

import eds_model as m
from defaults import packs
from runs import Host, moments
from scripts import MOST_TIME, Script, Why, end_text

FORMS = {"snapshot": 2, "end": 2, "wire": 3, "machine": 6, "var": 4, "wait": 4}
PLACES = {"snapshot": "first", "end": "time", "wire": "wires"}      # where a line may stand; all others stand behind the wires
BEHIND = {"first": ["first"], "time": ["time"], "wires": ["wires"], "states": ["wires", "states"]}
NEXT = {"first": "time", "time": "wires", "wires": "wires", "states": "states"}
WITH_TRANSACTION = ("SendCommandPrimitive", "SendParameterPrimitive", "OnCommandPrimitive", "OnParameterPrimitive")


class BadSnap(Exception):
    def __init__(self, line, why):
        self.line, self.why = line, why

    def report(self):
        return "bad snapshot line %d %s\n" % (self.line, self.why)


def snapshot_text(judge, wires, host):
    """The text of a snapshot of what a run has come to."""
    out = ["snapshot 1\n", "end %d\n" % host.now] + ["wire %s %s\n" % (lower, upper) for _, lower, upper in wires]
    for number, (component, state) in enumerate(zip(judge.components, host.states)):
        for machine, (at, entered, passed) in zip(component.machines, state.machines):
            out.append("machine %s %s %s %d %d\n" % (component.name, machine.name, machine.states[at].name, entered, passed))
        for variable, value in zip(component.variables, state.variables):
            out.append("var %s %s %s\n" % (component.name, variable.name, m.shown(value)))
        for end, member, name in state.outstanding:
            out.append("wait %s %s %s\n" % (end_text(judge, (number, end)), component.ends[end].members[member].name, name))
    return "".join(out)


def transactions_of(element):
    """The names of transactions that a component writes anywhere."""
    own = {element.attrs["transaction"]} if element.name in WITH_TRANSACTION and "transaction" in element.attrs else set()
    return own.union(*[transactions_of(x) for x in element.children])


def lines_of(octets):
    """(number, octets, whether a line feed ends it) per line; nothing is skipped."""
    pieces = octets.split(b"\n")
    whole = [(x, True) for x in pieces[:-1]] + [(x, False) for x in pieces[-1:] if x]
    return [(number, x, ended) for number, (x, ended) in enumerate(whole, 1)]


def place_of(items, name):
    """The position of the first of some items that has a name."""
    found = [i for i, x in enumerate(items) if x.name == name]
    if not found:
        raise Why("Name")
    return found[0]


def number_in(text):
    if not re.fullmatch("[0-9]{1,19}", text):
        raise Why("Number")
    return int(text)


class Snapshot:
    """What the lines of a snapshot stand for, or its first BadSnap."""

    def __init__(self, judge, octets):
        self.j, self.stage, self.now, self.wires, self.told, self.waiting = judge, "first", 0, [], {}, []
        self.ends = {c.name + ":" + e.name: (i, k) for i, c in enumerate(judge.components) for k, e in enumerate(c.ends)}
        self.transactions = [transactions_of(c.element) for c in judge.components]
        listed = lines_of(octets)
        for number, text, ended in listed:
            try:
                self.line(number, self.words_of(text, ended))
            except Why as why:
                raise BadSnap(number, why.args[0])
        if self.stage in ("first", "time"):
            raise BadSnap(len(listed) + 1, "Words")

    def words_of(self, octets, ended):
        try:
            text = octets.decode("utf-8")
        except UnicodeDecodeError:
            raise Why("Text")
        word = text.split(" ", 1)[0]
        words = text.split(" ", 3) if word == "var" else text.split(" ")
        if not ended or FORMS.get(word) != len(words) or word == "snapshot" and words[1] != "1":
            raise Why("Words")
        if self.stage not in BEHIND[PLACES.get(word, "states")]:
            raise Why("Words")
        return words

    def line(self, number, words):
        if words[0] == "end":
            self.now = number_in(words[1])
            if self.now > MOST_TIME:
                raise Why("Time")
        elif words[0] == "wire":
            self.wires.append((number, words[1], words[2]))
        elif words[0] != "snapshot":
            getattr(self, "line_" + words[0])(*words[1:])
        self.stage = NEXT[PLACES.get(words[0], "states")]

    def once(self, *place):
        if place in self.told:
            raise Why("Twice")

    def line_machine(self, component, machine, state, *times):
        entered, passed = [number_in(x) for x in times]
        i = place_of(self.j.components, component)
        k = place_of(self.j.components[i].machines, machine)
        found = self.j.components[i].machines[k]
        at = place_of(found.states, state)
        self.once("machine", i, k)
        if not entered <= passed <= self.now:
            raise Why("Time")
        if any(x <= self.now for x in moments(found, (at, entered, passed))):
            raise Why("Due")
        self.told["machine", i, k] = [at, entered, passed]

    def line_var(self, component, variable, text):
        i = place_of(self.j.components, component)
        k = place_of(self.j.components[i].variables, variable)
        self.once("var", i, k)
        t = self.j.components[i].variables[k].type
        try:
            value = m.value_of(self.j, t, m.Json(text.encode()).read(), "")
        except m.BadJson:
            raise Why("Json")
        except m.WrongShape:
            raise Why("Shape")
        if not packs(self.j, t, value):
            raise Why("Value")
        self.told["var", i, k] = value

    def line_wait(self, end, member, name):
        if end not in self.ends:
            raise Why("Name")
        i, k = self.ends[end]
        found = place_of(self.j.components[i].ends[k].members, member)
        if name not in self.transactions[i]:
            raise Why("Name")
        self.once("wait", i, (k, found, name))
        self.told["wait", i, (k, found, name)] = True
        self.waiting.append((i, (k, found, name)))

    def host(self, wires):
        """A host that goes on from the snapshot, with wires as pairs of ends."""
        host = Host(self.j, wires)
        host.now = self.now
        for i, (component, state) in enumerate(zip(self.j.components, host.states)):
            state.machines = [self.told.get(("machine", i, k), [x.entry, self.now, self.now]) for k, x in enumerate(component.machines)]
            state.variables = [self.told.get(("var", i, k), x.initial) for k, x in enumerate(component.variables)]
            state.outstanding = [x for at, x in self.waiting if at == i]
        return host

    def script(self, octets):
        """The script of some octets that goes on from the snapshot."""
        return Script(self.j, octets, self)
