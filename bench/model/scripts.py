"""Scripts and run reports: the lines of a script, its wires, and the texts of events and states."""
import re

import eds_model as m
from activities import Primitive
from defaults import packs
from interfaces import Command, Parameter, carried
from runs import Halted, Rejected

WORDS = {"wire": 3, "tick": 2, "cmd": 4, "frame": 4, "get": 3, "set": 4, "val": 4}
MOST_TICK, MOST_TIME, MOST_FRAME = 10**18, 2**63 - 1, 65536


class BadLine(Exception):
    def __init__(self, line, why):
        self.line, self.why = line, why

    def report(self):
        return "bad line %d %s\n" % (self.line, self.why)


class Why(Exception):
    """Why a line is bad."""


def lines_of(octets):
    """(number, octets) per line that isn't skipped."""
    pieces = octets.split(b"\n")
    lines = [x[:-1] if x.endswith(b"\r") else x for x in pieces[:-1]] + [pieces[-1]]
    return [(i, x) for i, x in enumerate(lines, 1) if x and not x.startswith(b"#")]


def words_of(octets):
    """The words of a line, the JSON of a line as one word."""
    try:
        text = octets.decode("utf-8")
    except UnicodeDecodeError:
        raise Why("Text")
    word = text.split(" ", 1)[0]
    words = text.split(" ", 3) if word in ("cmd", "val", "set") else text.split(" ")
    if WORDS.get(word) != len(words):
        raise Why("Words")
    return words


def is_wire(octets):
    try:
        return words_of(octets)[0] == "wire"
    except Why:
        return False


def arguments_value(judge, named, text):
    """The values of an object with one member per pair of a name and a type."""
    try:
        v = m.Json(text.encode()).read()
    except m.BadJson:
        raise Why("Json")
    try:
        if not isinstance(v, dict) or set(v) != {n for n, _ in named}:
            raise Why("Shape")
        values = [m.value_of(judge, t, v[n], "") for n, t in named]
    except m.WrongShape:
        raise Why("Shape")
    return checked(judge, [t for _, t in named], values)


def parameter_value(judge, t, text):
    """The value of a parameter, as a list of one."""
    try:
        values = [m.value_of(judge, t, m.Json(text.encode()).read(), "")]
    except m.BadJson:
        raise Why("Json")
    except m.WrongShape:
        raise Why("Shape")
    return checked(judge, [t], values)


def checked(judge, types, values):
    if not all(packs(judge, t, v) for t, v in zip(types, values)):
        raise Why("Value")
    return values


class Script:
    """The lines of a script for the components of a sheet, or its first BadLine. One that goes on from a snapshot has its wires and
    begins at its time, without a start."""

    def __init__(self, judge, octets, snapshot=None):
        self.j = judge
        self.ends = {c.name + ":" + e.name: (i, k) for i, c in enumerate(judge.components) for k, e in enumerate(c.ends)}
        self.wires, self.lines, self.time, self.began = [], [(0, ("start",))], 0, False
        listed = lines_of(octets)
        self.wired = {e for _, x in listed if is_wire(x) for e in words_of(x)[1:]}
        if snapshot is not None:
            self.wires, self.lines, self.time, self.began = list(snapshot.wires), [], snapshot.now, True
            self.wired = {e for _, *ends in snapshot.wires for e in ends}
        for number, x in listed:
            try:
                self.line(number, words_of(x))
            except Why as why:
                raise BadLine(number, why.args[0])

    def line(self, number, words):
        if words[0] == "wire":
            if self.began:
                raise Why("Late")
            self.wires.append((number, words[1], words[2]))
            return
        self.began = True
        line = self.tick(words[1]) if words[0] == "tick" else self.at_end(*words)
        self.lines.append((number, line))

    def tick(self, text):
        if not re.fullmatch("[0-9]{1,19}", text):
            raise Why("Number")
        if int(text) > MOST_TICK or self.time + int(text) > MOST_TIME:
            raise Why("Time")
        self.time += int(text)
        return ("tick", int(text))

    def at_end(self, word, end, name, rest=None):
        """A line that brings a primitive or a frame to an end."""
        if end not in self.ends:
            raise Why("End")
        if end in self.wired:
            raise Why("Wired")
        place = self.ends[end]
        x = self.j.components[place[0]].ends[place[1]]
        if word in ("get", "set") and x.required or word == "val" and not x.required:
            raise Why("Way")
        member = x.member(name, Command if word in ("cmd", "frame") else Parameter)
        if member is None:
            raise Why("Member")
        return self.arriving(word, place, member, x, rest)

    def arriving(self, word, place, member, end, rest):
        found = end.members[member]
        if word == "set" and found.read_only:
            raise Why("ReadOnly")
        if word == "frame":
            return self.frame(place, member, carried(found, not end.required), rest)
        values = []
        if word == "cmd":
            values = arguments_value(self.j, [(a.name, a.type) for a in carried(found, not end.required)], rest)
        elif word != "get":
            values = parameter_value(self.j, found.type, rest)
        return ("primitive", Primitive(place, member, word, values))

    def frame(self, place, member, arguments, digits):
        if len(arguments) != 1:
            raise Why("Args")
        octets = m.hex_octets(digits)
        if octets is None or len(octets) > MOST_FRAME:
            raise Why("Hex")
        return ("frame", place, member, octets)

    def joined(self):
        """The wires as pairs of a required and a provided end, or the first that fails."""
        pairs, taken = [], set()
        for number, lower, upper in self.wires:
            a, b = self.ends.get(lower), self.ends.get(upper)
            x, y = [self.j.components[e[0]].ends[e[1]] if e is not None else None for e in (a, b)]
            if x is None or y is None or not x.required or y.required:
                raise BadLine(number, "WireEnd")
            if x.face is not y.face or x.map != y.map:
                raise BadLine(number, "WireType")
            if a in taken or b in taken:
                raise BadLine(number, "WireTwice")
            taken |= {a, b}
            pairs.append((a, b))
        return pairs


# ---------------------------------------------------------------- reports

def end_text(judge, end):
    component = judge.components[end[0]]
    return component.name + ":" + component.ends[end[1]].name


def arguments_text(named, values):
    """The JSON of arguments, in byte order of their names."""
    members = sorted(zip([n for n, _ in named], values), key=lambda x: x[0].encode())
    return "{" + ",".join(m.json_string(n) + ":" + m.shown(v) for n, v in members) + "}"


def event_text(judge, time, event):
    """The line of an event of a run."""
    if isinstance(event, Halted):
        component = judge.components[event.component]
        return "%d halt %s %s %s\n" % (time, component.name, component.machines[event.machine].name, event.word)
    end = judge.components[event.end[0]].ends[event.end[1]]
    member = end.members[event.member]
    where = end_text(judge, event.end) + " " + member.name
    if isinstance(event, Rejected):
        return "%d reject %s %s at $%s\n" % (time, where, event.reason, event.path)
    if event.op != "cmd":
        return "%d %s %s%s\n" % (time, event.op, where, "".join(" " + m.shown(v) for v in event.values))
    arguments = carried(member, end.required)
    if end.face.level == "subnetwork" and len(arguments) == 1:
        bits = m.Packer(judge).pack(arguments[0].type, event.values[0])
        return "%d frame %s %s\n" % (time, where, m.octets_of(bits).hex())
    return "%d cmd %s %s\n" % (time, where, arguments_text([(a.name, a.type) for a in arguments], event.values))


def end_report(judge, host):
    """The lines of a run's end."""
    out = ["end %d\n" % host.now]
    for component, state in zip(judge.components, host.states):
        for machine, (at, _, _) in zip(component.machines, state.machines):
            out.append("state %s %s %s\n" % (component.name, machine.name, machine.states[at].name))
        for variable, value in zip(component.variables, state.variables):
            out.append("var %s %s %s\n" % (component.name, variable.name, m.shown(value)))
        for end, member, name in state.outstanding:
            x = component.ends[end]
            out.append("wait %s:%s %s %s\n" % (component.name, x.name, x.members[member].name, name))
    return "".join(out)
