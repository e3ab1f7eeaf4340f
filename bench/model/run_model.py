#!/usr/bin/env python3
"""The model as a program: eds_model.py with interfaces, components and runs.

  run_model.py check FILE...                 run_model.py unpack TYPE HEXFILE FILE...
  run_model.py run SCRIPT FILE...            run_model.py pack TYPE JSONFILE FILE...
  run_model.py layout TYPE FILE...           run_model.py split TYPE BINFILE FILE...
  run_model.py replay SESSION FILE...        run_model.py demo N
  run_model.py snapshot SCRIPT FILE...       run_model.py resume SNAP SCRIPT FILE...

Prints what `eds` prints and ends with its status. `answer(words, files, stage)` is the same as a function, with files a
dict from names to bytes. A stage is a set of words of what is built; see STAGES.
"""
import re
import sys

import eds_model as m
from components import Component, ComponentReader, component_references, twice_in_component
from interfaces import Face, References, Resolution, cycle_breaks, twice_in_interface
from activities import Primitive
from layouts import text as layout_text
from runs import Host, Rejected, Storm
from scripts import BadLine, Script, end_report, event_text
from sessions import replayed
from snapshots import BadSnap, Snapshot, snapshot_text

EVERYTHING = m.EVERYTHING | {"interfaces", "ends", "activities", "machines", "transactions"}
STAGES = {"whole": EVERYTHING, "built": (m.EVERYTHING | {"interfaces", "ends"}) - {"inherit"}, "scalars": set()}
MOST_SCRIPT, MOST_REPORT = 4194304, 67108864

sys.setrecursionlimit(100000)


class Judge(m.Judge):
    """Judges a whole sheet; `components` are then the plan of what runs."""

    def owned_twice(self):
        breaks = []
        for sort, _, e, _ in self.items:
            if sort != "type":
                breaks += twice_in_interface(e) if sort == "interface" else twice_in_component(e)
        return breaks

    def more_references(self, breaks):
        self.faces, self.components, self.face_of = [], [], {}
        references = References(self, breaks)
        for sort, name, e, scopes in self.items:
            if sort == "interface":
                self.face_of[e.place] = Face(len(self.faces), name, e, scopes)
                self.faces.append(self.face_of[e.place])
            elif sort == "component":
                self.components.append(Component(name, e, [name] + scopes))
        for face in self.faces:
            references.declared(face)
        for component in self.components:
            component_references(component, references)
        self.named_types = references.named

    def more_named(self):
        return self.named_types

    def later_phases(self):
        m.first(cycle_breaks(self.faces))
        breaks = []
        for face in self.faces:
            if not face.generics:
                breaks += Resolution(face.place, face, []).breaks
        for component in self.components:
            for end in component.ends:
                resolution = Resolution(end.place, end.face, end.pairs)
                end.members = resolution.members
                breaks += resolution.breaks
        m.first(breaks)
        m.first([b for component in self.components for b in ComponentReader(self, component).breaks])


def judged(files, word=None, stage=EVERYTHING):
    return m.judged(files, word, stage, Judge)


# ---------------------------------------------------------------- the answer

def run(judge, script, snapshot=None):
    """(host, number of the line that is a Storm or None) of a script, which may go on from a snapshot."""
    wires = script.joined()
    host = snapshot.host(wires) if snapshot else Host(judge, wires)
    for number, line in script.lines:
        try:
            host.handle(line)
        except Storm:
            return host, number
    return host, None


def run_answer(judge, octets, snap=None):
    """(status, report) of a script over an accepted sheet, which may go on from the octets of a snapshot."""
    try:
        snapshot = None if snap is None else Snapshot(judge, snap)
        script = Script(judge, octets, snapshot)
        host, storm = run(judge, script, snapshot)
    except (BadSnap, BadLine) as bad:
        return (3, bad.report())
    events = "".join(event_text(judge, time, event) for time, event in host.outs)
    if storm is not None:
        return (7, events + "limit deliveries 10000 at line %d\n" % storm)
    return within_limit(events + end_report(judge, host))


def snapshot_answer(judge, octets):
    """(status, report) of a script of which the end is told as a snapshot."""
    try:
        script = Script(judge, octets)
        host, storm = run(judge, script)
    except BadLine as bad:
        return (3, bad.report())
    if storm is not None:
        return (7, "limit deliveries 10000 at line %d\n" % storm)
    return within_limit(snapshot_text(judge, script.wires, host))


def within_limit(report):
    """(status, report) of a report that is as long as it is."""
    return (0, report) if len(report.encode()) <= MOST_REPORT else (7, "limit report %d\n" % MOST_REPORT)


def sheets_of(names, files):
    """The octets of the sheet files, or the status and report that they end in."""
    if len(names) > 64:
        return None, (7, "limit files 64\n")
    total, sheets = 0, []
    for n in names:
        if n not in files:
            return None, (8, "no file %s\n" % n)
        total += len(files[n])
        if len(files[n]) > 4194304:
            return None, (7, "limit file 4194304\n")
        if total > 16777216:
            return None, (7, "limit sheets 16777216\n")
        sheets.append(files[n])
    return sheets, None


LEAST_WORDS = {"split": 4, "check": 2, "unpack": 4, "pack": 4, "run": 3, "replay": 3, "layout": 3, "demo": 2, "snapshot": 3, "resume": 4}
FIRST_SHEET = {"check": 1, "run": 2, "replay": 2, "layout": 2, "snapshot": 2}


def answer(words, files, stage=EVERYTHING):
    """(status, report) of words over files: a dict of bytes."""
    command = words[0] if words else None
    if len(words) < LEAST_WORDS.get(command, len(words) + 1) or command == "demo" and not demo_number(words):
        return (2, "usage: eds COMMAND ARGUMENTS\n")
    if command == "demo":
        return (0, demo_report(int(words[1])))
    sheets, end = sheets_of(words[FIRST_SHEET.get(command, 3):], files)
    if end is not None:
        return end
    try:
        judge = judged(sheets, words[1] if command in ("unpack", "pack", "split", "layout") else None, stage)
    except m.Refused as refused:
        return (1, refused.report())
    if command == "check":
        return (0, "accepted types %d containers %d interfaces %d components %d\n" % counts(judge))
    if command == "layout":
        return within_limit(layout_text(judge, judge.word))
    if command in OVER_LINES:
        return lines_answer(command, judge, words[1:FIRST_SHEET.get(command, 3)], files)
    return input_answer(command, judge, words[2], files)


def counts(judge):
    containers = len([t for t in judge.types if t.kind == "Container"])
    return (judge.counts["type"], containers, judge.counts["interface"], judge.counts["component"])


def split_answer(judge, octets):
    """(status, report) of packets one after another, each from an octet on and of at most 65,536 octets."""
    if len(octets) > 16777216:
        return (7, "limit input 16777216\n")
    rest, lines = octets, []
    while rest:
        front = rest[:65536]
        try:
            value, end = m.Reader(judge, m.bits_of(front)).read(judge.word)
        except m.Fault as fault:
            too_long = fault.reason == "Short" and len(rest) >= 65536
            reason, path = ("TooLong", "") if too_long else (fault.reason, fault.path)
            return (3, "fault %s at $%s in packet %d\n" % (reason, path, len(lines) + 1))
        lines.append(m.shown(value) + "\n")
        rest = rest[(end + 7) // 8:]
    return (0, "".join(lines) + "packets %d octets %d\n" % (len(lines), len(octets)))


OVER_LINES = {"run": run_answer, "replay": replayed, "snapshot": snapshot_answer, "resume": lambda judge, snap, script: run_answer(judge, script, snap)}


def lines_answer(command, judge, names, files):
    """(status, report) of a command that reads files of lines, over an accepted sheet."""
    for name in names:
        if name not in files:
            return (8, "no file %s\n" % name)
        if len(files[name]) > MOST_SCRIPT:
            return (7, "limit input %d\n" % MOST_SCRIPT)
    return OVER_LINES[command](judge, *[files[name] for name in names])


def input_answer(command, judge, name, files):
    """(status, report) of a command that reads an input file, over an accepted sheet."""
    if name not in files:
        return (8, "no file %s\n" % name)
    if command == "split":
        return split_answer(judge, files[name])
    most = 1048576 if command == "unpack" else 4194304
    if len(files[name]) > most:
        return (7, "limit input %d\n" % most)
    try:
        return (m.unpack if command == "unpack" else m.pack)(judge, files[name])
    except m.Fault as fault:
        return (3, "fault %s at $%s\n" % (fault.reason, fault.path))


# ---------------------------------------------------------------- demo

DEMO = (
    '["PackageFile",["Package",{"name":"Gen"},["DataTypeSet",@8,@16,["ContainerDataType",{"name":"Base","abstract":"true"},'
    '["EntryList",["Entry",{"name":"K","type":"U16"}]]],@C],["DeclaredInterfaceSet",["Interface",{"name":"Sub",'
    '"level":"subnetwork"},["GenericTypeSet",["GenericType",{"name":"Unit"}]],["CommandSet",["Command",{"name":"send"},'
    '["Argument",{"name":"unit","type":"Unit"}]],["Command",{"name":"recv"},["Argument",{"name":"unit","type":"Unit",'
    '"mode":"notify"}]]]]],["ComponentSet",["Component",{"name":"Echo"},["RequiredInterfaceSet",["Interface",{"name":"bus",'
    '"type":"Sub"},["GenericTypeMapSet",["GenericTypeMap",{"name":"Unit","type":"Base"}]]]],["Implementation",["VariableSet",'
    '["Variable",{"name":"n","type":"U16"}]],["ActivitySet",["Activity",{"name":"echo"},["Argument",{"name":"unit",'
    '"type":"Base"}],["Body",["MathOperation",{"outputVariableRef":"n"},["VariableRef",{"variableRef":"n"}],["Value",'
    '{"value":"1"}],["Operator",{"operator":"add"}]],["SendCommandPrimitive",{"interface":"bus","command":"send"},'
    '["ArgumentValue",{"name":"unit"},["ArgumentRef",{"argumentRef":"unit"}]]]]]],["StateMachineSet",["StateMachine",'
    '{"name":"m"},["EntryState",{"name":"S"}],["Transition",{"fromState":"S","toState":"S"},["OnCommandPrimitive",'
    '{"interface":"bus","command":"recv"}],["Do",{"activity":"echo"},["ArgumentValue",{"name":"unit"},["ArgumentRef",'
    '{"argumentRef":"unit"}]]]]]]]]]]]')
DEMO_INTEGER = '["IntegerDataType",{"name":"U%d"},["IntegerDataEncoding",{"sizeInBits":"%d","encoding":"unsigned"}]]'
DEMO_CONTAINER = ('["ContainerDataType",{"name":"C%d","baseType":"Base"},["ConstraintSet",["ValueConstraint",{"entry":"K",'
                  '"value":"%d"}]],["EntryList",["Entry",{"name":"V","type":"U8"}]]]')


def demo_number(words):
    return len(words) == 2 and re.fullmatch("[1-9][0-9]{0,2}", words[1]) is not None and int(words[1]) <= 500


def demo(n):
    """The sheet and the script of a demonstration of n containers."""
    sheet = DEMO.replace("@C", ",".join(DEMO_CONTAINER % (i, i) for i in range(1, n + 1)))
    sheet = sheet.replace("@8", DEMO_INTEGER % (8, 8)).replace("@16", DEMO_INTEGER % (16, 16))
    lines = ["frame Gen/Echo:bus recv %04x%02x\ntick 1\n" % (i % (n + 1), i % 256) for i in range(1, 10 * (n + 1) + 1)]
    return sheet.encode(), "".join(lines).encode()


def demo_report(n):
    sheet, script = demo(n)
    judge = judged([sheet])
    host, _ = run(judge, Script(judge, script))
    sent = len([e for _, e in host.outs if isinstance(e, Primitive)])
    rejects = len([e for _, e in host.outs if isinstance(e, Rejected)])
    types, containers, _, _ = counts(judge)
    return "demo %d types %d containers %d sent %d rejects %d end %d\n" % (n, types, containers, sent, rejects, host.now)


def main():
    words, files = sys.argv[1:], {}
    for w in words[1:]:
        try:
            with open(w, "rb") as f:
                files[w] = f.read()
        except OSError:
            pass
    status, report = answer(words, files)
    sys.stdout.buffer.write(report.encode())
    sys.exit(status)


if __name__ == "__main__":
    main()
