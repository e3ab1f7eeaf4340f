#!/usr/bin/env python3
"""Measures the program on inputs within the limits that were made to cost much, of which not all are within bounds.

  bench/worst.py [--seconds S] [--memory MIB] [PROGRAM [WORD..]]

PROGRAM is a built program (by default crates/eds_prog/out/eds_prog); with WORDs only the inputs whose names hold one of them are
run. Each comes from what a loop inside a loop of the sources may cost at most. Printed are the processor seconds, the most
memory that the process had, its status and the front of its report. What takes longer than S seconds (60) or more than MIB
(4,096) of memory is ended there. What holds within 2 seconds and 256 MiB belongs to .ci/hostile.py.
"""

import argparse
import json
import os
import resource
import subprocess
import sys
import tempfile
import time

TOP = os.path.dirname(os.path.dirname(os.path.abspath(__file__)))
sys.dont_write_bytecode = True
sys.path.insert(0, os.path.join(TOP, ".ci"))
from hostile import U4, base, chain, container, ends, entry, interface, interfaces, sheet, swaps, text  # noqa: E402


def unsigned(bits):
    return ["IntegerDataType", {"name": f"U{bits}"}, ["IntegerDataEncoding", {"sizeInBits": str(bits), "encoding": "unsigned"}]]


U1, U8, U16, U32 = unsigned(1), unsigned(8), unsigned(16), unsigned(32)


def abstract(one):
    one[1]["abstract"] = "true"
    return one


def derived(name, of, constraints=(), entries=()):
    held = [["ConstraintSet", *constraints]] if constraints else []
    listed = [["EntryList", *entries]] if entries else []
    return ["ContainerDataType", {"name": name, "baseType": of}, *held, *listed]


def value_is(path, number):
    return ["ValueConstraint", {"entry": path, "value": str(number)}]


def at_least(path, number):
    return ["RangeConstraint", {"entry": path}, ["MinMaxRange", {"rangeType": "atLeast", "min": str(number)}]]


def of_type(path, name):
    return ["TypeConstraint", {"entry": path, "type": name}]


# ---- components


def variable(name, of):
    return ["Variable", {"name": name, "type": of}]


def see(name):
    return ["VariableRef", {"variableRef": name}]


def number(n):
    return ["Value", {"value": str(n)}]


def assign(to, operand):
    return ["Assignment", {"outputVariableRef": to}, operand]


def times(count, *body, iterator="i"):
    return ["Iteration", {"iteratorVariableRef": iterator}, ["StartAt", number(1)], ["EndAt", number(count)], ["Do", *body]]


def compare(one, other, operator="=="):
    return ["Comparison", {"operator": operator}, one, other]


def machine(*transitions, states=(), name="m"):
    return ["StateMachine", {"name": name}, ["EntryState", {"name": "S"}], *(["State", {"name": it}] for it in states), *transitions]


def transition(*inside, to="S", of="S"):
    return ["Transition", {"fromState": of, "toState": to}, *inside]


def after(nanoseconds):
    return ["OnTimer", {"nanosecondsAfterEntry": str(nanoseconds)}]


def does(activity):
    return ["Do", {"activity": activity}]


def component(types, variables, activities, machines, interfaces=(), required=(), provided=()):
    """A package with one component."""
    ends = [[sort, *(["Interface", {"name": n, "type": t}] for n, t in of)] for sort, of in
            (("ProvidedInterfaceSet", provided), ("RequiredInterfaceSet", required)) if of]
    inside = [["VariableSet", *variables], ["ActivitySet", *(["Activity", {"name": n}, ["Body", *body]] for n, body in activities)],
              ["StateMachineSet", *machines]]
    package = sheet(*types)
    package[1] += [["DeclaredInterfaceSet", *interfaces], ["ComponentSet", ["Component", {"name": "C"}, *ends, ["Implementation", *inside]]]]
    return package


def starts(types, variables, *body):
    """A component whose one machine runs a body when it starts; it has a variable i for iterations."""
    return component([U32, *types], [variable("i", "U32"), *variables], [("a", body)], [machine(transition(does("a"), to="R"), states=["R"])])


def array(name, of, size):
    return ["ArrayDataType", {"name": name, "dataTypeRef": of}, ["DimensionList", ["Dimension", {"size": str(size)}]]]


WIDE = container("V", *(entry(f"e{i}", "U4") for i in range(30000)))
EMPTY = {"r": ""}


def runs():
    """Runs: what a statement, a guard, an event or a line costs is bounded by what stands in it, not by the budget."""
    yield "99,999 turns without statements, at a start", "run r s", {**EMPTY, "s": starts([], [], times(99999))}
    yield "10,000 firings of 99,998 turns each", "run r s", {
        "r": "tick 10000\n",
        "s": component([U32], [variable("i", "U32")], [("a", [times(99998)])], [machine(transition(after(1), does("a")))]),
    }
    yield "49,000 assignments of an array of 65,536 numbers", "run r s", {
        **EMPTY, "s": starts([U1, array("A", "U1", 65536)], [variable("v", "A"), variable("w", "A")], times(49000, assign("v", see("w"))))}
    yield "49,000 assignments of 65,536 octets", "run r s", {
        **EMPTY, "s": starts([["BinaryDataType", {"name": "B", "sizeInBits": "524288"}]], [variable("v", "B"), variable("w", "B")],
                             times(49000, assign("v", see("w"))))}
    yield "49,000 assignments to the last of 30,000 entries", "run r s", {
        **EMPTY, "s": starts([U4, WIDE], [variable("v", "V")], times(49000, assign("v.e29999", number(3))))}
    yield "49,000 assignments from the last of 30,000 entries", "run r s", {
        **EMPTY, "s": starts([U4, WIDE], [variable("v", "V"), variable("u", "U4")], times(49000, assign("u", see("v.e29999"))))}
    sum_of_last = ["MathOperation", {"outputVariableRef": "i"}, see("v.e29999")]
    for _ in range(19000):
        sum_of_last += [see("v.e29999"), ["Operator", {"operator": "add"}]]
    yield "one sum of 19,001 times the last of 30,000 entries", "run r s", {**EMPTY, "s": starts([U4, WIDE], [variable("v", "V")], sum_of_last)}
    sum_of_one = ["MathOperation", {"outputVariableRef": "j"}, see("j")]
    for _ in range(16000):
        sum_of_one += [see("k"), ["Operator", {"operator": "add"}]]
    yield "1,000 sums of 16,001 variables", "run r s", {
        **EMPTY, "s": starts([], [variable("j", "U32"), variable("k", "U32")], times(1000, sum_of_one))}
    guard = ["Guard", ["ORedConditions", *([compare(see("i"), number(7))] * 30000)]]
    yield "10,000 events at a guard of 30,000 comparisons", "run r s", {
        "r": "tick 10000\n",
        "s": component([U32], [variable("i", "U32")], [], [machine(transition(after(1), guard), transition(after(1)))])}
    yield "10,000 firings at a machine of 32,766 transitions, of which each waits for a time", "run r s", {
        "r": "tick 10000\n", "s": component([], [], [], [machine(*(transition(after(i + 1)) for i in range(32766)))])}
    yield "200,000 lines at a machine of 32,766 transitions", "run r s", {
        "r": "cmd P/C:e c {}\n" * 200000,
        "s": component([], [], [], [machine(*(transition(after(10**9 + i)) for i in range(32766)))],
                       [["Interface", {"name": "X"}, ["CommandSet", ["Command", {"name": "c"}]]]], provided=[("e", "X")])}
    yield "10,000 firings at a state of 32,766 transitions of one time, of which the last is open", "run r s", {
        "r": "tick 10000\n",
        "s": component([U8], [variable("v", "U8")], [], [machine(*[transition(after(1), ["Guard", compare(see("v"), number(1))])] * 16000, transition(after(1)))])}
    sends = [["SendCommandPrimitive", {"interface": "e", "command": "c", "transaction": f"t{i}"}] for i in range(14000)]
    answers = [transition(["OnCommandPrimitive", {"interface": "e", "command": "d", "transaction": f"u{i}"}]) for i in range(14000)]
    two = [["Interface", {"name": "X"}, ["CommandSet", ["Command", {"name": "c"}], ["Command", {"name": "d"}, ["Argument", {"name": "a", "type": "U8", "mode": "notify"}]]]]]
    yield "1,000 events at 14,000 transitions, each with a transaction that is not among 14,000", "run r s", {
        "r": 'cmd P/C:e d {"a":1}\n' * 1000,
        "s": component([U8], [], [("a", sends)], [machine(transition(does("a"), to="R"), states=["R"]), machine(*answers, name="n")], two, required=[("e", "X")])}


def sent():
    """What is sent is held until its line is done."""
    def chatter(size, count):
        types = [["BinaryDataType", {"name": "B", "sizeInBits": str(size * 8)}]]
        face = [["Interface", {"name": "X"}, ["CommandSet", ["Command", {"name": "c"}, ["Argument", {"name": "a", "type": "B"}]]]]]
        send = ["SendCommandPrimitive", {"interface": "e", "command": "c"}, ["ArgumentValue", {"name": "a"}, see("v")]]
        return component([U32, *types], [variable("i", "U32"), variable("v", "B")], [("a", [times(count, send)])],
                         [machine(transition(does("a"), to="R"), states=["R"])], face, required=[("e", "X")])
    yield "500 sends of 65,536 octets in one event, a report of 65 MB", "run r s", {**EMPTY, "s": chatter(65536, 500)}
    yield "40,000 sends of 65,536 octets in one event", "run r s", {**EMPTY, "s": chatter(65536, 40000)}
    yield "49,000 sends of an octet in one event", "run r s", {**EMPTY, "s": chatter(1, 49000)}
    types = [U1, array("A", "U1", 65536)]
    face = [["Interface", {"name": "X"}, ["CommandSet", ["Command", {"name": "c"}, ["Argument", {"name": "a", "type": "A"}]]]]]
    send = ["SendCommandPrimitive", {"interface": "e", "command": "c"}, ["ArgumentValue", {"name": "a"}, see("v")]]
    for count in (400, 5000):
        yield f"{count} sends of an array of 65,536 numbers in one event", "run r s", {
            **EMPTY, "s": component([U32, *types], [variable("i", "U32"), variable("v", "A")], [("a", [times(count, send)])],
                                    [machine(transition(does("a"), to="R"), states=["R"])], face, required=[("e", "X")])}


def mapped_ends(count, pairs):
    """A component whose ends have one map of so many generic names each, in pairs of a required and a provided one."""
    names = [f"T{i}" for i in range(count)]
    package = interfaces(interface("X", generics=names))
    one = ["GenericTypeMapSet", *(["GenericTypeMap", {"name": it, "type": "U4"}] for it in names)]
    sets = [["ProvidedInterfaceSet", *(["Interface", {"name": f"p{i}", "type": "X"}, one] for i in range(pairs))],
            ["RequiredInterfaceSet", *(["Interface", {"name": f"r{i}", "type": "X"}, one] for i in range(pairs))]]
    package[1].append(["ComponentSet", ["Component", {"name": "C"}, *sets]])
    return package


def scripts():
    commands = [["Interface", {"name": "X"}, ["CommandSet", *(["Command", {"name": f"c{i}"}] for i in range(1024))]]]
    yield "190,000 lines that name the last of 1,024 commands", "run r s", {
        "r": "cmd P/C:e c1023 {}\n" * 190000, "s": component([], [], [], [machine()], commands, provided=[("e", "X")])}
    yield "a wire between ends with maps of 16,000 generic names", "run r s", {"r": "wire P/C:r0 P/C:p0\n", "s": mapped_ends(16000, 1)}
    yield "100 wires between ends with maps of 200 generic names", "run r s", {
        "r": "".join(f"wire P/C:r{i} P/C:p{i}\n" for i in range(100)), "s": mapped_ends(200, 100)}
    yield "a run of 4,000 ends of an interface with 1,000 parameters", "run r s", {**EMPTY, "s": ends(4000, [("p%d" % i, "U4") for i in range(1000)])}
    yield "a run of 32,000 ends of an interface with 100 parameters", "run r s", {**EMPTY, "s": ends(32000, [("p%d" % i, "U4") for i in range(100)])}
    yield "a run of 32,000 ends of an interface with 1,000 parameters", "run r s", {**EMPTY, "s": ends(32000, [("p%d" % i, "U4") for i in range(1000)])}
    face = ["Interface", {"name": "X"}, ["CommandSet", *(["Command", {"name": f"c{i}"}, ["Argument", {"name": "a", "type": "U4"}]] for i in range(1000))]]
    package = interfaces(face)
    package[1].append(["ComponentSet", ["Component", {"name": "C"}, ["RequiredInterfaceSet", *(["Interface", {"name": f"e{i}", "type": "X"}] for i in range(4000))]]])
    yield "a run of 4,000 ends of an interface with 1,000 commands", "run r s", {**EMPTY, "s": package}
    key = abstract(container("K", entry("k", "U16")))
    many = [derived(f"D{i}", "K", [at_least("k", j - 100) for j in range(90)] + [value_is("k", i + 200)]) for i in range(511)]
    command = [["Interface", {"name": "X"}, ["CommandSet", ["Command", {"name": "c"}, ["Argument", {"name": "a", "type": "K", "mode": "notify"}]]]]]
    yield "150,000 frames of a family of 511 with 91 constraints each", "run r s", {
        "r": "frame P/C:e c 02c6\n" * 150000, "s": component([U16, key, *many], [], [], [machine()], command, required=[("e", "X")])}


def frames():
    hard = [abstract(container("K", entry("k", "U16")))]
    hard += [derived(f"D{i}", "K", [at_least("k", 0)] * 90 + [value_is("k", i)]) for i in range(511)]
    hard.append(container("L", entry("n", "U16"), ["ListEntry", {"name": "l", "type": "K", "listLengthField": "n"}]))
    frame = (32000).to_bytes(2, "big") + b"".join((510).to_bytes(2, "big") for _ in range(32000))
    yield "32,000 items of a family of 511 with 91 constraints each", "unpack P/L f s", {"s": sheet(U16, *hard), "f": frame.hex()}
    labels = ["EnumeratedDataType", {"name": "E"}, ["IntegerDataEncoding", {"sizeInBits": "16", "encoding": "unsigned"}],
              ["EnumerationList", *(["Enumeration", {"label": f"L{i}", "value": str(i)}] for i in range(32767))]]
    labelled = sheet(labels, U16, container("L", entry("n", "U16"), ["ListEntry", {"name": "l", "type": "E", "listLengthField": "n"}]))
    yield "32,000 items of the last of 32,767 labels", "unpack P/L f s", {"s": labelled, "f": (32000).to_bytes(2, "big").hex() + "7ffe" * 32000}
    yield "32,000 labels in JSON, the last of 32,767", "pack P/L v s", {"s": labelled, "v": '{"l":[' + ",".join(['"L32766"'] * 32000) + '],"n":32000}'}
    bits = container("B", entry("b", "U1"))
    of_bits = container("L", entry("n", "U32"), ["ListEntry", {"name": "l", "type": "B", "listLengthField": "n"}])
    for others in (0, 4000):
        yield f"500,000 containers of a bit, in a sheet with {others} other containers", "unpack P/L f s", {
            "s": sheet(U1, U32, bits, of_bits, *(container(f"O{i}", entry("b", "U1")) for i in range(others))), "f": (500000).to_bytes(4, "big").hex() + "00" * 62500}
    deep = [container("D0", entry("a", "U1"))] + [container(f"D{i}", entry("a", f"D{i - 1}")) for i in range(1, 30)]
    deep.append(container("L", entry("n", "U32"), ["ListEntry", {"name": "l", "type": "D29", "listLengthField": "n"}]))
    for count in (90000, 524000):
        yield f"{count} items of 30 containers in one another", "unpack P/L f s", {
            "s": sheet(U1, U32, *deep), "f": count.to_bytes(4, "big").hex() + "00" * ((count + 7) // 8)}
    lists = container("E", entry("n", "U1"), *(["ListEntry", {"name": f"l{i}", "type": "U1", "listLengthField": "n"}] for i in range(32000)))
    many = container("L", entry("n", "U32"), ["ListEntry", {"name": "l", "type": "E", "listLengthField": "n"}])
    for count in (200, 5000):
        yield f"{count} items of 32,000 empty lists each", "unpack P/L f s", {
            "s": sheet(U1, U32, lists, many), "f": count.to_bytes(4, "big").hex() + "00" * ((count + 7) // 8)}
    yield "524,000 items of one bit", "unpack P/L f s", {
        "s": sheet(U1, U32, container("L", entry("n", "U32"), ["ListEntry", {"name": "l", "type": "U1", "listLengthField": "n"}])),
        "f": (524000).to_bytes(4, "big").hex() + "00" * 65500}
    fixed = container("C", *(["FixedValueEntry", {"type": "U1", "fixedValue": "0"}] for i in range(32000)))
    yield "16 lists of containers of 32,000 fixed values", "unpack P/L f s", {
        "s": sheet(U1, U8, fixed, container("L", entry("n", "U8"), ["ListEntry", {"name": "l", "type": "C", "listLengthField": "n"}])),
        "f": "10" + "00" * 64000}


def recordings():
    for count in (1 << 20, 1 << 24):
        yield f"{count} packets of an octet each", "split P/U8 f s", {"s": sheet(U8), "f": b"\0" * count}
        yield f"{count} packets of an octet each, in a container", "split P/C f s", {"s": sheet(U8, container("C", entry("a", "U8"))), "f": b"\0" * count}
    yield "16 MiB of packets of 32,768 octets", "split P/B f s", {"s": sheet(["BinaryDataType", {"name": "B", "sizeInBits": "262144"}]), "f": b"\0" * (1 << 24)}
    late = container("C", entry("n", "U32"), ["ListEntry", {"name": "l", "type": "U1", "listLengthField": "n"}])
    yield "packets that are read again with each piece", "split P/C f s", {"s": sheet(U1, U32, late), "f": ((524000).to_bytes(4, "big") + b"\0" * 65500) * 256}


def values():
    word = sheet(U4, container("W", entry("a", "U4")))
    yield "600,000 objects of one member", "pack P/W v s", {"s": word, "v": '{"a":[' + ",".join(['{"":0}'] * 590000) + "]}"}
    yield "1,300,000 empty lists", "pack P/W v s", {"s": word, "v": '{"a":[' + ",".join(["[]"] * 1390000) + "]}"}
    yield "600,000 texts of an octet", "pack P/W v s", {"s": word, "v": '{"a":[' + ",".join(['"x"'] * 1040000) + "]}"}
    named = [U1, U32, *(container(f"T{i}", entry("b", "U1")) for i in range(4000)), container("Z", entry("b", "U1"))]
    named.append(container("L", entry("n", "U32"), ["ListEntry", {"name": "l", "type": "Z", "listLengthField": "n"}]))
    yield "150,000 objects that name the last of 4,000 types", "pack P/L v s", {
        "s": sheet(*named), "v": '{"l":[' + ",".join(['{"$type":"P/Z","b":0}'] * 150000) + '],"n":150000}'}
    lists = container("E", entry("n", "U8"), ["ListEntry", {"name": "l", "type": "U1", "listLengthField": "n"}])
    most = container("L", entry("n", "U32"), ["ListEntry", {"name": "l", "type": "E", "listLengthField": "n"}])
    yield "60,000 lists in objects", "pack P/L v s", {
        "s": sheet(U1, U8, U32, lists, most), "v": '{"l":[' + ",".join(['{"$type":"P/E","l":[],"n":0}'] * 60000) + '],"n":60000}'}


# Names of 32 letters that begin so have one hash, whatever their last eight letters are: the kit's hasher of maps has no seed.
ONE_HASH = "k000000000050428sn40EUs9"


def alike(n):
    return f"{ONE_HASH}{n:08}"


def one_hash():
    """Names that are made to have one hash, beside as many that are not."""
    for what, name in (("of one hash", alike), ("of other hashes", lambda n: f"k{n:031}")):
        for count in (20000, 32000):
            yield f"{count} entries {what}", "check s", {"s": sheet(U4, container("C", *(entry(name(i), "U4") for i in range(count))))}
        yield f"90,000 attributes {what}", "check s", {"s": ["PackageFile", {name(i): "" for i in range(90000)}]}
        yield f"90,000 members {what}", "pack P/W v s", {"s": sheet(U4, container("W", entry("a", "U4"))), "v": {name(i): 0 for i in range(90000)}}


def sheets():
    yield "600,000 objects of one member as a sheet", "check s", {"s": "[" + ",".join(['{"":0}'] * 590000) + "]"}
    for what, one in (("600,000 objects", '{"":0}'), ("1,390,000 lists", "[]"), ("lists of a text", '["a"]')):
        held = '["PackageFile",["Package",{"name":"P%d"},["include",' + ",".join([one] * (4190000 // (len(one) + 1))) + "]]]"
        yield f"{what} in what is passed over, four times", "check s0 s1 s2 s3", {f"s{i}": held % i for i in range(4)}
    wide = [[f"P{f}", [container(f"C{i}", *(entry(f"e{k}", "U4") for k in range(30000))) for i in range(4)]] for f in range(4)]
    yield "four sheets of 4 containers of 30,000 entries", "check s0 s1 s2 s3", {
        f"s{i}": sheet(U4, *types[:3], package=name) for i, (name, types) in enumerate(wide)}
    yield "4,096 containers in chains of 16", "check s", {
        "s": sheet(*(derived(f"C{i}_{k}", f"C{i}_{k - 1}") if k else ["ContainerDataType", {"name": f"C{i}_0"}] for i in range(256) for k in range(16)))}
    yield "16,000 lists, each by an entry of its own", "check s", {
        "s": sheet(U4, container("C", *(entry(f"e{i}", "U4") for i in range(16000)),
                                 *(["ListEntry", {"name": f"l{i}", "type": "U4", "listLengthField": f"e{15999 - i}"}] for i in range(16000))))}
    labels = ["EnumeratedDataType", {"name": "E"}, ["IntegerDataEncoding", {"sizeInBits": "32", "encoding": "unsigned"}],
              ["EnumerationList", *(["Enumeration", {"label": f"L{i}", "value": str(2 * i)}] for i in range(32767))]]
    first = abstract(container("K", entry("k", "E")))
    yield "511 containers by a label each of 32,767", "check s", {
        "s": sheet(labels, first, *(derived(f"D{i}", "K", [value_is("k", f"L{i}")]) for i in range(511)), container("X", entry("x", "K")))}
    yield "30,000 constraints on one entry of 32,767 labels", "check s", {
        "s": sheet(labels, first, derived("D", "K", [value_is("k", "L7")] * 30000), container("X", entry("x", "K")))}
    family = [abstract(container("F", entry("k", "U16")))] + [derived(f"F{i}", "F", [value_is("k", i)]) for i in range(511)]
    yield "30,000 type constraints on one entry of a family of 512", "check s", {
        "s": sheet(U16, *family, abstract(container("K", entry("k", "F"))), derived("D", "K", [of_type("k", "F")] * 30000), container("X", entry("x", "K")))}
    paths = abstract(container("K", *(entry(f"e{i}", "U4") for i in range(30000))))
    yield "30,000 constraints on an entry each, with 60 containers below that one", "check s", {
        "s": sheet(U4, paths, derived("D", "K", [value_is(f"e{29999 - i}", 1) for i in range(30000)]), *(derived(f"D{i}", "D") for i in range(60)))}
    for count in (300, 1000):
        shared = [value_is(f"e{j}", 1) for j in range(count)]
        inside = [["RangeConstraint", {"entry": "k"}, ["MinMaxRange", {"rangeType": "inclusiveMinInclusiveMax", "min": str(4 * i), "max": str(4 * i + 3)}]] for i in range(510)]
        yield f"510 containers by intervals, below one with {count} constraints", "check s", {
            "s": sheet(U4, U16, abstract(container("K", entry("k", "U16"), *(entry(f"e{j}", "U4") for j in range(count)))), abstract(derived("M", "K", shared)),
                       *(derived(f"D{i}", "M", [one]) for i, one in enumerate(inside)), container("X", entry("x", "K")))}
    few = abstract(container("K", *(entry(f"e{i}_{j}", "U1") for i in range(170) for j in range(i))))
    pairs = [derived(f"D{i}", "K", [value_is(f"e{max(i, j)}_{min(i, j)}", int(i < j)) for j in range(170) if j != i]) for i in range(170)]
    yield "170 containers, of which each two differ in an entry of their own", "check s", {"s": sheet(U1, few, *pairs, container("X", entry("x", "K")))}
    bits = abstract(container("K", *(entry(f"e{i}", "U1") for i in range(60))))
    same = [derived(f"D{i}", "K", [value_is(f"e{j}", 0) for j in range(50)] + [value_is(f"e{50 + j}", i >> j & 1) for j in range(9)]) for i in range(511)]
    yield "511 containers that agree in 50 entries and differ in 9", "check s", {"s": sheet(U1, bits, *same, container("X", entry("x", "K")))}
    eight = []
    for f in range(8):
        eight.append(abstract(container(f"K{f}", entry("k", "U16"), entry("j", "U16"))))
        eight += [derived(f"K{f}D{i}", f"K{f}", [at_least("k", i), value_is("j", i)]) for i in range(500)]
    yield "eight families of 501, by intervals that overlap and a number", "check s", {
        "s": sheet(U16, *eight, container("X", *(entry(f"x{f}", f"K{f}") for f in range(8))))}
    yield "a chain of containers of 32,000 entries in each of four files", "check s0 s1 s2 s3", {
        f"s{i}": sheet(U4, *chain(16, 5000), package=f"P{i}") for i in range(4)}
    yield "32 types deep, 100 wide", "check s", {
        "s": sheet(U1, container("D0", entry("a", "U1")), *(container(f"D{i}", *(entry(f"e{k}", f"D{i - 1}") for k in range(1000))) for i in range(1, 31)))}
    yield "4,000 containers that hold one another in every pair", "check s", {
        "s": sheet(U1, *(container(f"D{i}_{j}", entry("a", "U1"), *(entry(f"e{k}", f"D{i - 1}_{k}") for k in range(30) if i)) for i in range(31) for j in range(60)))}
    yield "a name of 20,000 parts, and ten references", "check s", {
        "s": ["PackageFile", ["Package", {"name": "/".join("a" * 20000)}, ["DataTypeSet", U4, container("C", *(entry(f"e{i}", "U4") for i in range(10)))]]]}
    names = [f"T{i}" for i in range(60)]
    yield "twenty levels of swapped generic names", "check s", {"s": interfaces(*swaps(20))}
    yield "200 generic names through 500 levels", "check s", {
        "s": interfaces(*(interface(f"X{i}", [base(f"X{i - 1}", *zip(names, names))] if i else [], names, [(f"p{i}", "T0")]) for i in range(500)))}
    yield "500 interfaces that have all before them as bases", "check s", {
        "s": interfaces(*(interface(f"X{i}", [base(f"X{j}") for j in range(max(0, i - 90), i)], [], [(f"p{i}", "U4")]) for i in range(500)))}
    calls = [(f"a{i}", [["Call", {"activity": f"a{j}"}] for j in range(i + 1, min(i + 60, 700))]) for i in range(700)]
    yield "700 activities that each call the 59 after them", "check s", {"s": component([], [], calls, [])}
    yield "32,767 variables, and an assignment of each", "check s", {
        "s": component([U4], [variable(f"v{i}", "U4") for i in range(20000)], [("a", [assign(f"v{19999 - i}", see(f"v{i}")) for i in range(14000)])], [])}
    yield "20,000 states, and a transition from each", "check s", {
        "s": component([], [], [], [machine(*(transition(after(1), of=f"s{i}", to=f"s{19999 - i}") for i in range(20000)), states=[f"s{i}" for i in range(20000)])])}
    yield "30,000 activities, and a call of each", "check s", {
        "s": component([], [], [(f"a{i}", []) for i in range(20000)] + [("b", [["Call", {"activity": f"a{19999 - i}"}] for i in range(20000)])], [])}
    yield "a call with 16,000 arguments", "check s", {"s": arguments(16000)}


def arguments(count):
    package = component([U4], [], [("b", [["Call", {"activity": "a"}, *(["ArgumentValue", {"name": f"x{count - 1 - i}"}, number(1)] for i in range(count))]])], [])
    activities = package[1][4][1][2][2]
    activities.append(["Activity", {"name": "a"}, *(["Argument", {"name": f"x{i}", "type": "U4"}] for i in range(count)), ["Body"]])
    return package


def inputs():
    for group in (one_hash, sheets, frames, values, recordings, runs, sent, scripts):
        yield from group()


def memory_of(process):
    """The most KiB of memory that a process ever had, 0 where it is gone."""
    try:
        with open(f"/proc/{process}/status", encoding="ascii", errors="replace") as file:
            return next((int(it.split()[1]) for it in file if it.startswith("VmHWM")), 0)
    except OSError:
        return 0


def measure(program, words, room, seconds, memory):
    def begin():
        resource.setrlimit(resource.RLIMIT_AS, (memory << 20, memory << 20))
        resource.setrlimit(resource.RLIMIT_CPU, (seconds, seconds))
        resource.setrlimit(resource.RLIMIT_CORE, (0, 0))

    with tempfile.TemporaryFile() as out:
        child = subprocess.Popen([program, *words], cwd=room, stdin=subprocess.DEVNULL, stdout=out, stderr=subprocess.STDOUT, preexec_fn=begin)
        # what wait4 tells of memory would include that of this process, of which the child was a copy
        most = 0
        while not os.waitid(os.P_PID, child.pid, os.WEXITED | os.WNOWAIT | os.WNOHANG):
            most = max(most, memory_of(child.pid))
            time.sleep(0.005)
        _, status, used = os.wait4(child.pid, 0)
        child.returncode = os.waitstatus_to_exitcode(status)
        size = os.fstat(out.fileno()).st_size
        out.seek(0)
        return used.ru_utime + used.ru_stime, most >> 10, child.returncode, out.read(100), size


def main():
    asked = argparse.ArgumentParser(usage=__doc__.split("\n\n")[1].strip())
    asked.add_argument("--seconds", type=int, default=60)
    asked.add_argument("--memory", type=int, default=4096)
    asked.add_argument("program", nargs="?", default=os.path.join(TOP, "crates/eds_prog/out/eds_prog"))
    asked.add_argument("words", nargs="*")
    asked = asked.parse_args()
    program = os.path.abspath(asked.program)
    for what, words, files in inputs():
        if asked.words and not any(it in what for it in asked.words):
            continue
        with tempfile.TemporaryDirectory(prefix="eds-worst-") as room:
            held = {name: text(content) for name, content in files.items()}
            for name, content in held.items():
                with open(os.path.join(room, name), "wb") as file:
                    file.write(content)
            took, memory, status, front, size = measure(program, words.split(" "), room, asked.seconds, asked.memory)
        kib = sum(map(len, held.values())) >> 10
        told = front.decode("utf-8", "replace").replace("\n", "; ")
        mark = "  " if took <= 2 and memory <= 256 else "! "
        print(f"{mark}{took:7.2f} s {memory:5} MiB, {kib:6} KiB of files, status {status}, {size:9} octets: {what}: {told[:70]}", flush=True)


if __name__ == "__main__":
    main()
