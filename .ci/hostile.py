#!/usr/bin/env python3
"""Runs the program on sheets, frames, values, scripts and sessions that are made to hurt, and holds it to its answers and to bounds.

  .ci/hostile.py [--measure] [PROGRAM]

PROGRAM is the built program (by default that of the environment's EDS, or else crates/eds_prog/out/eds_prog). Each input has
the report that has to come, where the program has 256 MiB of memory and 1 MiB of stack; it takes at most 2 seconds of
processor time. With --measure the time is printed, and the least memory and the least stack that suffice, and at the end the
deepest stack of all. Inputs that cost more, and why, are those of bench/worst.py.
"""

import json
import os
import resource
import subprocess
import sys
import tempfile
from concurrent.futures import ThreadPoolExecutor
from itertools import chain as chain_of

import cases

TOP = os.path.dirname(os.path.dirname(os.path.abspath(__file__)))
SECONDS, MEMORY, STACK, SYSTEM = 2, 256 << 20, 1 << 20, 8 << 20
FILE, PACKETS = 4_194_304, 8_388_608

U4 = ["IntegerDataType", {"name": "U4"}, ["IntegerDataEncoding", {"sizeInBits": "4", "encoding": "unsigned"}]]
U8 = ["IntegerDataType", {"name": "U8"}, ["IntegerDataEncoding", {"sizeInBits": "8", "encoding": "unsigned"}]]
U12 = ["IntegerDataType", {"name": "U12"}, ["IntegerDataEncoding", {"sizeInBits": "12", "encoding": "unsigned"}]]
POSITIVE = ["Range", ["MinMaxRange", {"rangeType": "atLeast", "min": "0"}]]


def sheet(*types, package="P"):
    return ["PackageFile", ["Package", {"name": package}, ["DataTypeSet", *types]]]


def container(name, *entries):
    return ["ContainerDataType", {"name": name}, ["EntryList", *entries]]


def entry(name, of):
    return ["Entry", {"name": name, "type": of}]


def sub_range(name, base):
    return ["SubRangeDataType", {"name": name, "baseType": base}, POSITIVE]


WORD = sheet(U4, U12, container("Word", entry("a", "U4"), entry("b", "U12")))


def interfaces(*faces, types=(U4, U12)):
    return ["PackageFile", ["Package", {"name": "P"}, ["DataTypeSet", *types], ["DeclaredInterfaceSet", *faces]]]


def interface(name, bases=(), generics=(), parameters=()):
    sets = [
        ["BaseInterfaceSet", *bases],
        ["GenericTypeSet", *(["GenericType", {"name": it}] for it in generics)],
        ["ParameterSet", *(["Parameter", {"name": it, "type": of}] for it, of in parameters)],
    ]
    return ["Interface", {"name": name}, *(it for it in sets if len(it) > 1)]


def base(of, *maps):
    held = [["GenericTypeMapSet", *(["GenericTypeMap", {"name": it, "type": to}] for it, to in maps)]] if maps else []
    return ["Base", {"type": of}, *held]


def ends(count, parameters):
    """A component with many ends of one interface."""
    held = [["Interface", {"name": f"e{i}", "type": "X"}] for i in range(count)]
    package = interfaces(interface("X", parameters=parameters))
    package[1].append(["ComponentSet", ["Component", {"name": "C"}, ["RequiredInterfaceSet", *held]]])
    return package


def components(count, ends, faces):
    """Components with ends of one interface each, among interfaces that no end has."""
    package = interfaces(*(interface(f"X{i}", parameters=[(f"p{k}", "U4") for k in range(8)]) for i in range(faces)))
    held = [["Interface", {"name": f"e{i}", "type": "X0"}] for i in range(ends)]
    package[1].append(["ComponentSet", *(["Component", {"name": f"C{i}"}, ["RequiredInterfaceSet", *held]] for i in range(count))])
    return package


def diamonds(levels):
    """Each interface has the one before it as a base twice: 2^levels ways to the first."""
    yield interface("X0", parameters=[("p", "U4")])
    for it in range(levels):
        yield interface(f"X{it + 1}", [base(f"X{it}"), base(f"X{it}")])


def swaps(levels, parameters=()):
    """At each level two generic names are swapped or not: 2^levels maps of the first interface."""
    names = [f"T{it}" for it in range(2 * levels)]
    yield interface("X0", generics=names, parameters=parameters)
    for it in range(levels):
        swapped = list(names)
        swapped[2 * it : 2 * it + 2] = reversed(swapped[2 * it : 2 * it + 2])
        yield interface(f"X{it + 1}", [base(f"X{it}", *zip(names, names)), base(f"X{it}", *zip(names, swapped))], names)
    yield interface("Top", [base(f"X{levels}", *((it, ("U4", "U12")[k % 2]) for k, it in enumerate(names)))])


def assignments(name, *types):
    """A component with a variable of the last of these types, and 20,000 assignments of a part of it to itself."""
    package = sheet(*types)
    statement = ["Assignment", {"outputVariableRef": f"v.{name}"}, ["VariableRef", {"variableRef": f"v.{name}"}]]
    variables = ["VariableSet", ["Variable", {"name": "v", "type": types[-1][1]["name"]}]]
    activities = ["ActivitySet", ["Activity", {"name": "a"}, ["Body", *([statement] * 20000)]]]
    package[1].append(["ComponentSet", ["Component", {"name": "C"}, ["Implementation", variables, activities]]])
    return package


def chain(count, entries):
    """Containers in a chain with so many entries each, of which the first has a trailer; all but the last are abstract."""
    for i in range(count):
        one = container(f"C{i}", *(entry(f"e{i}_{k}", "U4") for k in range(entries)))
        one[1].update({"baseType": f"C{i - 1}"} if i else {}, **({"abstract": "true"} if i < count - 1 else {}))
        yield one if i else [*one, ["TrailerEntryList", entry("last", "U4")]]


def derived(name, of, *constraints):
    """A container under another one, with some constraints."""
    return ["ContainerDataType", {"name": name, "baseType": of}, *([["ConstraintSet", *constraints]] if constraints else [])]


def family(count, number_of):
    """An abstract container, so many under it, each by a number, and an entry of it."""
    root = container("K", entry("k", "U12"))
    root[1]["abstract"] = "true"
    return [U12, root, *(derived(f"D{i}", "K", asks("k", number_of(i))) for i in range(count)), container("X", entry("x", "K"))]


def asks(path, number):
    return ["ValueConstraint", {"entry": path, "value": str(number)}]


def number(n):
    return ["Value", {"value": str(n)}]


def component(activities, *transitions):
    """A component with two variables, activities that are bodies, and a machine."""
    package = sheet(U12)
    inside = [
        ["VariableSet", ["Variable", {"name": "i", "type": "U12"}], ["Variable", {"name": "n", "type": "U12"}]],
        ["ActivitySet", *(["Activity", {"name": f"a{at}"}, ["Body", *body]] for at, body in enumerate(activities))],
        ["StateMachineSet", ["StateMachine", {"name": "m"}, ["EntryState", {"name": "S"}], ["State", {"name": "R"}], *transitions]],
    ]
    package[1].append(["ComponentSet", ["Component", {"name": "C"}, ["Implementation", *inside]]])
    return package


STARTS = ["Transition", {"fromState": "S", "toState": "R"}, ["Do", {"activity": "a0"}]]


def starting(*activities):
    """A component that starts with the first of these activities."""
    return component(activities, STARTS)


def call(at):
    return ["Call", {"activity": f"a{at}"}]


ADD_ONE = ["MathOperation", {"outputVariableRef": "n"}, ["VariableRef", {"variableRef": "n"}], number(1), ["Operator", {"operator": "add"}]]
TRUE = ["Comparison", {"operator": "=="}, ["VariableRef", {"variableRef": "n"}], number(0)]


def nested(levels, inner, around):
    for _ in range(levels):
        inner = around(inner)
    return inner


def iteration(turns):
    return lambda inner: ["Iteration", {"iteratorVariableRef": "i"}, ["StartAt", number(1)], ["EndAt", number(turns)], ["Do", inner]]


def conditional(inner):
    return ["Conditional", ["Condition", TRUE], ["OnConditionTrue", inner]]


def waits(nanoseconds, of="S"):
    return ["Transition", {"fromState": of, "toState": "S"}, ["OnTimer", {"nanosecondsAfterEntry": str(nanoseconds)}]]


def deep():
    """Containers, and arrays, in one another as deep as types nest, and what reads, packs, copies, compares and changes them."""
    nest = [U4, container("C0", entry("x", "U4")), *(container(f"C{at}", entry("x", f"C{at - 1}")) for at in range(1, 31))]
    lists = [["ArrayDataType", {"name": f"A{at}", "dataTypeRef": f"A{at - 1}" if at else "U4"}, ["DimensionList", ["Dimension", {"size": "1"}]]] for at in range(31)]

    def value(number):
        return "".join('{"$type":"P/C%d","x":' % (30 - at) for at in range(31)) + str(number) + "}" * 31

    yield "a frame of 31 containers in one another", "unpack P/C30 f s", {"s": sheet(*nest), "f": "50"}, (0, value(5) + "\nbits 4\n")
    yield "a value of 31 containers in one another", "pack P/C30 v s", {"s": sheet(*nest), "v": value(5)}, (0, "50\nbits 4\n")
    yield "a fault in 31 containers in one another", "pack P/C30 v s", {"s": sheet(*nest), "v": value(16)}, (3, "fault OutOfRange at $" + ".x" * 31 + "\n")
    yield "a frame of 31 arrays in one another", "unpack P/A30 f s", {"s": sheet(U4, *lists), "f": "50"}, (0, "[" * 31 + "5" + "]" * 31 + "\nbits 4\n")
    yield "a value of 31 arrays in one another", "pack P/A30 v s", {"s": sheet(U4, *lists), "v": "[" * 31 + "5" + "]" * 31}, (0, "50\nbits 4\n")
    see = [["VariableRef", {"variableRef": it}] for it in ("v", "w")]
    alike = ["Conditional", ["Condition", ["Comparison", {"operator": "=="}, *see]], ["OnConditionTrue", ["Assignment", {"outputVariableRef": "w"}, see[0]]]]
    package = component([[["Assignment", {"outputVariableRef": "v" + ".x" * 31}, number(5)], ["Assignment", {"outputVariableRef": "w"}, see[0]], alike]], STARTS)
    package[1][2] += nest
    package[1][3][1][2][1] += [["Variable", {"name": it, "type": "C30"}] for it in ("v", "w")]
    report = ["end 0", "state P/C m R", "var P/C i 0", "var P/C n 0", "var P/C v " + value(5), "var P/C w " + value(5)]
    yield "variables of 31 containers in one another", "run r s", {"s": package, "r": ""}, (0, "".join(f"{it}\n" for it in report))


def behaviour():
    """Activities and machines that are made to hurt."""

    def ended(state, i, n, *before, time=0):
        return "".join(f"{it}\n" for it in (*before, f"end {time}", f"state P/C m {state}", f"var P/C i {i}", f"var P/C n {n}"))

    good = (0, "accepted types 1 containers 0 interfaces 0 components 1\n")
    started = {"r": ""}
    calls = [[call(at + 1)] for at in range(32766)] + [[ADD_ONE]]
    back = [[call(32766)], [ADD_ONE], *([call(at - 1)] for at in range(2, 32767))]
    yield "32,767 activities that call one another in a chain", "run r s", {**started, "s": starting(*calls)}, (0, ended("R", 0, 1))
    yield "the same, of which each calls the one before it", "run r s", {**started, "s": starting(*back)}, (0, ended("R", 0, 1))
    yield "32,767 activities that call one another in a circle", "check s", {"s": starting(*([call((at + 1) % 32767)] for at in range(32767)))}, (
        1, "refused 35 CallCycle at 0:12 a0\n")  # fmt: skip
    yield "an activity that calls another 32,767 times", "run r s", {**started, "s": starting([call(1)] * 32767, [])}, (0, ended("R", 0, 0))
    yield "58 iterations in one another, of one turn each", "run r s", {**started, "s": starting([nested(58, ADD_ONE, iteration(1))])}, (0, ended("R", 1, 1))
    seven = ["Assignment", {"outputVariableRef": "n"}, number(7)]
    yield "58 iterations in one another, of two turns each", "run r s", {**started, "s": starting([nested(58, seven, iteration(2))])}, (
        0, ended("R", 2, 7, "0 halt P/C m Budget"))  # fmt: skip
    yield "59 iterations in one another are no JSON", "check s", {"s": starting([nested(59, ADD_ONE, iteration(1))])}, (1, "refused 1 NotJson at 0:0\n")
    yield "58 choices in one another", "run r s", {**started, "s": starting([nested(58, ADD_ONE, conditional)])}, (0, ended("R", 0, 1))
    yield "59 choices in one another are no JSON", "check s", {"s": starting([nested(59, ADD_ONE, conditional)])}, (1, "refused 1 NotJson at 0:0\n")
    for how in ("ANDedConditions", "ORedConditions"):
        deep = ["Conditional", ["Condition", nested(114, TRUE, lambda inner: [how, inner])], ["OnConditionTrue", ADD_ONE]]
        yield f"114 {how} in one another", "run r s", {**started, "s": starting([deep])}, (0, ended("R", 0, 1))
        wide = ["Conditional", ["Condition", [how, *([TRUE] * 32767)]], ["OnConditionTrue", ADD_ONE]]
        yield f"32,767 conditions in {how}", "run r s", {**started, "s": starting([wide])}, (0, ended("R", 0, 1))
    yield "18,000 choices one after another", "run r s", {**started, "s": starting([conditional(["Assignment", {"outputVariableRef": "i"}, number(7)])] * 18000)}, (
        0, ended("R", 7, 0))  # fmt: skip
    alike = [waits(at + 1) for at in range(32765)]
    yield "a machine of 32,765 transitions", "check s", {"s": component([], *alike)}, good
    yield "a machine of 32,765 transitions that runs", "run r s", {"r": "tick 5\n", "s": component([], *alike)}, (0, ended("S", 0, 0, time=5))
    yield "a machine of 32,766 transitions", "check s", {"s": component([], *alike, waits(1))}, (1, "refused 8 Limit at 0:%d children\n" % (16 + 2 * 32765))  # fmt: skip
    one = [waits(1) for at in range(32765)]
    yield "a machine of 32,765 transitions for one moment", "run r s", {"r": "tick 1000\n", "s": component([], *one)}, (0, ended("S", 0, 0, time=1000))


def text(content):
    if isinstance(content, bytes):
        return content
    return content.encode() if isinstance(content, str) else json.dumps(content, separators=(",", ":")).encode()


def inputs():
    """Each input: what it is, the words, the files, and the status and the report that have to come."""
    yield "a circle of 4,096 sub-ranges", "check s", {"s": sheet(*(sub_range(f"S{i}", f"S{(i + 1) % 4096}") for i in range(4096)))}, (
        1, "refused 15 BaseCycle at 0:3\n")  # fmt: skip
    yield "a chain of 4,095 sub-ranges", "check s", {"s": sheet(U4, *(sub_range(f"S{i}", f"S{i - 1}" if i else "U4") for i in range(4095)))}, (
        1, "refused 8 Limit at 0:50 chain\n")  # fmt: skip
    yield "a chain of 4,095 sub-ranges, the last first", "check s", {
        "s": sheet(*(sub_range(f"S{i}", f"S{i + 1}" if i < 4094 else "U4") for i in range(4095)), U4)
    }, (1, "refused 8 Limit at 0:3 chain\n")
    yield "a circle of 4,096 containers, by their entries", "check s", {
        "s": sheet(*(container(f"C{i}", entry("x", f"C{(i + 1) % 4096}")) for i in range(4096)))
    }, (1, "refused 16 TypeCycle at 0:3\n")  # fmt: skip
    yield "a circle of 4,096 containers, by their bases", "check s", {"s": sheet(*(derived(f"C{i}", f"C{(i + 1) % 4096}") for i in range(4096)))}, (
        1, "refused 15 BaseCycle at 0:3\n")  # fmt: skip
    yield "511 containers of one family, which all overlap", "check s", {"s": sheet(*family(511, lambda i: 7))}, (
        1, "refused 26 Overlap at 0:11 P/D0 P/D1 k=7\n")  # fmt: skip
    yield "511 containers of one family, of which the last two overlap", "check s", {"s": sheet(*family(511, lambda i: min(i, 509)))}, (
        1, "refused 26 Overlap at 0:%d P/D509 P/D510 k=509\n" % (8 + 3 * 510))  # fmt: skip
    yield "511 containers of one family, of which no two overlap", "check s", {"s": sheet(*family(511, lambda i: i))}, (
        0, "accepted types 514 containers 513 interfaces 0 components 0\n")  # fmt: skip
    yield "512 containers under another one", "check s", {"s": sheet(*family(512, lambda i: i))}, (1, "refused 8 Limit at 0:5 family\n")
    path = [U12, container("K", entry("k", "U12")), derived("D", "K", *([asks("k", 7)] * 32767))]
    yield "32,767 constraints on one entry", "unpack P/K f s", {"s": sheet(*path), "f": "0070"}, (0, '{"$type":"P/D","k":7}\nbits 12\n')
    yield "32,767 constraints on one entry, of which the last leaves nothing", "check s", {
        "s": sheet(*path[:2], derived("D", "K", *([asks("k", 7)] * 32766), asks("k", 8)))
    }, (1, "refused 25 ConstraintEmpty at 0:%d\n" % (10 + 32766))  # fmt: skip
    wide = container("K", *(entry(f"e{i}", "U4") for i in range(30000)))
    wide[1]["abstract"] = "true"
    yield "30,000 constraints on an entry each", "check s", {"s": sheet(U4, wide, derived("D", "K", *(asks(f"e{29999 - i}", 1) for i in range(30000))))}, (
        0, "accepted types 3 containers 2 interfaces 0 components 0\n")  # fmt: skip
    halves = [derived("D", "K", *(asks(f"e{29999 - i}", 1) for i in range(15000))), derived("E", "K", *(asks(f"e{i}", 1) for i in range(15000)))]
    yield "two containers of 15,000 constraints each, which overlap", "check s", {"s": sheet(U4, wide, *halves, container("X", entry("x", "K")))}, (
        1, "refused 26 Overlap at 0:%d P/D P/E %s\n" % (7 + 30000 + 15002, " ".join(f"{it}=1" for it in sorted(f"e{i}" for i in range(30000)))))  # fmt: skip
    halves[1][2][1] = asks("e29999", 2)
    yield "two containers of 15,000 constraints each, which one tells apart", "check s", {"s": sheet(U4, wide, *halves, container("X", entry("x", "K")))}, (
        0, "accepted types 5 containers 4 interfaces 0 components 0\n")  # fmt: skip
    yield "4,096 types", "check s", {"s": sheet(*([U4[0], {"name": f"T{i}"}] for i in range(4096)))}, (
        0, "accepted types 4096 containers 0 interfaces 0 components 0\n")  # fmt: skip
    yield "4,097 types", "check s", {"s": sheet(*([U4[0], {"name": f"T{i}"}] for i in range(4097)))}, (1, "refused 8 Limit at 0:4099 types\n")
    many = ["ArrayDataType", {"name": "A", "dataTypeRef": "B"}, ["DimensionList", ["Dimension", {"size": "65536"}]]]
    crowd = sheet(U4, container("B", entry("b", "U4")), many, *(container(f"O{i}", entry("o", "U4")) for i in range(4000)))
    items = "[" + ",".join(['{"$type":"P/B","b":5}'] * 65536) + "]"
    yield "65,536 containers of a number among 4,000 other containers, read", "unpack P/A f s", {"s": crowd, "f": "5" * 65536}, (0, items + "\nbits 262144\n")
    yield "65,536 containers of a number among 4,000 other containers, packed", "pack P/A v s", {"s": crowd, "v": items}, (0, "5" * 65536 + "\nbits 262144\n")
    yield "a container of 32,767 entries", "check s", {"s": sheet(U4, container("C", *(entry(f"e{i}", "U4") for i in range(32767))))}, (
        0, "accepted types 2 containers 1 interfaces 0 components 0\n")  # fmt: skip
    yield "32,767 entries of one name", "check s", {"s": sheet(U4, container("C", *(entry("e", "U4") for _ in range(32767))))}, (
        1, "refused 18 DuplicateEntry at 0:8 e\n")  # fmt: skip
    yield "a container of 32,768 entries", "check s", {"s": sheet(U4, container("C", *(entry(f"e{i}", "U4") for i in range(32768))))}, (
        1, "refused 8 Limit at 0:32774 children\n")  # fmt: skip
    yield "32,767 length entries in a container", "check s", {"s": sheet(U4, container("C", *(["LengthEntry", {"name": f"n{i}", "type": "U4"}] for i in range(32767))))}, (
        1, "refused 20 LengthField at 0:8\n")
    yield "a length entry with 32,767 terms", "check s", {
        "s": sheet(U4, container("C", ["LengthEntry", {"name": "n", "type": "U4"}, ["PolynomialCalibrator", *(["Term", {"coefficient": "1", "exponent": str(int(i > 0))}] for i in range(32767))]]))
    }, (1, "refused 20 LengthField at 0:7\n")
    yield "20,000 error controls", "check s", {
        "s": sheet(["IntegerDataType", {"name": "U8"}, ["IntegerDataEncoding", {"sizeInBits": "8", "encoding": "unsigned"}]],
                   container("C", *(["ErrorControlEntry", {"name": f"c{i}", "type": "U8", "errorControlType": "CRC8"}] for i in range(20000))))
    }, (0, "accepted types 2 containers 1 interfaces 0 components 0\n")
    yield "an enumeration of 32,767 labels", "check s", {
        "s": sheet(["EnumeratedDataType", {"name": "E"}, ["EnumerationList", *(["Enumeration", {"label": f"L{i}", "value": str(i)}] for i in range(32767))]])
    }, (0, "accepted types 1 containers 0 interfaces 0 components 0\n")
    yield "32,767 fixed values of 32,767 labels", "check s", {
        "s": sheet(["EnumeratedDataType", {"name": "E"}, ["EnumerationList", *(["Enumeration", {"label": f"L{i}", "value": str(i)}] for i in range(32767))]],
                   container("C", *(["FixedValueEntry", {"type": "E", "fixedValue": f"L{32766 - i}"}] for i in range(32767))))
    }, (0, "accepted types 2 containers 1 interfaces 0 components 0\n")
    yield "32,766 fixed values of 32,766 labels, and one of none", "check s", {
        "s": sheet(["EnumeratedDataType", {"name": "E"}, ["EnumerationList", *(["Enumeration", {"label": f"L{i}", "value": str(i)}] for i in range(32766))]],
                   container("C", *(["FixedValueEntry", {"type": "E", "fixedValue": f"L{i}"}] for i in range(32767))))
    }, (1, "refused 21 FixedValue at 0:%d\n" % (3 + 2 + 32766 + 2 + 32766))
    yield "an enumeration whose last label is its first", "check s", {
        "s": sheet(["EnumeratedDataType", {"name": "E"}, ["EnumerationList", *(["Enumeration", {"label": f"L{i % 32766}", "value": str(i)}] for i in range(32767))]])
    }, (1, "refused 14 BadEnumeration at 0:3\n")
    yield "20,000 assignments to the last of 30,000 entries", "check s", {
        "s": assignments("e29999", U4, container("V", *(entry(f"e{i}", "U4") for i in range(30000))))
    }, (0, "accepted types 2 containers 1 interfaces 0 components 1\n")
    yield "20,000 assignments to the trailer of the first of 16 containers of 2,000 entries", "check s", {
        "s": assignments("last", U4, *chain(16, 2000))
    }, (0, "accepted types 17 containers 16 interfaces 0 components 1\n")
    good = "accepted types 2 containers 0 interfaces %d components 0\n"
    yield "500 levels of interfaces that have the one before twice", "check s", {"s": interfaces(*diamonds(500))}, (0, good % 501)
    yield "512 interfaces in one chain", "check s", {"s": interfaces(*(interface(f"X{i}", [base(f"X{i - 1}")] if i else []) for i in range(512)))}, (
        0, good % 512)  # fmt: skip
    yield "512 interfaces in one chain, the last first", "check s", {
        "s": interfaces(*(interface(f"X{i}", [base(f"X{i + 1}")] if i < 511 else []) for i in range(512)))
    }, (0, good % 512)
    yield "a circle of 512 interfaces", "check s", {"s": interfaces(*(interface(f"X{i}", [base(f"X{(i + 1) % 512}")]) for i in range(512)))}, (
        1, "refused 27 InterfaceCycle at 0:8\n")  # fmt: skip
    yield "500 interfaces of 40 bases each", "check s", {
        "s": interfaces(*(interface(f"X{i}", [base(f"X{j}") for j in range(max(0, i - 40), i)]) for i in range(500)))
    }, (0, good % 500)
    yield "ten levels of swapped generic names", "check s", {"s": interfaces(*swaps(10))}, (0, good % 12)
    yield "thirty levels of swapped generic names", "check s", {"s": interfaces(*swaps(30))}, (6, "")
    yield "eight levels of swapped generic names, and a member", "check s", {"s": interfaces(*swaps(8, [("p", "T0")]))}, (
        1, "refused 28 DuplicateMember at 0:468 p\n")  # fmt: skip
    yield "a map of 8,000 generic names", "check s", {
        "s": interfaces(interface("X", generics=[f"T{i}" for i in range(8000)]), interface("Top", [base("X", *((f"T{i}", "U4") for i in range(8000)))]))
    }, (0, good % 2)
    yield "32,000 ends of an interface with 1,000 members", "check s", {"s": ends(32000, [("p%d" % i, "U4") for i in range(1000)])}, (6, "")
    yield "32,000 ends of an interface with 100 members", "check s", {"s": ends(32000, [("p%d" % i, "U4") for i in range(100)])}, (
        0, "accepted types 2 containers 0 interfaces 1 components 1\n")  # fmt: skip
    yield "4,000 ends of an interface with 100 members", "check s", {"s": ends(4000, [("p%d" % i, "U4") for i in range(100)])}, (
        0, "accepted types 2 containers 0 interfaces 1 components 1\n")  # fmt: skip
    yield "64 components of 15 ends, and 512 interfaces of 8 members", "check s", {"s": components(64, 15, 512)}, (
        0, "accepted types 2 containers 0 interfaces 512 components 64\n")  # fmt: skip
    yield "4,000 ends of an interface with 1,000 members", "check s", {"s": ends(4000, [("p%d" % i, "U4") for i in range(1000)])}, (
        0, "accepted types 2 containers 0 interfaces 1 components 1\n")  # fmt: skip
    yield "20,000 members", "check s", {"s": interfaces(interface("X", parameters=[(f"p{i}", "U4") for i in range(20000)]))}, (
        1, "refused 8 Limit at 0:8 members\n")  # fmt: skip
    yield "20,000 parameters of generic types", "check s", {
        "s": interfaces(interface("X", generics=[f"T{i}" for i in range(20000)], parameters=[(f"p{i}", f"T{i}") for i in range(20000)]))
    }, (0, good % 1)
    yield "200 brackets", "check s", {"s": "[" * 200}, (1, "refused 1 NotJson at 0:0\n")
    yield "4 MiB of brackets", "check s", {"s": "[" * FILE}, (1, "refused 1 NotJson at 0:0\n")
    yield "4 MiB of braces", "check s", {"s": '{"a":' * (FILE // 5)}, (1, "refused 1 NotJson at 0:0\n")
    yield "4 MiB of blanks", "check s", {"s": " " * FILE}, (1, "refused 1 NotJson at 0:0\n")
    yield "a name of 4 MiB", "check s", {"s": ["PackageFile", ["Package", {"name": "-" * (FILE - 60)}]]}, (
        1, "refused 7 BadName at 0:1 " + "-" * (FILE - 60) + "\n")  # fmt: skip
    yield "300,000 attributes of one name", "check s", {"s": '["PackageFile",{' + '"x":1,' * 300000 + '"x":1}]'}, (
        0, "accepted types 0 containers 0 interfaces 0 components 0\n")  # fmt: skip
    yield "200,000 attributes", "check s", {"s": ["PackageFile", {f"x{i}": "1" for i in range(200000)}]}, (
        0, "accepted types 0 containers 0 interfaces 0 components 0\n")  # fmt: skip
    yield "ten references from a package of 20,000 parts", "check s", {
        "s": sheet(U4, container("C", *(entry(f"e{i}", "U4") for i in range(10))), package="/".join(["a"] * 20000))
    }, (0, "accepted types 2 containers 1 interfaces 0 components 0\n")
    yield "1,000 references from a package of a million parts with 1,000 types", "check s", {
        "s": sheet(*([U4[0], {"name": f"T{i}"}] for i in range(1000)), container("C", *(entry(f"e{i}", f"T{i}") for i in range(1000))), package="/".join(["a"] * 1000000))
    }, (6, "")
    yield "64 sheets of a type each", "check " + " ".join(f"s{i}" for i in range(64)), {
        f"s{i}": sheet([U4[0], {"name": "T"}], package=f"P{i}") for i in range(64)
    }, (0, "accepted types 64 containers 0 interfaces 0 components 0\n")
    yield "65 sheets", "check " + " ".join(["s"] * 65), {"s": sheet()}, (7, "limit files 64\n")
    yield "a frame of 1 MiB of blanks", "unpack P/Word f s", {"s": WORD, "f": " " * (1 << 20)}, (3, "fault Short at $.a\n")
    yield "a frame of 65,536 octets", "unpack P/Word f s", {"s": WORD, "f": "00" * 65536}, (3, "fault Trailing at $\n")
    yield "a frame of 65,537 octets", "unpack P/Word f s", {"s": WORD, "f": "00" * 65537}, (7, "limit frame 65536\n")
    yield "a value of 100,000 members", "pack P/Word v s", {"s": WORD, "v": {f"m{i}": i for i in range(100000)}}, (3, "fault WrongShape at $\n")
    yield "a value with a member 100,000 times", "pack P/Word v s", {"s": WORD, "v": "{" + '"a":2,' * 100000 + '"a":1,"b":564}'}, (
        0, "1234\nbits 16\n")  # fmt: skip
    yield "a number of a million digits", "pack P/Word v s", {"s": WORD, "v": '{"a":0.' + "0" * 1000000 + ',"b":0}'}, (3, "fault WrongShape at $.a\n")
    yield "a text of 4 MiB for a number", "pack P/Word v s", {"s": WORD, "v": '{"a":"' + "x" * (FILE - 20) + '","b":0}'}, (
        3, "fault WrongShape at $.a\n")  # fmt: skip
    yield "a list of two million items for a number", "pack P/Word v s", {"s": WORD, "v": '{"a":[' + "1," * 2000000 + '1],"b":0}'}, (
        3, "fault WrongShape at $.a\n")  # fmt: skip
    yield "a value 100 lists deep", "pack P/Word v s", {"s": WORD, "v": '{"a":' + "[" * 100 + "]" * 100 + ',"b":0}'}, (3, "fault WrongShape at $.a\n")
    yield "a value 100,000 lists deep", "pack P/Word v s", {"s": WORD, "v": "[" * 100000 + "]" * 100000}, (3, "fault NotJson at $\n")


def recordings():
    """Recordings of packets of an octet, whose lines are three times as long as a report may be."""
    ranged = ["Range", ["MinMaxRange", {"rangeType": "atMost", "max": "127"}]]
    number = ["IntegerDataType", {"name": "U7"}, ["IntegerDataEncoding", {"sizeInBits": "8", "encoding": "unsigned"}], ranged]
    files = {"r": bytes(PACKETS), "s": sheet(number, container("Tiny", entry("a", "U7")))}
    yield "8 million packets, whose lines are more than a report may be", "split P/Tiny r s", files, (7, "limit report 67108864\n")
    flag = ["IntegerDataType", {"name": "U1"}, ["IntegerDataEncoding", {"sizeInBits": "1", "encoding": "unsigned"}]]
    octet = ["IntegerDataType", {"name": "U8"}, ["IntegerDataEncoding", {"sizeInBits": "8", "encoding": "unsigned"}]]
    kinds = [["ContainerDataType", {"name": "Any", "abstract": "true"}, ["EntryList", entry("a", "U8"), entry("b", "U8")]]]
    for kind in range(4):
        asked = [["ValueConstraint", {"entry": name, "value": str(value)}] for name, value in [("a", 0), ("b", kind)]]
        own = [entry(f"e{n}", "U1") for n in range(1000)]
        kinds.append(["ContainerDataType", {"name": f"Kind{kind}", "baseType": "Any"}, ["ConstraintSet", *asked], ["EntryList", *own]])
    packets = (b"\0\3" + bytes(125)) * (4 * FILE // 127)
    yield "132,000 packets of a thousand entries, of the last of four kinds", "split P/Any r s", {"r": packets, "s": sheet(flag, octet, *kinds)}, (
        7, "limit report 67108864\n")  # fmt: skip
    yield "8 million packets, of which the last has no value", "split P/Tiny r s", {**files, "r": bytes(PACKETS - 1) + b"\xff"}, (
        3, f"fault OutOfRange at $.a in packet {PACKETS}\n")  # fmt: skip


def rows(*parts, at=0):
    """Lines of a layout: for each part, of which a name and a size are given, where it stands."""
    found = []
    for name, size in parts:
        found.append(f"{at} {size} $.{name} entry\n")
        at += size
    return "".join(found)


def nests(layers, width):
    """Layers of so many containers, of which each holds all those of the layer before: width^layers ways to the first."""
    yield U4
    for layer in range(layers):
        for it in range(width):
            below = [f"C{layer - 1}-{k}" for k in range(width)] if layer else ["U4"]
            yield container(f"C{layer}-{it}", *(entry(f"e{k}", of) for k, of in enumerate(below)))


def scattered(count, kinds):
    """A family of which every second container is abstract, and so many containers under one that has an entry of it: each asks
    for a kind of the family, which leaves as many intervals as there are concrete containers."""
    root = ["ContainerDataType", {"name": "K", "abstract": "true"}, ["EntryList", entry("k", "U12")]]
    family = [derived(f"D{i}", "K", asks("k", i)) for i in range(kinds)]
    for it in family[1::2]:
        it[1]["abstract"] = "true"
    outer = ["ContainerDataType", {"name": "B", "abstract": "true"}, ["EntryList", entry("n", "U12"), entry("x", "K")]]
    kind = ["TypeConstraint", {"entry": "x", "type": "K"}]
    return [U12, root, *family, outer, *(derived(f"E{i}", "B", asks("n", i), kind) for i in range(count))]


def layouts():
    """Types whose layouts are made to hurt."""
    doubled = [U4, container("D0", entry("x", "U4")), *(container(f"D{at + 1}", entry("a", f"D{at}"), entry("b", f"D{at}")) for at in range(30))]
    yield "a layout of containers that hold the one before twice, thirty times", "layout P/D30 s", {"s": sheet(*doubled)}, (
        0, "container P/D30 bits varies\n0 varies $.a entry\nvaries varies $.b entry\n")  # fmt: skip
    yield "a layout of 30 layers of 58 containers, each with all of the layer before", "layout P/C29-0 s", {"s": sheet(*nests(30, 58))}, (
        0, "container P/C29-0 bits varies\n0 varies $.e0 entry\n" + "".join(f"varies varies $.e{k} entry\n" for k in range(1, 58)))  # fmt: skip
    yield "a layout of the largest family", "layout P/K s", {"s": sheet(*family(511, lambda i: i))}, (
        0, "".join(f"container P/D{i} bits 12\n0 12 $.k entry\nwhere $.k {i}..{i}\n" for i in range(511)))  # fmt: skip
    parts = [(f"e{i}_{k}", 4) for i in range(16) for k in range(2000)] + [("last", 4)]
    yield "a layout of the longest chain, of 2,000 entries each", "layout P/C0 s", {"s": sheet(U4, *chain(16, 2000))}, (
        0, f"container P/C15 bits {4 * len(parts)}\n" + rows(*parts))  # fmt: skip
    parts = [(f"e{k}", 12) for k in range(32767)]
    wide = [U12, container("K", *(entry(name, "U12") for name, _ in parts)), derived("D", "K", *(asks(name, k % 4096) for k, (name, _) in enumerate(parts)))]
    wide[1][1]["abstract"] = "true"
    told = sorted(f"where $.{name} {k % 4096}..{k % 4096}\n" for k, (name, _) in enumerate(parts))
    yield "a layout of 32,767 entries with a constraint each", "layout P/K s", {"s": sheet(*wide)}, (
        0, "container P/D bits 393204\n" + rows(*parts) + "".join(sorted(told, key=lambda it: it.split(" ")[1].encode())))  # fmt: skip
    parts = [("k", 12), *((f"e{k}", 8) for k in range(32766))]
    many = [U8, U12, container("B", *(entry(name, f"U{size}") for name, size in parts)), *(derived(f"D{i}", "B", asks("k", i)) for i in range(511))]
    many[2][1]["abstract"] = "true"
    yield "a layout of 511 containers of 32,767 parts", "layout P/B s", {"s": sheet(*many)}, (7, "limit report 67108864\n")
    yield "a layout of one of 511 containers of 32,767 parts", "layout P/D0 s", {"s": sheet(*many)}, (
        0, f"container P/D0 bits {12 + 8 * 32766}\n" + rows(*parts) + "where $.k 0..0\n")  # fmt: skip
    kinds = ",".join(f"{i}..{i}" for i in range(2, 512, 2))
    yield "a layout of 511 containers, of which each leaves 255 intervals", "layout P/B s", {"s": sheet(*scattered(511, 510))}, (
        0, "".join(f"container P/E{i} bits 24\n0 12 $.n entry\n12 12 $.x entry\nwhere $.n {i}..{i}\nwhere $.x {kinds}\n" for i in range(511)))  # fmt: skip
    line = ["StringDataType", {"name": "L", "length": "9", "fixedLength": "false"}, ["StringDataEncoding", {"terminationCharacter": "10"}]]
    names, own = ["x" * 113 + str(k) for k in range(988)], "y" * 121
    told = "0 12 $.k entry\n12 varies $.l entry\n" + "".join(f"varies 8 $.{name} entry\n" for name in names)
    report = "".join(f"container P/D{i} bits varies\n{told}where $.k {i}..{i}\n" for i in range(506))
    report += f"container P/D506 bits varies\n{told}varies 8 $.{own} entry\nwhere $.k 506..506\n"
    for what, name, answer in (("as many octets as a report may have", own, (0, report)), ("one octet more", own + "y", (7, "limit report 67108864\n"))):
        longest = [line, U8, *family(507, lambda i: i)]
        longest[3][2] += [entry("l", "L"), *(entry(name, "U8") for name in names)]
        longest[-2].append(["EntryList", entry(name, "U8")])
        yield f"a layout of {what}", "layout P/K s", {"s": sheet(*longest)}, answer


def scripts():
    """Scripts that are made to hurt: what each shows, the script, and the answer. They are run over the sheet of a heater."""
    beats = [f"{n}000 frame Dev/Heater:bus send a5{n:02x}" for n in range(1, 256)] + [f"{n}000 halt Dev/Heater m OutOfRange" for n in range(256, 10001)]
    end = ["end %d", "state Dev/Heater m %s", "var Dev/Heater n %d", 'var Dev/Heater b {"$type":"Dev/Beat","N":%d}']
    last = "".join(f"{line}\n" for line in beats)
    on = "cmd Dev/Heater:ctl On {}\n"

    def ends(time=0, state="Off", count=0):
        return "\n".join(end) % (time, state, count, count) + "\n"

    yield "a timer that comes 10,000 times", on + "tick 10000000\n", (0, last + ends(10000000, "Run", 255))
    yield "a timer that comes 10,001 times", on + "tick 10001000\n", (7, last + "limit deliveries 10000 at line 2\n")
    yield "4 MiB of empty lines", "\n" * FILE, (0, ends())
    yield "a comment of 4 MiB", "#" * FILE, (0, ends())
    yield "a word of 4 MiB", "x" * FILE, (3, "bad line 1 Words\n")
    yield "600,000 ticks", "tick 0\n" * (FILE // 7), (0, ends())
    yield "100,000 ticks, of which the last is bad", "tick 1\n" * 100000 + "tick\n", (3, "bad line 100001 Words\n")
    yield "2 million spaces", " " * (FILE // 2), (3, "bad line 1 Words\n")
    yield "100,000 wires", "wire Dev/Heater:bus Dev/Heater:bus\n" * 100000, (3, "bad line 1 WireEnd\n")
    yield "100,000 wires, and a line that is none", "wire a b\n" * 100000 + "tock\n", (3, "bad line 100001 Words\n")
    yield "arguments 100,000 lists deep", "cmd Dev/Heater:bus recv " + "[" * 100000 + "]" * 100000, (3, "bad line 1 Json\n")
    yield "100,000 arguments", "cmd Dev/Heater:bus recv {" + ",".join(f'"a{i}":1' for i in range(100000)) + "}", (3, "bad line 1 Shape\n")
    yield "a frame of 2 million digits", "frame Dev/Heater:bus recv " + "0" * 2000000, (3, "bad line 1 Hex\n")
    yield "30 frames of 65,536 octets", ("frame Dev/Heater:bus recv " + "a5" * 65536 + "\n") * 30, (
        0, "0 reject Dev/Heater:bus recv Trailing at $\n" * 30 + ends())  # fmt: skip


def sessions():
    """Sessions that are made to hurt: what each shows, the session, and the answer. They are replayed over the sheet of a heater."""
    on = "cmd Dev/Heater:ctl On {}\n"
    beats = [f"{n}000 frame Dev/Heater:bus send a5{n:02x}" for n in range(1, 256)] + [f"{n}000 halt Dev/Heater m OutOfRange" for n in range(256, 10001)]
    unsent, begun = "differs at line %d want %s got nothing\n", FILE - len(on)
    yield "4 MiB of recordings for one line", on + "> \n" * (begun // 3), (3, unsent % (2, ""))
    yield "10,000 recordings for one line, which agree", on + "tick 10000000\n" + "".join(f"> {it}\n" for it in beats), (0, "agrees 10000 respelled 0\n")
    yield "a line with 10,001 events, and 10,000 recordings", on + "tick 10001000\n" + "".join(f"> {it}\n" for it in beats), (7, "limit deliveries 10000 at line 2\n")
    yield "4 MiB of recordings without a line", "> \n" * (FILE // 3), (3, unsent % (1, ""))
    yield "a recording of 4 MiB", "> " + "x" * (FILE - 2), (3, unsent % (1, "x" * (FILE - 2)))
    yield "4 MiB of octets that begin no character", b"> " + b"\xff" * (FILE - 2), (3, unsent % (1, "\ufffd" * (FILE - 2)))
    yield "4 MiB of characters that lack their last octet", b"> " + b"\xe2\x82" * (FILE // 2 - 1), (3, unsent % (1, "\ufffd" * (FILE - 2)))
    yield "2 million letters and octets that begin no character, in turn", b"> " + b"x\xff" * (FILE // 2 - 1), (3, unsent % (1, "x\ufffd" * (FILE // 2 - 1)))
    yield "4 MiB of letters, and an octet that begins no character", b"> " + b"x" * (FILE - 3) + b"\xff", (3, unsent % (1, "x" * (FILE - 3) + "\ufffd"))
    yield "4 MiB of empty lines of a session", "\n" * FILE, (0, "agrees 0 respelled 0\n")
    yield "a session of a comment of 4 MiB", "#" * FILE, (0, "agrees 0 respelled 0\n")
    yield "4 MiB of marks of recordings that lack their space", ">\n" * (FILE // 2), (3, "bad line 1 Words\n")
    yield "4 MiB of recordings, and a line that means nothing", "> x\n" * (FILE // 4 - 1) + "x", (3, "bad line %d Words\n" % (FILE // 4))
    pair = "get Dev/Heater:ctl Count\n> 0 val Dev/Heater:ctl Count 0\n"
    yield "many lines of a recording each", pair * (FILE // len(pair)), (0, "agrees %d respelled 0\n" % (FILE // len(pair)))


def beating(of, value):
    """A component that sends a value of a type each nanosecond, as a frame."""
    send = ["SendCommandPrimitive", {"interface": "b", "command": "s"}, ["ArgumentValue", {"name": "a"}, ["VariableRef", {"variableRef": "v"}]]]
    timer = ["Transition", {"fromState": "S", "toState": "S"}, ["OnTimer", {"nanosecondsAfterEntry": "1"}], ["Do", {"activity": "send"}]]
    commands = ["CommandSet", ["Command", {"name": "s"}, ["Argument", {"name": "a", "type": of[-1][1]["name"]}]]]
    package = interfaces(["Interface", {"name": "X", "level": "subnetwork"}, commands], types=of)
    inner = [
        ["VariableSet", ["Variable", {"name": "v", "type": of[-1][1]["name"], **({"initialValue": value} if value else {})}]],
        ["ActivitySet", ["Activity", {"name": "send"}, ["Body", send]]],
        ["StateMachineSet", ["StateMachine", {"name": "m"}, ["EntryState", {"name": "S"}], timer]],
    ]
    package[1].append(["ComponentSet", ["Component", {"name": "C"}, ["RequiredInterfaceSet", ["Interface", {"name": "b", "type": "X"}]], ["Implementation", *inner]]])
    return package


def respelled():
    """Frames that are spelled otherwise: many short ones, and some as long as frames may be."""
    octet = ["IntegerDataType", {"name": "U8"}, ["IntegerDataEncoding", {"sizeInBits": "8", "encoding": "unsigned"}]]
    beats = "".join("tick 10000\n" + "".join(f"> {n} frame P/C:b s 0A\n" for n in range(at * 10000 + 1, at * 10000 + 10001)) for at in range(10))
    yield "100,000 frames that are spelled otherwise", "replay r s", {"r": beats, "s": beating([octet], "10")}, (0, "agrees 100000 respelled 100000\n")
    binary = ["BinaryDataType", {"name": "B", "sizeInBits": "524284"}]
    flags = [["IntegerDataType", {"name": "U1"}, ["IntegerDataEncoding", {"sizeInBits": "1", "encoding": "unsigned"}]],
             ["ArrayDataType", {"name": "A", "dataTypeRef": "U1"}, ["DimensionList", ["Dimension", {"size": "65535"}]]],
             ["ArrayDataType", {"name": "B", "dataTypeRef": "A"}, ["DimensionList", ["Dimension", {"size": "7"}]]]]  # fmt: skip
    signs = ["IntegerDataType", {"name": "S"}, ["IntegerDataEncoding", {"sizeInBits": "8", "encoding": "signMagnitude"}]]
    zeros = ["ArrayDataType", {"name": "B", "dataTypeRef": "S"}, ["DimensionList", ["Dimension", {"size": "65536"}]]]

    def frames(digits, octets, last, count=31):
        return "".join(f"tick 1\n> {n} frame P/C:b s {digits * (octets - 1)}{last}\n" for n in range(1, count + 1))

    yield "31 frames of 65,536 octets, which are filled otherwise", "replay r s", {"r": frames("00", 65536, "0f"), "s": beating([binary], "")}, (
        0, "agrees 31 respelled 31\n")  # fmt: skip
    yield "31 frames of 65,536 minus zeros", "replay r s", {"r": frames("80", 65536, "80"), "s": beating([signs, zeros], "")}, (0, "agrees 31 respelled 31\n")
    yield "8 frames of 458,745 numbers of a bit, which are filled otherwise", "replay r s", {"r": frames("00", 57344, "7f", 8), "s": beating(flags, "")}, (
        0, "agrees 8 respelled 8\n")  # fmt: skip


def sheet_of_cases(name):
    parts = cases.with_parts({}, json.loads((cases.DATA / "elements.json").read_text()))
    return cases.with_parts(parts, json.loads((cases.DATA / "sheets.json").read_text()))[name]


def chatty(length):
    """A component that sends a text of so many octets each nanosecond."""
    send = ["SendCommandPrimitive", {"interface": "p", "command": "c"}, ["ArgumentValue", {"name": "a"}, ["VariableRef", {"variableRef": "v"}]]]
    timer = ["Transition", {"fromState": "S", "toState": "S"}, ["OnTimer", {"nanosecondsAfterEntry": "1"}], ["Do", {"activity": "send"}]]
    commands = ["CommandSet", ["Command", {"name": "c"}, ["Argument", {"name": "a", "type": "T"}]]]
    package = interfaces(["Interface", {"name": "X"}, commands], types=[["StringDataType", {"name": "T", "length": str(length)}]])
    inner = [
        ["VariableSet", ["Variable", {"name": "v", "type": "T", "initialValue": "x" * length}]],
        ["ActivitySet", ["Activity", {"name": "send"}, ["Body", send]]],
        ["StateMachineSet", ["StateMachine", {"name": "m"}, ["EntryState", {"name": "S"}], timer]],
    ]
    ends = ["RequiredInterfaceSet", ["Interface", {"name": "p", "type": "X"}]]
    package[1].append(["ComponentSet", ["Component", {"name": "C"}, ends, ["Implementation", *inner]]])
    return package


def runs():
    """The inputs of scripts."""
    dev = sheet_of_cases("Dev")
    for what, script, answer in scripts():
        yield what, "run r s", {"r": script, "s": dev}, answer
    yield "a run that tells 72 million octets", "run r s", {"r": "tick 100\n" * 12, "s": chatty(60000)}, (7, "limit report 67108864\n")
    for what, session, answer in sessions():
        yield what, "replay r s", {"r": session, "s": dev}, answer
    yield "a session whose events are 72 million octets", "replay r s", {"r": "tick 100\n" * 12, "s": chatty(60000)}, (
        3, 'differs at line 1 want nothing got 1 cmd P/C:p c {"a":"' + "x" * 60000 + '"}\n')  # fmt: skip
    yield from respelled()


def run(program, words, room, stack=STACK, memory=MEMORY):
    """The answer and the processor seconds of a run with so many octets of stack and of memory in all."""

    def begin():
        resource.setrlimit(resource.RLIMIT_STACK, (stack, stack))
        resource.setrlimit(resource.RLIMIT_AS, (memory, memory))
        resource.setrlimit(resource.RLIMIT_CPU, (60, 60))
        resource.setrlimit(resource.RLIMIT_CORE, (0, 0))

    with tempfile.TemporaryFile() as out:
        child = subprocess.Popen([program, *words], cwd=room, stdin=subprocess.DEVNULL, stdout=out, preexec_fn=begin)
        _, status, used = os.wait4(child.pid, 0)
        child.returncode = os.waitstatus_to_exitcode(status)
        out.seek(0)
        return (child.returncode, out.read()), used.ru_utime + used.ru_stime


def least(suffices, most, close):
    """The least number that suffices, but for so many."""
    low, high = 0, most
    while high - low > close:
        middle = (low + high) // 2
        low, high = (low, middle) if suffices(middle) else (middle, high)
    return high


def as_octets(given):
    """An input whose files are octets, which take less memory than lists."""
    what, words, files, answer = given
    return what, words, {name: text(content) for name, content in files.items()}, answer


def hold(program, given, measures):
    """What is wrong with the answer to an input, and what it took."""
    what, words, files, (status, report) = given
    stack = 0
    wanted, words = (status, text(report)), words.split(" ")
    with tempfile.TemporaryDirectory(prefix="eds-hostile-") as room:
        os.chmod(room, 0o755)
        for name, content in files.items():
            with open(os.path.join(room, name), "wb") as file:
                file.write(text(content))
        answer, seconds = run(program, words, room)
        wrong = []
        if answer != wanted:
            wrong.append("status %s, %r in place of status %s, %r" % (answer[0], answer[1][:100], status, wanted[1][:100]))
        if seconds > SECONDS:
            wrong.append("%.1f seconds" % seconds)
        took = "%6.2f s" % seconds
        if measures:
            memory = least(lambda it: run(program, words, room, memory=it << 20)[0] == wanted, MEMORY >> 20, 1)
            stack = least(lambda it: run(program, words, room, stack=it << 10)[0] == wanted, STACK >> 10, 2)
            took += " %4d MiB %4d KiB of stack" % (memory, stack)
        return what, wrong, took, stack


def main():
    words = [it for it in sys.argv[1:] if it != "--measure"]
    program = os.path.abspath(words[0] if words else os.environ.get("EDS") or os.path.join(TOP, "crates/eds_prog/out/eds_prog"))
    measures = "--measure" in sys.argv
    with ThreadPoolExecutor(1 if measures else os.cpu_count()) as pool:
        held = list(pool.map(lambda it: hold(program, it, measures), map(as_octets, chain_of(inputs(), deep(), recordings(), layouts(), behaviour(), runs()))))
    for what, wrong, took, _ in held:
        if measures:
            print(f"{took}  {what}")
        for it in wrong:
            print(f"hostile: {what}: {it}")
    if measures:
        deepest = max(held, key=lambda it: it[3])
        print("hostile: the deepest stack is %d KiB, of the system's %d KiB: %s" % (deepest[3], SYSTEM >> 10, deepest[0]))
    failed = len([it for it in held if it[1]])
    print("hostile: %d passed, %d failed" % (len(held) - failed, failed))
    return 1 if failed else 0


if __name__ == "__main__":
    sys.exit(main())
