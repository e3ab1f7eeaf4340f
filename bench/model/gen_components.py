"""Random sheets with interfaces and components. `case(seed)` gives the tree of one; about half of them are accepted."""
import json
import os
import random
import sys

sys.path.insert(0, os.path.dirname(os.path.realpath(__file__)))
import components as c
import eds_model as m
import gen
import run_model as r
from defaults import default_of
from interfaces import Command, Parameter, Resolution, carried

PACKAGE = "A"


def element(name, attributes=None, *children):
    return [name] + ([attributes] if attributes else []) + list(children)


def sheet_of(*sets):
    return ["PackageFile", ["Package", {"name": PACKAGE}] + [s for s in sets if s is not None]]


def octets(tree):
    return json.dumps(tree, ensure_ascii=False).encode()


def text_for(rng, t):
    """The text of an attribute that stands for a value of a type, or None."""
    if t.kind in c.NUMBERS:
        low, high = m.interval(t)
        return str(rng.choice([low, high, max(low, min(high, rng.randint(-3, 12))), rng.randint(low, high)]))
    if t.kind == "Enumerated":
        return rng.choice([label for label, _ in m.listing(t)])
    if t.kind == "Boolean":
        return rng.choice(["true", "false", "1", "0"])
    if t.kind == "String":
        return rng.choice([s for s in ("", "A", "b", "é", "AB", "Zz Z") if m.text_value(t, s) is not None])
    if t.kind == "Binary":
        size, open_ = m.binary_form(t)
        size = 8 * rng.randint(0, size // 8) if open_ else size
        return m.octets_of([rng.randrange(2) for _ in range(size)]).hex()
    return None


class Interfaces:
    """Random types and interfaces that are accepted by themselves."""

    def __init__(self, rng):
        self.r = rng
        while True:
            types = gen.Gen(rng, m.EVERYTHING, rng.choice([5, 7, 9])).sheet()[2]
            self.types = element("DataTypeSet", None, ["IntegerDataType", {"name": "N8"}, ["IntegerDataEncoding", {"sizeInBits": "8", "encoding": "unsigned"}]], *types)
            self.faces, self.built, self.set, self.ends = [], [], None, []
            try:
                self.settle()
                for i in range(rng.choice([1, 2, 3, 4])):
                    self.interface(i)
                self.set = element("DeclaredInterfaceSet", None, *self.built)
                self.settle()
                return
            except m.Refused:
                continue

    def settle(self):
        """Judges what there is so far."""
        self.judge = r.judged([octets(sheet_of(self.types, self.set))])
        self.named = [t for t in self.judge.types if not m.is_open(t) and (t.kind != "Container" or not self.judge.hollow(t))]
        self.sorts = [self.named, [t for t in self.named if t.kind in c.NUMBERS], [t for t in self.named if t.kind == "Container"]]

    def p(self, chance):
        return self.r.random() < chance

    def type(self):
        """Any type that may be named, numbers and containers more often."""
        return self.r.choice(self.r.choice([x for x in self.sorts if x]))

    def admitted(self, base):
        return self.r.choice([t for t in self.named if base is None or base in m.chain(t)] or self.named)

    def map_for(self, generics, own=()):
        """A GenericTypeMapSet for generic names, perhaps with generic names of the interface around it."""
        pairs = [(n, self.r.choice(own) if own and base is None and self.p(.4) else self.admitted(base).own_name) for n, base in generics]
        return [element("GenericTypeMapSet", None, *[["GenericTypeMap", {"name": n, "type": t}] for n, t in pairs])] if pairs else []

    def interface(self, i):
        rng = self.r
        generics = [("G%d" % k, self.type() if self.p(.4) else None) for k in range(rng.choice([0, 0, 1, 1, 2]))]
        own = [n for n, _ in generics]
        open_to_all = [n for n, base in generics if base is None]
        attributes = {"name": "F%d" % i}
        if self.p(.6):
            attributes["level"] = rng.choice(["subnetwork", "subnetwork", "access", "functional", "application"])
        if self.p(.1):
            attributes["abstract"] = "true"
        bases = [element("Base", {"type": name}, *self.map_for(g, open_to_all)) for name, g in self.faces if self.p(.3)]
        parameters = [["Parameter", self.member("p%d%d" % (i, k), own, readOnly=(.4, ["true", "false"]))] for k in range(rng.choice([0, 1, 2]))]
        commands = [self.command("c%d%d" % (i, k), own) for k in range(rng.choice([1, 1, 2, 3]))]
        sets = [("BaseInterfaceSet", bases), ("GenericTypeSet", [["GenericType", self.generic(n, b)] for n, b in generics]),
                ("ParameterSet", parameters), ("CommandSet", commands)]
        self.built.append(element("Interface", attributes, *[element(n, None, *x) for n, x in sets if x]))
        self.faces.append(("F%d" % i, generics))

    def generic(self, name, base):
        return {"name": name, "baseType": base.own_name} if base is not None else {"name": name}

    def member(self, name, generics, **optional):
        attributes = {"name": name, "type": self.r.choice(generics) if generics and self.p(.4) else self.type().own_name}
        for key, (chance, words) in optional.items():
            if self.p(chance):
                attributes[key] = self.r.choice(words)
        return attributes

    def command(self, name, generics):
        arguments = [["Argument", self.member("a%d" % k, generics, mode=(.7, ["in", "out", "out", "inout", "notify"]))]
                     for k in range(self.r.choice([0, 1, 1, 1, 2, 3]))]
        return element("Command", {"name": name}, *arguments)


class NoOperand(Exception):
    """Nothing fits a target."""


class ComponentMaker:
    """A random component over accepted types and interfaces; all that it names is there and fits."""

    def __init__(self, rng, interfaces, name):
        self.r, self.f, self.j, self.name = rng, interfaces, interfaces.judge, name
        self.types = {t.own_name: t for t in self.j.types}
        self.ends, self.variables, self.activities, self.requests = [], [], [], []
        provided, required = [], []
        for i in range(rng.choice([1, 2, 2, 3])):
            is_required = rng.random() < .5
            (required if is_required else provided).append(self.end("e%d" % i, is_required))
        for i in range(rng.choice([2, 4, 6])):
            self.variable("v%d" % i)
        bodies = [self.activity("go%d" % i) for i in range(rng.choice([1, 2, 3]))]
        machines = [self.machine("m%d" % i) for i in range(rng.choice([1, 1, 2]))]
        sets = [("VariableSet", [x for _, _, _, x in self.variables]), ("ParameterMapSet", self.maps()), ("ActivitySet", bodies),
                ("StateMachineSet", machines)]
        implementation = element("Implementation", None, *[element(n, None, *x) for n, x in sets if x])
        outer = [("ProvidedInterfaceSet", provided), ("RequiredInterfaceSet", required)]
        self.element = element("Component", {"name": name}, *[element(n, None, *x) for n, x in outer if x], implementation)

    def p(self, chance):
        return self.r.random() < chance

    # ---- ends, variables, maps

    def end(self, name, required):
        """An end, often one to which an earlier end can be tied."""
        fit = [(face, maps) for face, maps, other in self.f.ends if other != required]
        face = self.r.choice([f for f in self.j.faces if not f.abstract] or self.j.faces)
        face, maps = self.r.choice(fit) if fit and self.p(.6) else (face, self.f.map_for(face.generics))
        self.f.ends.append((face, maps, required))
        pairs = [(x[1]["name"], self.types[x[1]["type"]]) for x in (maps[0][1:] if maps else [])]
        self.ends.append((name, required, Resolution((0, 0), face, pairs).members))
        return element("Interface", {"name": name, "type": face.name.rpartition("/")[2]}, *maps)

    def member_types(self):
        out = []
        for _, _, members in self.ends:
            for x in members:
                out += [x.type] if isinstance(x, Parameter) else [a.type for a in x.arguments]
        return out

    def variable(self, name):
        t = self.r.choice(self.member_types() or self.f.named) if self.p(.7) else self.f.type()
        attributes = {"name": name, "type": t.own_name}
        if self.p(.1):
            attributes["readOnly"] = "true"
        text = text_for(self.r, t)
        if text is not None and self.p(.5):
            attributes["initialValue"] = text
        elif default_of(self.j, t) is None and self.p(.99):
            attributes["type"], t = "N8", self.types["N8"]
        self.variables.append((name, t, attributes.get("readOnly") == "true", ["Variable", attributes]))

    def maps(self):
        out, seen = [], set()
        for end, required, members in self.ends:
            for x in members:
                fit = [v for v in self.variables if isinstance(x, Parameter) and v[1] is x.type and (required or x.read_only or not v[2])]
                if fit and self.p(.7):
                    out.append(["ParameterMap", {"interface": end, "parameter": x.name, "variableRef": self.r.choice(fit)[0]}])
        return out

    # ---- operands

    def paths(self, name, t, depth=2):
        """(path, type) of a named value and of the entries inside it."""
        out = [(name, t)]
        if t.kind == "Container" and depth:
            for part in m.sequence(t):
                if part.kind == "Entry":
                    out += self.paths(name + "." + part.name, part.type, depth - 1)
        return out

    def references(self, arguments, variables=True):
        """(element, type) of all that may be read."""
        out = [(["ArgumentRef", {"argumentRef": p}], t) for n, x in arguments for p, t in self.paths(n, x)]
        if variables:
            out += [(["VariableRef", {"variableRef": p}], t) for n, x, _, _ in self.variables for p, t in self.paths(n, x)]
        return out

    def operand(self, t, arguments):
        """An operand that fits a target of a type."""
        own = [e for e, x in self.references(arguments, False) if c.fits(x, t)]
        fit = own if own and self.p(.5) else [e for e, x in self.references(arguments) if c.fits(x, t)]
        text = text_for(self.r, t)
        if fit and (text is None or self.p(.6)):
            return self.r.choice(fit)
        if text is None:
            raise NoOperand
        return ["Value", {"value": text}]

    def number(self, arguments, most=9):
        """An operand of a calculation."""
        fit = [e for e, x in self.references(arguments) if x.kind in c.NUMBERS]
        if fit and self.p(.6):
            return self.r.choice(fit)
        return ["Value", {"value": str(self.r.choice([0, 1, 1, 2, -1, self.r.randint(-most, most)] + ([2**64, -2**64, 10**9] if self.p(.1) else [])))}]

    def targets(self):
        return [(p, t) for n, x, read_only, _ in self.variables if not read_only for p, t in self.paths(n, x)]

    def values(self, wanted, arguments):
        """One ArgumentValue per wanted argument, in any order."""
        out = [["ArgumentValue", {"name": n}, self.operand(t, arguments)] for n, t in wanted]
        self.r.shuffle(out)
        return out

    # ---- statements and guards

    def activity(self, name):
        arguments = [("x%d" % i, self.r.choice(self.member_types() or self.f.named) if self.p(.7) else self.f.type())
                     for i in range(self.r.choice([0, 0, 1, 2]))]
        body = self.statements(arguments, self.r.choice([1, 2, 3, 4]), 2)
        self.activities.append((name, arguments))
        return element("Activity", {"name": name}, *[["Argument", {"name": n, "type": t.own_name}] for n, t in arguments], element("Body", None, *body))

    def statements(self, arguments, count, depth):
        makers = [self.assignment, self.math, self.send_command, self.send_command, self.send_parameter, self.call]
        makers += [self.conditional, self.iteration] if depth else []
        out = []
        for _ in range(3 * count):
            try:
                out.append(self.r.choice(makers)(arguments, depth))
            except NoOperand:
                continue
            if len(out) == count:
                break
        return out

    def some(self, items):
        if not items:
            raise NoOperand
        return self.r.choice(items)

    def assignment(self, arguments, depth):
        path, t = self.some(self.targets())
        return ["Assignment", {"outputVariableRef": path}, self.operand(t, arguments)]

    def math(self, arguments, depth):
        path, _ = self.some([x for x in self.targets() if x[1].kind in c.NUMBERS])
        items, waiting = [self.number(arguments)], 1
        while waiting != 1 or self.p(.6):
            if waiting > 1 and self.p(.6):
                items.append(["Operator", {"operator": self.r.choice(["add", "add", "subtract", "multiply"])}])
                waiting -= 1
            else:
                items.append(self.number(arguments))
                waiting += 1
        return element("MathOperation", {"outputVariableRef": path}, *items)

    def conditional(self, arguments, depth):
        branches = [element(n, None, *self.statements(arguments, self.r.choice([0, 1, 2]), depth - 1))
                    for n in ("OnConditionTrue", "OnConditionFalse") if self.p(.7)]
        return element("Conditional", None, element("Condition", None, self.condition(arguments)), *branches)

    def condition(self, arguments, depth=1):
        if depth and self.p(.25):
            inner = [self.condition(arguments, depth - 1) for _ in range(self.r.choice([1, 2, 3]))]
            return element(self.r.choice(["ANDedConditions", "ORedConditions"]), None, *inner)
        left, t = self.some(self.references(arguments))
        pair = [left, self.operand(t, arguments)]
        self.r.shuffle(pair)
        relations = ["==", "!="] + (["<", "<=", ">", ">="] if t.kind in c.NUMBERS else [])
        return element("Comparison", {"operator": self.r.choice(relations)}, *pair)

    def iteration(self, arguments, depth):
        name = self.some([n for n, t, read_only, _ in self.variables if not read_only and t.kind in c.NUMBERS])
        last = ["Value", {"value": "200000"}] if self.p(.02) else self.number(arguments) if self.p(.3) else ["Value", {"value": str(self.r.randint(0, 6))}]
        parts = [["StartAt", self.number(arguments, 3)], ["EndAt", last]]
        if self.p(.4):
            parts.append(["Step", ["Value", {"value": str(self.r.choice([1, 2, 3, -1, -2]))}]])
        body = self.statements(arguments, self.r.choice([0, 1, 2]), depth - 1)
        return element("Iteration", {"iteratorVariableRef": name}, *parts, element("Do", None, *body))

    def call(self, arguments, depth):
        name, wanted = self.some(self.activities)
        return element("Call", {"activity": name}, *self.values(wanted, arguments))

    def member(self, kind):
        """(end, whether required, member) of a kind of members."""
        return self.some([(n, required, x) for n, required, members in self.ends for x in members if isinstance(x, kind)])

    def transaction(self, required, request=None):
        """The attributes of a transaction, or of none; what is sent with one at a required end is kept."""
        if not self.p(.4 if required else .05):
            return {}
        name = self.r.choice(["t", "u"])
        if required and request is not None:
            self.requests.append((*request, name))
        return {"transaction": name}

    def send_command(self, arguments, depth):
        end, required, command = self.member(Command)
        values = self.values([(a.name, a.type) for a in carried(command, required)], arguments)
        return element("SendCommandPrimitive", {"interface": end, "command": command.name, **self.transaction(required, (end, command))}, *values)

    def send_parameter(self, arguments, depth):
        end, required, parameter = self.member(Parameter)
        op = "val" if not required else "get" if parameter.read_only else self.r.choice(["get", "set"])
        attributes = {"interface": end, "parameter": parameter.name, **self.transaction(required, (end, parameter))}
        if required or self.p(.1):
            attributes["operation"] = op if required else "get"
        operand = [] if op == "get" else [self.operand(parameter.type, arguments)]
        return element("SendParameterPrimitive", attributes, *operand)

    # ---- machines

    def machine(self, name):
        rng = self.r
        states = [("EntryState", "S")] + [("State", "Q%d" % i) for i in range(rng.choice([0, 1, 2]))]
        if self.p(.15):
            states.append(("ExitState", "X"))
        rng.shuffle(states)
        made = [element(kind, {"name": n}, *(self.state_actions() if kind == "State" else [])) for kind, n in states]
        transitions = [self.transition(states) for _ in range(rng.choice([2, 3, 5, 7]))]
        return element("StateMachine", {"name": name}, *made, *transitions)

    def state_actions(self):
        out = []
        for name in ("OnEntry", "OnExit"):
            try:
                if self.p(.3):
                    out.append(self.action(name, []))
            except NoOperand:
                pass
        return out

    def action(self, name, arguments):
        activity, wanted = self.some(self.activities)
        return element(name, {"activity": activity}, *self.values(wanted, arguments))

    def transition(self, states):
        source = self.r.choice([n for kind, n in states if kind != "ExitState"])
        event, arguments = self.event(source == "S")
        children = [event] if event else []
        try:
            if self.p(.3):
                children.append(["Guard", self.condition(arguments)])
            if self.p(.8):
                children.append(self.action("Do", arguments))
        except NoOperand:
            pass
        if self.p(.2):
            self.r.shuffle(children)
        return element("Transition", {"fromState": source, "toState": self.r.choice([n for _, n in states])}, *children)

    def event(self, entry):
        """An event and the arguments that it carries."""
        chance = self.r.random()
        if entry and chance < .3:
            return None, []
        if chance < .45:
            return ["OnTimer", {"nanosecondsAfterEntry": str(self.r.choice([1, 5, 100, 100, 1000, 10**18]))}], []
        try:
            end, required, x = self.member(Command if chance < .75 else Parameter)
        except NoOperand:
            return ["OnTimer", {"nanosecondsAfterEntry": "7"}], []
        attributes = {"interface": end, **self.transaction(required)}
        if self.requests and self.p(.4):
            end, x, name = self.r.choice(self.requests)
            required, attributes = True, {"interface": end, "transaction": name}
        if isinstance(x, Command):
            return ["OnCommandPrimitive", {**attributes, "command": x.name}], [(a.name, a.type) for a in carried(x, not required)]
        op = "val" if required else "get" if x.read_only else self.r.choice(["get", "set"])
        if not required:
            attributes["operation"] = op
        return ["OnParameterPrimitive", {**attributes, "parameter": x.name}], [] if op == "get" else [("value", x.type)]


# ---------------------------------------------------------------- what breaks a rule

TYPES = ["a type"] * 8      # stands for the name of a type of the sheet
SPOILS = [
    ("Base", "type", ["F0", "F1", "F2", "F3", "G0"]), ("GenericTypeMap", "name", ["G0", "G1", "nowhere"]),
    ("GenericTypeMap", "type", TYPES + ["G0"]), ("Parameter", "name", ["p00", "p10", "c00"]),
    ("Parameter", "type", TYPES + ["F0", "G0"]), ("Argument", "type", TYPES + ["F0", "C0"]), ("Argument", "name", ["a0", "x0"]),
    ("Interface", "type", ["F0", "F1", "T1", "C0", "A/F0"]), ("Interface", "abstract", ["true"]), ("Interface", "name", ["e0", "F0"]),
    ("Variable", "type", TYPES + ["F0"]), ("Variable", "initialValue", ["", "no", "256", "-1", "zz"]), ("Variable", "readOnly", ["true"]),
    ("Variable", "name", ["v0", "v1"]), ("ParameterMap", "variableRef", ["v0", "v1", "v2", "nowhere"]), ("ParameterMap", "interface", ["e0", "e1"]),
    ("Assignment", "outputVariableRef", ["v0", "v1", "v0.a", "nowhere"]), ("MathOperation", "outputVariableRef", ["v0", "v1", "v0.a"]),
    ("VariableRef", "variableRef", ["v0", "v1", "v0.a", "v2.b", "nowhere"]), ("ArgumentRef", "argumentRef", ["x0", "value", "a0", "a0.a", "nowhere"]),
    ("ArgumentValue", "name", ["x0", "x1", "a0", "a1"]), ("Value", "value", ["", "300", "x", "1.0", "true", "1.5"]), ("Comparison", "operator", ["<", "=="]),
    ("Operator", "operator", ["add", "divide"]), ("Iteration", "iteratorVariableRef", ["v0", "v1", "nowhere"]),
    ("Call", "activity", ["go0", "go1", "go2", "nowhere"]), ("Do", "activity", ["go0", "go1", "nowhere"]), ("OnEntry", "activity", ["go0", "go1"]),
    ("SendCommandPrimitive", "interface", ["e0", "e1"]), ("SendCommandPrimitive", "command", ["c00", "c01", "p00"]),
    ("SendParameterPrimitive", "parameter", ["p00", "p10", "c00"]), ("SendParameterPrimitive", "operation", ["get", "set"]),
    ("OnCommandPrimitive", "interface", ["e0", "e1"]), ("OnCommandPrimitive", "command", ["c00", "c01"]), ("OnCommandPrimitive", "failed", ["true"]),
    ("OnParameterPrimitive", "operation", ["get", "set"]), ("OnParameterPrimitive", "parameter", ["p00", "p01"]),
    ("OnCommandPrimitive", "transaction", ["t", "1t"]), ("Transition", "fromState", ["S", "Q0", "X"]), ("Transition", "toState", ["Q0", "nowhere"]),
    ("OnTimer", "nanosecondsAfterEntry", ["0", "1000000000000000001", "1000000000000000000", "-1", "x"]), ("Activity", "name", ["go0"]),
    ("StateMachine", "name", ["m0"]), ("State", "name", ["S", "Q0"]), ("Command", "name", ["c00", "p00"]), ("GenericType", "baseType", TYPES),
    ("GenericType", "name", ["G0"]), ("Component", "name", ["C0", "N8"]),
]
RENAMED = [("EntryState", "State"), ("State", "EntryState"), ("State", "ExitState"), ("OnCommandPrimitive", "OnTimer"), ("Value", "ArgumentRef"),
           ("VariableRef", "ArgumentRef"), ("OnConditionTrue", "OnConditionFalse"), ("Assignment", "MathOperation")]
DROPPED = ["ArgumentValue", "Operator", "GenericTypeMap", "GenericTypeMapSet", "OnCommandPrimitive", "OnParameterPrimitive", "VariableRef", "Value",
           "ArgumentRef", "EntryState", "State", "Argument", "Parameter", "Command", "Variable", "Body", "Guard", "ProvidedInterfaceSet", "Comparison"]
REPEATED = ["ArgumentValue", "ParameterMap", "Operator", "Value", "VariableRef", "EntryState", "Activity", "Parameter", "Step", "Base", "Interface"]


ADDED = [("GenericTypeMapSet", ["GenericTypeMap", {"name": "nowhere", "type": "N8"}]), ("BaseInterfaceSet", ["Base", {"type": "F0"}]),
         ("BaseInterfaceSet", ["Base", {"type": "F1"}]), ("Body", ["Call", {"activity": "go0"}]), ("Body", ["Call", {"activity": "go1"}]),
         ("Iteration", ["Step", ["Value", {"value": "0"}]]), ("StateMachine", ["EntryState", {"name": "E"}]),
         ("StateMachine", ["Transition", {"fromState": "S", "toState": "S"}]), ("StateMachine", ["Transition", {"fromState": "Q0", "toState": "S"}]),
         ("StateMachine", ["Transition", {"fromState": "X", "toState": "S"}, ["OnTimer", {"nanosecondsAfterEntry": "1"}]]),
         ("ParameterMapSet", ["ParameterMap", {"interface": "e0", "parameter": "p00", "variableRef": "v0"}]),
         ("Body", ["Assignment", {"outputVariableRef": "v0"}, ["Value", {"value": "1"}]]),
         ("Body", ["MathOperation", {"outputVariableRef": "v1"}, ["Value", {"value": "1"}]])]


def elements_of(tree):
    """(element, parent) of all elements of a tree."""
    found, todo = [], [(tree, None)]
    while todo:
        e, parent = todo.pop()
        found.append((e, parent))
        todo += [(x, e) for x in e[1:] if isinstance(x, list)]
    return found


def spoil(rng, tree):
    """Changes one thing of a sheet, so that it perhaps breaks a rule on interfaces or components."""
    found = elements_of(tree)
    attributed = [e for e, _ in found if len(e) > 1 and isinstance(e[1], dict)]
    there = {e[0] for e, _ in found}
    how = rng.choice(["word"] * 9 + ["rename"] * 2 + ["drop", "repeat"] * 2 + ["add"] * 5 + ["bare", "any"])
    if how == "word":
        name, attribute, words = rng.choice([x for x in SPOILS if x[0] in there])
        word = rng.choice(words)
        if word == "a type":
            word = rng.choice([e[1].get("name", "N8") for e in attributed if e[0] in m.DATATYPES])
        rng.choice([e for e in attributed if e[0] == name] or [["", {}]])[1][attribute] = word
    elif how == "rename":
        name, other = rng.choice([x for x in RENAMED if x[0] in there] or [("PackageFile", "DataSheet")])
        rng.choice([e for e, _ in found if e[0] == name])[0] = other
    elif how in ("drop", "repeat"):
        fit = [(e, p) for e, p in found if e[0] == rng.choice(DROPPED if how == "drop" else REPEATED) and p is not None]
        if fit:
            e, p = rng.choice(fit)
            p[:] = [x for x in p if x is not e] if how == "drop" else p + [json.loads(json.dumps(e))]
    elif how == "add":
        fit = [(e, new) for name, new in ADDED for e, _ in found if e[0] == name]
        if fit:
            e, new = rng.choice(fit)
            e.append(json.loads(json.dumps(new)))
    elif how == "bare":
        fit = [(e, k) for e in attributed for k in ("operation", "readOnly", "mode", "initialValue") if k in e[1]]
        if fit:
            e, k = rng.choice(fit)
            del e[1][k]
    else:
        gen.mutate(rng, tree)


def case(seed):
    """The tree of a random sheet with components; about half of them are accepted."""
    rng = random.Random(seed)
    interfaces = Interfaces(rng)
    made = [ComponentMaker(rng, interfaces, "C%d" % i).element for i in range(rng.choice([1, 2, 2, 3]))]
    tree = sheet_of(interfaces.types, interfaces.set, element("ComponentSet", None, *made))
    tree = json.loads(json.dumps(tree))
    for _ in range(rng.choice([0, 0, 0, 1, 1, 2])):
        spoil(rng, tree)
    return tree
