"""Components: their ends, variables, parameter maps, activities and machines, and the rules on these."""
import collections

import eds_model as m
from defaults import default_of
from interfaces import Command, Parameter, carried, held, names_twice

Literal = collections.namedtuple("Literal", "text")                 # a Value, before its target is known
Const = collections.namedtuple("Const", "value")                    # a Value of its target's type
Ref = collections.namedtuple("Ref", "kind number path type")        # kind is "variable" or "argument"; path is parts
Action = collections.namedtuple("Action", "activity operands")
Assign = collections.namedtuple("Assign", "target operand")
Math = collections.namedtuple("Math", "target items")               # items are operands and names of operators
If = collections.namedtuple("If", "guard then other")
Iterate = collections.namedtuple("Iterate", "variable start end step body")
SendCommand = collections.namedtuple("SendCommand", "end member operands transaction")
SendParameter = collections.namedtuple("SendParameter", "end member op operand transaction")
Compare = collections.namedtuple("Compare", "relation left right")
All = collections.namedtuple("All", "guards")
Any = collections.namedtuple("Any", "guards")
Event = collections.namedtuple("Event", "kind end member op after transaction")    # kind: Start, Command, Param, Timer
State = collections.namedtuple("State", "name kind at_entry at_exit")
Transition = collections.namedtuple("Transition", "source to event guard action")
Machine = collections.namedtuple("Machine", "name states entry transitions")
Variable = collections.namedtuple("Variable", "name type read_only initial")
ParameterMap = collections.namedtuple("ParameterMap", "end member variable")

UNKNOWN = object()      # the arguments of an event that isn't there: nothing is said of their names
BROKEN = object()       # an operand of which nothing is said further
NUMBERS = ("Integer", "SubRange")


class End:
    """An end of a component: its interface under a map."""

    def __init__(self, element, required, face, pairs):
        self.name, self.place, self.required, self.face, self.pairs = element.attrs["name"], element.place, required, face, pairs
        self.map = dict(pairs)
        self.members = []

    def member(self, name, kind):
        """The position of the member of a name that is a Parameter or Command, or None."""
        return next((i for i, x in enumerate(self.members) if x.name == name and isinstance(x, kind)), None)


class Activity:
    def __init__(self, element, arguments):
        self.name, self.element, self.place, self.arguments = element.attrs["name"], element, element.place, arguments
        self.body = []


class Component:
    def __init__(self, name, element, scopes):
        self.name, self.element, self.scopes = name, element, scopes
        self.ends, self.variables, self.maps, self.activities, self.machines = [], [], [], [], []
        self.variable_types = {}


def end_elements(component):
    """(element, whether required) per end, in document order."""
    sets = [s for s in component.children if s.name in ("ProvidedInterfaceSet", "RequiredInterfaceSet")]
    return [(e, s.name == "RequiredInterfaceSet") for s in sets for e in s.kids("Interface")]


def twice_in_component(e):
    """The breaks of Duplicate inside a component, but for its own interfaces."""
    ends = [x for x, _ in end_elements(e)]
    activities = held(e, "Implementation", "ActivitySet", "Activity")
    machines = held(e, "Implementation", "StateMachineSet", "StateMachine")
    owners = [ends, held(e, "Implementation", "VariableSet", "Variable"), activities, machines]
    owners += [x.kids("GenericTypeMap") for end in ends for x in end.kids("GenericTypeMapSet")]
    owners += [a.kids("Argument") for a in activities]
    owners += [s.kids("EntryState", "State", "ExitState") for s in machines]
    return [b for o in owners for b in names_twice(o)]


def component_references(component, references):
    """Looks up what a component names, and fills in its ends, its variables' types and its activities' arguments."""
    c, e = component, component.element
    for x, required in end_elements(e):
        pairs = [(p.attrs["name"], references.type(p, c.scopes)) for p in held(x, "GenericTypeMapSet", "GenericTypeMap")]
        c.ends.append(End(x, required, references.face(x, c.scopes, lambda f: not f.abstract), pairs))
    for v in held(e, "Implementation", "VariableSet", "Variable"):
        c.variable_types[v.attrs["name"]] = references.type(v, c.scopes)
    for a in held(e, "Implementation", "ActivitySet", "Activity"):
        c.activities.append(Activity(a, [(x.attrs["name"], references.type(x, c.scopes)) for x in a.kids("Argument")]))


def fits(a, b):
    """Whether an operand of one type fits a target of the other."""
    if a.kind in NUMBERS and b.kind in NUMBERS:
        return True
    if a.kind != b.kind:
        return False
    if a.kind == "Container":
        return a in m.chain(b) or b in m.chain(a)
    return a.kind in ("Boolean", "String", "Binary") or a is b


class ComponentReader:
    """Reads one component into what runs, and lists the rules that it breaks, from NoDefault to BadTimer."""

    def __init__(self, judge, component):
        self.j, self.c, self.breaks, self.calls = judge, component, [], {}
        e = component.element
        for v in held(e, "Implementation", "VariableSet", "Variable"):
            self.variable(v)
        for x in held(e, "Implementation", "ParameterMapSet", "ParameterMap"):
            self.map(x)
        for a in component.activities:
            self.calls[a.name] = set()
            a.body = self.statements(a.element.kid("Body"), a)
        self.call_cycles()
        component.machines = [self.machine(s) for s in held(e, "Implementation", "StateMachineSet", "StateMachine")]

    def broken(self, rule, element, kept=None):
        self.breaks.append((rule, element.place, kept))

    # ---- variables and maps

    def variable(self, e):
        t = self.c.variable_types[e.attrs["name"]]
        initial = m.text_value(t, e.attrs["initialValue"]) if "initialValue" in e.attrs else default_of(self.j, t)
        if initial is None:
            self.broken(32, e, e.attrs["name"])
        self.c.variables.append(Variable(e.attrs["name"], t, m.flag(e.attrs.get("readOnly", "false")), initial))

    def map(self, e):
        end, member = self.end_and_member(e, Parameter, "parameter")
        variable = self.variable_number(e.attrs["variableRef"])
        earlier = [(x.end, x.member) for x in self.c.maps]
        self.c.maps.append(ParameterMap(end, member, variable))
        if member is None or variable is None:
            self.broken(33, e)
            return
        v, parameter, required = self.c.variables[variable], self.c.ends[end].members[member], self.c.ends[end].required
        if v.type is not parameter.type or (end, member) in earlier or not required and not parameter.read_only and v.read_only:
            self.broken(37, e)

    def variable_number(self, name):
        return next((i for i, v in enumerate(self.c.variables) if v.name == name), None)

    def end_and_member(self, e, kind, attribute):
        """The positions of the end and member that an element names, each None where it isn't there."""
        end = next((i for i, x in enumerate(self.c.ends) if x.name == e.attrs["interface"]), None)
        return end, None if end is None else self.c.ends[end].member(e.attrs[attribute], kind)

    # ---- operands

    def operand(self, e, arguments):
        """The operand of an element, BROKEN where it names nothing. `arguments` are pairs of a name and a type."""
        if e.name == "Value":
            return Literal(e.attrs["value"])
        if e.name == "ArgumentRef":
            if arguments is UNKNOWN:
                return BROKEN
            found = self.reference("argument", e.attrs["argumentRef"], arguments)
        else:
            found = self.reference("variable", e.attrs["variableRef"], [(v.name, v.type) for v in self.c.variables])
        if found is None:
            self.broken(33, e)
            return BROKEN
        return found

    def reference(self, kind, path, named):
        """The Ref of a path that starts at one of some named types, or None."""
        names = path.split(".")
        number = next((i for i, (n, _) in enumerate(named) if n == names[0]), None)
        if number is None:
            return None
        t, parts = named[number][1], []
        for name in names[1:]:
            part = m.named(m.sequence(t), name) if t.kind == "Container" else None
            if part is None or part.kind != "Entry":
                return None
            parts.append(part)
            t = part.type
        return Ref(kind, number, tuple(parts), t)

    def target(self, e):
        """The variable, or entry of one, that an element's output names; None where it isn't there or may not be written."""
        found = self.reference("variable", e.attrs["outputVariableRef"], [(v.name, v.type) for v in self.c.variables])
        if found is None or self.c.variables[found.number].read_only:
            self.broken(33, e)
            return None
        return found

    def typed(self, operand, t):
        """The operand for a target of a type, or None where it doesn't fit."""
        if isinstance(operand, Literal):
            value = m.text_value(t, operand.text)
            return None if value is None else Const(value)
        return operand if fits(operand.type, t) else None

    def fitting(self, e, t, arguments):
        """The operand that is the child of an element, for a target of a type; None where it breaks a rule."""
        operand = self.operand(e.kids(*m.OPERANDS)[0], arguments)
        if operand is BROKEN or t is None:
            return None
        found = self.typed(operand, t)
        if found is None:
            self.broken(34, e)
        return found

    def number(self, operand):
        """The operand of a calculation, or None where it is no number."""
        if isinstance(operand, Literal):
            n = m.whole(operand.text)
            return None if n is None else Const(("num", n))
        return operand if operand.type.kind in NUMBERS else None

    def number_in(self, e, arguments):
        """The number that is the child of an element, or None where it breaks a rule."""
        operand = self.operand(e.kids(*m.OPERANDS)[0], arguments)
        if operand is BROKEN:
            return None
        found = self.number(operand)
        if found is None:
            self.broken(34, e)
        return found

    def arguments(self, e, wanted, arguments):
        """One operand per wanted argument, from the ArgumentValues of an element."""
        types, given = dict(wanted), {}
        for x in e.kids("ArgumentValue"):
            name = x.attrs["name"]
            if name not in types or name in given:
                self.broken(33, x)
            operand = self.fitting(x, types.get(name), arguments)
            given.setdefault(name, operand)
        if any(n not in given for n in types):
            self.broken(33, e)
        return [given.get(n) for n, _ in wanted]

    # ---- statements

    def statements(self, e, activity):
        return [self.statement(s, activity) for s in (e.kids(*m.STATEMENTS) if e is not None else [])]

    def statement(self, e, activity):
        return getattr(self, "read_" + e.name)(e, activity)

    def read_Assignment(self, e, activity):
        target = self.target(e)
        return Assign(target, self.fitting(e, target.type if target else None, activity.arguments))

    def read_MathOperation(self, e, activity):
        target = self.target(e)
        items, depth, good = [], 0, target is not None and target.type.kind in NUMBERS
        names_nothing = False
        for x in e.kids("Operator", *m.OPERANDS):
            if x.name == "Operator":
                good, depth = good and depth >= 2, depth - 1
                items.append(x.attrs["operator"])
                continue
            operand = self.operand(x, activity.arguments)
            names_nothing = names_nothing or operand is BROKEN
            items.append(None if operand is BROKEN else self.number(operand))
            good, depth = good and items[-1] is not None, depth + 1
        if not names_nothing and not (good and depth == 1):
            self.broken(34, e)
        return Math(target, items)

    def read_Conditional(self, e, activity):
        guard = self.condition(e.kid("Condition").kids(*m.CONDITIONS)[0], activity.arguments)
        return If(guard, self.statements(e.kid("OnConditionTrue"), activity), self.statements(e.kid("OnConditionFalse"), activity))

    def condition(self, e, arguments):
        if e.name == "Comparison":
            return self.comparison(e, arguments)
        inner = [self.condition(c, arguments) for c in e.kids(*m.CONDITIONS)]
        return All(inner) if e.name == "ANDedConditions" else Any(inner)

    def comparison(self, e, arguments):
        left, right = [self.operand(x, arguments) for x in e.kids(*m.OPERANDS)]
        if left is BROKEN or right is BROKEN:
            return None
        if isinstance(left, Literal) and isinstance(right, Literal):
            self.broken(34, e)
            return None
        t = right.type if isinstance(left, Literal) else left.type
        if not isinstance(left, Literal):
            right = self.typed(right, t)
        else:
            left = self.typed(left, t)
        ordered = e.attrs["operator"] not in ("==", "!=")
        if left is None or right is None or ordered and t.kind not in NUMBERS:
            self.broken(34, e)
        return Compare(e.attrs["operator"], left, right)

    def read_Iteration(self, e, activity):
        variable = self.variable_number(e.attrs["iteratorVariableRef"])
        if variable is None or self.c.variables[variable].read_only:
            self.broken(33, e)
        elif self.c.variables[variable].type.kind not in NUMBERS:
            self.broken(34, e)
        start, end = [self.number_in(e.kid(x), activity.arguments) for x in ("StartAt", "EndAt")]
        step = 1
        if e.kid("Step") is not None:
            step = m.whole(e.kid("Step").kid("Value").attrs["value"])
            if not step:
                self.broken(34, e.kid("Step"))
        return Iterate(variable, start, end, step, self.statements(e.kid("Do"), activity))

    def read_Call(self, e, activity):
        action = self.action(e, activity.arguments)
        if action.activity is not None:
            self.calls[activity.name].add(self.c.activities[action.activity].name)
        return action

    def action(self, e, arguments):
        """The call of an activity with arguments, in a Call, Do, OnEntry or OnExit."""
        number = next((i for i, a in enumerate(self.c.activities) if a.name == e.attrs["activity"]), None)
        if number is None:
            self.broken(33, e)
            return Action(None, [])
        return Action(number, self.arguments(e, self.c.activities[number].arguments, arguments))

    def read_SendCommandPrimitive(self, e, activity):
        end, member = self.end_and_member(e, Command, "command")
        if member is None:
            self.broken(33, e)
            return None
        sent = carried(self.c.ends[end].members[member], self.c.ends[end].required)
        operands = self.arguments(e, [(a.name, a.type) for a in sent], activity.arguments)
        return SendCommand(end, member, operands, self.transaction(e, end))

    def transaction(self, e, end):
        """The transaction of an element at a required end; at a provided one it counts for nothing."""
        return e.attrs.get("transaction") if self.c.ends[end].required else None

    def read_SendParameterPrimitive(self, e, activity):
        end, member = self.end_and_member(e, Parameter, "parameter")
        if member is None:
            self.broken(33, e)
            return None
        parameter, required = self.c.ends[end].members[member], self.c.ends[end].required
        op = e.attrs.get("operation") if required else "val"
        if op == "set" and parameter.read_only:
            self.broken(33, e)
        operand = self.operand(e.kids(*m.OPERANDS)[0], activity.arguments) if e.kids(*m.OPERANDS) else None
        if operand is BROKEN:
            return None
        found = None if operand is None else self.typed(operand, parameter.type)
        if op is None or (operand is None) != (op == "get") or operand is not None and found is None:
            self.broken(34, e)
        return SendParameter(end, member, op, found, self.transaction(e, end))

    def call_cycles(self):
        for a in self.c.activities:
            seen, todo = set(), [a.name]
            while todo:
                for name in self.calls[todo.pop()] - seen:
                    seen.add(name)
                    todo.append(name)
            if a.name in seen:
                self.broken(35, a, a.name)

    # ---- machines

    def machine(self, e):
        states = [self.state(s) for s in e.kids("EntryState", "State", "ExitState")]
        entries = [i for i, s in enumerate(states) if s.kind == "EntryState"]
        if len(entries) != 1:
            self.broken(36, e)
        transitions = [self.transition(t, states) for t in e.kids("Transition")]
        return Machine(e.attrs["name"], states, entries[0] if entries else None, transitions)

    def state(self, e):
        actions = [self.action(e.kid(x), []) if e.kid(x) is not None else None for x in ("OnEntry", "OnExit")]
        return State(e.attrs["name"], e.name, *actions)

    def transition(self, e, states):
        source, to = [next((i for i, s in enumerate(states) if s.name == e.attrs[a]), None) for a in ("fromState", "toState")]
        event, arguments = self.event(e, e.kids(*m.EVENTS)[0] if e.kids(*m.EVENTS) else None)
        if source is None or to is None:
            self.broken(33, e)
        elif states[source].kind == "ExitState" or event.kind == "Start" and states[source].kind != "EntryState":
            self.broken(36, e)
        guard = e.kid("Guard")
        guard = self.condition(guard.kids(*m.CONDITIONS)[0], arguments) if guard is not None else None
        action = self.action(e.kid("Do"), arguments) if e.kid("Do") is not None else None
        return Transition(source, to, event, guard, action)

    def event(self, transition, e):
        """The event of a transition, and the arguments that it carries."""
        if e is None:
            return Event("Start", None, None, None, None, None), []
        if e.name == "OnTimer":
            after = m.whole(e.attrs["nanosecondsAfterEntry"])
            if not 1 <= after <= 10**18:
                self.broken(38, e)
            return Event("Timer", None, None, None, after, None), []
        kind, attribute = (Command, "command") if e.name == "OnCommandPrimitive" else (Parameter, "parameter")
        end, member = self.end_and_member(e, kind, attribute)
        if kind is Parameter and end is not None and not self.c.ends[end].required and "operation" not in e.attrs:
            self.broken(36, transition)
        if member is None:
            self.broken(33, e)
            return Event("Command", end, member, None, None, None), UNKNOWN
        found, required, transaction = self.c.ends[end].members[member], self.c.ends[end].required, self.transaction(e, end)
        if kind is Command:
            arguments = [(a.name, a.type) for a in carried(found, not required)]
            return Event("Command", end, member, "cmd", None, transaction), arguments
        op = "val" if required else e.attrs.get("operation")
        read_only = op == "set" and found.read_only
        if read_only:
            self.broken(33, e)
        arguments = UNKNOWN if read_only or op is None else [] if op == "get" else [("value", found.type)]
        return Event("Param", end, member, op, None, transaction), arguments
