"""Activities: what a body does with the variables, what it sends, and where it halts."""
import operator

import components as c
import eds_model as m
from defaults import packs
from interfaces import carried

BUDGET = 100000
RELATIONS = {"==": operator.eq, "!=": operator.ne, "<": operator.lt, "<=": operator.le, ">": operator.gt, ">=": operator.ge}
OPERATORS = {"add": operator.add, "subtract": operator.sub, "multiply": operator.mul}


class Halt(Exception):
    """An activity ends here: OutOfRange, BadArgument or Budget."""

    def __init__(self, word):
        self.word = word


class Primitive:
    """A primitive at an end: `end` is a component's and its end's number, `op` is cmd, get, set or val."""

    def __init__(self, end, member, op, values):
        self.end, self.member, self.op, self.values = end, member, op, values


def fields_of(value):
    """The values of a container's fields by part."""
    return dict(zip([p for p in m.sequence(value[1]) if p.kind in ("Entry", "ListEntry")], value[2]))


def value_at(value, path):
    for part in path:
        value = fields_of(value)[part]
    return value


def replaced(value, path, new):
    """The value with another one where a path of entries leads."""
    if not path:
        return new
    fields = fields_of(value)
    fields[path[0]] = replaced(fields[path[0]], path[1:], new)
    return ("fields", value[1], list(fields.values()))


class Doing:
    """What a component does in one event: `sent` are its primitives and halts in order, `started` its statements."""

    def __init__(self, judge, number, component, state):
        self.j, self.number, self.component, self.state = judge, number, component, state
        self.started, self.sent = 0, []

    # ---- operands and guards

    def value(self, operand, arguments):
        if isinstance(operand, c.Const):
            return operand.value
        source = self.state.variables if operand.kind == "variable" else arguments
        return value_at(source[operand.number], operand.path)

    def holds(self, guard, arguments):
        if isinstance(guard, c.All):
            return all(self.holds(g, arguments) for g in guard.guards)
        if isinstance(guard, c.Any):
            return any(self.holds(g, arguments) for g in guard.guards)
        left, right = self.value(guard.left, arguments), self.value(guard.right, arguments)
        if guard.relation in ("==", "!="):
            return RELATIONS[guard.relation](left, right)
        return RELATIONS[guard.relation](left[1], right[1])

    def taken(self, operands, types, arguments):
        """The values of operands as arguments of some types."""
        values = [self.value(o, arguments) for o in operands]
        if not all(packs(self.j, t, v) for t, v in zip(types, values)):
            raise Halt("BadArgument")
        return values

    # ---- statements

    def start(self):
        """Counts a statement or a turn that starts."""
        if self.started == BUDGET:
            raise Halt("Budget")
        self.started += 1

    def action(self, action, arguments):
        """Runs an activity with its arguments."""
        activity = self.component.activities[action.activity]
        values = self.taken(action.operands, [t for _, t in activity.arguments], arguments)
        self.body(activity.body, values)

    def body(self, statements, arguments):
        for s in statements:
            self.start()
            getattr(self, "do_" + type(s).__name__)(s, arguments)

    def store(self, number, path, value):
        """Gives a variable, or an entry of it, a value."""
        v = self.component.variables[number]
        new = replaced(self.state.variables[number], path, value)
        if not packs(self.j, v.type, new):
            raise Halt("OutOfRange")
        self.state.variables[number] = new

    def do_Assign(self, s, arguments):
        self.store(s.target.number, s.target.path, self.value(s.operand, arguments))

    def do_Math(self, s, arguments):
        stack = []
        for item in s.items:
            if isinstance(item, str):
                right, left = stack.pop(), stack.pop()
                stack.append(OPERATORS[item](left, right))
            else:
                stack.append(self.value(item, arguments)[1])
            if not -2**127 <= stack[-1] < 2**127:
                raise Halt("OutOfRange")
        self.store(s.target.number, s.target.path, ("num", stack[0]))

    def do_If(self, s, arguments):
        self.body(s.then if self.holds(s.guard, arguments) else s.other, arguments)

    def do_Iterate(self, s, arguments):
        number, end = self.value(s.start, arguments)[1], self.value(s.end, arguments)[1]
        while number <= end if s.step > 0 else number >= end:
            self.start()
            self.store(s.variable, (), ("num", number))
            self.body(s.body, arguments)
            number += s.step

    def do_Action(self, s, arguments):
        self.action(s, arguments)

    def do_SendCommand(self, s, arguments):
        end = self.component.ends[s.end]
        types = [a.type for a in carried(end.members[s.member], end.required)]
        values = self.taken(s.operands, types, arguments)
        self.send(s, "cmd", values)

    def do_SendParameter(self, s, arguments):
        t = self.component.ends[s.end].members[s.member].type
        operands = [] if s.operand is None else [s.operand]
        self.send(s, s.op, self.taken(operands, [t], arguments))

    def send(self, s, op, values):
        """Sends a primitive; its transaction, where it has one, is outstanding from then on."""
        waiting = (s.end, s.member, s.transaction)
        if s.transaction is not None and waiting not in self.state.outstanding:
            self.state.outstanding.append(waiting)
        self.sent.append(Primitive((self.number, s.end), s.member, op, values))
