"""Reads the sheets that `eds check` accepts, for the pages and pictures of the scripts beside this one.

What stands here is a reading of its own, after docs/PROFILE.md: what is declared, what references find, families, the parts of
containers in their order, the numbers of types, and the members of interfaces under maps. `.ci/pictures.py` holds it to
bench/model on random sheets. Nothing is judged: of a sheet that is refused it may say anything, or fail.
"""

import json
import re

from elements import PASSED_OVER

RANGE_ENDS = {
    "inclusiveMinInclusiveMax": (0, 0), "inclusiveMinExclusiveMax": (0, 1), "exclusiveMinInclusiveMax": (1, 0),
    "exclusiveMinExclusiveMax": (1, 1), "atLeast": (0, None), "greaterThan": (1, None), "atMost": (None, 0), "lessThan": (None, 1),
}  # fmt: skip
NUMBERS = ("Integer", "SubRange")


class Node:
    """An element: its file and number there, its name without a prefix, its attributes as texts, its children and texts."""

    def __init__(self, file, number, name, attributes, above):
        self.file, self.number, self.name, self.attributes, self.above = file, number, name, attributes, above
        self.children, self.texts = [], []

    def get(self, name, otherwise=None):
        return self.attributes.get(name, otherwise)

    def kids(self, *names):
        return [it for it in self.children if it.name in names]

    def kid(self, *names):
        return next(iter(self.kids(*names)), None)

    def flag(self, name, otherwise="false"):
        return self.get(name, otherwise) in ("true", "1")

    def held(self, *path):
        """The elements that are found by names of children, one name for each step."""
        found = [self]
        for name in path:
            found = [it for each in found for it in each.kids(name)]
        return found

    def descriptions(self):
        """What the sheet says of this element for readers."""
        short = self.get("shortDescription")
        long = [" ".join(it.texts) for it in self.kids("LongDescription")]
        return [it for it in [short, *long] if it]


def attribute(value):
    """An attribute's value as a text: truth values and whole numbers count as their JSON text."""
    return value if isinstance(value, str) else json.dumps(value)


def tree(file, octets):
    """The root element of a file."""
    count = [0]

    def element(items, above):
        number, count[0] = count[0], count[0] + 1
        has = len(items) > 1 and isinstance(items[1], dict)
        given = items[1] if has else {}
        kept = {name: attribute(it) for name, it in given.items() if ":" not in name and name != "xmlns"}
        made = Node(file, number, items[0].rpartition(":")[2], kept, above)
        for it in items[2 if has else 1 :]:
            if isinstance(it, list):
                made.children.append(element(it, made))
            elif isinstance(it, str):
                made.texts.append(it)
        return made

    return element(json.loads(octets), None)


def whole(text):
    """The whole number that a text stands for."""
    return int(re.match(r"[+-]?\d+", text)[0])


class Item:
    """A declared type, interface or component: its qualified name, its element, and where its references are looked up."""

    def __init__(self, name, node, scopes):
        self.name, self.node, self.scopes, self.own_name = name, node, scopes, node.get("name")


class Type(Item):
    """A declared type."""

    def __init__(self, name, node, scopes):
        super().__init__(name, node, scopes)
        self.kind = node.name[: -len("DataType")]
        self.base = self.item = None
        self.derived, self.entries, self.trailers, self.constraints = [], [], [], []
        self.dimensions = []  # of an array: a number, or the type that indexes it
        self.abstract = node.flag("abstract")

    def chain(self):
        """The bases and the type itself, the last base first."""
        return [*(self.base.chain() if self.base else []), self]

    def sequence(self):
        """The parts of a container in the order of its bits."""
        chain = self.chain()
        return [it for each in chain for it in each.entries] + [it for each in reversed(chain) for it in each.trailers]

    def under(self):
        """The type and all that derive from it, each with how many steps it is below."""
        return [(self, 0), *((it, 1 + depth) for each in self.derived for it, depth in each.under())]

    def form(self):
        """The size, encoding and byte order of a number's bits."""
        if self.kind == "SubRange":
            return self.base.form()
        node = self.node.kid("IntegerDataEncoding")
        if node is None:
            return 64, "twosComplement", "bigEndian"
        return whole(node.get("sizeInBits")), node.get("encoding"), node.get("byteOrder", "bigEndian")

    def interval(self):
        """The least and the greatest number of an integer type or a sub-range."""
        low, high = self.base.interval() if self.kind == "SubRange" else form_numbers(*self.form()[:2])
        for it in self.node.held("Range", "MinMaxRange"):
            least, most = range_of(it)
            low = low if least is None else max(low, least)
            high = high if most is None else min(high, most)
        return low, high

    def labels(self):
        """The labels of an enumeration with their numbers."""
        return [(it.get("label"), whole(it.get("value"))) for it in self.node.held("EnumerationList", "Enumeration")]

    def count(self, dimension):
        """How many items a dimension of an array has."""
        if isinstance(dimension, int):
            return dimension
        if dimension.kind == "Boolean":
            return 2
        if dimension.kind == "Enumerated":
            return len({it for _, it in dimension.labels()})
        low, high = dimension.interval()
        return high - low + 1


def form_numbers(bits, encoding):
    """The least and the greatest number of an encoding."""
    if encoding == "unsigned":
        return 0, 2**bits - 1
    if encoding == "twosComplement":
        return -(2 ** (bits - 1)), 2 ** (bits - 1) - 1
    if encoding in ("signMagnitude", "onesComplement"):
        return 1 - 2 ** (bits - 1), 2 ** (bits - 1) - 1
    return 0, 10 ** (bits // (4 if encoding == "packedBCD" else 8)) - 1


def range_of(node):
    """The least and the greatest number of a MinMaxRange, each None where it has no such end."""
    above, below = RANGE_ENDS[node.get("rangeType")]
    low = None if above is None else whole(node.get("min")) + above
    high = None if below is None else whole(node.get("max")) - below
    return low, high


class Part:
    """A part of a container: an entry, or a trailer."""

    def __init__(self, node, owner, position, found):
        self.node, self.owner, self.position, self.type = node, owner, position, found
        self.kind, self.name = node.name, node.get("name")

    def label(self):
        """The name; where there is none the container's own name and the position, as reports write it."""
        return self.name if self.name is not None else f"{self.owner.own_name}#{self.position}"


class Generic:
    """A generic name of an interface, which stands for no type yet."""

    def __init__(self, face, name):
        self.face, self.name = face, name

    def key(self):
        return self.face.name, self.name


def key(found):
    """What tells types and generic names apart."""
    return found.key() if isinstance(found, Generic) else found.name


class Member:
    """A parameter or a command: its element, the interface that declares it, and its types: of a command one an argument."""

    def __init__(self, node, face, types):
        self.node, self.face, self.types = node, face, types
        self.name, self.is_parameter = node.get("name"), node.name == "Parameter"

    def arguments(self):
        """The arguments of a command: name, type and mode."""
        nodes = self.node.kids("Argument")
        return [(it.get("name"), found, it.get("mode", "in")) for it, found in zip(nodes, self.types, strict=True)]


class Interface(Item):
    """A declared interface."""

    def __init__(self, name, node, scopes):
        super().__init__(name, node, scopes)
        self.level, self.abstract = node.get("level", "application"), node.flag("abstract")
        self.generics = []  # names, each with its base type or None
        self.bases = []  # interfaces, each with its map: a list of names and what they stand for
        self.own = []
        self.used = {}  # maps under which it is used: a key, and then the map and the places

    def members(self, pairs):
        """The members under a map, and for each interface that is reached the map under which it is."""
        found, seen = [], {}
        self.gather(dict(pairs), found, seen)
        return found, list(seen.values())

    def gather(self, mapping, found, seen):
        pair = (self.name, map_key(mapping))
        if pair in seen:
            return
        seen[pair] = (self, mapping)

        def under(it):
            return mapping.get(it.name, it) if isinstance(it, Generic) and it.face is self else it

        for base, pairs in self.bases:
            base.gather({name: under(it) for name, it in pairs}, found, seen)
        found += [Member(it.node, it.face, [under(each) for each in it.types]) for it in self.own]


def map_key(mapping):
    return tuple(sorted((name, str(key(it))) for name, it in mapping.items()))


class End:
    """An end of a component: its interface under a map."""

    def __init__(self, node, required, face, pairs):
        self.node, self.name, self.required, self.face, self.pairs = node, node.get("name"), required, face, pairs


class Component(Item):
    """A declared component, with the elements of its implementation."""

    def __init__(self, name, node, scopes):
        super().__init__(name, node, scopes)
        self.ends = []

    def implementation(self, *path):
        return self.node.held("Implementation", *path)

    def named(self, kind, name):
        """The element of an implementation that has a name, or None."""
        sets = {"Variable": "VariableSet", "Activity": "ActivitySet", "StateMachine": "StateMachineSet"}
        return next((it for it in self.implementation(sets[kind], kind) if it.get("name") == name), None)

    def end(self, name):
        return next((it for it in self.ends if it.name == name), None)


class Package:
    """A package with all that its elements of one name declare."""

    def __init__(self, name):
        self.name, self.nodes, self.types, self.interfaces, self.components = name, [], [], [], []


def joined(scope, text):
    return f"{scope}/{text}" if scope else text


class Sheet:
    """The files of a sheet, read together."""

    def __init__(self, octets):
        self.roots = [tree(at, it) for at, it in enumerate(octets)]
        self.packages, self.by_name = {}, {}
        self.types, self.interfaces, self.components = [], [], []
        for root in self.roots:
            for node in root.kids("Package"):
                self.declare(node)
        for it in self.types:
            self.read_type(it)
        for it in self.interfaces:
            self.read_interface(it)
        for it in self.components:
            self.read_ends(it)
        self.note_maps()

    def declare(self, node):
        name = node.get("name")
        package = self.packages.setdefault(name, Package(name))
        package.nodes.append(node)
        names = name.split("/")
        scopes = ["/".join(names[:at]) for at in range(len(names), 0, -1)] + [""]
        self.declare_sets(node, scopes, package)

    def declare_sets(self, node, scopes, package):
        """Keeps what the sets of a package or of a component declare, in the order of the file."""
        for it in [it for each in node.children if each.name not in PASSED_OVER for it in each.children]:
            name = joined(scopes[0], it.get("name", ""))
            if it.above.name == "DataTypeSet" and it.name.endswith("DataType"):
                self.keep(Type(name, it, scopes), self.types, package.types)
            elif it.above.name == "DeclaredInterfaceSet" and it.name == "Interface":
                self.keep(Interface(name, it, scopes), self.interfaces, package.interfaces)
            elif it.above.name == "ComponentSet" and it.name == "Component":
                self.keep(Component(name, it, [name, *scopes]), self.components, package.components)
                self.declare_sets(it, [name, *scopes], package)

    def keep(self, item, *lists):
        self.by_name[item.name] = item
        for it in lists:
            it.append(item)

    def find(self, scopes, text):
        """What a reference finds."""
        return next((self.by_name[joined(it, text)] for it in scopes if joined(it, text) in self.by_name), None)

    def read_type(self, found):
        node, look = found.node, lambda text: self.find(found.scopes, text)
        if found.kind in ("SubRange", "Container") and node.get("baseType") is not None:
            found.base = look(node.get("baseType"))
            found.base.derived.append(found)
        if found.kind == "Array":
            found.item = look(node.get("dataTypeRef"))
            for it in node.held("DimensionList", "Dimension"):
                found.dimensions.append(whole(it.get("size")) if it.get("size") is not None else look(it.get("indexTypeRef")))
        if found.kind == "Container":
            place = 0
            for name, parts in (("EntryList", found.entries), ("TrailerEntryList", found.trailers)):
                for it in [it for each in node.kids(name) for it in each.children if it.name.endswith("Entry")]:
                    parts.append(Part(it, found, place, look(it.get("type")) if it.get("type") is not None else None))
                    place += 1
            sets = node.kids("ConstraintSet")
            found.constraints = [it for each in sets for it in each.children if it.name.endswith("Constraint")]

    def read_interface(self, face):
        def named(node, attribute="type"):
            text = node.get(attribute)
            own = any(text == name for name, _ in face.generics)
            return Generic(face, text) if own and attribute == "type" else self.find(face.scopes, text)

        nodes = face.node.held("GenericTypeSet", "GenericType")
        face.generics = [(it.get("name"), None) for it in nodes]
        based = [it.get("baseType") for it in nodes]
        bases = [self.find(face.scopes, it) if it is not None else None for it in based]
        face.generics = [(it.get("name"), base) for it, base in zip(nodes, bases, strict=True)]
        for it in face.node.held("BaseInterfaceSet", "Base"):
            pairs = [(each.get("name"), named(each)) for each in it.held("GenericTypeMapSet", "GenericTypeMap")]
            face.bases.append((self.find(face.scopes, it.get("type")), pairs))
        for it in face.node.held("ParameterSet", "Parameter"):
            face.own.append(Member(it, face, [named(it)]))
        for it in face.node.held("CommandSet", "Command"):
            face.own.append(Member(it, face, [named(each) for each in it.kids("Argument")]))

    def read_ends(self, component):
        nodes = [it for it in component.node.children if it.name in ("ProvidedInterfaceSet", "RequiredInterfaceSet")]
        for each in nodes:
            for it in each.kids("Interface"):
                maps = it.held("GenericTypeMapSet", "GenericTypeMap")
                pairs = [(pair.get("name"), self.find(component.scopes, pair.get("type"))) for pair in maps]
                face = self.find(component.scopes, it.get("type"))
                component.ends.append(End(it, each.name == "RequiredInterfaceSet", face, pairs))

    def note_maps(self):
        """For each interface the maps under which ends and interfaces reach it, with the places that do."""

        def note(face, pairs, place):
            for it, mapping in face.members(pairs)[1]:
                it.used.setdefault(map_key(mapping), (mapping, []))[1].append(place)

        for component in self.components:
            for it in component.ends:
                note(it.face, it.pairs, (f"{component.name}:{it.name}", it.face))
        for face in self.interfaces:
            if not face.generics:
                note(face, [], (face.name, face))


# ---------------------------------------------------------------- activities and machines as text


ARGUMENT = object()  # in the place of a link's target: the piece is an argument


class Words:
    """A text of pieces, each with what it names: a link's target, ARGUMENT, or None."""

    def __init__(self, *pieces):
        self.pieces = [(it, None) if isinstance(it, str) else it for it in pieces]

    def __add__(self, other):
        made = Words()
        made.pieces = self.pieces + (other if isinstance(other, Words) else Words(other)).pieces
        return made

    def plain(self):
        return "".join(it for it, _ in self.pieces)


def between(words, separator):
    made = Words()
    for at, it in enumerate(words):
        made = made + (separator if at else "") + it
    return made


def duration(nanoseconds):
    """A time in nanoseconds in the largest unit that it reaches, exactly."""
    for unit, name in ((10**9, "s"), (10**6, "ms"), (10**3, "µs")):
        if nanoseconds >= unit:
            part = str(nanoseconds % unit).rjust(len(str(unit)) - 1, "0").rstrip("0")
            return f"{nanoseconds // unit}{'.' + part if part else ''} {name}"
    return f"{nanoseconds} ns"


SIGNS = {"add": ("+", 1), "subtract": ("−", 1), "multiply": ("×", 2)}
RELATIONS = {"==": "=", "!=": "≠", "<": "<", "<=": "≤", ">": ">", ">=": "≥"}


class Reader:
    """What the elements of a component's implementation say, as words."""

    def __init__(self, component):
        self.component = component

    def place(self, kind, name):
        """The place on the page of something that a component declares."""
        return f"{self.component.name}:{kind}:{name}"

    def path(self, text):
        """A path that begins with a variable."""
        name, _, rest = text.partition(".")
        return Words((name, self.place("variable", name)), f".{rest}" if rest else "")

    def member(self, node):
        end = node.get("interface")
        face = self.component.end(end)
        name = node.get("command", node.get("parameter"))
        return Words((end, self.place("end", end)), ".", (name, face.face.name if face else None))

    def operand(self, node):
        if node.name == "VariableRef":
            return self.path(node.get("variableRef"))
        if node.name == "ArgumentRef":
            return Words((node.get("argumentRef"), ARGUMENT))
        text = node.get("value")
        return Words(text if re.fullmatch(r"[+-]?\d+(\.0+)?|true|false", text) else json.dumps(text, ensure_ascii=False))

    def held_operand(self, node):
        return self.operand(node.kid("Value", "VariableRef", "ArgumentRef"))

    def transaction(self, node):
        text = node.get("transaction")
        return f" in transaction {json.dumps(text, ensure_ascii=False)}" if text is not None else ""

    def arguments(self, node):
        given = [Words(f"{it.get('name')}: ") + self.held_operand(it) for it in node.kids("ArgumentValue")]
        return Words("(") + between(given, ", ") + ")"

    def activity(self, node):
        name = node.get("activity")
        return Words((name, self.place("activity", name))) + self.arguments(node)

    def sum(self, node):
        """The postfix operands and operators of a MathOperation, between each other."""
        stack = []
        for it in node.children:
            if it.name == "Operator":
                sign, binds = SIGNS[it.get("operator")]
                (left, left_binds), (right, right_binds) = stack[-2:]
                left = left if left_binds >= binds else Words("(") + left + ")"
                right = right if right_binds > binds else Words("(") + right + ")"
                stack[-2:] = [(left + f" {sign} " + right, binds)]
            elif it.name in ("Value", "VariableRef", "ArgumentRef"):
                stack.append((self.operand(it), 3))
        return stack[-1][0]

    def condition(self, node):
        """What a Condition or a Guard asks for."""
        return self.one_condition(node.kid("Comparison", "ANDedConditions", "ORedConditions"))

    def one_condition(self, node):
        if node.name == "Comparison":
            left, right = node.kids("Value", "VariableRef", "ArgumentRef")
            return self.operand(left) + f" {RELATIONS[node.get('operator')]} " + self.operand(right)
        word = " and " if node.name == "ANDedConditions" else " or "
        found = node.kids("Comparison", "ANDedConditions", "ORedConditions")
        inner = [self.one_condition(it) if it.name == "Comparison" else Words("(") + self.one_condition(it) + ")" for it in found]
        return between(inner, word)

    def statements(self, node, depth=0):
        """The lines of a body, each with how deep it stands."""
        found = []
        for it in node.children if node is not None else []:
            lines = getattr(self, f"say_{it.name}", None)
            found += lines(it, depth) if lines else []
        return found

    def say_Assignment(self, node, depth):
        return [(depth, self.path(node.get("outputVariableRef")) + " := " + self.held_operand(node))]

    def say_MathOperation(self, node, depth):
        return [(depth, self.path(node.get("outputVariableRef")) + " := " + self.sum(node))]

    def say_Conditional(self, node, depth):
        lines = [(depth, Words("if ") + self.condition(node.kid("Condition")) + ":")]
        lines += self.statements(node.kid("OnConditionTrue"), depth + 1) or [(depth + 1, Words("nothing"))]
        if node.kid("OnConditionFalse") is not None:
            lines.append((depth, Words("else:")))
            lines += self.statements(node.kid("OnConditionFalse"), depth + 1) or [(depth + 1, Words("nothing"))]
        return lines

    def say_Iteration(self, node, depth):
        step = node.kid("Step")
        head = Words("for ") + self.path(node.get("iteratorVariableRef")) + " from " + self.held_operand(node.kid("StartAt"))
        head = head + " to " + self.held_operand(node.kid("EndAt"))
        head = head + ((Words(" by ") + self.held_operand(step)) if step is not None else "") + ":"
        return [(depth, head), *(self.statements(node.kid("Do"), depth + 1) or [(depth + 1, Words("nothing"))])]

    def say_Call(self, node, depth):
        return [(depth, Words("do ") + self.activity(node))]

    def say_SendCommandPrimitive(self, node, depth):
        return [(depth, Words("send ") + self.member(node) + self.arguments(node) + self.transaction(node))]

    def say_SendParameterPrimitive(self, node, depth):
        end, value = self.component.end(node.get("interface")), node.kid("Value", "VariableRef", "ArgumentRef")
        if end is not None and not end.required:
            return [(depth, Words("tell ") + self.member(node) + " = " + self.operand(value))]
        if node.get("operation") == "set":
            return [(depth, Words("set ") + self.member(node) + " to " + self.operand(value) + self.transaction(node))]
        return [(depth, Words("ask for ") + self.member(node) + self.transaction(node))]

    def event(self, transition):
        """What a transition waits for."""
        node = transition.kid("OnCommandPrimitive", "OnParameterPrimitive", "OnTimer")
        if node is None:
            return Words("at the start")
        if node.name == "OnTimer":
            return Words(f"after {duration(whole(node.get('nanosecondsAfterEntry')))}")
        end, how = self.component.end(node.get("interface")), " comes"
        if node.name == "OnParameterPrimitive" and end is not None and not end.required:
            how = " is set" if node.get("operation") == "set" else " is asked for"
        return self.member(node) + how + self.transaction(node)
