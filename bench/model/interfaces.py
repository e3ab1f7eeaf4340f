"""Interfaces: their references and generic names, and the members of an interface under a map of these names."""
import collections

import eds_model as m

Generic = collections.namedtuple("Generic", "face name")    # a generic name that stands for no type yet
Parameter = collections.namedtuple("Parameter", "name type read_only")
Command = collections.namedtuple("Command", "name arguments")
Argument = collections.namedtuple("Argument", "name type mode")

DOWN, UP = ("in", "inout"), ("out", "inout", "notify")


def carried(command, down):
    """The arguments of a command that go down to a provided end, or up to a required one."""
    return [a for a in command.arguments if a.mode in (DOWN if down else UP)]


class Face:
    """A declared interface. Its bases are pairs of a face and its map, and types in them and in members may be generic."""

    def __init__(self, id, name, element, scopes):
        self.id, self.name, self.element, self.scopes, self.place = id, name, element, scopes, element.place
        self.abstract = m.flag(element.attrs.get("abstract", "false"))
        self.level = element.attrs.get("level", "application")
        self.generics, self.bases, self.own = [], [], []


def held(element, *path):
    """The elements that are found from one by names of children, one name per step."""
    found = [element]
    for name in path:
        found = [c for e in found for c in e.kids(name)]
    return found


def names_twice(elements):
    """The breaks of Duplicate among elements whose names must differ."""
    seen, breaks = set(), []
    for e in sorted(elements, key=lambda e: e.place):
        if e.attrs["name"] in seen:
            breaks.append((9, e.place, e.attrs["name"]))
        seen.add(e.attrs["name"])
    return breaks


def twice_in_interface(e):
    """The breaks of Duplicate inside a declared interface."""
    commands = held(e, "CommandSet", "Command")
    owners = [held(e, "GenericTypeSet", "GenericType"), held(e, "ParameterSet", "Parameter") + commands]
    owners += [c.kids("Argument") for c in commands]
    owners += [b.kids("GenericTypeMap") for b in held(e, "BaseInterfaceSet", "Base", "GenericTypeMapSet")]
    return [b for o in owners for b in names_twice(o)]


class References:
    """Looks up the references of interfaces, and notes the types that they name."""

    def __init__(self, judge, breaks):
        self.j, self.breaks, self.named = judge, breaks, []

    def find(self, scopes, text):
        """(sort, element) of the first declared name, or None."""
        for s in scopes:
            if m.join(s, text) in self.j.by_name:
                return self.j.by_name[m.join(s, text)]
        return None

    def type(self, element, scopes, attribute="type"):
        """The type that an element names, or None where it breaks Unresolved or WrongKind."""
        t = self.j.look_up(scopes, element.attrs[attribute], element.place, lambda t: True, self.breaks)
        if t is not None:
            self.named.append((t, element.place, attribute == "type"))
        return t

    def type_or_generic(self, element, face):
        """The type that an element inside an interface names, or the interface's own generic of that name."""
        if element.attrs["type"] in [n for n, _ in face.generics]:
            return Generic(face.id, element.attrs["type"])
        return self.type(element, face.scopes)

    def face(self, element, scopes, wanted):
        """The interface that an element names, or None where it breaks Unresolved or WrongKind."""
        text = element.attrs["type"]
        found = self.find(scopes, text)
        if found is None:
            self.breaks.append((10, element.place, text))
            return None
        face = self.j.face_of.get(found[1].place)
        if found[0] != "interface" or not wanted(face):
            self.breaks.append((11, element.place, text))
            return None
        return face

    def declared(self, face):
        """Fills in what an interface declares."""
        e = face.element
        face.generics = [(g.attrs["name"], self.type(g, face.scopes, "baseType") if "baseType" in g.attrs else None)
                         for g in held(e, "GenericTypeSet", "GenericType")]
        for b in held(e, "BaseInterfaceSet", "Base"):
            self.base(face, b)
        for p in held(e, "ParameterSet", "Parameter"):
            read_only = m.flag(p.attrs.get("readOnly", "false"))
            face.own.append(Parameter(p.attrs["name"], self.type_or_generic(p, face), read_only))
        for c in held(e, "CommandSet", "Command"):
            arguments = [Argument(a.attrs["name"], self.type_or_generic(a, face), a.attrs.get("mode", "in")) for a in c.kids("Argument")]
            face.own.append(Command(c.attrs["name"], arguments))

    def base(self, face, element):
        """Adds one base of an interface, with its map."""
        pairs = [(p.attrs["name"], self.type_or_generic(p, face)) for p in held(element, "GenericTypeMapSet", "GenericTypeMap")]
        if element.attrs["type"] in [n for n, _ in face.generics]:
            self.breaks.append((11, element.place, element.attrs["type"]))
            return
        base = self.face(element, face.scopes, lambda f: True)
        if base is not None:
            face.bases.append((base, pairs))


def cycle_breaks(faces):
    """The interfaces that are their own base over one step or more."""
    breaks = []
    for f in faces:
        seen, todo = set(), [f]
        while todo:
            for base, _ in todo.pop().bases:
                if base.id not in seen:
                    seen.add(base.id)
                    todo.append(base)
        if f.id in seen:
            breaks.append((27, f.place, None))
    return breaks


def under(t, face, mapping):
    """A type inside an interface, with the interface's generic names replaced."""
    return mapping.get(t.name, t) if isinstance(t, Generic) and t.face == face.id else t


def member_under(member, face, mapping):
    """A member of an interface, with the interface's generic names replaced."""
    if isinstance(member, Parameter):
        return member._replace(type=under(member.type, face, mapping))
    return member._replace(arguments=[a._replace(type=under(a.type, face, mapping)) for a in member.arguments])


class Resolution:
    """The members of an interface under a map, at an end or interface, and the rules that this breaks."""

    def __init__(self, place, face, pairs):
        self.place, self.members, self.breaks, self.seen = place, [], [], set()
        self.gather(face, pairs)
        if len(self.members) > 1024:
            self.breaks.append((8, place, "members"))
        name = self.first_clash()
        if name is not None:
            self.breaks.append((28, place, name))

    def gather(self, face, pairs):
        """Adds the members of an interface under a map, bases first; a pair that was gathered has nothing new."""
        mapping = dict(pairs)
        pair = (face.id, frozenset(mapping.items()))
        if pair in self.seen:
            return
        self.seen.add(pair)
        self.judge_map(face, pairs, mapping)
        for base, inner in face.bases:
            self.gather(base, [(n, under(t, face, mapping)) for n, t in inner])
        self.members += [member_under(x, face, mapping) for x in face.own]

    def judge_map(self, face, pairs, mapping):
        """Unmapped, UnknownGeneric and GenericBase for one interface under one map."""
        own = dict(face.generics)
        for name, base in face.generics:
            if name not in mapping:
                self.breaks.append((29, self.place, name))
            elif base is not None and not isinstance(mapping[name], Generic) and base not in m.chain(mapping[name]):
                self.breaks.append((31, self.place, name))
        self.breaks += [(30, self.place, name) for name, _ in pairs if name not in own]

    def first_clash(self):
        """The name of the first member that has a later one of its name, or None."""
        count = collections.Counter(x.name for x in self.members)
        return next((x.name for x in self.members if count[x.name] > 1), None)
