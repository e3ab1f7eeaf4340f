"""Reads the types of a sheet that eds accepts, and runs eds, for the scripts beside this one. Nothing is judged."""

import os
import subprocess

import elements

TOP = os.path.dirname(os.path.dirname(os.path.abspath(__file__)))
OUT = os.path.join(TOP, "crates/eds_prog/out")
BUILT, STAMP = os.path.join(OUT, "eds_prog"), os.path.join(OUT, "built-for-eds")
PAST = 1 << 65


class Wrong(Exception):
    """Why a script can't go on, for its user, and the status with which it ends."""

    def __init__(self, why, status=1):
        super().__init__(why)
        self.status = status


def is_newest(built):
    """Whether this file is there, and no source is younger."""
    if not os.path.exists(built):
        return False
    skipped = ["(", "-name", "out", "-o", "-name", "data", ")", "-prune", "-o"]
    words = ["find", "crates", "crates.txt", *skipped, "-type", "f", "-newer", built, "-print", "-quit"]
    return not subprocess.run(words, cwd=TOP, stdout=subprocess.PIPE, check=True).stdout


def is_proved():
    """Whether there is a program that was built through its proof, and no source is younger, as ./eds judges it."""
    return os.access(BUILT, os.X_OK) and is_newest(STAMP)


def program():
    """The program to be asked: the one that the environment's EDS names, or the one that ./eds runs, which is built where there is none."""
    named = os.environ.get("EDS")
    if named:
        return named
    launcher = os.path.join(TOP, "eds")
    if not os.path.exists(launcher):
        return "eds"
    ran = subprocess.run([launcher, "demo", "1"], stdin=subprocess.DEVNULL, stdout=subprocess.PIPE, check=False)
    if ran.returncode:
        raise Wrong("eds is not built", 1)
    if is_proved():
        return BUILT
    return subprocess.run([os.path.join(TOP, "tools/quick"), "--first"], stdout=subprocess.PIPE, check=True).stdout.decode().strip()


def answer(words, octets=b""):
    """The status and the report of the program on words, with octets as what it finds at /dev/stdin."""
    try:
        ran = subprocess.run(words, input=octets, stdout=subprocess.PIPE, check=False)
    except OSError as error:
        raise Wrong(f"{error.filename}: {error.strerror}") from None
    return ran.returncode, ran.stdout


def whole(text):
    """The number that a text of a sheet writes."""
    return int(text.partition(".")[0])


def is_set(text):
    return text in ("true", "1")


class Part:
    """A part of a container: its kind, which is the name of its element, and what the element says."""

    def __init__(self, element, owner, position, is_trailer):
        self.kind, self.element, self.attributes = element.name, element, element.attributes
        self.owner, self.position, self.is_trailer = owner, position, is_trailer
        self.name, self.type = element.attributes.get("name"), None

    def calibration(self):
        """What a length entry's number is added to, and by what it is multiplied before, to tell octets."""
        if not children(self.element, "PolynomialCalibrator"):
            return 0, 1
        found = [it.attributes for it in children(self.element, "PolynomialCalibrator", "Term")]
        terms = {whole(it["exponent"]): whole(it["coefficient"]) for it in found}
        return terms.get(0, 0), terms.get(1, 0)


class Type:
    """A declared type: its qualified name, its kind (`Integer`, `Container`, ..) and what its element says."""

    def __init__(self, name, element, scopes):
        self.name, self.own_name, self.kind = name, element.attributes["name"], element.name[: -len("DataType")]
        self.element, self.scopes, self.number = element, scopes, 0
        self.base, self.item, self.dimensions = None, None, []
        self.entries, self.trailers, self.constraints = [], [], []
        self.is_abstract = is_set(element.attributes.get("abstract", "false"))

    def chain(self):
        """The bases of the type from the last one down, and then the type."""
        return [*(self.base.chain() if self.base else []), self]

    def sequence(self):
        """The parts of a container in the order of their bits."""
        chain = self.chain()
        return [it for one in chain for it in one.entries] + [it for one in reversed(chain) for it in one.trailers]

    def child(self, name):
        return next((it for it in self.element.children if it.name == name), None)

    def form(self):
        """The bits, the encoding and the byte order of an integer type, a sub-range or an enumeration."""
        found = self.chain()[0].child("IntegerDataEncoding") if self.kind == "SubRange" else self.child("IntegerDataEncoding")
        if found is None:
            return 64, "twosComplement", "bigEndian"
        return whole(found.attributes["sizeInBits"]), found.attributes["encoding"], found.attributes.get("byteOrder", "bigEndian")

    def numbers(self):
        """The least and the greatest number of an integer type or a sub-range."""
        least, most = self.base.numbers() if self.kind == "SubRange" else numbers_of(self.form())
        for it in children(self.element, "Range", "MinMaxRange"):
            low, high = range_of(it)
            least, most = max(least, low), min(most, high)
        return least, most

    def labels(self):
        """The labels of an enumeration with their numbers."""
        found = children(self.element, "EnumerationList", "Enumeration")
        return [(it.attributes["label"], whole(it.attributes["value"])) for it in found]

    def boolean(self):
        """The bits of a boolean type, and whether zero is false."""
        found = self.child("BooleanDataEncoding")
        attributes = found.attributes if found else {}
        return whole(attributes.get("sizeInBits", "8")), attributes.get("falseValue", "zeroIsFalse") == "zeroIsFalse"

    def text(self):
        """The octets of a string type, whether that is its fixed length, whether it is ASCII, and its termination octet."""
        found, attributes = self.child("StringDataEncoding"), self.element.attributes
        encoding = found.attributes if found else {}
        stop = whole(encoding.get("terminationCharacter", "0"))
        return whole(attributes["length"]), is_set(attributes.get("fixedLength", "true")), encoding.get("encoding") == "ASCII", stop

    def binary(self):
        """The bits of a binary type, and whether they are only the most that it may have."""
        attributes = self.element.attributes
        return whole(attributes["sizeInBits"]), not is_set(attributes.get("fixedSize", "true"))

    def is_open(self):
        return self.kind == "Binary" and self.binary()[1]

    def items(self):
        """How many items an array has."""
        many = 1
        for size, index in self.dimensions:
            if size is not None:
                many *= size
            elif index.kind == "Boolean":
                many *= 2
            elif index.kind == "Enumerated":
                many *= len(index.labels())
            else:
                least, most = index.numbers()
                many *= most - least + 1
        return many

    def bits(self):
        """The bits of a type that is no container, where they are always as many; or None."""
        if self.kind == "Boolean":
            return self.boolean()[0]
        if self.kind == "String":
            return 8 * self.text()[0] if self.text()[1] else None
        if self.kind == "Binary":
            return None if self.is_open() else self.binary()[0]
        if self.kind == "Array":
            return None if self.item.bits() is None else self.items() * self.item.bits()
        return None if self.kind == "Container" else self.form()[0]


def numbers_of(form):
    bits, encoding, _ = form
    if encoding == "unsigned":
        return 0, (1 << bits) - 1
    if encoding == "twosComplement":
        return -(1 << (bits - 1)), (1 << (bits - 1)) - 1
    if encoding in ("signMagnitude", "onesComplement"):
        return 1 - (1 << (bits - 1)), (1 << (bits - 1)) - 1
    return 0, 10 ** (bits // (4 if encoding == "packedBCD" else 8)) - 1


def range_of(element):
    """The least and the greatest number that a range admits."""
    kind, attributes = element.attributes["rangeType"], element.attributes
    low, high = -PAST, PAST
    if kind in ("atLeast", "greaterThan") or kind.endswith("lusiveMax"):
        low = whole(attributes["min"]) + (kind == "greaterThan" or kind.startswith("exclusive"))
    if kind in ("atMost", "lessThan") or kind.endswith("lusiveMax"):
        high = whole(attributes["max"]) - (kind == "lessThan" or kind.endswith("ExclusiveMax"))
    return low, high


class Constraint:
    """What a container asks of an entry of its bases: the names that lead to it, and the numbers, or the type, that it may be."""

    def __init__(self, element, owner):
        self.element, self.owner, self.names = element, owner, element.attributes["entry"].split(".")
        self.type = None


class Sheet:
    """The types of the files of a sheet, by their qualified names, in the order of the files."""

    def __init__(self, names):
        self.types = {}
        for name in names:
            self.declare(read(name))
        for number, one in enumerate(self.types.values()):
            one.number = number
        for one in list(self.types.values()):
            self.resolve(one)

    def declare(self, root):
        for package in (it for it in root.children if it.name == "Package"):
            words = package.attributes["name"].split("/")
            scopes = ["/".join(words[:many]) for many in range(len(words), 0, -1)] + [""]
            self.declare_in(package, scopes)
            for component in children(package, "ComponentSet", "Component"):
                self.declare_in(component, [f"{scopes[0]}/{component.attributes['name']}", *scopes])

    def declare_in(self, element, scopes):
        for one in (it for listed in children(element, "DataTypeSet") for it in listed.children):
            found = Type(f"{scopes[0]}/{one.attributes['name']}", one, scopes)
            self.types[found.name] = found

    def found(self, scopes, text):
        """The type that a reference names."""
        return next(self.types[it] for it in (f"{scope}/{text}" if scope else text for scope in scopes) if it in self.types)

    def resolve(self, one):
        attributes = one.element.attributes
        if one.kind in ("SubRange", "Container") and "baseType" in attributes:
            one.base = self.found(one.scopes, attributes["baseType"])
        if one.kind == "Array":
            one.item = self.found(one.scopes, attributes["dataTypeRef"])
            for it in children(one.element, "DimensionList", "Dimension"):
                size, index = it.attributes.get("size"), it.attributes.get("indexTypeRef")
                one.dimensions.append((whole(size), None) if size else (None, self.found(one.scopes, index)))
        if one.kind == "Container":
            self.resolve_parts(one)

    def resolve_parts(self, one):
        position = 0
        for listed, into in (("EntryList", one.entries), ("TrailerEntryList", one.trailers)):
            found = one.child(listed)
            for it in found.children if found else []:
                into.append(Part(it, one, position, listed == "TrailerEntryList"))
                position += 1
                if "type" in it.attributes and it.name != "PaddingEntry":
                    into[-1].type = self.found(one.scopes, it.attributes["type"])
        found = one.child("ConstraintSet")
        for it in found.children if found else []:
            one.constraints.append(Constraint(it, one))
            if it.name == "TypeConstraint":
                one.constraints[-1].type = self.found(one.scopes, it.attributes["type"])

    def under(self, one):
        """A container and all that derive from it."""
        return [it for it in self.types.values() if one in it.chain()] if one.kind == "Container" else []

    def reached(self, one):
        """The types of which a value of a type may have parts, itself among them, in the order of the sheet."""
        seen, waiting = set(), [one]
        while waiting:
            it = waiting.pop()
            if it.name in seen:
                continue
            seen.add(it.name)
            waiting += [it.item] if it.item else []
            waiting += [it.base] if it.base else []
            waiting += self.under(it) if it.kind == "Container" else []
            waiting += [part.type for part in it.entries + it.trailers if part.type]
        return [it for it in self.types.values() if it.name in seen]


def children(element, *names):
    """The elements to which names lead from an element."""
    found = [element]
    for name in names:
        found = [it for above in found for it in above.children if it.name == name]
    return found


def read(name):
    """The root element of a file. Attributes are texts, and what is passed over is left out."""
    try:
        file = elements.File(name)
    except OSError as error:
        raise Wrong(f"{error.filename}: {error.strerror}") from None
    if file.complaint or not file.elements:
        raise Wrong(f"{name}: {file.complaint or 'no element'}")
    for it in file.elements:
        it.children = []
        it.attributes = {key: text_of(value) for key, value in it.attributes.items()}
    for it in file.elements[1:]:
        if not any(one.name in elements.PASSED_OVER for one in it.path()):
            it.above.children.append(it)
    return file.elements[0]


def text_of(value):
    if isinstance(value, bool):
        return "true" if value else "false"
    return str(value)
