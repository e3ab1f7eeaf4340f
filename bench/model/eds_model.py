"""An independent model of sheets and their types, written from the rules of the profile alone.

`judged(files, word, stage)` judges the octets of sheet files, `unpack` and `pack` read and pack for the type that the word
names. A stage is a set of words of what is built. run_model.py adds interfaces, components and runs, and answers words.
"""
import re

# ---------------------------------------------------------------- what is built

EVERYTHING = {"strings", "binaries", "arrays", "fixed", "padding", "lists", "nested", "inherit", "length", "checks", "open"}
# interfaces, ends, activities, machines and transactions are judged by run_model.py: this file alone leaves them pending


def pending_word(e, stage):
    """The kept word where the element isn't built yet, or None."""
    n = e.name
    by = {"DeclaredInterfaceSet": "interfaces", "ComponentSet": "ends", "VariableSet": "activities",
          "ParameterMapSet": "activities", "ActivitySet": "activities", "StateMachineSet": "machines",
          "StringDataType": "strings", "BinaryDataType": "binaries", "ArrayDataType": "arrays", "FixedValueEntry": "fixed",
          "PaddingEntry": "padding", "ListEntry": "lists", "ConstraintSet": "inherit", "TrailerEntryList": "inherit",
          "LengthEntry": "length", "ErrorControlEntry": "checks"}
    if n in by and by[n] not in stage:
        return n
    if n == "ContainerDataType" and "inherit" not in stage:
        words = [a for a in ("abstract", "baseType") if a in e.attrs and (a != "abstract" or e.attrs[a] in ("true", "1"))]
        if words:
            return min(words)
    return None


# ---------------------------------------------------------------- JSON

class BadJson(Exception):
    pass


class Num:
    """A JSON number: whole where it is held as a whole number, with its text."""

    def __init__(self, whole, text):
        self.whole, self.text = whole, text


class Json:
    def __init__(self, octets):
        try:
            self.s = octets.decode("utf-8")
        except UnicodeDecodeError:
            raise BadJson
        self.i = 0

    def read(self):
        self.space()
        v = self.value(0)
        self.space()
        if self.i != len(self.s):
            raise BadJson
        return v

    def space(self):
        while self.i < len(self.s) and self.s[self.i] in " \t\n\r":
            self.i += 1

    def peek(self):
        return self.s[self.i] if self.i < len(self.s) else ""

    def value(self, depth):
        c = self.peek()
        if c == "{":
            if depth + 1 >= 128:
                raise BadJson
            self.i += 1
            out = {}
            self.space()
            if self.peek() == "}":
                self.i += 1
                return out
            while True:
                self.space()
                if self.peek() != '"':
                    raise BadJson
                k = self.string()
                self.space()
                if self.peek() != ":":
                    raise BadJson
                self.i += 1
                self.space()
                v = self.value(depth + 1)
                out.pop(k, None)
                out[k] = v
                self.space()
                if self.peek() == ",":
                    self.i += 1
                elif self.peek() == "}":
                    self.i += 1
                    return out
                else:
                    raise BadJson
        if c == "[":
            if depth + 1 >= 128:
                raise BadJson
            self.i += 1
            out = []
            self.space()
            if self.peek() == "]":
                self.i += 1
                return out
            while True:
                self.space()
                out.append(self.value(depth + 1))
                self.space()
                if self.peek() == ",":
                    self.i += 1
                elif self.peek() == "]":
                    self.i += 1
                    return out
                else:
                    raise BadJson
        if c == '"':
            return self.string()
        for w, v in (("true", True), ("false", False), ("null", None)):
            if self.s.startswith(w, self.i):
                self.i += len(w)
                return v
        m = re.compile(r"-?(0|[1-9][0-9]*)(\.[0-9]+)?([eE][+-]?[0-9]+)?").match(self.s, self.i)
        if not m:
            raise BadJson
        self.i = m.end()
        t = m.group(0)
        if m.group(2) is None and m.group(3) is None and t != "-0":
            n = int(t)
            if -2**63 <= n < 2**64:
                return Num(n, t)
        if float(t) in (float("inf"), float("-inf")):
            raise BadJson
        return Num(None, t)

    def string(self):
        self.i += 1
        out = []
        while True:
            c = self.peek()
            if c == "" or ord(c) < 0x20:
                raise BadJson
            self.i += 1
            if c == '"':
                return "".join(out)
            if c != "\\":
                out.append(c)
                continue
            c = self.peek()
            self.i += 1
            simple = {'"': '"', "\\": "\\", "/": "/", "b": "\b", "f": "\f", "n": "\n", "r": "\r", "t": "\t"}
            if c in simple and c != "":
                out.append(simple[c])
            elif c == "u":
                n = self.hex4()
                if 0xDC00 <= n < 0xE000:
                    raise BadJson
                if 0xD800 <= n < 0xDC00:
                    if not self.s.startswith("\\u", self.i):
                        raise BadJson
                    self.i += 2
                    m = self.hex4()
                    if not 0xDC00 <= m < 0xE000:
                        raise BadJson
                    n = 0x10000 + ((n - 0xD800) << 10) + (m - 0xDC00)
                out.append(chr(n))
            else:
                raise BadJson

    def hex4(self):
        t = self.s[self.i:self.i + 4]
        if not re.fullmatch(r"[0-9a-fA-F]{4}", t):
            raise BadJson
        self.i += 4
        return int(t, 16)


def json_string(s):
    out = ['"']
    for c in s:
        o = ord(c)
        if c in '"\\':
            out.append("\\" + c)
        elif c in "\b\f\n\r\t":
            out.append({"\b": "\\b", "\f": "\\f", "\n": "\\n", "\r": "\\r", "\t": "\\t"}[c])
        elif o < 0x20:
            out.append("\\u%04x" % o)
        else:
            out.append(c)
    return "".join(out) + '"'


# ---------------------------------------------------------------- element trees

RULES = ["", "NotJson", "NotElement", "UnknownElement", "Unsupported", "MissingAttribute", "BadAttribute", "BadName", "Limit",
         "Duplicate", "Unresolved", "WrongKind", "BadEncoding", "EmptyRange", "BadEnumeration", "BaseCycle", "TypeCycle",
         "EmptyType", "DuplicateEntry", "ListField", "LengthField", "FixedValue", "ErrorControl", "ConstraintTarget",
         "ConstraintValue", "ConstraintEmpty", "Overlap", "InterfaceCycle", "DuplicateMember", "Unmapped", "UnknownGeneric",
         "GenericBase", "NoDefault", "BadReference", "TypeMismatch", "CallCycle", "BadMachine", "BadMap", "BadTimer"]


class Refused(Exception):
    def __init__(self, rule, place, kept=None):
        self.rule, self.place, self.kept = rule, place, kept

    def report(self):
        kept = "" if self.kept is None else " " + self.kept
        return "refused %d %s at %d:%d%s\n" % (self.rule, RULES[self.rule], self.place[0], self.place[1], kept)


class Element:
    def __init__(self, name, attrs, place, parent):
        self.name, self.attrs, self.place, self.parent = name, attrs, place, parent
        self.children = []

    def kids(self, *names):
        return [c for c in self.children if c.name in names]

    def kid(self, name):
        k = self.kids(name)
        return k[0] if k else None


def read_tree(file, octets, breaks):
    """The root element, or None; its breaks of rules 1 and 2 are added."""
    try:
        v = Json(octets).read()
    except BadJson:
        breaks.append((1, (file, 0), None))
        return None
    if not isinstance(v, list):
        breaks.append((2, (file, 0), None))
        return None
    count = [0]

    def element(v, parent):
        n = count[0]
        count[0] += 1
        place = (file, n)
        bad = not v or not isinstance(v[0], str)
        rest = v[1:]
        if bad:
            breaks.append((2, place, None))
            rest = v
        e = Element("" if bad else v[0].rpartition(":")[2], {}, place, parent)
        for i, x in enumerate(rest):
            if isinstance(x, list):
                e.children.append(element(x, e))
            elif isinstance(x, str):
                pass
            elif isinstance(x, dict) and i == 0 and not bad:
                for k, a in x.items():
                    if isinstance(a, str):
                        t = a
                    elif isinstance(a, bool):
                        t = "true" if a else "false"
                    elif isinstance(a, Num) and a.whole is not None:
                        t = str(a.whole)
                    else:
                        breaks.append((2, place, None))
                        continue
                    if ":" not in k and k != "xmlns":
                        e.attrs[k] = t
            else:
                breaks.append((2, place, None))
        return e

    return element(v, None)


# ---------------------------------------------------------------- the element table

PASSED_OVER = {"Device", "LongDescription", "Metadata", "MetadataSet", "MetadataValueSet", "NominalRangeSet", "SafeRangeSet",
               "Semantics", "include"}
UNSUPPORTED = {"FloatDataType", "FloatDataEncoding", "SplineCalibrator", "Calibration", "ParameterActivityMap",
               "ParameterActivityMapSet", "AlternateSet", "OverArray", "PrecisionRange", "EnumeratedRange"}
ENTRIES = ["Entry", "FixedValueEntry", "PaddingEntry", "ListEntry", "LengthEntry", "ErrorControlEntry"]
OPERANDS = ["Value", "VariableRef", "ArgumentRef"]
CONDITIONS = ["Comparison", "ANDedConditions", "ORedConditions"]
STATEMENTS = ["Assignment", "MathOperation", "Conditional", "Iteration", "Call", "SendCommandPrimitive", "SendParameterPrimitive"]
EVENTS = ["OnCommandPrimitive", "OnParameterPrimitive", "OnTimer"]
DATATYPES = ["IntegerDataType", "EnumeratedDataType", "BooleanDataType", "StringDataType", "BinaryDataType", "ArrayDataType",
             "SubRangeDataType", "ContainerDataType"]
GROUPS = {"ENTRY": ENTRIES, "OPERAND": OPERANDS, "CONDITION": CONDITIONS, "STATEMENT": STATEMENTS, "EVENT": EVENTS,
          "DATATYPE": DATATYPES}

# name -> (required, optional, children as words with marks)
TABLE = {
    "DataSheet": ("", "", "Package"), "PackageFile": ("", "", "Package"),
    "Package": ("name", "", "DataTypeSet DeclaredInterfaceSet ComponentSet"),
    "DataTypeSet": ("", "", "DATATYPE"),
    "IntegerDataType": ("name", "", "IntegerDataEncoding? Range?"),
    "IntegerDataEncoding": ("sizeInBits encoding", "byteOrder", ""),
    "Range": ("", "", "MinMaxRange!"),
    "MinMaxRange": ("rangeType", "min max", ""),
    "EnumeratedDataType": ("name", "", "IntegerDataEncoding? EnumerationList!"),
    "EnumerationList": ("", "", "Enumeration"),
    "Enumeration": ("label value", "", ""),
    "BooleanDataType": ("name", "", "BooleanDataEncoding?"),
    "BooleanDataEncoding": ("sizeInBits", "falseValue", ""),
    "StringDataType": ("name length", "fixedLength", "StringDataEncoding?"),
    "StringDataEncoding": ("", "encoding terminationCharacter", ""),
    "BinaryDataType": ("name sizeInBits", "fixedSize", ""),
    "ArrayDataType": ("name dataTypeRef", "", "DimensionList!"),
    "DimensionList": ("", "", "Dimension+"),
    "Dimension": ("", "size indexTypeRef", ""),
    "SubRangeDataType": ("name baseType", "", "Range!"),
    "ContainerDataType": ("name", "baseType abstract", "ConstraintSet? EntryList? TrailerEntryList?"),
    "ConstraintSet": ("", "", "ValueConstraint RangeConstraint TypeConstraint"),
    "ValueConstraint": ("entry value", "", ""),
    "RangeConstraint": ("entry", "", "MinMaxRange!"),
    "TypeConstraint": ("entry type", "", ""),
    "EntryList": ("", "", "ENTRY"), "TrailerEntryList": ("", "", "ENTRY"),
    "Entry": ("name type", "", ""),
    "FixedValueEntry": ("type fixedValue", "name", ""),
    "PaddingEntry": ("sizeInBits", "", ""),
    "ListEntry": ("name type listLengthField", "", ""),
    "LengthEntry": ("name type", "", "PolynomialCalibrator?"),
    "PolynomialCalibrator": ("", "", "Term"),
    "Term": ("coefficient exponent", "", ""),
    "ErrorControlEntry": ("name type errorControlType", "", ""),
    "DeclaredInterfaceSet": ("", "", "Interface"),
    "BaseInterfaceSet": ("", "", "Base"), "Base": ("type", "", "GenericTypeMapSet?"),
    "GenericTypeSet": ("", "", "GenericType"), "GenericType": ("name", "baseType", ""),
    "GenericTypeMapSet": ("", "", "GenericTypeMap"), "GenericTypeMap": ("name type", "", ""),
    "ParameterSet": ("", "", "Parameter"), "Parameter": ("name type", "mode readOnly", ""),
    "CommandSet": ("", "", "Command"), "Command": ("name", "mode", "Argument"), "Argument": ("name type", "mode", ""),
    "ComponentSet": ("", "", "Component"),
    "Component": ("name", "", "DataTypeSet DeclaredInterfaceSet ProvidedInterfaceSet? RequiredInterfaceSet? Implementation?"),
    "ProvidedInterfaceSet": ("", "", "Interface"), "RequiredInterfaceSet": ("", "", "Interface"),
    "Implementation": ("", "", "VariableSet? ParameterMapSet? ActivitySet? StateMachineSet?"),
    "VariableSet": ("", "", "Variable"), "Variable": ("name type", "readOnly initialValue", ""),
    "ParameterMapSet": ("", "", "ParameterMap"), "ParameterMap": ("interface parameter variableRef", "", ""),
    "ActivitySet": ("", "", "Activity"), "Activity": ("name", "", "Argument Body!"),
    "Body": ("", "", "STATEMENT"), "OnConditionTrue": ("", "", "STATEMENT"), "OnConditionFalse": ("", "", "STATEMENT"),
    "Assignment": ("outputVariableRef", "", "OPERAND!"),
    "MathOperation": ("outputVariableRef", "", "OPERAND Operator"), "Operator": ("operator", "", ""),
    "Conditional": ("", "", "Condition! OnConditionTrue? OnConditionFalse?"),
    "Condition": ("", "", "CONDITION!"), "Guard": ("", "", "CONDITION!"),
    "Comparison": ("operator", "", "OPERAND!!"),
    "ANDedConditions": ("", "", "CONDITION+"), "ORedConditions": ("", "", "CONDITION+"),
    "Iteration": ("iteratorVariableRef", "", "StartAt! EndAt! Step? Do!"),
    "StartAt": ("", "", "OPERAND!"), "EndAt": ("", "", "OPERAND!"), "Step": ("", "", "Value!"),
    "Call": ("activity", "", "ArgumentValue"), "ArgumentValue": ("name", "", "OPERAND!"),
    "SendCommandPrimitive": ("interface command", "transaction", "ArgumentValue"),
    "SendParameterPrimitive": ("interface parameter", "operation transaction", "OPERAND?"),
    "Value": ("value", "", ""), "VariableRef": ("variableRef", "", ""), "ArgumentRef": ("argumentRef", "", ""),
    "StateMachineSet": ("", "", "StateMachine"), "StateMachine": ("name", "", "EntryState State ExitState Transition"),
    "EntryState": ("name", "", ""), "ExitState": ("name", "", ""), "State": ("name", "", "OnEntry? OnExit?"),
    "OnEntry": ("activity", "", "ArgumentValue"), "OnExit": ("activity", "", "ArgumentValue"),
    "Transition": ("fromState toState", "name", "EVENT? Guard? Do?"),
    "OnCommandPrimitive": ("interface command", "transaction", ""),
    "OnParameterPrimitive": ("interface parameter", "operation transaction", ""),
    "OnTimer": ("nanosecondsAfterEntry", "", ""),
}


def described(e):
    """The row of an element; `Interface` and `Do` have two, told apart by the parent."""
    p = e.parent.name if e.parent else ""
    if e.name == "Interface":
        if p == "DeclaredInterfaceSet":
            return ("name", "level abstract", "BaseInterfaceSet? GenericTypeSet? ParameterSet? CommandSet?")
        return ("name type", "", "GenericTypeMapSet?")
    if e.name == "Do":
        return ("", "", "STATEMENT") if p == "Iteration" else ("activity", "", "ArgumentValue")
    return TABLE.get(e.name)


def child_rules(row):
    """(names, low, high, word) per child word."""
    out = []
    for w in row[2].split():
        low, high = 0, None
        if w.endswith("!!"):
            w, low, high = w[:-2], 2, 2
        elif w.endswith("!"):
            w, low, high = w[:-1], 1, 1
        elif w.endswith("?"):
            w, low, high = w[:-1], 0, 1
        elif w.endswith("+"):
            w, low, high = w[:-1], 1, None
        out.append((GROUPS.get(w, [w]), low, high, w))
    return out


NAME = r"[A-Za-z_][A-Za-z0-9_-]*"
WHOLE = re.compile(r"([+-]?)([0-9]{1,20})(\.0+)?")
FRACTION = re.compile(r"[+-]?[0-9]+\.[0-9]+")
RANGE_ENDS = {"inclusiveMinInclusiveMax": "min max", "inclusiveMinExclusiveMax": "min max", "exclusiveMinInclusiveMax": "min max",
              "exclusiveMinExclusiveMax": "min max", "atLeast": "min", "greaterThan": "min", "atMost": "max", "lessThan": "max"}
CHECKS = {"CHECKSUM": 8, "CHECKSUM_LONGITUDINAL": 8, "CRC8": 8, "CRC16_CCITT": 16}
ENCODINGS = ["unsigned", "twosComplement", "signMagnitude", "onesComplement", "packedBCD", "BCD"]


def is_name(t):
    return re.fullmatch(NAME, t) is not None and len(t.encode()) <= 255


def whole(t):
    m = WHOLE.fullmatch(t)
    if not m:
        return None
    n = int(m.group(2))
    n = -n if m.group(1) == "-" else n
    return n if -2**64 <= n <= 2**64 else None


def flag(t):
    return {"true": True, "1": True, "false": False, "0": False}.get(t)


def joined(sep):
    return lambda t: all(is_name(x) for x in t.split(sep))


def attribute_kind(e, a):
    """None for any text, 'name', 'package', or a predicate on the text."""
    n, p = e.name, (e.parent.name if e.parent else "")
    if a == "name":
        return "package" if n == "Package" else "name"
    if a in ("listLengthField", "iteratorVariableRef", "interface", "command", "parameter", "activity", "fromState", "toState", "transaction"):
        return "name"
    if a == "variableRef":
        return "name" if n == "ParameterMap" else joined(".")
    if a in ("type", "baseType", "dataTypeRef", "indexTypeRef"):
        return joined("/")
    if a in ("entry", "outputVariableRef", "argumentRef"):
        return joined(".")
    if a in ("sizeInBits", "length", "size", "min", "max", "coefficient", "exponent", "nanosecondsAfterEntry",
             "terminationCharacter") or (a == "value" and n == "Enumeration"):
        low, high = None, None
        if n == "StringDataType":
            low, high = 1, 65536
        elif n in ("BinaryDataType", "PaddingEntry"):
            low, high = 1, 524288
        elif n == "Dimension":
            low, high = 1, None
        elif n == "StringDataEncoding":
            low, high = 0, 127

        def fits(t):
            k = whole(t)
            return k is not None and (low is None or low <= k) and (high is None or k <= high)
        return fits
    if a in ("abstract", "readOnly", "fixedLength", "fixedSize"):
        return lambda t: flag(t) is not None
    if a == "encoding":
        return (lambda t: t in ("ASCII", "UTF-8")) if n == "StringDataEncoding" else (lambda t: t in ENCODINGS)
    words = {"byteOrder": ["bigEndian", "littleEndian"], "rangeType": list(RANGE_ENDS), "falseValue": ["zeroIsFalse", "nonZeroIsFalse"],
             "errorControlType": list(CHECKS), "level": ["application", "functional", "access", "subnetwork"], "operation": ["get", "set"]}
    if a in words:
        return lambda t: t in words[a]
    if a == "mode":
        return (lambda t: t in ("in", "out", "inout", "notify")) if n == "Argument" else (lambda t: t in ("sync", "async"))
    if a == "operator":
        return (lambda t: t in ("add", "subtract", "multiply")) if n == "Operator" else (lambda t: t in ("==", "!=", "<", "<=", ">", ">="))
    return None


def unsupported_words(e, stage):
    n, words = e.name, []
    p = e.parent.name if e.parent else ""
    if n in UNSUPPORTED:
        words.append(n)
    if n == "PolynomialCalibrator" and p != "LengthEntry":
        words.append(n)
    if n == "Term":
        x, c = e.attrs.get("exponent"), e.attrs.get("coefficient")
        if x is not None and whole(x) not in (0, 1):
            words.append(n)
        if c is not None and whole(c) is None and FRACTION.fullmatch(c) and c.partition(".")[2].strip("0"):
            words.append(n)
    if n == "ErrorControlEntry" and "errorControlType" in e.attrs and e.attrs["errorControlType"] not in CHECKS:
        words.append(n)
    if n == "Operator" and "operator" in e.attrs and e.attrs["operator"] not in ("add", "subtract", "multiply"):
        words.append(n)
    if n == "GenericTypeMap" and "fixedValue" in e.attrs:
        words.append("fixedValue")
    if n in EVENTS + ["Transition"] and e.attrs.get("failed") in ("true", "1"):
        words.append("failed")
    if "open" not in stage and e.attrs.get("fixedSize") in ("false", "0"):
        words.append("fixedSize")
    if "transactions" not in stage and "transaction" in e.attrs:
        words.append("transaction")
    return words


def shape_breaks(roots, stage):
    """All breaks of phase 2. What stands inside a refused element isn't judged."""
    out = []
    counts = {"types": 0, "interfaces": 0, "components": 0}
    limits = {"types": 4096, "interfaces": 512, "components": 64}

    def judge(e, listed):
        row = described(e)
        if e.parent is not None:
            words = unsupported_words(e, stage)
            if words:
                out.append((4, e.place, min(words)))
                return
        if not listed or row is None:
            out.append((3, e.place, e.name))
            return
        own(e, row)
        over = None
        if e.name in DATATYPES:
            counts["types"] += 1
            over = "types" if counts["types"] > limits["types"] else None
        if e.name == "Interface" and e.parent.name == "DeclaredInterfaceSet":
            counts["interfaces"] += 1
            over = "interfaces" if counts["interfaces"] > limits["interfaces"] else over
        if e.name == "Component":
            counts["components"] += 1
            over = "components" if counts["components"] > limits["components"] else over
        if e.name == "StateMachine" and len([c for c in e.parent.children[:e.parent.children.index(e)] if c.name == "StateMachine"]) >= 16:
            over = over or "machines"
        if over:
            out.append((8, e.place, over))
        rules = child_rules(row)
        seen = [0] * len(rules)
        for i, c in enumerate(e.children):
            if i == 32767:
                out.append((8, c.place, "children"))
            if c.name in PASSED_OVER:
                continue
            fits = False
            for k, (names, low, high, word) in enumerate(rules):
                if c.name in names:
                    seen[k] += 1
                    fits = high is None or seen[k] <= high
            judge(c, fits)
        # a child that is missing
        if not own_missing(e, row):
            gone = [word for k, (names, low, high, word) in enumerate(rules) if seen[k] < low]
            if gone:
                out.append((5, e.place, min(gone)))

    def own_missing(e, row):
        need = row[0].split()
        if e.name == "MinMaxRange":
            need = need + RANGE_ENDS.get(e.attrs.get("rangeType"), "").split()
        gone = [a for a in need if a not in e.attrs]
        if e.name == "Dimension" and "size" not in e.attrs and "indexTypeRef" not in e.attrs:
            gone = ["size"]
        return gone

    def own(e, row):
        gone = own_missing(e, row)
        if gone:
            out.append((5, e.place, min(gone)))
        bad, names = [], []
        for a in row[0].split() + row[1].split():
            if a not in e.attrs:
                continue
            kind = attribute_kind(e, a)
            t = e.attrs[a]
            if kind == "name":
                if not is_name(t):
                    names.append(a)
            elif kind == "package":
                if not joined("/")(t):
                    names.append(a)
            elif kind is not None and not kind(t):
                bad.append(a)
        if bad:
            out.append((6, e.place, min(bad)))
        if names:
            out.append((7, e.place, e.attrs[min(names)]))

    for r in roots:
        judge(r, r.name in ("DataSheet", "PackageFile"))
    return out


def first(breaks):
    """Raises the first of some breaks of one phase, by place and then by number."""
    if breaks:
        rule, place, kept = min(breaks, key=lambda b: (b[1], b[0]))
        raise Refused(rule, place, kept)


# ---------------------------------------------------------------- types

class Type:
    def __init__(self, id, name, element, scopes):
        self.id, self.name, self.element, self.scopes = id, name, element, scopes
        self.place = element.place
        self.kind = element.name[:-len("DataType")]
        self.own_name = element.attrs["name"]
        self.base = self.item = None
        self.parts, self.entries, self.trailers, self.constraints = [], [], [], []
        self.hidden = False
        self.dims = []


class Part:
    """A part of a container: its element, its type and, where it has one, its name."""

    def __init__(self, element, owner, place):
        self.element, self.owner, self.position = element, owner, place
        self.kind = element.name
        self.name = element.attrs.get("name")
        self.type = None
        self.trailer = element.parent.name == "TrailerEntryList"


class Sheet:
    pass


def prefixes(package):
    names = package.split("/")
    return ["/".join(names[:k]) for k in range(len(names), 0, -1)] + [""]


def join(scope, text):
    return scope + "/" + text if scope else text


def declared_items(roots):
    """(sort, qualified name, element, scopes) in document order."""
    out = []

    def types_of(e, scopes):
        for t in e.children:
            if t.name in DATATYPES:
                out.append(("type", join(scopes[0], t.attrs["name"]), t, scopes))

    def faces_of(e, scopes):
        for t in e.kids("Interface"):
            out.append(("interface", join(scopes[0], t.attrs["name"]), t, scopes))

    for r in roots:
        for p in r.kids("Package"):
            scopes = prefixes(p.attrs["name"])
            for s in p.children:
                if s.name == "DataTypeSet":
                    types_of(s, scopes)
                elif s.name == "DeclaredInterfaceSet":
                    faces_of(s, scopes)
                elif s.name == "ComponentSet":
                    for c in s.kids("Component"):
                        inner = [join(scopes[0], c.attrs["name"])] + scopes
                        out.append(("component", inner[0], c, scopes))
                        for k in c.children:
                            if k.name == "DataTypeSet":
                                types_of(k, inner)
                            elif k.name == "DeclaredInterfaceSet":
                                faces_of(k, inner)
    return out


SCALARS = ("Integer", "SubRange", "Enumerated", "Boolean")


def int_form(t):
    """(bits, encoding, order) of an integer, sub-range or enumerated type."""
    while t.kind == "SubRange":
        t = t.base
    e = t.element.kid("IntegerDataEncoding")
    if e is None:
        return (64, "twosComplement", "bigEndian")
    return (whole(e.attrs["sizeInBits"]), e.attrs["encoding"], e.attrs.get("byteOrder", "bigEndian"))


def form_is_good(form):
    bits, encoding, order = form
    if not 1 <= bits <= 64:
        return False
    if order == "littleEndian" and bits % 8:
        return False
    return not (encoding == "packedBCD" and bits % 4 or encoding == "BCD" and bits % 8)


def form_numbers(form):
    bits, encoding, _ = form
    if encoding == "unsigned":
        return (0, 2**bits - 1)
    if encoding == "twosComplement":
        return (-2**(bits - 1), 2**(bits - 1) - 1)
    if encoding in ("signMagnitude", "onesComplement"):
        return (-(2**(bits - 1) - 1), 2**(bits - 1) - 1)
    return (0, 10**(bits // (4 if encoding == "packedBCD" else 8)) - 1)


INF = 2**70


def range_of(e):
    """The closed interval of a MinMaxRange, perhaps empty."""
    a = e.attrs
    low, high = -INF, INF
    kind = a["rangeType"]
    if "min" in RANGE_ENDS[kind].split():
        low = whole(a["min"])
    if "max" in RANGE_ENDS[kind].split():
        high = whole(a["max"])
    if kind in ("exclusiveMinInclusiveMax", "exclusiveMinExclusiveMax", "greaterThan"):
        low += 1
    if kind in ("inclusiveMinExclusiveMax", "exclusiveMinExclusiveMax", "lessThan"):
        high -= 1
    return (low, high)


def own_range(t):
    r = t.element.kid("Range")
    return range_of(r.kid("MinMaxRange")) if r is not None else None


def interval(t):
    """The domain of an integer type or sub-range as one interval (low, high), empty where low is above high."""
    low, high = interval(t.base) if t.kind == "SubRange" else form_numbers(int_form(t))
    r = own_range(t)
    if r is not None:
        low, high = max(low, r[0]), min(high, r[1])
    return (low, high)


def listing(t):
    return [(e.attrs["label"], whole(e.attrs["value"])) for e in t.element.kid("EnumerationList").kids("Enumeration")]


def bool_form(t):
    e = t.element.kid("BooleanDataEncoding")
    if e is None:
        return (8, True)
    return (whole(e.attrs["sizeInBits"]), e.attrs.get("falseValue", "zeroIsFalse") == "zeroIsFalse")


def text_form(t):
    """(length, fixed, ascii, stop octet or None)."""
    e = t.element.kid("StringDataEncoding")
    a = e.attrs if e is not None else {}
    fixed = flag(t.element.attrs.get("fixedLength", "true"))
    stop = whole(a["terminationCharacter"]) if "terminationCharacter" in a else (0 if fixed else None)
    return (whole(t.element.attrs["length"]), fixed, a.get("encoding", "UTF-8") == "ASCII", stop)


def binary_form(t):
    """(bits, open)."""
    return (whole(t.element.attrs["sizeInBits"]), flag(t.element.attrs.get("fixedSize", "true")) is False)


def is_open(t):
    return t.kind == "Binary" and binary_form(t)[1]


def chain(t):
    out, seen = [], set()
    while t is not None and t.id not in seen:
        seen.add(t.id)
        out.insert(0, t)
        t = t.base
    return out


def sequence(t):
    c = chain(t)
    return [p for k in c for p in k.entries] + [p for k in reversed(c) for p in k.trailers]


def named(parts, name):
    for p in parts:
        if p.name == name:
            return p
    return None


def array_count(t):
    n = 1
    for size, index in t.dims:
        if size is not None:
            n *= size
        elif index.kind == "Boolean":
            n *= 2
        elif index.kind == "Enumerated":
            n *= len({v for _, v in listing(index)})
        else:
            low, high = interval(index)
            n *= max(0, high - low + 1)
    return n


class Judge:
    def __init__(self, roots, word, nfiles, stage):
        self.stage = stage
        self.roots = roots
        self.items = declared_items(roots)
        self.word_text, self.nfiles = word, nfiles
        self.names()
        self.references()
        self.phase4()
        self.phase5()
        self.phase6()
        self.phase7()
        self.later_phases()

    # ---- what interfaces and components add; run_model.py fills these in

    def owned_twice(self):
        """The breaks of Duplicate inside interfaces and components."""
        return []

    def more_references(self, breaks):
        """Looks up the references of interfaces and components."""

    def more_named(self):
        """(type, place, used) per type that interfaces and components name: used by `type`, and not by a generic's `baseType`."""
        return []

    def later_phases(self):
        """Judges interfaces, components and machines."""

    # ---- phase 3

    def names(self):
        seen, breaks = {}, []
        for sort, q, e, scopes in self.items:
            if q in seen:
                breaks.append((9, e.place, e.attrs["name"]))
            else:
                seen[q] = (sort, e)
        first(breaks + self.owned_twice())
        self.by_name = seen
        self.types = []
        self.of_element = {}
        for sort, q, e, scopes in self.items:
            if sort == "type":
                t = Type(len(self.types), q, e, scopes)
                self.types.append(t)
                self.of_element[e.place] = t
        self.counts = {s: len([1 for i in self.items if i[0] == s]) for s in ("type", "interface", "component")}

    def look_up(self, scopes, text, element_place, wanted, breaks):
        """The type that a reference names, with breaks of 10 and 11; wanted is a predicate on types."""
        for s in scopes:
            q = join(s, text)
            if q in self.by_name:
                sort, e = self.by_name[q]
                if sort != "type" or not wanted(self.of_element[e.place]):
                    breaks.append((11, element_place, text))
                    return None
                return self.of_element[e.place]
        breaks.append((10, element_place, text))
        return None

    def references(self):
        breaks = []
        anything = lambda t: True
        for t in self.types:
            e = t.element
            if t.kind == "SubRange":
                t.base = self.look_up(t.scopes, e.attrs["baseType"], e.place, lambda x: x.kind in ("Integer", "SubRange"), breaks)
            elif t.kind == "Array":
                t.item = self.look_up(t.scopes, e.attrs["dataTypeRef"], e.place, anything, breaks)
                for d in e.kid("DimensionList").kids("Dimension"):
                    if "size" in d.attrs:
                        t.dims.append((whole(d.attrs["size"]), None))
                    else:
                        t.dims.append((None, self.look_up(t.scopes, d.attrs["indexTypeRef"], d.place, lambda x: x.kind in SCALARS, breaks)))
            elif t.kind == "Container":
                if "baseType" in e.attrs:
                    t.base = self.look_up(t.scopes, e.attrs["baseType"], e.place, lambda x: x.kind == "Container", breaks)
                t.hidden = flag(e.attrs.get("abstract", "false"))
                for lst, into in (("EntryList", t.entries), ("TrailerEntryList", t.trailers)):
                    l = e.kid(lst)
                    for p in (l.kids(*ENTRIES) if l is not None else []):
                        part = Part(p, t, None)
                        if "type" in p.attrs and p.name != "PaddingEntry":
                            part.type = self.look_up(t.scopes, p.attrs["type"], p.place, anything, breaks)
                        into.append(part)
                t.parts = t.entries + t.trailers
                for i, p in enumerate(t.parts):
                    p.position = i
                cs = e.kid("ConstraintSet")
                for c in (cs.kids("ValueConstraint", "RangeConstraint", "TypeConstraint") if cs is not None else []):
                    named_type = None
                    if c.name == "TypeConstraint":
                        named_type = self.look_up(t.scopes, c.attrs["type"], c.place, anything, breaks)
                    t.constraints.append(Constraint(c, t, named_type))
        self.word = None
        if self.word_text is not None:
            self.word = self.look_up([""], self.word_text, (self.nfiles, 0), anything, breaks)
        self.more_references(breaks)
        first(breaks)

    # ---- phase 4

    def cyclic_bases(self):
        out = set()
        for t in self.types:
            at, n = t.base, 0
            while at is not None and n <= len(self.types):
                if at is t:
                    out.add(t.id)
                    break
                at, n = at.base, n + 1
        return out

    def phase4(self):
        types = self.types
        self.derived_of = {t.id: [] for t in types}
        for t in types:
            if t.base is not None:
                self.derived_of[t.base.id].append(t)
        bad15 = self.cyclic_bases()
        # what a type leads to by one step: bases, derived containers, entries and items
        steps = {}
        for t in types:
            s = []
            if t.base is not None:
                s.append(t.base)
            if t.kind == "Container":
                s += self.derived_of[t.id]
                s += [p.type for p in t.parts if p.type is not None]
            if t.item is not None:
                s.append(t.item)
            steps[t.id] = s

        def closure(t):
            seen, todo = set(), [t]
            while todo:
                x = todo.pop()
                for y in steps[x.id]:
                    if y.id not in seen:
                        seen.add(y.id)
                        todo.append(y)
            return seen

        reach = {t.id: closure(t) for t in types}

        def family(t):
            """All containers of the family, where the bases have an end."""
            if t.kind != "Container":
                return [t]
            seen, todo = {t.id: t}, [t]
            while todo:
                x = todo.pop()
                for y in ([x.base] if x.base is not None else []) + self.derived_of[x.id]:
                    if y.id not in seen:
                        seen[y.id] = y
                        todo.append(y)
            return list(seen.values())

        def inner(t):
            if t.item is not None:
                return [t.item]
            return [p.type for k in family(t) for p in k.parts if p.type is not None] if t.kind == "Container" else []

        self.family, self.inner = family, inner
        bad16 = set()
        for t in types:
            if t.id in bad15 or reach[t.id] & bad15 or not self.stage & {"nested", "arrays"}:
                continue
            own = {k.id for k in family(t)}
            seen, todo = set(), inner(t)
            while todo:
                x = todo.pop()
                if x.id in seen:
                    continue
                seen.add(x.id)
                todo += inner(x)
            if seen & own:
                bad16.add(t.id)
        breaks = [(15, t.place, None) for t in types if t.id in bad15] + [(16, t.place, None) for t in types if t.id in bad16]
        bad = bad15 | bad16
        if "nested" not in self.stage:
            breaks += [(4, p.element.place, "Entry") for t in types for p in t.parts if p.kind == "Entry" and p.type.kind == "Container"]
        depth = {}

        def nest(t):
            if t.id not in depth:
                depth[t.id] = 1 + max([nest(x) for x in inner(t)] or [0])
            return depth[t.id]

        bad12 = {t.id for t in types if self.breaks12(t)}
        for t in types:
            words = []
            if t.id not in bad and not reach[t.id] & bad:
                if len(chain(t)) > 16:
                    words.append("chain")
                if t.kind == "Container" and len(family(t)) > 512:
                    words.append("family")
                if self.stage & {"nested", "arrays"} and nest(t) > 32:
                    words.append("nesting")
            if t.kind == "Array":
                indexes = [i for _, i in t.dims if i is not None]
                above = [x for i in indexes for x in chain(i)]
                if not any(x.id in bad12 or x.id in bad15 for x in above):
                    if array_count(t) > 65536:
                        words.append("items")
            if words:
                breaks.append((8, t.place, words[0]))
        first(breaks)

    # ---- phase 5

    def breaks12(self, t):
        if t.kind in ("Integer", "Enumerated"):
            return not form_is_good(int_form(t))
        if t.kind == "Boolean":
            return not 1 <= bool_form(t)[0] <= 64
        if t.kind == "String":
            return text_form(t)[3] is None
        if t.kind == "Binary":
            return binary_form(t)[1] and binary_form(t)[0] % 8 != 0
        return False

    def phase5(self):
        breaks, bad = [], set()
        for t in self.types:
            if self.breaks12(t):
                breaks.append((12, t.place, None))
                bad.add(t.id)
        broken13 = {}

        def breaks13(t):
            if t.kind not in ("Integer", "SubRange") or t.id in bad:
                return False
            if t.id not in broken13:
                if t.kind == "SubRange" and any(x.id in bad or breaks13(x) for x in chain(t)[:-1]):
                    broken13[t.id] = False
                else:
                    low, high = interval(t)
                    broken13[t.id] = low > high
            return broken13[t.id]

        for t in self.types:
            if breaks13(t):
                breaks.append((13, t.place, None))
            if t.kind == "Enumerated" and t.id not in bad:
                l = listing(t)
                low, high = form_numbers(int_form(t))
                labels, values = [x for x, _ in l], [v for _, v in l]
                if not l or len(set(labels)) < len(l) or len(set(values)) < len(l) or "" in labels or any(not low <= v <= high for v in values):
                    breaks.append((14, t.place, None))
        first(breaks)

    # ---- phase 6

    def phase6(self):
        """All breaks of rules 17 to 25, as a map from places to rules."""
        self.broken = {}
        add = lambda rule, place, kept=None: self.broken.setdefault(place, []).append((rule, place, kept))
        for t in self.types:
            if t.kind == "Container":
                self.judge_names(t, add)
                for p in t.parts:
                    self.judge_part(t, p, add)
        self.judge_open(add)
        for t in self.types:
            if t.kind == "Container":
                for c in t.constraints:
                    self.judge_constraint(c, add)
        # rule 17: an element is judged once all that its type leads to was judged
        self.empties = {}
        for t in self.types:
            if t.kind == "Array":
                self.breaks17(t.element.place, t.item, False, add)
            for p in t.parts:
                if p.kind in ("Entry", "ListEntry"):
                    self.breaks17(p.element.place, p.type, p.kind == "Entry", add)
        if self.word is not None:
            self.breaks17((self.nfiles, 0), self.word, False, add)
        first([min(bs, key=lambda b: b[0]) for bs in self.broken.values()])

    def hollow(self, t):
        if t.kind == "Binary":
            return binary_form(t)[1]
        if t.kind == "Array":
            return self.hollow(t.item)
        if t.kind == "Container":
            for k in self.at_or_under(t):
                if not k.hidden and not sequence(k) and not any(not l.hidden for l in self.at_or_under(k) if l is not k):
                    return True
        return False

    def at_or_under(self, t):
        out, todo = [], [t]
        while todo:
            x = todo.pop()
            out.append(x)
            todo += self.derived_of[x.id]
        return sorted(out, key=lambda x: x.id)

    def reached(self, t):
        """All types that are reached from a type, itself among them."""
        seen, todo = {t.id: t}, [t]
        while todo:
            x = todo.pop()
            nxt = [x.item] if x.item is not None else []
            if x.kind == "Container":
                nxt = [p.type for k in self.at_or_under(x) for p in sequence(k) if p.type is not None]
            for y in nxt:
                if y.id not in seen:
                    seen[y.id] = y
                    todo.append(y)
        return list(seen.values())

    def breaks17(self, place, t, is_entry, add):
        if place in self.empties:
            return self.empties[place]
        self.empties[place] = False
        if is_entry and is_open(t):
            return False
        for r in self.reached(t):
            if r.kind == "Array" and self.breaks17(r.element.place, r.item, False, add):
                pass
            if r.kind != "Container":
                continue
            for k in {x.id: x for x in chain(r) + self.at_or_under(r)}.values():
                for p in k.parts:
                    if p.element.place in self.broken:
                        return False
                    if p.kind in ("Entry", "ListEntry") and self.breaks17(p.element.place, p.type, p.kind == "Entry", add):
                        return False
                for c in k.constraints:
                    if c.element.place in self.broken:
                        return False
        if self.hollow(t):
            self.empties[place] = True
            add(17, place)
            return True
        return False

    def judge_names(self, t, add):
        above = {p.name for k in chain(t)[:-1] for p in k.parts if p.name is not None}
        seen = set()
        for p in sorted(t.parts, key=lambda p: p.element.place):
            if p.name is None:
                continue
            if p.name in above or p.name in seen:
                add(18, p.element.place, p.name)
            seen.add(p.name)

    def judge_part(self, t, p, add):
        place = p.element.place
        if p.kind == "ListEntry":
            s = sequence(t)
            f = named(s, p.element.attrs["listLengthField"])
            good = f is not None and f.kind == "Entry" and s.index(f) < s.index(p) and f.type.kind in ("Integer", "SubRange")
            if not good or interval(f.type)[0] < 0:
                add(19, place)
        if p.kind == "LengthEntry":
            earlier = [x for k in chain(t)[:-1] for x in k.parts if x.kind == "LengthEntry"]
            earlier += [x for x in t.parts if x.kind == "LengthEntry" and x.element.place < place]
            terms = self.terms(p)
            xs = [x for x, _ in terms]
            c1 = self.factors(p)[1]
            if (p.type.kind not in ("Integer", "SubRange") or earlier or len(set(xs)) < len(xs) or c1 < 1
                    or any(abs(c) > 2**32 for _, c in terms)):
                add(20, place)
        if p.kind == "FixedValueEntry":
            if text_value(p.type, p.element.attrs["fixedValue"]) is None:
                add(21, place)
        if p.kind == "ErrorControlEntry":
            x = p.type
            good = x.kind == "Integer" and x.element.kid("Range") is None
            if good:
                bits, encoding, _ = int_form(x)
                good = encoding == "unsigned" and bits == CHECKS[p.element.attrs["errorControlType"]]
            if not good:
                add(22, place)

    def terms(self, p):
        c = p.element.kid("PolynomialCalibrator")
        return [(whole(t.attrs["exponent"]), whole(t.attrs["coefficient"])) for t in c.kids("Term")] if c is not None else []

    def factors(self, p):
        if p.element.kid("PolynomialCalibrator") is None:
            return (0, 1)
        ts = self.terms(p)
        return (next((c for x, c in ts if x == 0), 0), next((c for x, c in ts if x == 1), 0))

    def judge_open(self, add):
        for t in self.types:
            if t.kind == "Array" and is_open(t.item):
                add(20, t.element.place)
            if t.kind != "Container":
                continue
            for p in t.parts:
                if p.type is None or not is_open(p.type):
                    continue
                s = sequence(t)
                good = p.kind == "Entry" and not p.trailer and t.entries[-1] is p and not self.derived_of[t.id]
                good = good and any(x.kind == "LengthEntry" for x in s[:s.index(p)])
                good = good and all(self.part_size(x) is not None for k in chain(t) for x in k.trailers)
                if not good:
                    add(20, p.element.place)
            for c in t.constraints:
                if c.type is not None and is_open(c.type):
                    add(20, c.element.place)
        for t, place, _ in self.more_named():
            if is_open(t):
                add(20, place)

    def size(self, t):
        if t.kind in ("Integer", "SubRange", "Enumerated"):
            return int_form(t)[0]
        if t.kind == "Boolean":
            return bool_form(t)[0]
        if t.kind == "String":
            return 8 * text_form(t)[0] if text_form(t)[1] else None
        if t.kind == "Binary":
            return None if binary_form(t)[1] else binary_form(t)[0]
        if t.kind == "Array":
            s = self.size(t.item)
            return None if s is None else array_count(t) * s
        return None

    def part_size(self, p):
        if p.kind == "PaddingEntry":
            return whole(p.element.attrs["sizeInBits"])
        if p.kind == "ListEntry":
            return None
        return self.size(p.type)

    def resolve_path(self, c):
        """The parts on a constraint's path, or None where it isn't one."""
        base = c.owner.base
        if base is None:
            return None
        names = c.text.split(".")
        p = named(sequence(base), names[0])
        if p is None or p.kind != "Entry" or p.trailer:
            return None
        out = [p]
        for n in names[1:]:
            if out[-1].type.kind != "Container":
                return None
            p = named(sequence(out[-1].type), n)
            if p is None or p.kind != "Entry":
                return None
            out.append(p)
        return out

    def judge_constraint(self, c, add):
        place = c.element.place
        c.path = self.resolve_path(c)
        c.set = None
        if c.path is not None:
            target = c.path[-1].type
            kind = c.element.name
            if kind == "TypeConstraint":
                good = target.kind == "Container"
            elif kind == "RangeConstraint":
                good = target.kind in ("Integer", "SubRange")
            else:
                good = target.kind in SCALARS
        if c.path is None or not good:
            add(23, place)
            c.bad = True
            return
        if kind == "TypeConstraint":
            if target not in chain(c.type):
                add(24, place)
                c.bad = True
                return
            c.set = {k.id for k in self.at_or_under(c.type) if not k.hidden}
        elif kind == "RangeConstraint":
            c.set = range_of(c.element.kid("MinMaxRange"))
        else:
            n = constraint_number(target, c.element.attrs["value"])
            if n is None:
                add(24, place)
                c.bad = True
                return
            c.set = (n, n)
        # rule 25
        earlier = []
        for k in chain(c.owner):
            for x in k.constraints:
                if x is c:
                    break
                if x.text == c.text:
                    earlier.append(x)
        for x in earlier:
            if not hasattr(x, "bad"):
                self.judge_constraint(x, lambda *a: None)
        if any(x.bad for x in earlier):
            c.bad = False
            return
        c.bad = least_common([x.set for x in earlier] + [c.set], self.path_domain(c.path)) is None
        if c.bad:
            add(25, place)

    def path_domain(self, path):
        t = path[-1].type
        if t.kind == "Container":
            return {k.id for k in self.at_or_under(t) if not k.hidden}
        if t.kind == "Enumerated":
            return {v for _, v in listing(t)}
        if t.kind == "Boolean":
            return {0, 1}
        return interval(t)

    # ---- phase 7

    def used(self):
        out = set()
        for t in self.types:
            if t.item is not None:
                out.add(t.item.id)
            for p in t.parts:
                if p.type is not None:
                    out.add(p.type.id)
        if self.word is not None:
            out.add(self.word.id)
        out |= {t.id for t, _, used in self.more_named() if used}
        return {i for i in out if not is_open(self.types[i])}

    def overlap_of(self, k, l, used):
        """None, or the ancestor and the common numbers of two containers, neither deriving from the other."""
        ck, cl = chain(k), chain(l)
        common = [x for x in ck if x in cl]
        if not common or common[-1] in (k, l):
            return None
        x = common[-1]
        if not any(a.id in used for a in chain(x)):
            return None
        if x.id not in self.starts_at:
            self.starts_at[x.id] = {p for a in chain(x) for p in a.entries if p.kind == "Entry"}
        sets = {}
        for c in {id(c): c for a in ck + cl for c in a.constraints}.values():
            if c.path[0] in self.starts_at[x.id]:
                sets.setdefault(c.text, (self.path_domain(c.path), []))[1].append(c.set)
        note = []
        for text in sorted(sets, key=lambda s: s.encode()):
            n = least_common(sets[text][1], sets[text][0])
            if n is None:
                return None
            note.append((text, n))
        return note

    def phase7(self):
        used, self.starts_at = self.used(), {}
        concrete = [t for t in self.types if t.kind == "Container" and not t.hidden]
        for second in concrete:
            for one in concrete:
                if one.id < second.id:
                    note = self.overlap_of(one, second, used)
                    if note is not None:
                        kept = one.name + " " + second.name + "".join(" %s=%d" % x for x in note)
                        raise Refused(26, second.place, kept)


class Constraint:
    def __init__(self, element, owner, type):
        self.element, self.owner, self.type = element, owner, type
        self.text = element.attrs["entry"]


def least_common(sets, domain):
    """The least number of a domain (an interval or a set) that is in all sets, or None."""
    low, high = -INF, INF
    finite = None
    for s in sets + [domain]:
        if isinstance(s, tuple):
            low, high = max(low, s[0]), min(high, s[1])
        else:
            finite = set(s) if finite is None else finite & s
    if finite is not None:
        fit = [n for n in finite if low <= n <= high]
        return min(fit) if fit else None
    return low if low <= high else None


def in_set(n, s):
    return s[0] <= n <= s[1] if isinstance(s, tuple) else n in s


def constraint_number(t, text):
    if t.kind == "Boolean":
        f = flag(text)
        return None if f is None else int(f)
    if t.kind == "Enumerated":
        return next((v for l, v in listing(t) if l == text), None)
    return whole(text)


# ---------------------------------------------------------------- values
# ("num", n) ("label", s) ("bool", b) ("text", s) ("bits", n, octets) ("items", [..]) ("fields", Type, [..])

def hex_octets(text):
    if not re.fullmatch(r"([0-9a-fA-F]{2})*", text):
        return None
    return bytes.fromhex(text)


def bits_value(t, text):
    octets = hex_octets(text)
    if octets is None:
        return None
    n, open_ = binary_form(t)
    if open_:
        return ("bits", 8 * len(octets), octets) if 8 * len(octets) <= n else None
    if len(octets) != (n + 7) // 8:
        return None
    if n % 8 and octets[-1] & (0xFF >> (n % 8)):
        return None
    return ("bits", n, octets)


def text_value(t, text):
    """The value that the text of an attribute stands for, or None."""
    if t.kind in ("Integer", "SubRange"):
        n = whole(text)
        low, high = interval(t)
        return ("num", n) if n is not None and low <= n <= high else None
    if t.kind == "Enumerated":
        return ("label", text) if any(l == text for l, _ in listing(t)) else None
    if t.kind == "Boolean":
        return None if flag(text) is None else ("bool", flag(text))
    if t.kind == "String":
        return ("text", text) if text_fault(t, text) is None and text_bits(t, text) <= 524288 else None
    if t.kind == "Binary":
        return bits_value(t, text)
    return None


def text_bits(t, text):
    """How many bits a text has with what fills it up or ends it."""
    length, fixed, _, _ = text_form(t)
    return 8 * (length if fixed else len(text.encode("utf-8")) + 1)


def text_fault(t, text):
    length, fixed, ascii, stop = text_form(t)
    octets = text.encode("utf-8")
    if stop in octets or ascii and any(o > 127 for o in octets):
        return "BadText"
    return "WrongSize" if len(octets) > length else None


class Fault(Exception):
    def __init__(self, reason, path):
        self.reason, self.path = reason, path


def step(p):
    if p.name is not None:
        return "." + p.name
    return ".%s#%d" % (p.owner.own_name, p.position)


def to_int(bits):
    n = 0
    for b in bits:
        n = n * 2 + b
    return n


def bits_of(octets):
    return [o >> (7 - i) & 1 for o in octets for i in range(8)]


def octets_of(bits):
    bits = bits + [0] * (-len(bits) % 8)
    return bytes(to_int(bits[i:i + 8]) for i in range(0, len(bits), 8))


def decode_number(form, bits):
    """The number of a pattern, or None for a digit above 9."""
    n, encoding, order = form
    if order == "littleEndian":
        bits = [b for i in range(n - 8, -1, -8) for b in bits[i:i + 8]]
    u = to_int(bits)
    if encoding == "unsigned":
        return u
    if encoding == "twosComplement":
        return u - 2**n if bits[0] else u
    if encoding == "signMagnitude":
        return -to_int(bits[1:]) if bits[0] else u
    if encoding == "onesComplement":
        return u - (2**n - 1) if bits[0] else u
    w = 4 if encoding == "packedBCD" else 8
    digits = [to_int(bits[i:i + w]) for i in range(0, n, w)]
    if any(d > 9 for d in digits):
        return None
    return int("".join(map(str, digits)))


def encode_number(form, n):
    size, encoding, order = form
    if encoding == "unsigned":
        u = n
    elif encoding == "twosComplement":
        u = n % 2**size
    elif encoding == "signMagnitude":
        u = n if n >= 0 else 2**(size - 1) - n
    elif encoding == "onesComplement":
        u = n if n >= 0 else 2**size - 1 + n
    else:
        w = 4 if encoding == "packedBCD" else 8
        u = 0
        for d in str(n).zfill(size // w):
            u = u << w | int(d)
    bits = [u >> (size - 1 - i) & 1 for i in range(size)]
    if order == "littleEndian":
        bits = [b for i in range(size - 8, -1, -8) for b in bits[i:i + 8]]
    return bits


def check_of(kind, bits):
    octets = octets_of(bits)
    if kind == "CHECKSUM":
        return sum(octets) % 256
    if kind == "CHECKSUM_LONGITUDINAL":
        x = 0
        for o in octets:
            x ^= o
        return x
    width, divisor = (8, [1, 0, 0, 0, 0, 0, 1, 1, 1]) if kind == "CRC8" else (16, [1] + [0] * 3 + [1] + [0] * 6 + [1] + [0] * 4 + [1])
    b = bits_of(octets) + [0] * width
    if kind != "CRC8":
        b = [x ^ 1 if i < 16 else x for i, x in enumerate(b)]
    for i in range(len(b) - width):
        if b[i]:
            for j, d in enumerate(divisor):
                b[i + j] ^= d
    return to_int(b[len(b) - width:])


# ---------------------------------------------------------------- reading

class Reader:
    def __init__(self, judge, bits):
        self.j, self.bits = judge, bits

    def read(self, t):
        return self.value(t, 0, "")

    def value(self, t, at, path):
        """The value and where it ends."""
        b = self.bits
        if t.kind in ("Integer", "SubRange", "Enumerated"):
            form = int_form(t)
            if len(b) - at < form[0]:
                raise Fault("Short", path)
            n = decode_number(form, b[at:at + form[0]])
            if n is None:
                raise Fault("BadDigit", path)
            if t.kind == "Enumerated":
                label = next((l for l, v in listing(t) if v == n), None)
                if label is None:
                    raise Fault("NoLabel", path)
                return ("label", label), at + form[0]
            low, high = interval(t)
            if not low <= n <= high:
                raise Fault("OutOfRange", path)
            return ("num", n), at + form[0]
        if t.kind == "Boolean":
            size, zero_is_false = bool_form(t)
            if len(b) - at < size:
                raise Fault("Short", path)
            return ("bool", any(b[at:at + size]) == zero_is_false), at + size
        if t.kind == "String":
            return self.text(t, at, path)
        if t.kind == "Binary":
            size, _ = binary_form(t)
            if len(b) - at < size:
                raise Fault("Short", path)
            return ("bits", size, octets_of(b[at:at + size])), at + size
        if t.kind == "Array":
            return self.items(t.item, array_count(t), at, path)
        return self.container(t, at, path)

    def text(self, t, at, path):
        length, fixed, ascii, stop = text_form(t)
        b = self.bits
        if fixed:
            if len(b) - at < 8 * length:
                raise Fault("Short", path)
            octets = octets_of(b[at:at + 8 * length])
            end = at + 8 * length
            octets = octets[:octets.index(stop)] if stop in octets else octets
        else:
            whole_octets = min((len(b) - at) // 8, length + 1)
            octets = octets_of(b[at:at + 8 * whole_octets])
            if stop not in octets:
                raise Fault("Short" if whole_octets < length + 1 else "Unterminated", path)
            octets = octets[:octets.index(stop)]
            end = at + 8 * len(octets) + 8
        try:
            return ("text", octets.decode("ascii" if ascii else "utf-8")), end
        except UnicodeDecodeError:
            raise Fault("BadText", path)

    def items(self, t, count, at, path):
        out = []
        for i in range(count):
            v, at = self.value(t, at, path + "[%d]" % i)
            out.append(v)
        return ("items", out), at

    def container(self, s, start, path):
        state = {"fields": {}, "at": start, "length": None}

        def constraints(k):
            for c in k.constraints:
                if not holds(c, state["fields"]):
                    raise Fault("Constraint", path + "".join("." + n for n in c.text.split(".")))

        def parts(ps, x):
            for p in ps:
                self.part(p, x, start, state, path)

        at = s
        for k in chain(s):
            constraints(k)
            parts(k.entries, k)
        while True:
            above = [l for l in self.j.at_or_under(at) if l is not at and not l.hidden and candidate(at, l, state["fields"])]
            if not above:
                break
            c = chain(above[0])
            child = c[c.index(at) + 1]
            assert all(child in chain(l) for l in above)
            at = child
            parts(at.entries, at)
        if at.hidden:
            raise Fault("NoDerived", path + "<" + at.name + ">")
        for k in reversed(chain(at)):
            parts(k.trailers, at)
        if state["length"] is not None:
            p, n = state["length"]
            c0, c1 = self.j.factors(p)
            if c0 + c1 * n != (state["at"] - start + 7) // 8:
                raise Fault("LengthDiffers", path + step(p))
        return ("fields", at, [state["fields"][p] for p in sequence(at) if p.kind in ("Entry", "ListEntry")]), state["at"]

    def part(self, p, x, start, state, path):
        here, at = path + step(p), state["at"]
        if p.kind == "PaddingEntry":
            size = whole(p.element.attrs["sizeInBits"])
            if len(self.bits) - at < size:
                raise Fault("Short", here)
            state["at"] = at + size
            return
        if p.kind == "ListEntry":
            f = named(sequence(p.owner), p.element.attrs["listLengthField"])
            v, state["at"] = self.items(p.type, state["fields"][f][1], at, here)
            state["fields"][p] = v
            return
        if p.kind == "Entry" and is_open(p.type):
            lp, n = state["length"]
            c0, c1 = self.j.factors(lp)
            trailers = sum(self.j.part_size(q) for k in chain(p.owner) for q in k.trailers)
            j = c0 + c1 * n - (at - start + trailers + 7) // 8
            if j < 0 or 8 * j > binary_form(p.type)[0]:
                raise Fault("LengthDiffers", path + step(lp))
            if len(self.bits) - at < 8 * j:
                raise Fault("Short", here)
            state["fields"][p] = ("bits", 8 * j, octets_of(self.bits[at:at + 8 * j]))
            state["at"] = at + 8 * j
            return
        v, end = self.value(p.type, at, here)
        state["at"] = end
        if p.kind == "Entry":
            state["fields"][p] = v
        elif p.kind == "FixedValueEntry":
            if v != text_value(p.type, p.element.attrs["fixedValue"]):
                raise Fault("FixedDiffers", here)
        elif p.kind == "LengthEntry":
            state["length"] = (p, v[1])
        else:
            if v[1] != check_of(p.element.attrs["errorControlType"], self.bits[start:at]):
                raise Fault("CheckDiffers", here)


def number_at(path, fields):
    """The number at a path of parts, in fields by part."""
    v = fields.get(path[0])
    for p in path[1:]:
        v = dict(zip([q for q in sequence(v[1]) if q.kind in ("Entry", "ListEntry")], v[2]))[p]
    if v is None:
        return None
    if v[0] == "fields":
        return v[1].id
    if v[0] == "label":
        return next(n for l, n in listing(path[-1].type) if l == v[1])
    return int(v[1])


def holds(c, fields):
    return in_set(number_at(c.path, fields), c.set)


def candidate(x, l, fields):
    starts = {p for k in chain(x) for p in k.entries if p.kind == "Entry"}
    return all(holds(c, fields) for k in chain(l) for c in k.constraints if c.path[0] in starts)


# ---------------------------------------------------------------- JSON of values

class WrongShape(Exception):
    def __init__(self, path):
        self.path = path


def value_of(judge, t, v, path):
    """The value that JSON stands for; WrongShape with its path."""
    if t.kind in ("Integer", "SubRange"):
        if isinstance(v, Num) and v.whole is not None:
            return ("num", v.whole)
    elif t.kind == "Enumerated":
        if isinstance(v, str):
            return ("label", v)
    elif t.kind == "Boolean":
        if isinstance(v, bool):
            return ("bool", v)
    elif t.kind == "String":
        if isinstance(v, str):
            return ("text", v)
    elif t.kind == "Binary":
        if isinstance(v, str) and bits_value(t, v) is not None:
            return bits_value(t, v)
    elif t.kind == "Array":
        if isinstance(v, list):
            return ("items", [value_of(judge, t.item, x, path + "[%d]" % i) for i, x in enumerate(v)])
    elif isinstance(v, dict):
        k = t
        if "$type" in v:
            name = v["$type"]
            k = next((x for x in judge.types if x.kind == "Container" and isinstance(name, str) and x.name == name), None)
            if k is None:
                raise WrongShape(path)
        try:
            parts = [p for p in sequence(k) if p.kind in ("Entry", "ListEntry")]
            if set(v) - {"$type"} != {p.name for p in parts}:
                raise WrongShape(path)
            out = []
            for p in parts:
                here = path + step(p)
                if p.kind == "ListEntry":
                    if not isinstance(v[p.name], list):
                        raise WrongShape(here)
                    out.append(("items", [value_of(judge, p.type, x, here + "[%d]" % i) for i, x in enumerate(v[p.name])]))
                else:
                    out.append(value_of(judge, p.type, v[p.name], here))
            return ("fields", k, out)
        except WrongShape:
            if t not in chain(k):
                raise WrongShape(path)
            raise
    raise WrongShape(path)


def shown(v):
    if v[0] == "num":
        return str(v[1])
    if v[0] in ("label", "text"):
        return json_string(v[1])
    if v[0] == "bool":
        return "true" if v[1] else "false"
    if v[0] == "bits":
        return '"' + v[2].hex() + '"'
    if v[0] == "items":
        return "[" + ",".join(map(shown, v[1])) + "]"
    members = {"$type": json_string(v[1].name)}
    for p, x in zip([p for p in sequence(v[1]) if p.kind in ("Entry", "ListEntry")], v[2]):
        members[p.name] = shown(x)
    return "{" + ",".join(json_string(k) + ":" + members[k] for k in sorted(members, key=lambda s: s.encode())) + "}"


# ---------------------------------------------------------------- packing

class Packer:
    def __init__(self, judge):
        self.j = judge

    def pack(self, t, v):
        bits = self.value(t, v, "")
        if len(bits) > 524288:
            raise Fault("TooLong", "")
        return bits

    def value(self, t, v, path):
        if t.kind in ("Integer", "SubRange"):
            low, high = interval(t)
            if not low <= v[1] <= high:
                raise Fault("OutOfRange", path)
            return encode_number(int_form(t), v[1])
        if t.kind == "Enumerated":
            n = next((n for l, n in listing(t) if l == v[1]), None)
            if n is None:
                raise Fault("NoLabel", path)
            return encode_number(int_form(t), n)
        if t.kind == "Boolean":
            size, zero_is_false = bool_form(t)
            return [0] * (size - 1) + [1 if v[1] == zero_is_false else 0]
        if t.kind == "String":
            reason = text_fault(t, v[1])
            if reason is not None:
                raise Fault(reason, path)
            length, fixed, _, stop = text_form(t)
            octets = v[1].encode()
            return bits_of(octets + bytes([stop]) * (length - len(octets) if fixed else 1))
        if t.kind == "Binary":
            n, open_ = binary_form(t)
            if v[1] > n or v[1] % 8 if open_ else v[1] != n:
                raise Fault("WrongSize", path)
            return bits_of(v[2])[:v[1]]
        if t.kind == "Array":
            if len(v[1]) != array_count(t):
                raise Fault("WrongSize", path)
            return self.items(t.item, v[1], path)
        return self.container(t, v, path)

    def items(self, t, vs, path):
        out = []
        for i, v in enumerate(vs):
            out += self.value(t, v, path + "[%d]" % i)
        return out

    def container(self, s, v, path):
        k = v[1]
        choice = path + "<" + k.name + ">"
        if s not in chain(k):
            raise Fault("NotDerived", choice)
        if k.hidden:
            raise Fault("Abstract", choice)
        fields = dict(zip([p for p in sequence(k) if p.kind in ("Entry", "ListEntry")], v[2]))
        # the spellings of the parts; a length entry and the checks stay open until the size is known
        pieces = []
        for x in chain(k):
            for c in x.constraints:
                if not holds_packed(c, fields):
                    raise Fault("Constraint", path + "".join("." + n for n in c.text.split(".")))
            for p in x.entries:
                pieces.append((p, self.part(p, k, fields, path)))
        if any(l is not k and not l.hidden and candidate(k, l, fields) for l in self.j.at_or_under(k)):
            raise Fault("NotMostDerived", choice)
        for x in reversed(chain(k)):
            for p in x.trailers:
                pieces.append((p, self.part(p, k, fields, path)))
        size = sum(len(b) if b is not None else int_form(p.type)[0] for p, b in pieces)
        out = []
        for p, b in pieces:
            if p.kind == "LengthEntry":
                c0, c1 = self.j.factors(p)
                n, rest = divmod((size + 7) // 8 - c0, c1)
                low, high = interval(p.type)
                if rest or not low <= n <= high:
                    raise Fault("LengthField", path + step(p))
                b = encode_number(int_form(p.type), n)
            elif p.kind == "ErrorControlEntry":
                b = encode_number(int_form(p.type), check_of(p.element.attrs["errorControlType"], out))
            out += b
        return out

    def part(self, p, k, fields, path):
        here = path + step(p)
        if p.kind == "PaddingEntry":
            return [0] * whole(p.element.attrs["sizeInBits"])
        if p.kind == "FixedValueEntry":
            return self.value(p.type, text_value(p.type, p.element.attrs["fixedValue"]), here)
        if p.kind in ("LengthEntry", "ErrorControlEntry"):
            return None
        if p.kind == "ListEntry":
            f = named(sequence(p.owner), p.element.attrs["listLengthField"])
            if len(fields[p][1]) != fields[f][1]:
                raise Fault("CountWrong", here)
            return self.items(p.type, fields[p][1], here)
        return self.value(p.type, fields[p], here)


holds_packed = holds


# ---------------------------------------------------------------- the answer

def judged(files, word, stage, judge=Judge):
    breaks = []
    roots = [read_tree(i, f, breaks) for i, f in enumerate(files)]
    first(breaks)
    first(shape_breaks(roots, stage))
    out = []

    def pend(e):
        w = pending_word(e, stage)
        if w is not None:
            out.append((4, e.place, w))
        for c in e.children:
            if c.name not in PASSED_OVER:
                pend(c)
    for r in roots:
        pend(r)
    first(out)
    return judge(roots, word, len(files), stage)


def unpack(j, data):
    digits = bytes(o for o in data if o not in b" \t\r\n")
    if not re.fullmatch(rb"([0-9a-fA-F]{2})*", digits):
        raise Fault("BadHex", "")
    frame = bytes.fromhex(digits.decode())
    if len(frame) > 65536:
        return (7, "limit frame 65536\n")
    bits = bits_of(frame)
    v, end = Reader(j, bits).read(j.word)
    if len(bits) - end > 7:
        raise Fault("Trailing", "")
    return (0, shown(v) + "\nbits %d\n" % end)


def pack(j, data):
    try:
        v = Json(data).read()
    except BadJson:
        raise Fault("NotJson", "")
    try:
        v = value_of(j, j.word, v, "")
    except WrongShape as w:
        raise Fault("WrongShape", w.path)
    bits = Packer(j).pack(j.word, v)
    return (0, octets_of(bits).hex() + "\nbits %d\n" % len(bits))
