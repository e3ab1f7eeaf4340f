"""Random sheets, frames and values. `case(rng, stage)` gives the files of a sheet; `frames` and `values` give inputs for a
type of an accepted sheet."""
import json
import random
import sys

import os
sys.path.insert(0, os.path.dirname(os.path.realpath(__file__)))
import eds_model as m

NAMES = ["a", "b", "c", "d", "e", "f", "g", "h", "x", "Mode", "_k", "n-1"]
GENERICS = ["G", "H", "Unit"]
MEMBERS = ["p", "q", "r", "s", "t", "u", "v", "w", "On", "Count"]
FACE_NAMES = ["I%d" % i for i in range(8)] + ["Sub"]
COMPONENT_NAMES = ["C1", "C2", "Dev"]
TYPE_NAMES = ["T%d" % i for i in range(40)] + ["U8", "Word", "Base"]
MOST_RECORDED = 200_000


class Gen:
    def __init__(self, rng, stage, size=10):
        self.r, self.stage, self.size = rng, stage, size
        self.types = []      # (reference, kind, info)
        self.faces = []      # the interfaces so far

    def p(self, x):
        return self.r.random() < x

    # ---- scalars

    def encoding(self):
        r = self.r
        bits = r.choice([1, 2, 3, 4, 4, 5, 7, 8, 8, 8, 11, 12, 16, 24, 32, 48, 63, 64])
        enc = r.choice(m.ENCODINGS + ["unsigned"] * 4 + ["twosComplement"])
        if enc == "packedBCD":
            bits = r.choice([4, 8, 12, 16, 64])
        if enc == "BCD":
            bits = r.choice([8, 16, 64])
        a = {"sizeInBits": str(bits), "encoding": enc}
        if self.p(.25):
            a["byteOrder"] = r.choice(["bigEndian", "littleEndian", "littleEndian"])
            if a["byteOrder"] == "littleEndian" and self.p(.98):
                a["sizeInBits"] = str(r.choice([8, 16, 24, 32, 64]))
        if self.p(.005):
            a["sizeInBits"] = str(r.choice([0, 65, 6, 12, -1, 100]))
        return ["IntegerDataEncoding", a]

    def range_for(self, low, high):
        r = self.r
        near = [low, low - 1, low + 1, high, high + 1, high - 1, 0, 1, -1, (low + high) // 2]
        a, b = sorted(max(-2**64, min(r.choice(near), 2**64)) for _ in "ab")
        if self.p(.7):
            a, b = max(low, min(a, high)), max(low, min(b, high))
        kind = r.choice(list(m.RANGE_ENDS))
        least, most = m.range_of(m.Element("MinMaxRange", {"rangeType": kind, "min": str(a), "max": str(b)}, (0, 0), None))
        if max(low, least) > min(high, most) and self.p(.97):
            a, b, kind = low, high, "inclusiveMinInclusiveMax"
        at = {"rangeType": kind}
        if "min" in m.RANGE_ENDS[kind].split() or self.p(.1):
            at["min"] = self.number(a)
        if "max" in m.RANGE_ENDS[kind].split() or self.p(.1):
            at["max"] = self.number(b)
        return ["Range", ["MinMaxRange", at]]

    def number(self, n):
        r = self.r
        if self.p(.1):
            return "%+d" % n
        if self.p(.08):
            return "%d.0" % n
        if self.p(.05):
            return n if -2**63 <= n < 2**64 else str(n)
        return str(n)

    def integer(self, name):
        e = ["IntegerDataType", {"name": name}]
        form = (64, "twosComplement", "bigEndian")
        if self.p(.95):
            x = self.encoding()
            e.append(x)
            form = (int(x[1]["sizeInBits"]), x[1]["encoding"], x[1].get("byteOrder", "bigEndian"))
        low, high = (0, 7)
        if m.form_is_good(form):
            low, high = m.form_numbers(form)
        whole = True
        if self.p(.3):
            x = self.range_for(low, high)
            e.append(x)
            whole = False
            fake = m.Element("MinMaxRange", {k: str(v) for k, v in x[1][1].items()}, (0, 0), None)
            lo, hi = m.range_of(fake)
            low, high = max(low, lo), min(high, hi)
        return e, ("Integer", (low, high, form, whole))

    def sub_range(self, name):
        base = self.pick("Integer", "SubRange")
        if base is None:
            return self.integer(name)
        low, high = base[2][0], base[2][1]
        x = self.range_for(low, max(low, high))
        fake = m.Element("MinMaxRange", {k: str(v) for k, v in x[1][1].items()}, (0, 0), None)
        lo, hi = m.range_of(fake)
        return ["SubRangeDataType", {"name": name, "baseType": self.ref(base)}, x], ("SubRange", (max(low, lo), min(high, hi), base[2][2], False, base))

    def enumerated(self, name):
        x = self.encoding()
        form = (int(x[1]["sizeInBits"]), x[1]["encoding"], x[1].get("byteOrder", "bigEndian"))
        low, high = m.form_numbers(form) if m.form_is_good(form) else (0, 3)
        labels = self.r.sample(["OFF", "ON", "IDLE", "SAFE", "é", "a b", "\"q\"", "Ω\n"], self.r.randint(1, 5))
        used, l = set(), []
        for lab in labels:
            v = self.r.choice([low, high, 0, 1, 2, 3, self.r.randint(low, high)])
            if (v in used or not low <= v <= high) and self.p(.97):
                continue
            used.add(v)
            l.append((lab, v))
        if not l and self.p(.95):
            l = [("OFF", low)]
        if self.p(.02) and l:
            l.append((l[0][0], high))
        return ["EnumeratedDataType", {"name": name}] + ([x] if self.p(.97) else []) + [["EnumerationList"] + [["Enumeration", {"label": a, "value": self.number(v)}] for a, v in l]], ("Enumerated", l)

    def boolean(self, name):
        e = ["BooleanDataType", {"name": name}]
        if self.p(.85):
            a = {"sizeInBits": str(self.r.choice([1, 1, 2, 3, 8, 64] + ([0, 65] if self.p(.05) else [])))}
            if self.p(.5):
                a["falseValue"] = self.r.choice(["zeroIsFalse", "nonZeroIsFalse"])
            e.append(["BooleanDataEncoding", a])
        return e, ("Boolean", None)

    # ---- texts, binaries, arrays

    def string(self, name):
        a = {"name": name, "length": str(self.r.choice([1, 2, 3, 4, 9]))}
        b = {}
        if self.p(.45):
            a["fixedLength"] = self.r.choice(["true", "false", "false", "0", "1"])
        if self.p(.5):
            b["encoding"] = self.r.choice(["ASCII", "UTF-8"])
        if self.p(.5) or (a.get("fixedLength") in ("false", "0") and self.p(.95)):
            b["terminationCharacter"] = str(self.r.choice([0, 13, 65, 127, 32] + ([128] if self.p(.03) else [])))
        return ["StringDataType", a] + ([["StringDataEncoding", b]] if b or self.p(.3) else []), ("String", None)

    def binary(self, name):
        a = {"name": name, "sizeInBits": str(self.r.choice([1, 4, 8, 12, 16, 24, 3]))}
        k = "Binary"
        if "open" in self.stage and self.p(.4):
            a["fixedSize"] = self.r.choice(["false", "0"])
            a["sizeInBits"] = str(self.r.choice([8, 16, 24, 64] + ([12] if self.p(.1) else [])))
            k = "Open"
        elif self.p(.2):
            a["fixedSize"] = self.r.choice(["true", "1"] + (["false"] if self.p(.1) else []))
        return ["BinaryDataType", a], (k, None)

    def array(self, name):
        item = self.pick(*([] if self.p(.01) else ["Integer", "SubRange", "Enumerated", "Boolean", "String", "Binary", "Array", "Container"]))
        dims = []
        for _ in range(self.r.choice([1, 1, 1, 2, 2, 3])):
            small = [t for t in self.types if t[1] in ("Boolean", "Enumerated") or t[1] in ("Integer", "SubRange") and t[2][1] - t[2][0] < 5]
            ix = self.pick("Boolean", "Enumerated", "Integer", "SubRange") if self.p(.01) else self.r.choice(small or [None])
            if ix is not None and self.p(.5):
                dims.append(["Dimension", {"indexTypeRef": self.ref(ix)}])
            else:
                dims.append(["Dimension", {"size": str(self.r.choice([1, 2, 2, 3]))}])
        return ["ArrayDataType", {"name": name, "dataTypeRef": self.ref(item)}, ["DimensionList"] + dims], ("Array", None)

    # ---- containers

    def fixed_text(self, t):
        k, info = t[1], t[2]
        r = self.r
        if k in ("Integer", "SubRange"):
            low, high = info[0], info[1]
            return str(self.number(r.choice([low, high, 0 if low <= 0 <= high else low, low - 1 if self.p(.05) else high])))
        if k == "Enumerated":
            return r.choice([l for l, _ in info] or ["OFF"]) if self.p(.97) else "no"
        if k == "Boolean":
            return r.choice(["true", "false", "1", "0"] + (["yes"] if self.p(.05) else []))
        if k == "String":
            return r.choice(["", "A", "b", "é", "AB"])
        return r.choice(["", "00", "f0", "Aa", "ff", "0F00", "zz"])

    def parts(self, own_names, trailer, state):
        out = []
        r = self.r
        kinds = ["Entry"] * 6
        for f, k in (("fixed", "FixedValueEntry"), ("padding", "PaddingEntry"), ("lists", "ListEntry"), ("length", "LengthEntry"), ("checks", "ErrorControlEntry")):
            if f in self.stage:
                kinds.append(k)
                if k == "ListEntry":
                    kinds.append(k)
        n = r.choice([1, 1, 2, 2, 3, 4, 5 if self.p(.8) else 0]) if not trailer else r.choice([1, 1, 2])
        for _ in range(n):
            kind = r.choice(kinds)
            if kind == "PaddingEntry":
                out.append(["PaddingEntry", {"sizeInBits": str(r.choice([1, 2, 3, 5, 8]))}])
                continue
            free = [x for x in NAMES if x not in own_names]
            name = r.choice(free) if free and self.p(.985) else r.choice(NAMES)
            if kind == "ErrorControlEntry":
                t = self.pick_check(r.random() < .96)
                if t is None:
                    continue
                if "padding" in self.stage and self.p(.5):
                    out.append(["PaddingEntry", {"sizeInBits": str(r.choice([1, 3, 4, 5, 7, 13]))}])
                out.append(["ErrorControlEntry", {"name": name, "type": self.ref(t[0]), "errorControlType": t[1]}])
            elif kind == "LengthEntry":
                if state.get("length") and self.p(.95):
                    continue
                t = self.pick("Integer", "SubRange")
                if t is None:
                    continue
                state["length"] = True
                e = ["LengthEntry", {"name": name, "type": self.ref(t)}]
                if self.p(.5):
                    terms = [["Term", {"coefficient": str(r.choice([0, 1, 2, 3, -1, 7])), "exponent": "0"}]]
                    if self.p(.95):
                        terms.append(["Term", {"coefficient": str(r.choice([1, 1, 1, 2, 4] + ([0, -1] if self.p(.1) else []))), "exponent": r.choice(["1", "+1", "1.0"])}])
                    e.append(["PolynomialCalibrator"] + terms)
                out.append(e)
            elif kind == "ListEntry":
                counters = [x for x, t in own_names.items() if t is not None and t[1] in ("Integer", "SubRange") and t[2][0] >= 0]
                if not counters and self.p(.95):
                    continue
                t = self.pick()
                out.append(["ListEntry", {"name": name, "type": self.ref(t), "listLengthField": r.choice(counters or NAMES)}])
            elif kind == "FixedValueEntry":
                t = self.pick("Integer", "SubRange", "Enumerated", "Boolean", "String", "Binary")
                if t is None:
                    continue
                a = {"type": self.ref(t), "fixedValue": self.fixed_text(t)}
                if self.p(.4):
                    a["name"] = name
                    own_names[name] = None
                out.append(["FixedValueEntry", a])
                continue
            else:
                t = self.pick()
                if t is None:
                    continue
                out.append(["Entry", {"name": name, "type": self.ref(t)}])
                own_names[name] = t
                continue
            own_names[name] = None
        if not trailer and "open" in self.stage and self.p(.1 if not state.get("length") else .7):
            t = self.pick("Open")
            if t is not None:
                out.append(["Entry", {"name": r.choice([x for x in NAMES if x not in own_names] or ["z"]), "type": self.ref(t)}])
        return out

    def constraint(self, base):
        r = self.r
        starts = [(n, t) for n, t in base["entries"].items() if t is not None]
        if not starts:
            return None
        name, t = r.choice(starts)
        path = name
        while t is not None and t[1] == "Container" and t[2]["all"] and self.p(.6):
            inner = [(n, x) for n, x in t[2]["all"].items() if x is not None]
            if not inner:
                break
            n, t = r.choice(inner)
            path += "." + n
        k, info = t[1], t[2]
        if k == "Container":
            under = [x for x in self.types if x[1] == "Container" and (x is t or x[2].get("root") is info.get("root"))]
            return ["TypeConstraint", {"entry": path, "type": self.ref(r.choice(under or [t]))}]
        if k in ("Integer", "SubRange"):
            low, high = info[0], info[1]
            if self.p(.4):
                return ["RangeConstraint", {"entry": path}, self.range_for(low, max(low, high))[1]]
            return ["ValueConstraint", {"entry": path, "value": self.number(r.choice([low, high, low, 1 if low <= 1 <= high else high, min(low + 1, high)]))}]
        if k == "Enumerated":
            return ["ValueConstraint", {"entry": path, "value": r.choice([l for l, _ in info] or ["OFF"])}]
        if k == "Boolean":
            return ["ValueConstraint", {"entry": path, "value": r.choice(["true", "false", "0", "1"])}]
        return ["ValueConstraint", {"entry": path, "value": "1"}] if self.p(.05) else None

    def container(self, name):
        r = self.r
        a = {"name": name}
        base = self.pick("Container") if "inherit" in self.stage and self.p(.5) else None
        names, state, constraints = {}, {}, []
        if base is not None:
            a["baseType"] = self.ref(base)
            names.update(base[2]["all"])
            state["length"] = base[2]["length"]
            for _ in range(r.choice([0, 1, 1, 1, 2])):
                c = self.constraint(base[2])
                if c is not None:
                    constraints.append(c)
        if "inherit" in self.stage and self.p(.25):
            a["abstract"] = r.choice(["true", "1", "false"])
        info = {"entries": dict(base[2]["entries"]) if base else {}, "all": {}, "length": False}
        before = dict(names)
        own = self.parts(names, False, state)
        info["entries"].update({k: v for k, v in names.items() if k not in before})
        e = ["ContainerDataType", a]
        lists = []
        if constraints or ("inherit" in self.stage and self.p(.05)):
            lists.append(["ConstraintSet"] + constraints)
        if own or self.p(.9):
            lists.append(["EntryList"] + own)
        if "inherit" in self.stage and self.p(.2):
            lists.append(["TrailerEntryList"] + self.parts(names, True, state))
        if self.p(.2):
            r.shuffle(lists)
        info["all"], info["length"] = names, state.get("length", False)
        info["root"] = base[2]["root"] if base else info
        return e + lists, ("Container", info)

    # ---- interfaces and components

    def map_set(self, face, own):
        """A map for the generic names of an interface: mostly whole and of types that fit."""
        out = []
        for name, base in face["generics"]:
            if self.p(.04):
                continue
            under = [t for t in self.types if t[1] == "SubRange" and t[2][-1] is base]
            fit = self.pick() if base is None else self.r.choice(under + [base]) if self.p(.85) else self.pick()
            to = self.r.choice(own) if own and self.p(.4) else self.ref(fit)
            out.append(["GenericTypeMap", {"name": name, "type": to}])
        if self.p(.04):
            out.append(["GenericTypeMap", {"name": self.r.choice(GENERICS), "type": self.ref(self.pick())}])
        return [["GenericTypeMapSet"] + out] if out or self.p(.1) else []

    def interface(self, name):
        r = self.r
        a = {"name": name}
        if self.p(.3):
            a["level"] = r.choice(["application", "functional", "access", "subnetwork"])
        if self.p(.2):
            a["abstract"] = r.choice(["true", "1", "false", "0"])
        generics = [(g, self.pick(*["Integer", "SubRange"] * self.p(.5)) if self.p(.4) else None) for g in r.sample(GENERICS, r.choice([0, 0, 1, 2]))]
        own = [g for g, _ in generics]
        bases, above = [], set()
        for _ in range(r.choice([0, 1, 1, 2, 3]) if self.faces else 0):
            base = r.choice(self.faces)
            if base["members"] & above and self.p(.6):
                continue
            above |= base["members"]
            bases.append(["Base", {"type": base["name"]}] + self.map_set(base, own))
        free = [m_ for m_ in MEMBERS if m_ not in above or self.p(.01)]
        r.shuffle(free)
        typed = lambda: r.choice(own) if own and self.p(.5) else self.ref(self.pick())
        parameters, commands = [], []
        for n in free[:r.choice([0, 1, 1, 2, 3])]:
            if self.p(.6):
                parameters.append(["Parameter", {"name": n, "type": typed()}])
                if self.p(.3):
                    parameters[-1][1]["readOnly"] = r.choice(["true", "false"])
            else:
                ways = ["in", "out", "inout", "notify"]
                commands.append(["Command", {"name": n}] + [["Argument", {"name": x, "type": typed(), "mode": r.choice(ways)}] for x in r.sample("abc", r.choice([0, 1, 2]))])
        sets = [["BaseInterfaceSet"] + bases, ["GenericTypeSet"] + [["GenericType", dict({"name": g}, **({"baseType": self.ref(b)} if b else {}))] for g, b in generics],
                ["ParameterSet"] + parameters, ["CommandSet"] + commands]
        sets = [x for x in sets if len(x) > 1 or self.p(.1)]
        r.shuffle(sets)
        self.faces.append({"name": name, "generics": generics, "members": above | {e[1]["name"] for e in parameters + commands}, "hidden": a.get("abstract") in ("true", "1")})
        return ["Interface", a] + sets

    def component(self, name):
        r = self.r
        inside = []
        if self.p(.2):
            inside.append(["DataTypeSet", self.integer(r.choice(TYPE_NAMES))[0]])
        if self.p(.2):
            inside.append(["DeclaredInterfaceSet", self.interface(r.choice(FACE_NAMES))])
            self.faces.pop()
        ends = {"ProvidedInterfaceSet": [], "RequiredInterfaceSet": []}
        for n in r.sample(MEMBERS, r.choice([0, 1, 2, 3])):
            face = r.choice([f for f in self.faces if not f["hidden"] or self.p(.05)] or self.faces)
            ends[r.choice(list(ends))].append(["Interface", {"name": n, "type": face["name"]}] + self.map_set(face, []))
        return ["Component", {"name": name}] + inside + [[k] + v for k, v in ends.items() if v or self.p(.1)] + ([["Implementation"]] if self.p(.1) else [])

    def others(self):
        """Sets of interfaces and components, that stand beside the types."""
        out = []
        if "interfaces" in self.stage and self.p(.6):
            out.append(["DeclaredInterfaceSet"] + [self.interface(n) for n in self.r.sample(FACE_NAMES, self.r.randint(1, 5))])
        if "ends" in self.stage and self.faces and self.p(.6):
            out.append(["ComponentSet"] + [self.component(n) for n in self.r.sample(COMPONENT_NAMES, self.r.randint(1, 3))])
        return out

    # ---- choice of types

    def pick(self, *kinds):
        ok = [t for t in self.types if not kinds or t[1] in kinds]
        if not kinds:
            ok = [t for t in ok if t[1] != "Open" or self.p(.03)]
            if "nested" not in self.stage and self.p(.97):
                ok = [t for t in ok if t[1] != "Container"]
        return self.r.choice(ok) if ok else None

    def pick_check(self, good):
        out = []
        for t in self.types:
            if t[1] == "Integer":
                bits, enc, _ = t[2][2]
                for k, w in m.CHECKS.items():
                    if not good or (bits == w and enc == "unsigned" and t[2][3]):
                        out.append((t, k))
        return self.r.choice(out) if out else None

    def ref(self, t):
        if t is None:
            return self.r.choice(TYPE_NAMES)
        if self.p(.005):
            return self.r.choice(TYPE_NAMES)
        return t[0]

    def sheet(self):
        r = self.r
        names = r.sample(TYPE_NAMES, self.size)
        makers = [self.integer, self.integer, self.integer, self.sub_range, self.enumerated, self.boolean]
        for f, mk in (("strings", self.string), ("binaries", self.binary), ("arrays", self.array)):
            if f in self.stage or self.p(.02):
                makers.append(mk)
        package = r.choice(["A", "A/B", "Sat/X"])
        out = []
        for bits in (8, 16):
            if "checks" in self.stage and self.p(.5):
                form = {"sizeInBits": str(bits), "encoding": "unsigned", "byteOrder": r.choice(["bigEndian", "bigEndian", "littleEndian"])}
                out.append(["IntegerDataType", {"name": "O%d" % bits}, ["IntegerDataEncoding", form]])
                self.types.append(("O%d" % bits, "Integer", (0, 2**bits - 1, (bits, "unsigned", form["byteOrder"]), True)))
        if "open" in self.stage and self.p(.4):
            out.append(["BinaryDataType", {"name": "Blob", "sizeInBits": str(r.choice([8, 32, 128])), "fixedSize": "false"}])
            self.types.append(("Blob", "Open", None))
        for i, name in enumerate(names):
            mk = self.integer if i == 0 else r.choice(makers) if i < self.size * .4 else r.choice(makers + [self.container] * len(makers))
            e, (kind, info) = mk(name)
            out.append(e)
            full = package + "/" + name
            self.types.append((r.choice([name, name, name, full]), kind, info))
        return package, names, out


def mutate(rng, tree):
    """Changes one thing of a tree of elements."""
    all_ = []

    def walk(e):
        all_.append(e)
        for c in e[1:]:
            if isinstance(c, list):
                walk(c)
    walk(tree)
    e = rng.choice(all_)
    attrs = e[1] if len(e) > 1 and isinstance(e[1], dict) else None
    kids = [i for i, c in enumerate(e) if isinstance(c, list)]
    what = rng.randrange(14)
    if what == 0 and attrs:
        del attrs[rng.choice(list(attrs))]
    elif what in (1, 2, 3) and attrs:
        k = rng.choice(list(attrs))
        attrs[k] = rng.choice(["", "0", "1", "-1", "x", "a.b", "a/b", "1.5", "true", "false", "2", "8", "300", "18446744073709551616", "18446744073709551617",
                               True, False, 3, -4, "1.00", "+5", "000000000000000000001", "0000000000000000000001", "é", "a b", "unsigned", "packedBCD", "atLeast", "T0", "U8", "a", "b"])
    elif what == 4 and kids:
        del e[rng.choice(kids)]
    elif what == 5 and kids:
        i = rng.choice(kids)
        e.insert(rng.choice(kids), json.loads(json.dumps(e[i])))
    elif what == 6:
        e[0] = rng.choice(list(m.TABLE) + ["Device", "Semantics", "FloatDataType", "Nothing", "Term"])
    elif what == 7:
        e[0] = rng.choice(["eds:", "a:b:"]) + e[0]
    elif what == 8:
        e.append(rng.choice([["Semantics", {"x": "1"}, ["Whatever"]], ["LongDescription", "text"], ["Device"]]))
    elif what == 9:
        e.append(rng.choice(["text", ["Nothing"], ["Term", {"exponent": "2", "coefficient": "1"}], ["PolynomialCalibrator"]] + ([5, None, True, {}, []] if rng.random() < .3 else [])))
    elif what == 10 and attrs is not None:
        attrs[rng.choice(["xmlns", "a:b", "shortDescription", "transaction", "failed", "fixedSize", "baseType", "abstract", "byteOrder"])] = rng.choice(["true", "1", "false", "T1", "x"])
    elif what == 11 and len(kids) > 1:
        i, j = rng.sample(kids, 2)
        e[i], e[j] = e[j], e[i]
    elif what == 12 and attrs and "name" in attrs:
        attrs["name"] = rng.choice(TYPE_NAMES + NAMES + ["1a", "", "é"])
    elif what == 13 and attrs:
        for k in ("type", "baseType", "dataTypeRef", "indexTypeRef"):
            if k in attrs:
                attrs[k] = rng.choice(TYPE_NAMES)


NUMBERS = [0, 1, -1, 2, 3, 12, 255, 256, 257, 4096, 65535, 65536, 65537, 2**32 - 1, 2**32, 2**32 + 1, -2**32, -2**32 - 1, 2**63, 2**64]
COEFFICIENTS = [0, 1, 1, 1, 2, 7, -1, 2**32, 2**32 + 1, -2**32, -2**32 - 1]
REFERENCES = ("type", "baseType", "dataTypeRef", "indexTypeRef")


def all_elements(tree):
    yield tree
    for c in tree:
        if isinstance(c, list):
            yield from all_elements(c)


def deep(rng, item):
    """A chain of types, each of which holds the one before it, about as deep as types may be nested."""
    out = []
    for i in range(rng.choice([29, 30, 31, 32, 33])):
        name = "D%d" % i
        if rng.random() < .5:
            out.append(["ArrayDataType", {"name": name, "dataTypeRef": item}, ["DimensionList", ["Dimension", {"size": "1"}]]])
        else:
            out.append(["ContainerDataType", {"name": name}, ["EntryList", ["Entry", {"name": "x", "type": item}]]])
        item = name
    rng.shuffle(out)
    return out


def defect(rng, types, others):
    """Changes one thing so that a rule on these elements may break; types and others are lists of elements."""
    found = [e for t in types + others for e in all_elements(t) if len(e) > 1 and isinstance(e[1], dict)]
    names = [t[1]["name"] for t in types]
    of = lambda *words: rng.choice([e for e in found if e[0] in words] or [None])
    parts = lambda: rng.choice([e for t in types for e in all_elements(t) if e[0] == "EntryList"] or [None])
    lists = lambda *words: [l for t in types for l in all_elements(t) if l[0] == "EntryList" and {e[0] for e in l[1:]} & set(words)]
    what = rng.randrange(25)
    if what == 0 and (e := of("Dimension")):
        e[1].clear()
        e[1]["indexTypeRef"] = rng.choice(names + FACE_NAMES[:2])
    elif what == 1 and (e := of("DimensionList")):
        e[1:] = [["Dimension", {"size": str(n)}] for n in rng.choice([[rng.choice(NUMBERS)], [256, 256], [65536], [65537], [3, 5, 17, 257, 1], [2**64, 2]])]
    elif what == 2:
        types.extend(deep(rng, rng.choice(names)))
    elif what == 3 and (e := of("Entry", "ListEntry", "ArrayDataType")):
        e[1]["dataTypeRef" if e[0] == "ArrayDataType" else "type"] = rng.choice(names[len(names) // 2:])
    elif what == 4 and (l := parts()):
        del l[1:]
    elif what == 5 and (l := parts()) and len(l) > 2:
        e, other = rng.sample(l[1:], 2)
        if "name" in e[1] and "name" in other[1]:
            e[1]["name"] = other[1]["name"]
    elif what == 6 and (e := of("ListEntry")):
        e[1]["listLengthField"] = rng.choice(NAMES)
    elif what in (7, 8) and (l := parts()) and len(l) > 2:
        e, other = rng.sample(range(1, len(l)), 2)
        l.insert(other, l.pop(e))
    elif what in (9, 16) and (e := of("LengthEntry")):
        terms = [(0, rng.choice(COEFFICIENTS)), (1, rng.choice(COEFFICIENTS)), (rng.choice([0, 1]), 1)][: rng.choice([1, 2, 2, 2, 3])]
        e[2:] = [["PolynomialCalibrator"] + [["Term", {"coefficient": str(c), "exponent": str(x)}] for x, c in rng.sample(terms, len(terms))]]
    elif what == 10 and (l := parts()):
        l.insert(rng.randrange(1, len(l) + 1), ["LengthEntry", {"name": rng.choice(NAMES), "type": rng.choice(names)}])
    elif what == 11 and (e := of("ErrorControlEntry")):
        e[1]["errorControlType"] = rng.choice(list(m.CHECKS))
    elif what == 12 and (e := of("BinaryDataType")):
        e[1]["fixedSize"] = rng.choice(["true", "false"])
    elif what == 13 and (e := of("Interface", "Base", "GenericTypeMap", "Parameter", "GenericType")):
        e[1]["baseType" if e[0] == "GenericType" else "type"] = rng.choice(names + FACE_NAMES + GENERICS)
    elif what == 14 and (e := of("GenericTypeMap", "GenericType", "Parameter", "Command", "Interface", "Component")):
        e[1]["name"] = rng.choice(GENERICS + MEMBERS + FACE_NAMES)
    elif what == 17 and (e := of("ErrorControlEntry")):
        name = "X%d" % rng.randrange(9)
        form = {"sizeInBits": rng.choice(["8", "16"]), "encoding": rng.choice(m.ENCODINGS + ["unsigned"] * 3)}
        types.append(["IntegerDataType", {"name": name}, ["IntegerDataEncoding", form]] + ([["Range", ["MinMaxRange", {"rangeType": "atLeast", "min": "0"}]]] if rng.random() < .3 else []))
        e[1]["type"] = name
    elif what == 18 and (l := rng.choice(lists("ListEntry") or [None])):
        e, f = rng.choice([e for e in l[1:] if e[0] == "ListEntry"]), rng.choice(l[1:])
        if f[0] == "Entry":
            e[1]["listLengthField"] = f[1]["name"]
            f[1]["type"] = rng.choice(names)
    elif what == 19 and (l := rng.choice(lists("LengthEntry") or [None])) and "Blob" in names:
        l.insert(rng.choice([len(l), len(l), len(l) - 1, 1]), ["Entry", {"name": "tail", "type": "Blob"}])
    elif what == 20:
        owners = [s for o in others for x in all_elements(o) if x[0] in ("Interface", "Component") for s in [[k for y in x[1:] if isinstance(y, list) for k in y[1:] if isinstance(k, list) and "name" in k[1]]] if len(s) > 1]
        if owners:
            one, other = rng.sample(rng.choice(owners), 2)
            one[1]["name"] = other[1]["name"]
    elif what == 21 and (e := of("ArrayDataType")):
        types.append(["ContainerDataType", {"name": "Hollow"}] + rng.choice([[], [["EntryList"]], [["EntryList", ["PaddingEntry", {"sizeInBits": "1"}]]]]))
        e[1]["dataTypeRef"] = "Hollow"
    elif what == 22 and (e := of("DimensionList")):
        form = {"sizeInBits": str(rng.choice([17, 16, 64, 65, 12])), "encoding": rng.choice(["unsigned", "BCD"])}
        types.append(["IntegerDataType", {"name": "Ix"}, ["IntegerDataEncoding", form]])
        if rng.random() < .5:
            types.append(["SubRangeDataType", {"name": "Iy", "baseType": "Ix"}, ["Range", ["MinMaxRange", {"rangeType": rng.choice(["atLeast", "greaterThan"]), "min": rng.choice(["0", "1", "65535", "65536"])}]]])
        e[1:] = [["Dimension", {"indexTypeRef": types[-1][1]["name"]}]]
    elif what == 23 and (e := of("GenericTypeMap")) and (base := of("GenericType")):
        under = [t for t in types if t[0] == "SubRangeDataType"]
        if under:
            sub = rng.choice(under)
            base[1]["baseType"], e[1]["type"] = sub[1]["baseType"], rng.choice([sub[1]["name"], sub[1]["baseType"], rng.choice(names)])
    elif (e := rng.choice([e for e in found if set(e[1]) & set(REFERENCES)] or [None])):
        e[1][next(k for k in REFERENCES if k in e[1])] = rng.choice(names)


def case(rng, stage):
    """Texts of one file or two."""
    g = Gen(rng, stage, rng.choice([4, 6, 8, 10, 14]))
    package, names, types = g.sheet()
    others = g.others()
    for _ in range(rng.choice([0, 0, 1, 1, 2])):
        defect(rng, types, others)
    if rng.random() < .2:
        k = rng.randrange(len(types) + 1)
        trees = [["PackageFile", ["Package", {"name": package}, ["DataTypeSet"] + types[:k]]], ["DataSheet", ["Package", {"name": rng.choice([package] * 6 + ["A/B", "A"])}, ["DataTypeSet"] + types[k:]]]]
    elif rng.random() < .1:
        trees = [["PackageFile", ["Package", {"name": package}, ["DataTypeSet"] + types[:2], ["DataTypeSet"] + types[2:]]]]
    else:
        trees = [["PackageFile", ["Package", {"name": package}, ["DataTypeSet"] + types]]]
    for o in others:
        rng.choice(trees)[1].insert(rng.choice([2, 3]), o)
    if rng.random() < .2:
        for _ in range(rng.choice([1, 1, 2])):
            mutate(rng, rng.choice(trees))
    texts = [json.dumps(t, ensure_ascii=rng.random() < .5).encode() for t in trees]
    if rng.random() < .01:
        texts[0] = texts[0][:rng.randrange(len(texts[0]))]
    return texts


# ---------------------------------------------------------------- values and frames of an accepted sheet

class Values:
    """Random JSON values of types, mostly ones that pack."""

    def __init__(self, rng, judge):
        self.r, self.j = rng, judge
        self.left = 3000       # about how many values are still made: arrays of arrays grow fast
        self.strays = 1        # how many containers may still stand where they don't belong

    def value(self, t):
        r = self.r
        self.left -= 1
        if t.kind in ("Integer", "SubRange"):
            low, high = m.interval(t)
            n = r.choice([low, high, max(low, min(high, 0)), r.randint(low, high), max(low, min(high, r.randint(-3, 9)))])
            return n + r.choice([-1, 1]) if r.random() < .02 else n
        if t.kind == "Enumerated":
            return r.choice([l for l, _ in m.listing(t)]) if r.random() < .98 else "none"
        if t.kind == "Boolean":
            return r.random() < .5
        if t.kind == "String":
            length, fixed, ascii, stop = m.text_form(t)
            return "".join(r.choice("abAZ \"" + ("" if ascii and r.random() < .95 else "éΩ€")) for _ in range(r.randint(0, length)))
        if t.kind == "Binary":
            n, open_ = m.binary_form(t)
            if open_:
                n = 8 * r.randint(0, n // 8)
            octets = bytearray(r.randrange(256) for _ in range((n + 7) // 8))
            if n % 8:
                octets[-1] &= 0xFF << (8 - n % 8) & 0xFF
            s = bytes(octets).hex()
            return s.upper() if r.random() < .2 else s
        if t.kind == "Array":
            n = m.array_count(t)
            return [self.value(t.item) for _ in range(n if r.random() < .98 else n + 1)] if n < 300 and self.left > n else []
        return self.fields(t)

    def fields(self, t):
        r = self.r
        concrete = [k for k in self.j.at_or_under(t) if not k.hidden]
        if concrete and (self.strays == 0 or r.random() < .98):
            k = r.choice(concrete)
        elif self.strays == 0:
            return {"$type": t.name}  # no container has a value of this type
        else:
            self.strays = 0
            k = r.choice([x for x in self.j.types if x.kind == "Container"])
        parts = [p for p in m.sequence(k) if p.kind in ("Entry", "ListEntry")]
        out = {}
        if r.random() < .9 or k is not t:
            out["$type"] = k.name
        for p in parts:
            if p.kind == "Entry":
                out[p.name] = self.value(p.type)
        for c in [c for x in m.chain(k) for c in x.constraints]:
            if r.random() < .95:
                self.meet(out, c, k)
        for p in parts:
            if p.kind == "ListEntry":
                f = m.named(m.sequence(p.owner), p.element.attrs["listLengthField"])
                low, high = m.interval(f.type)
                n = r.randint(low, min(high, low + 3)) if low < 50 else low
                pinned = any(c.path == [f] for x in m.chain(k) for c in x.constraints)
                if pinned and isinstance(out.get(f.name), int) and out[f.name] < 20:
                    n = out[f.name]
                if isinstance(out.get(f.name), int):
                    same = [q for q in parts if q.kind == "ListEntry" and q is not p and q.element.attrs["listLengthField"] == f.name and q.name in out]
                    n = out[f.name] if same else n
                    out[f.name] = n
                out[p.name] = [self.value(p.type) for _ in range(n if r.random() < .97 else n + 1)] if n < 100 and self.left > n else []
        return out

    def meet(self, out, c, k):
        """Changes the value so that a constraint holds, where that is simple."""
        r = self.r
        at = out
        for p in c.path[:-1]:
            at = at.get(p.name) if isinstance(at, dict) else None
        if not isinstance(at, dict):
            return
        p = c.path[-1]
        t = p.type
        sets = [x.set for y in m.chain(k) for x in y.constraints if x.text == c.text]
        n = m.least_common(sets, self.j.path_domain(c.path))
        if n is None:
            return
        if t.kind == "Container":
            at[p.name] = Values(r, self.j).of_container(self.j.types[n])
        elif t.kind == "Enumerated":
            at[p.name] = next(l for l, v in m.listing(t) if v == n)
        elif t.kind == "Boolean":
            at[p.name] = bool(n)
        else:
            at[p.name] = n

    def of_container(self, k):
        for _ in range(5):
            v = self.fields(k)
            if v.get("$type") == k.name:
                return v
        return v


def spoil(rng, v):
    """Changes one thing of a JSON value."""
    spots = []

    def walk(x, put):
        spots.append((x, put))
        if isinstance(x, dict):
            for k in x:
                walk(x[k], lambda y, x=x, k=k: x.__setitem__(k, y))
        elif isinstance(x, list):
            for i in range(len(x)):
                walk(x[i], lambda y, x=x, i=i: x.__setitem__(i, y))
    box = [v]
    walk(v, lambda y: box.__setitem__(0, y))
    x, put = rng.choice(spots)
    if isinstance(x, dict) and rng.random() < .5:
        k = rng.randrange(3)
        if k == 0 and x:
            del x[rng.choice(list(x))]
        elif k == 1:
            x[rng.choice(NAMES)] = 1
        else:
            x["$type"] = rng.choice(["A/T1", "A/B/T2", "x", 5, None])
    else:
        put(rng.choice([0, 1, -1, 1.5, 1e3, True, False, None, "", "a", "ff", "0", [], {}, 2**63, 2**64, 2**64 - 1, -2**63, "é" * 3]))
    return box[0]


def value_text(rng, judge, t):
    v = Values(rng, judge).value(t)
    if rng.random() < .15:
        v = spoil(rng, v)
    text = json.dumps(v, ensure_ascii=rng.random() < .5)
    if rng.random() < .02:
        text = rng.choice([text[:-1], text + " ", " " + text, text + "1", text.replace("1", "1.0", 1), text.replace("0", "-0", 1)])
    return text.encode()


def packets(rng, judge, t):
    """Octets: packets one after another, mostly of values, of which some may be changed or cut."""
    frames = [frame_text(rng, judge, t) for _ in range(rng.choice([0, 1, 2, 3, 5]))]
    digits = ["".join(o for o in frame.decode("latin-1") if o in "0123456789abcdefABCDEF") for frame in frames]
    return b"".join(bytes.fromhex(it[: len(it) // 2 * 2]) for it in digits)


def recording(rng, judge, t, count):
    """Octets: many packets one after another, some of them made and the others among them again, and perhaps a changed one."""
    made = []
    for _ in range(40):
        try:
            v = m.value_of(judge, t, m.Json(json.dumps(Values(rng, judge).value(t)).encode()).read(), "")
            bits = m.Packer(judge).pack(t, v)
        except (m.BadJson, m.Fault, m.WrongShape):
            continue
        if bits:
            made.append(m.octets_of(bits + [rng.randrange(2) for _ in range(-len(bits) % 8)]))
    if not made:
        return b""
    frames = [rng.choice(made) for _ in range(count)]
    if rng.random() < .7:
        at, changed = rng.randrange(count // 2, count), bytearray(rng.choice(made))
        changed[rng.randrange(len(changed))] ^= 1 << rng.randrange(8)
        frames[at] = bytes(changed)
    return b"".join(frames)[:MOST_RECORDED]


def frame_text(rng, judge, t):
    """Hex: a packed value that is perhaps changed, or any octets."""
    bits = None
    for _ in range(4):
        try:
            v = m.value_of(judge, t, m.Json(json.dumps(Values(rng, judge).value(t)).encode()).read(), "")
            bits = m.Packer(judge).pack(t, v)
            break
        except (m.BadJson, m.Fault, m.WrongShape):
            pass
    if bits is None or rng.random() < .15:
        bits = m.bits_of(bytes(rng.randrange(256) for _ in range(rng.choice([0, 1, 2, 3, 5, 8, 12]))))
    k = rng.random()
    if k < .25 and bits:
        i = rng.randrange(len(bits))
        bits[i] ^= 1
    elif k < .28 and bits:
        i, n = rng.randrange(len(bits)), rng.choice([4, 8, 16])
        bits[i:i + n] = [rng.choice([0, 0, 1])] * len(bits[i:i + n])
    elif k < .36:
        bits = bits[:rng.randrange(len(bits) + 1)]
    elif k < .42:
        bits = bits + [rng.randrange(2) for _ in range(rng.choice([1, 3, 7, 8, 9, 16]))]
    pad = -len(bits) % 8
    bits = bits + [rng.randrange(2) if rng.random() < .3 else 0 for _ in range(pad)]
    s = m.octets_of(bits).hex()
    if rng.random() < .1:
        s = s.upper()
    if rng.random() < .05:
        s = " ".join(s[i:i + 2] for i in range(0, len(s), 2)) + "\n"
    if rng.random() < .01:
        s += rng.choice(["0", "g", " 0"])
    return s.encode()
