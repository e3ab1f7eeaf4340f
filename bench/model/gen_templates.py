"""Random sheets whose containers have all their parts at fixed places: what `split` reads with no tree of values.

A sheet has a container of scalars alone, and a family: a base with a number by which those under it are told apart, most often
a length and an error control, and up to eight containers in up to three levels, with numbers of all encodings, labels, truth
values and texts of fixed size. Some have a list or a part that no template knows.
"""

import json

ENCODINGS = ["unsigned", "unsigned", "twosComplement", "onesComplement", "signMagnitude", "packedBCD", "BCD"]
CHECKS = ["CHECKSUM_LONGITUDINAL", "CRC16_CCITT", "CRC8", "CHECKSUM"]
SIZES = {"packedBCD": [4, 8, 12, 16, 20, 32, 60, 64], "BCD": [8, 16, 24, 32, 64]}


class Sheet:
    def __init__(self, dice):
        self.dice, self.types, self.made = dice, [], 0

    def add(self, *element):
        self.types.append(list(element))
        return element[1]["name"]

    def name(self, stem):
        self.made += 1
        return f"{stem}{self.made}"

    def number(self, bits=None, plain=False):
        """The name of a new integer type, and the least and the greatest number that it is sure to have."""
        encoding = "unsigned" if plain else self.dice.choice(ENCODINGS)
        bits = bits or self.dice.choice(SIZES.get(encoding) or [1, 2, 3, 5, 7, 8, 8, 11, 12, 16, 16, 24, 31, 32, 33, 48, 62, 63, 64])
        bits = max(bits, 2) if encoding in ("twosComplement", "onesComplement", "signMagnitude") else bits
        form = {"sizeInBits": str(bits), "encoding": encoding}
        if bits % 8 == 0 and self.dice.random() < .3:
            form["byteOrder"] = "littleEndian"
        element = ["IntegerDataType", {"name": self.name("N")}, ["IntegerDataEncoding", form]]
        if not plain and self.dice.random() < .3:
            most = min(10 ** (bits // {"packedBCD": 4, "BCD": 8}[encoding]) - 1 if encoding in SIZES else (1 << (bits - 1)) - 1, 10**18)
            high = self.dice.randrange(most + 1)
            element.append(["Range", ["MinMaxRange", {"rangeType": "inclusiveMinInclusiveMax", "min": str(min(high, self.dice.choice([0, 0, 1]))), "max": str(high)}]])
        return self.add(*element)

    def labels(self):
        bits = self.dice.choice([1, 2, 3, 4, 8, 8, 16])
        numbers = self.dice.sample(range(1 << bits), min(1 << bits, self.dice.randrange(1, 7)))
        numbers = sorted(numbers) if self.dice.random() < .6 else numbers
        words = ["OFF", "ON", "A", "NOMINAL", 'q"t', "e\u00e9", "SAFE MODE", "b\\s"]
        listing = [["Enumeration", {"label": words[at], "value": str(number)}] for at, number in enumerate(numbers)]
        return self.add("EnumeratedDataType", {"name": self.name("L")}, ["IntegerDataEncoding", {"sizeInBits": str(bits), "encoding": "unsigned"}], ["EnumerationList", *listing])

    def truth(self):
        form = {"sizeInBits": str(self.dice.choice([1, 1, 1, 2, 7, 8]))}
        if self.dice.random() < .4:
            form["falseValue"] = self.dice.choice(["zeroIsFalse", "nonZeroIsFalse"])
        return self.add("BooleanDataType", {"name": self.name("B")}, ["BooleanDataEncoding", form])

    def text(self, fixed=True):
        form = {"encoding": self.dice.choice(["ASCII", "UTF-8"])}
        if self.dice.random() < .5:
            form["terminationCharacter"] = str(self.dice.choice([0, 13, 32, 65, 127]))
        known = {"name": self.name("T"), "length": str(self.dice.choice([1, 2, 4, 8, 8, 12, 16, 17, 40]))}
        if not fixed:
            known["fixedLength"] = "false"
        return self.add("StringDataType", known, ["StringDataEncoding", form])

    def entry(self, of):
        return ["Entry", {"name": self.name("e"), "type": of}]

    def entries(self, count):
        """Entries of which each part before a text ends with an octet, most often."""
        made = []
        for _ in range(count):
            kind = self.dice.random()
            if kind < .5:
                made.append(self.entry(self.number()))
            elif kind < .65:
                made.append(self.entry(self.labels()))
            elif kind < .75:
                made.append(self.entry(self.truth()))
            elif kind < .9:
                if self.dice.random() < .7:
                    made.append(self.entry(self.number(8 * self.dice.randrange(1, 5), plain=True)))
                made.append(self.entry(self.text()))
            elif kind < .93:
                made.append(["PaddingEntry", {"sizeInBits": str(self.dice.randrange(1, 9))}])
            elif kind < .95:
                made.append(self.entry(self.text(fixed=False)))
            elif kind < .97:
                count = self.name("c")
                made += [["Entry", {"name": count, "type": self.number(4, plain=True)}], ["ListEntry", {"name": self.name("l"), "type": self.number(8, plain=True), "listLengthField": count}]]
        return made

    def container(self, base, constraints, entries, trailers=(), abstract=False):
        known = {"name": self.name("K"), **({"baseType": base} if base else {}), **({"abstract": "true"} if abstract else {})}
        parts = [["ConstraintSet", *constraints]] if constraints else []
        parts += [["EntryList", *entries]] if entries else []
        parts += [["TrailerEntryList", *trailers]] if trailers else []
        return self.add("ContainerDataType", known, *parts)

    def family(self):
        key = self.dice.choice([4, 5, 8, 8, 11, 16])
        head = [self.entry(self.number(self.dice.choice([3, 8, 16]), plain=True)) for _ in range(self.dice.randrange(3))]
        head.append(["Entry", {"name": "key", "type": self.number(key, plain=True)}])
        if self.dice.random() < .6:
            terms = [["Term", {"coefficient": str(self.dice.choice([0, 1, 7, -3])), "exponent": "0"}], ["Term", {"coefficient": str(self.dice.choice([1, 1, 1, 2])), "exponent": "1"}]]
            head.append(["LengthEntry", {"name": "length", "type": self.number(16, plain=True)}, ["PolynomialCalibrator", *terms]])
        trailers = []
        if self.dice.random() < .6:
            check = self.dice.choice(CHECKS)
            size = {"CRC16_CCITT": 16, "CRC8": 8, "CHECKSUM_LONGITUDINAL": 8, "CHECKSUM": 32}[check]
            trailers.append(["ErrorControlEntry", {"name": "check", "type": self.number(size, plain=True), "errorControlType": check}])
        base = self.container(None, [], head, trailers, abstract=self.dice.random() < .8)
        numbers = self.dice.sample(range(1 << key), min(1 << key, 24))
        above = [base]
        for _ in range(self.dice.randrange(1, 9)):
            under = self.dice.choice(above[-3:]) if self.dice.random() < .3 else base
            constraint = ["ValueConstraint", {"entry": "key", "value": str(numbers.pop())}] if under == base or self.dice.random() < .5 else None
            made = self.container(under, [constraint] if constraint else [], self.entries(self.dice.randrange(6)), abstract=self.dice.random() < .15)
            if self.dice.random() < .3:
                above.append(made)


def sheet(dice):
    """The octets of a sheet."""
    made = Sheet(dice)
    if dice.random() < .4:
        made.container(None, [], [made.entry(dice.choice([made.number, made.number, made.labels, made.truth])()) for _ in range(dice.randrange(1, 21))])
    if dice.random() < .8:
        made.family()
    return json.dumps(["PackageFile", ["Package", {"name": "P"}, ["DataTypeSet", *made.types]]]).encode()
