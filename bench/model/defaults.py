"""The default of a type, and whether a value packs."""
import eds_model as m

MOST = 524288


class TooMuch(Exception):
    """More items were made than any value that packs has."""


def packs(judge, t, value):
    """Whether a value packs as a type."""
    try:
        m.Packer(judge).pack(t, value)
        return True
    except m.Fault:
        return False


def least_bits(judge, t, known=None):
    """A number of bits that no spelling of a type has fewer of, at most one more than a packed value may have."""
    known = {} if known is None else known
    if t.id not in known:
        known[t.id] = min(least_of_kind(judge, t, known), MOST + 1)
    return known[t.id]


def least_of_kind(judge, t, known):
    if m.is_open(t):
        return 0
    if t.kind == "String":
        length, fixed, _, _ = m.text_form(t)
        return 8 * length if fixed else 8
    if t.kind == "Array":
        return m.array_count(t) * least_bits(judge, t.item, known)
    if t.kind == "Container":
        sums = [sum(least_of_part(judge, p, known) for p in m.sequence(k)) for k in judge.at_or_under(t) if not k.hidden]
        return min(sums, default=MOST + 1)
    return judge.size(t)


def least_of_part(judge, p, known):
    if p.kind == "PaddingEntry":
        return judge.part_size(p)
    if p.kind == "ListEntry":
        field = m.named(m.sequence(p.owner), p.element.attrs["listLengthField"])
        return m.interval(field.type)[0] * least_bits(judge, p.type, known)
    return least_bits(judge, p.type, known)


class Maker:
    """Builds the default of a type, with a count of what it made."""

    def __init__(self, judge):
        self.j, self.made = judge, 0

    def value(self, t):
        """The default, or None where some part has none; whether it packs isn't judged here."""
        self.made += 1
        if self.made > 2 * MOST:
            raise TooMuch
        if t.kind in ("Integer", "SubRange"):
            low, high = m.interval(t)
            return ("num", 0 if low <= 0 <= high else low)
        if t.kind == "Enumerated":
            return ("label", m.listing(t)[0][0])
        if t.kind == "Boolean":
            return ("bool", False)
        if t.kind == "String":
            return ("text", "")
        if t.kind == "Binary":
            size, open_ = m.binary_form(t)
            return ("bits", 0, b"") if open_ else ("bits", size, bytes((size + 7) // 8))
        if t.kind == "Array":
            items = [self.value(t.item) for _ in range(m.array_count(t))]
            return None if None in items else ("items", items)
        return self.container(t)

    def container(self, k):
        if k.hidden:
            return None
        fields = [self.field(k, p) for p in m.sequence(k) if p.kind in ("Entry", "ListEntry")]
        return None if None in fields else ("fields", k, fields)

    def field(self, k, p):
        """The default of one entry: the least number that the constraints on it leave, where there are any."""
        if p.kind == "ListEntry":
            return ("items", [])
        constraints = [c for x in m.chain(k) for c in x.constraints if c.path == [p]]
        if not constraints:
            return self.value(p.type)
        n = m.least_common([c.set for c in constraints], self.j.path_domain([p]))
        if n is None:
            return None
        if p.type.kind == "Container":
            return self.container(self.j.types[n])
        if p.type.kind == "Enumerated":
            return ("label", next(label for label, v in m.listing(p.type) if v == n))
        return ("bool", bool(n)) if p.type.kind == "Boolean" else ("num", n)


def default_of(judge, t):
    """The default of a type, or None where it has none or that doesn't pack."""
    if least_bits(judge, t) > MOST:
        return None
    try:
        value = Maker(judge).value(t)
    except TooMuch:
        return None
    return value if value is not None and packs(judge, t, value) else None
