"""Layouts: at which bit each part of a container begins and how many bits it has, where the types alone say so, and which
numbers the constraints leave. Written from the rules of the profile, without a look at the program.
"""
import eds_model as m

MOST_BITS = 524288
KINDS = {"Entry": "entry", "FixedValueEntry": "fixed", "PaddingEntry": "padding", "ListEntry": "list", "LengthEntry": "length",
         "ErrorControlEntry": "check"}


def fitting(bits):
    """A number of bits, or None where there is none or it is more than a packed value may have."""
    return None if bits is None or bits > MOST_BITS else bits


def product(count, bits):
    return None if count is None or bits is None else fitting(count * bits)


def total(sizes):
    """The sum of some sizes, or None where one is missing."""
    return None if None in sizes else fitting(sum(sizes))


class Sizes:
    """The fixed sizes of the types and parts of an accepted sheet, in bits."""

    def __init__(self, judge):
        self.judge, self.known = judge, {}

    def of_type(self, t):
        if t.id not in self.known:
            self.known[t.id] = self.worked_out(t)
        return self.known[t.id]

    def worked_out(self, t):
        if t.kind == "Array":
            return product(m.array_count(t), self.of_type(t.item))
        if t.kind != "Container":
            return fitting(self.judge.size(t))
        sums = {self.of_container(k) for k in concrete(self.judge, t)}
        return sums.pop() if len(sums) == 1 else None

    def of_container(self, k):
        """The sum over the parts of one container, whatever derives from it."""
        return total([self.of_part(p) for p in m.sequence(k)])

    def of_part(self, p):
        if p.kind == "PaddingEntry":
            return m.whole(p.element.attrs["sizeInBits"])
        if p.kind == "ListEntry":
            return product(only_count(p), self.of_type(p.type))
        return self.of_type(p.type)


def only_count(p):
    """How many items a list has, where the domain of its field has one number."""
    low, high = m.interval(m.named(m.sequence(p.owner), p.element.attrs["listLengthField"]).type)
    return low if low == high else None


def concrete(judge, t):
    """The concrete containers at or under a type, by number."""
    return sorted((k for k in judge.at_or_under(t) if not k.hidden), key=lambda k: k.id)


def rows(sizes, k):
    """(offset, size, part) of each part of a container."""
    parts = m.sequence(k)
    own = [sizes.of_part(p) for p in parts]
    return [(total(own[:at]), own[at], p) for at, p in enumerate(parts)]


def intervals(numbers):
    """Numbers as closed intervals that are as long as can be, rising."""
    out = []
    for n in sorted(numbers):
        if out and out[-1][1] == n - 1:
            out[-1] = (out[-1][0], n)
        else:
            out.append((n, n))
    return out


def common(sets, domain):
    """The numbers of a domain (an interval or a set) that are in all sets, as closed intervals."""
    spans = [s for s in sets + [domain] if isinstance(s, tuple)]
    low, high = max((s[0] for s in spans), default=-m.INF), min((s[1] for s in spans), default=m.INF)
    listed = [s for s in sets + [domain] if not isinstance(s, tuple)]
    if not listed:
        return [(low, high)] if low <= high else []
    return intervals(n for n in set.intersection(*map(set, listed)) if low <= n <= high)


def sets(judge, k):
    """Path and intervals of each constrained path of a container's chain, in byte order of the path."""
    found = {}
    for c in [c for x in m.chain(k) for c in x.constraints]:
        found.setdefault("$." + c.text, (judge.path_domain(c.path), []))[1].append(c.set)
    return [(path, common(asked, domain)) for path, (domain, asked) in sorted(found.items(), key=lambda it: it[0].encode())]


def told(bits):
    return "varies" if bits is None else str(bits)


def container_text(judge, sizes, k):
    lines = ["container %s bits %s" % (k.name, told(sizes.of_container(k)))]
    lines += ["%s %s $%s %s" % (told(offset), told(size), m.step(p), KINDS[p.kind]) for offset, size, p in rows(sizes, k)]
    lines += ["where %s %s" % (path, ",".join("%d..%d" % it for it in spans)) for path, spans in sets(judge, k)]
    return "".join(line + "\n" for line in lines)


def text(judge, t):
    """What `layout` prints of a type of an accepted sheet."""
    sizes = Sizes(judge)
    if t.kind != "Container":
        return "type %s bits %s\n" % (t.name, told(sizes.of_type(t)))
    return "".join(container_text(judge, sizes, k) for k in concrete(judge, t))
