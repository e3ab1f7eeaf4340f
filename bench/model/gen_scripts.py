"""Random scripts. `script(rng, judge)` gives one for the components of an accepted sheet; about two of three are run."""
import json

import eds_model as m
import gen
from defaults import packs
from interfaces import Command, Parameter, carried

# lines that are refused, each for some reason, where END and MEMBER are an end and a member
BAD = ["", " ", "# a comment", "# a comment \udcff", "tick \udcff", "tock 5", "tick", "tick ", "tick 5 ", "tick -1", "tick 12345678901234567890",
       "tick 1000000000000000001", "tick 1000000000000000000\n" * 10 + "tick 1", "wire END", "wire END END", "wire A/C0:e0 A/C1:e0",
       "wire A/C0:nowhere A/C1:e0", "cmd A/C9:e0 MEMBER {}", "get A/C0:x p00", "cmd END nowhere {}", "get END MEMBER", "set END MEMBER 1",
       "set END MEMBER 1", "set END MEMBER nul", "set END MEMBER -99999", "val END MEMBER 1", "val END MEMBER {\"x\":1}", "val END MEMBER \"none\"",
       "cmd END MEMBER", "cmd END MEMBER {", "cmd END MEMBER []", "cmd END MEMBER {\"$type\":1}", "cmd END MEMBER {\"a0\":999999}", "frame END MEMBER 0",
       "frame END MEMBER 0g", "frame END MEMBER ", "frame END MEMBER 00 00", "frame END MEMBER " + "00" * 65537, "frame END MEMBER " + "5a" * 40]


class ScriptMaker:
    """A random script for the components of an accepted sheet."""

    def __init__(self, rng, judge):
        self.r, self.j, self.wired = rng, judge, set()
        self.ends = [(x.name + ":" + e.name, e) for x in judge.components for e in x.ends]
        lines = self.wires() if rng.random() < .6 else []
        makers = [self.tick] + ([self.arriving] * 4 if self.free() else [])
        lines += [rng.choice(makers)() for _ in range(rng.choice([0, 2, 4, 8, 16]))]
        if rng.random() < .35:
            lines.insert(rng.randrange(len(lines) + 1), self.bad())
        end = "\r\n" if rng.random() < .1 else "\n"
        self.octets = "".join(x + end for x in lines if x is not None).encode("utf-8", "surrogateescape")
        if rng.random() < .1:
            self.octets = self.octets[:-1]

    def free(self):
        return [x for x in self.ends if x[0] not in self.wired]

    def wires(self):
        """Wires between ends of one interface and map, now and then ones that fail."""
        out = []
        for lower, x in self.ends:
            for upper, y in self.ends:
                fit = x.required and not y.required and x.face is y.face and x.map == y.map
                if self.r.random() < (.005 if not fit else .05 if {lower, upper} & self.wired else .7):
                    out.append("wire %s %s" % (lower, upper))
                    self.wired |= {lower, upper}
        return out

    def tick(self):
        return "tick %d" % self.r.choice([0, 1, 4, 5, 100, 250, 1000, 3333, 10**18 if self.r.random() < .1 else 7])

    def json(self, t):
        """The JSON of a value, mostly of one that packs."""
        values = gen.Values(self.r, self.j)
        value = values.value(t)
        for _ in range(8):
            try:
                if packs(self.j, t, m.value_of(self.j, t, m.Json(json.dumps(value).encode()).read(), "")):
                    break
            except (m.BadJson, m.WrongShape):
                pass
            value = values.value(t)
        return gen.spoil(self.r, value) if self.r.random() < .01 else value

    def arriving(self):
        """A line that brings something to an end that isn't wired, or None where it has no members."""
        name, end = self.r.choice(self.free())
        if not end.members:
            return None
        x = self.r.choice(end.members)
        if isinstance(x, Parameter):
            word = "val" if end.required else "get" if x.read_only or self.r.random() < .5 else "set"
            return "%s %s %s" % (word, name, x.name) + (" " + self.text(self.json(x.type)) if word != "get" else "")
        arguments = carried(x, not end.required)
        if len(arguments) == 1 and self.r.random() < .6:
            return "frame %s %s %s" % (name, x.name, self.hex(arguments[0].type))
        return "cmd %s %s %s" % (name, x.name, self.text({a.name: self.json(a.type) for a in arguments}))

    def text(self, value):
        return json.dumps(value, ensure_ascii=self.r.random() < .5)

    def hex(self, t):
        return gen.frame_text(self.r, self.j, t).decode().replace(" ", "").replace("\n", "")

    def bad(self):
        """A line that mostly is refused, at an end and member that its word mostly fits."""
        line = self.r.choice(BAD)
        word = line.split(" ")[0]
        kind = Command if word in ("cmd", "frame") else Parameter
        named = [(name, x) for name, end in self.ends for x in end.members]
        fit = [(name, x) for name, end in self.ends for x in end.members if isinstance(x, kind) and (kind is Command or end.required == (word == "val"))]
        name, member = self.r.choice(fit if fit and self.r.random() < .8 else named or [("A/C0:e0", None)])
        return line.replace("END", name).replace("MEMBER", member.name if member else "c00")


def script(rng, judge):
    return ScriptMaker(rng, judge).octets
