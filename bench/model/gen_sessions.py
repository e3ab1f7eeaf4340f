"""Random sessions. `sheet(seed, rng)` gives a sheet, and `session(rng, judge)` a session for the components of an accepted one: a
random script, and recordings of what the model sends at its lines, of which most are as they should be or spelled otherwise, and
some are wrong."""
import re

import eds_model as m
import gen_components
import gen_scripts
import run_model
from defaults import default_of
from runs import Host, Storm
from scripts import BadLine, Script, event_text, is_wire, lines_of
from sessions import frame_of

SENT = 5        # how many types the frames of a sheet have at most
SCRIPTS = 4     # how many scripts are made at most for one in which something is sent


class Spelling(m.Packer):
    """Any spelling of a value, where the packer has the canonical one."""

    def __init__(self, judge, rng):
        super().__init__(judge)
        self.r = rng

    def value(self, t, v, path):
        bits = super().value(t, v, path)
        if t.kind in ("Integer", "SubRange", "Enumerated") and not any(bits):
            return self.zero(m.int_form(t))
        if t.kind == "Boolean" and any(bits):
            return self.pattern(len(bits))
        if t.kind == "String" and m.text_form(t)[1]:
            return self.filled(bits, 8 * len(v[1].encode()) + 8)
        return bits

    def part(self, p, k, fields, path):
        bits = super().part(p, k, fields, path)
        return [self.r.randrange(2) for _ in bits] if p.kind == "PaddingEntry" else bits

    def zero(self, form):
        """A pattern of zero, which is minus zero in some forms."""
        size, encoding, order = form
        bits = [0] * size
        if self.r.random() < .5 and encoding == "signMagnitude":
            bits[size - 8 if order == "littleEndian" else 0] = 1
        if self.r.random() < .5 and encoding == "onesComplement":
            bits = [1] * size
        return bits

    def pattern(self, size):
        """A pattern that isn't zero."""
        bits = [self.r.randrange(2) for _ in range(size)]
        return bits if any(bits) else [1] * size

    def filled(self, bits, end):
        """The bits of a fixed text with any octets behind its first termination octet."""
        return bits[:end] + [self.r.randrange(2) for _ in bits[end:]]


class SessionMaker:
    """A random script for the components of an accepted sheet, with recordings between its lines."""

    def __init__(self, rng, judge):
        self.r, self.j = rng, judge
        self.is_wrong = rng.random() < .5     # whether some recordings may be wrong
        for _ in range(SCRIPTS):
            script = gen_scripts.script(rng, judge)
            recorded = self.recorded(script)
            if any(recorded.values()):
                break
        self.feed = b"\r\n" if script.endswith(b"\r\n") else b"\n"
        pieces = script.split(b"\n")
        mine = [self.recordings(recorded.get(number, [])) for number in range(len(pieces) + 1)]
        out = self.lines_at(pieces, mine)
        self.octets = b"\n".join(out)
        if rng.random() < .1:
            self.octets = self.octets[:-1]

    def lines_at(self, pieces, mine):
        """The lines of the script, each followed by the recordings that belong to it; those of the start stand anywhere before the
        first line that isn't about a wire."""
        owners = {number for number, octets in lines_of(b"\n".join(pieces)) if not is_wire(octets)}
        first = min(owners, default=len(pieces) + 1)
        start = self.r.randrange(first)
        out = mine[0] if start == 0 else []
        for number, piece in enumerate(pieces, 1):
            last = number == len(pieces)
            out = out + ([] if last and not piece else [piece if not last else piece + self.feed[:-1]])
            out += mine[0] if number == start else mine[number] if number in owners else []
        return out + [b""]

    def recorded(self, script):
        """The events of each line, by its number, as far as the script runs."""
        found = {}
        try:
            parsed = Script(self.j, script)
            host = Host(self.j, parsed.joined())
            for number, line in parsed.lines:
                before = len(host.outs)
                host.handle(line)
                found[number] = host.outs[before:]
        except (BadLine, Storm):
            pass
        return found

    def recordings(self, events):
        """The lines that record some events, perhaps wrongly, with skipped lines between them."""
        out = [self.recording(time, event) for time, event in events]
        if self.is_wrong and out and self.r.random() < .2:
            self.misplace(out)
        if self.is_wrong and self.r.random() < .03:
            out.insert(self.r.randrange(len(out) + 1), self.r.choice([b"> ", b"> 0 halt", b">", b"> nothing", b"> \xff\xc3\xa9\xe2\x82"]))
        if self.r.random() < .1:
            out.insert(self.r.randrange(len(out) + 1), self.r.choice([b"", b"# a comment", b"# > \xff", b"#> 0"]))
        return [x + self.feed[:-1] for x in out]

    def misplace(self, out):
        """Takes a recording away, puts it twice, or lets two change places."""
        at, other, how = self.r.randrange(len(out)), self.r.randrange(len(out)), self.r.randrange(3)
        if how == 0:
            del out[at]
        elif how == 1:
            out.insert(other, out[at])
        else:
            out[at], out[other] = out[other], out[at]

    def recording(self, time, event):
        own = event_text(self.j, time, event)[:-1]
        frame = frame_of(self.j, event)
        text = self.respelled(own, *frame) if frame is not None and self.r.random() < .6 else own
        if self.is_wrong and self.r.random() < .15:
            text = self.changed(text)
        octets = text.encode()
        if self.is_wrong and self.r.random() < .02:
            at = self.r.randrange(len(octets) + 1)
            octets = octets[:at] + self.r.choice([b"\xff", b"\xe2\x82", b"\xed\xa0\x80", b"\xef\xbf\xbd"]) + octets[at:]
        return b"> " + octets

    def respelled(self, own, t, value):
        """The line of a frame with any spelling of its value, any bits behind it and letters of either case."""
        bits = Spelling(self.j, self.r).pack(t, value)
        if self.r.random() < .5:
            bits = bits + [self.r.randrange(2) for _ in range(-len(bits) % 8)]
        digits = m.octets_of(bits).hex()
        return " ".join(own.split(" ")[:4] + [self.r.choice([digits, digits.upper(), digits.title()])])

    def changed(self, text):
        """A text with something changed."""
        words = text.split(" ")
        how = self.r.randrange(6)
        if how == 0 and words[1:2] == ["frame"]:
            words[-1] += self.r.choice(["00", "0", "g", " ", " 00", "\r"])
        elif how == 1 and words[1:2] == ["frame"] and words[-1]:
            bits = m.bits_of(bytes.fromhex(words[-1]))
            bits[self.r.randrange(len(bits))] ^= 1
            words[-1] = m.octets_of(bits).hex()
        elif how == 2:
            words[0] = self.r.choice(["0" + words[0], "+" + words[0], str(int(words[0]) + 1), ""])
        elif how == 3:
            at = self.r.randrange(len(words))
            words[at] = self.r.choice(["", "x", words[at] + "x", "cmd", "frame", words[at].upper(), words[at][:-1]])
        elif how == 4:
            return re.sub(r"[,:{]", lambda x: x[0] + " ", text, count=1)
        else:
            words.insert(self.r.randrange(len(words) + 1), self.r.choice(["", "0"]))
        return " ".join(words)


def sheet(seed, rng):
    """The octets of a random sheet with components. Where it is accepted, one more component sends values of some of its types as
    frames, at the start and every 100 nanoseconds."""
    tree = gen_components.case(seed)
    octets = gen_components.octets(tree)
    try:
        judge = run_model.judged([octets])
    except m.Refused:
        return octets
    sent = [t for t in judge.types if t.kind != "Binary" or not m.is_open(t)]
    sent = [(t, gen_components.text_for(rng, t)) for t in rng.sample(sent, min(len(sent), SENT))]
    add_sender(tree, [(t.name, text) for t, text in sent if text is not None or default_of(judge, t) is not None])
    return gen_components.octets(tree)


def add_sender(tree, sent):
    """Adds a component that sends values of types: each with its text, or the type's default."""
    commands = [["Command", {"name": f"k{at}"}, ["Argument", {"name": "a", "type": name}]] for at, (name, _) in enumerate(sent)]
    values = [["Variable", {"name": f"v{at}", "type": name, **({} if text is None else {"initialValue": text})}] for at, (name, text) in enumerate(sent)]
    sends = [["SendCommandPrimitive", {"interface": "bus", "command": f"k{at}"}, ["ArgumentValue", {"name": "a"}, ["VariableRef", {"variableRef": f"v{at}"}]]]
             for at in range(len(sent))]
    moves = [["Transition", {"fromState": a, "toState": "R"}, *event, ["Do", {"activity": "go"}]]
             for a, event in (("S", []), ("R", [["OnTimer", {"nanosecondsAfterEntry": "100"}]]))]
    machine = ["StateMachine", {"name": "m"}, ["EntryState", {"name": "S"}], ["State", {"name": "R"}], *moves]
    inside = [["VariableSet", *values], ["ActivitySet", ["Activity", {"name": "go"}, ["Body", *sends]]], ["StateMachineSet", machine]]
    ends = ["RequiredInterfaceSet", ["Interface", {"name": "bus", "type": "Frames"}]]
    tree[1] += [["DeclaredInterfaceSet", ["Interface", {"name": "Frames", "level": "subnetwork"}, ["CommandSet", *commands]]],
                ["ComponentSet", ["Component", {"name": "Sender"}, ends, ["Implementation", *inside]]]]


def session(rng, judge):
    return SessionMaker(rng, judge).octets
