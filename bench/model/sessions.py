"""Sessions: a script with recordings of what left a device, and whether they are what the sheet prescribes."""
import codecs
import re

import eds_model as m
from activities import Primitive
from interfaces import carried
from runs import Host, Storm
from scripts import BadLine, Script, event_text

MOST_SPELLED = 65536     # the octets of a recorded frame that is spelled otherwise
NOTHING = "nothing"      # stands for a recording or an event that isn't there


def replaced(fault):
    """U+FFFD for one octet that begins no whole character, and on behind it."""
    return "\ufffd", fault.start + 1


codecs.register_error("octet by octet", replaced)


class Recording:
    """The number of the line to which a recording belongs, that of its own line, and its text."""

    def __init__(self, owner, line, text):
        self.owner, self.line, self.text = owner, line, text


class Session:
    """The octets of a session's script, and its recordings in order."""

    def __init__(self, octets):
        pieces = octets.split(b"\n")
        self.recordings, owner = [], 0
        for at, piece in enumerate(pieces):
            line = piece[:-1] if piece.endswith(b"\r") and at + 1 < len(pieces) else piece
            if line.startswith(b"> "):
                self.recordings.append(Recording(owner, at + 1, line[2:].decode("utf-8", "octet by octet")))
                pieces[at] = b""
            elif line and not line.startswith((b"#", b"wire ")):
                owner = at + 1
        self.script = b"\n".join(pieces)


class Differs(Exception):
    """The first pair of a recording and an event that don't agree."""

    def __init__(self, line, want, got):
        self.line, self.want, self.got = line, want, got

    def report(self):
        return "differs at line %d want %s got %s\n" % (self.line, self.want, self.got)


def frame_of(judge, event):
    """The type and the value of an event that is printed as a frame, or None."""
    if not isinstance(event, Primitive) or event.op != "cmd":
        return None
    end = judge.components[event.end[0]].ends[event.end[1]]
    arguments = carried(end.members[event.member], end.required)
    if end.face.level != "subnetwork" or len(arguments) != 1:
        return None
    return arguments[0].type, event.values[0]


def spells(judge, t, value, digits):
    """Whether the octets of some digits begin with a spelling of a value, and at most 7 bits follow it."""
    if not re.fullmatch("([0-9a-fA-F]{2})*", digits) or len(digits) > 2 * MOST_SPELLED:
        return False
    bits = m.bits_of(bytes.fromhex(digits))
    try:
        read, end = m.Reader(judge, bits).read(t)
    except m.Fault:
        return False
    return read == value and len(bits) - end <= 7


def is_respelled(judge, event, own, text):
    """Whether a recorded text that isn't the event's own is the same frame, spelled otherwise."""
    frame, words, wanted = frame_of(judge, event), text.split(" "), own.split(" ")
    if frame is None or len(words) != 5 or words[:4] != wanted[:4]:
        return False
    return spells(judge, *frame, words[4])


class Comparison:
    """How many events agreed with their recordings, and how many of these are spelled otherwise."""

    def __init__(self, judge, session):
        self.j, self.session = judge, session
        self.agreed, self.respelled = 0, 0

    def line(self, number, events):
        """Compares the recordings that belong to a line with its events."""
        recordings = [x for x in self.session.recordings if x.owner == number]
        texts = [event_text(self.j, time, event)[:-1] for time, event in events]
        for at in range(max(len(recordings), len(texts))):
            if at == len(recordings):
                raise Differs(number, NOTHING, texts[at])
            if at == len(texts):
                raise Differs(recordings[at].line, recordings[at].text, NOTHING)
            self.pair(recordings[at], events[at][1], texts[at])

    def pair(self, recording, event, own):
        if recording.text != own:
            if not is_respelled(self.j, event, own, recording.text):
                raise Differs(recording.line, recording.text, own)
            self.respelled += 1
        self.agreed += 1

    def report(self):
        return "agrees %d respelled %d\n" % (self.agreed, self.respelled)


def replayed(judge, octets):
    """(status, report) of a session over an accepted sheet, but for the limit on its octets."""
    session = Session(octets)
    comparison = Comparison(judge, session)
    try:
        script = Script(judge, session.script)
        host = Host(judge, script.joined())
        for number, line in script.lines:
            before = len(host.outs)
            try:
                host.handle(line)
            except Storm:
                return (7, "limit deliveries 10000 at line %d\n" % number)
            comparison.line(number, host.outs[before:])
    except (BadLine, Differs) as found:
        return (3, found.report())
    return (0, comparison.report())
