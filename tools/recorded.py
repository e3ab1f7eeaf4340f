"""Cuts recordings into pieces for `eds split`, whatever their size, for tools/recording.

Nothing here reads a packet. Where a packet ends is guessed, from a size that is the same for all, from a field of its header, or
from what eds makes of the octets near the end of a piece; and each guess is tried: `eds split` takes a piece exactly where it
is cut into packets to its last octet. A guess that is wrong costs time and nothing else.
"""

import functools
import json
import os
import re
import shutil
import struct
import subprocess
import tempfile
from concurrent.futures import ThreadPoolExecutor

import packet_types

PACKET = 65_536  # octets of a packet, at most
PIECE = 4 << 20  # octets of a piece, at most: `split` takes four times as many, but a report has to hold their lines
MOST_PIECE = 16 << 20
LEAST_PIECE = 128 << 10
START = 128 << 10  # octets that eds splits in about the time in which a process starts and reads its sheet
FIRST = 2 << 20  # octets that are held to have been read when nothing is known of damage
READ = 1 << 20
NEARLY = 40 << 20  # octets of lines from which on pieces get smaller: a report has 64 MiB
SCRIPT = 3 << 20
PROBED = PACKET - 8  # octets that a probe may have
WINDOW = 512  # octets at each of which eds is asked whether a packet begins there, at once
FAULT = re.compile(rb"fault (\w+ at .*) in packet (\d+)\n")


@functools.cache
def numpy_here():
    """numpy where it is installed, or None. Captures are read faster with it."""
    try:
        import numpy

        return numpy
    except ImportError:
        return None


class Sink:
    """What a recording comes to: lines to one file, what can't be read to another, and the counts."""

    def __init__(self, lines, told):
        self.lines, self.told = lines, told
        self.packets = self.octets = self.damaged = 0

    def damage(self, octet, fault):
        self.damaged += 1
        self.told.write(f"octet {octet}: fault {fault}\n")

    def counts(self):
        return f"packets {self.packets} octets {self.octets} damaged {self.damaged}"


class Split:
    """`eds split` of one type over octets. With other parts in front of each packet, such as what is to be skipped, the type is
    a container that has them, in a package that no sheet has."""

    def __init__(self, program, one, files, *front):
        self.room = tempfile.mkdtemp(prefix="eds-recording-")
        self.type, self.files, self.wrapped, self.program = one, files, False, shutil.which(program) or program
        self.into, self.out = os.memfd_create("piece"), os.memfd_create("report")
        os.set_inheritable(self.into, True)
        self.runs = self.octets = 0
        if front:
            self.wrap(front)

    def wrap(self, front):
        package = "Recorded_" + os.path.basename(self.room).rpartition("-")[2]
        container = ["ContainerDataType", {"name": "Record"}, ["EntryList", *front, ["Entry", {"name": "packet", "type": self.type}]]]
        types = ["DataTypeSet", integer("U32", 32), container]
        path = os.path.join(self.room, "record.json")
        with open(path, "w", encoding="utf-8") as file:
            json.dump(["PackageFile", ["Package", {"name": package}, types]], file)
        self.type, self.files, self.wrapped = f"{package}/Record", [*self.files, path], True
        self.front = len(f'{{"$type":"{self.type}","packet":')

    def close(self):
        os.close(self.into)
        os.close(self.out)
        shutil.rmtree(self.room, ignore_errors=True)

    def __call__(self, *parts):
        """How octets are cut: (the number of packets, None), their lines being kept, or (the number of packets in front of the
        one that can't be read, its fault). The fault is "limit" where the lines don't go into a report."""
        self.runs += 1
        for file in (self.into, self.out):
            os.lseek(file, 0, os.SEEK_SET)
        for part in parts:
            self.octets += len(part)
            write_all(self.into, part)
        os.ftruncate(self.into, os.lseek(self.into, 0, os.SEEK_CUR))
        words = ["eds", "split", self.type, f"/dev/fd/{self.into}", *self.files]
        child = os.posix_spawn(self.program, words, os.environ, file_actions=[(os.POSIX_SPAWN_DUP2, self.out, 1)])
        status = os.waitstatus_to_exitcode(os.waitpid(child, 0)[1])
        # the report goes over the one before, whose end may stay behind it
        size = os.lseek(self.out, 0, os.SEEK_CUR)
        last = os.pread(self.out, min(size, 4096), max(size - 4096, 0))
        if status == 0:
            line = last[last.rindex(b"packets ", 0, len(last)) :]
            self.size = size - len(line)
            return int(line.split()[1]), None
        if status == 7 and last.startswith(b"limit report"):
            return 0, "limit"
        fault = FAULT.fullmatch(last)
        if status != 3 or not fault:
            raise packet_types.Wrong(f"eds split: {last.decode(errors='replace').strip()}", status if 0 < status < 9 else 1)
        told = fault[1].decode()
        return int(fault[2]) - 1, told.replace("$.packet", "$", 1) if self.wrapped else told

    def lines_to(self, file):
        """Writes the lines of the last octets that were cut."""
        at = 0
        while at < self.size:
            lines = os.pread(self.out, min(READ, self.size - at), at)
            if self.wrapped:
                # a line begins with what the wrapping container has in front of the packet, and ends with its brace
                lines = lines[: lines.rindex(b"\n") + 1] if b"\n" in lines else os.pread(self.out, self.size - at, at)
                at += len(lines)
                lines = b"\n".join([it[self.front : -1] for it in lines.split(b"\n")])
            else:
                at += len(lines)
            file.write(lines)


def write_all(file, octets):
    view = memoryview(octets)
    while view:
        view = view[os.write(file, view) :]


def integer(name, bits):
    return ["IntegerDataType", {"name": name}, ["IntegerDataEncoding", {"sizeInBits": bits, "encoding": "unsigned"}]]


def skipped(octets):
    """The parts in front of a packet that stand for octets which are no part of it."""
    return [["PaddingEntry", {"sizeInBits": 8 * octets}]] if octets else []


BOX = ["LengthEntry", {"name": "octets", "type": "U32"}]  # in front of a packet: how many octets both have


# ---------------------------------------------------------------- where packets end


class Fixed:
    """All packets have as many octets."""

    is_certain = True

    def __init__(self, octets):
        self.octets = octets

    def size(self, octets, at):
        """The octets of the packet that begins there, or None where they can't be told."""
        return self.octets

    def strange(self, payloads):
        """The numbers of the payloads, with their octets in front, that their packets don't fill."""
        return [number for number, (_, it) in enumerate(payloads) if len(it) != self.octets]

    def begins(self, octets, begin, end):
        """Where packets begin, from one on up to an end; the last place is where the next one begins that isn't whole."""
        return range(begin, end - (end - begin) % self.octets + 1, self.octets)


class Field:
    """A field of the header tells the octets: a number of octets of `size` octets, in what order, times and more."""

    def __init__(self, at, size, add, most, times=1, little=False, is_certain=False):
        self.at, self.field, self.add, self.times, self.is_certain, self.most = at, size, add, times, is_certain, most
        self.order = "little" if little else "big"
        letter = {1: "B", 2: "H", 4: "I", 8: "Q"}.get(size)
        self.read = struct.Struct((">", "<")[little] + letter).unpack_from if letter else None
        self.least = max(at + size, 1)

    def size(self, octets, at):
        begin = at + self.at
        if begin + self.field > len(octets):
            return None
        number = self.read(octets, begin)[0] if self.read else int.from_bytes(octets[begin : begin + self.field], self.order)
        found = self.add + self.times * number
        return found if self.least <= found <= self.most else None

    def strange(self, payloads):
        at, add, times, least, read = self.at, self.add, self.times, self.least, self.read
        if not read:
            return [number for number, (_, it) in enumerate(payloads) if self.size(it, 0) != len(it)]
        numpy = numpy_here()
        if numpy and payloads and self.field < 8:
            sizes = numpy.fromiter((len(it) for _, it in payloads), numpy.int64, len(payloads))
            return numpy.flatnonzero((sizes < least) | (add + times * self.numbers(numpy, payloads, sizes) != sizes)).tolist()
        return [number for number, (_, it) in enumerate(payloads) if len(it) < least or add + times * read(it, at)[0] != len(it)]

    def numbers(self, numpy, payloads, sizes):
        """The field of each of some payloads, and any number for those that are too short."""
        octets, begins, found = b"".join([it for _, it in payloads]) + b"\0", numpy.cumsum(sizes) - sizes, 0
        octets = numpy.frombuffer(octets, numpy.uint8)
        for place in range(self.field):
            place = place if self.order == "big" else self.field - 1 - place
            found = found << 8 | octets[numpy.minimum(begins + self.at + place, len(octets) - 1)].astype(numpy.int64)
        return found

    def begins(self, octets, begin, end):
        begins, at, last = [begin], begin, end - self.least
        offset, add, times, least, most, read = self.at, self.add, self.times, self.least, self.most, self.read
        while at <= last:
            if read:
                size = add + times * read(octets, at + offset)[0]
            else:
                size = self.size(octets, at) or 0
            if size < least or size > most or at + size > end:
                break
            at += size
            begins.append(at)
        return begins

    def likely_end(self, octets, mean, end):
        """The place at which chains of packets run together, or 0: the begin of the last packet that goes on past an end, or
        the end. The chains are those from each octet of a window in front of the end."""
        begin = max(end - min(max(8 * mean, 256), 8192), 0)
        # a packet of which not even the field is there goes on past the end
        ends, votes = {at: at for at in range(max(end - self.least + 1, begin), end + 1)}, {}
        for at in range(end - 1, begin - 1, -1):
            size = self.size(octets, at)
            if size is None:
                continue
            if at + size > end:
                ends[at] = at
            elif at + size in ends:
                ends[at] = ends[at + size]
                votes[ends[at]] = votes.get(ends[at], 0) + 1
        return max(votes, key=votes.get, default=0)


def rule_of(program, one, files, skip):
    """Where packets of a type end, as far as `eds layout` and the sheet's length entry tell; or None."""
    status, report = packet_types.answer([program, "layout", one, *files])
    if status == 2 and report.startswith(b"usage"):
        return None  # a program that has no such command
    if status:
        raise packet_types.Wrong(report.decode(errors="replace").strip(), status)
    kinds, lengths = [], []
    for line in report.decode().splitlines():
        words = line.split(" ")
        if words[0] in ("container", "type"):
            kinds.append(words[3])
            lengths.append(None)
        elif words[-1] == "length":
            lengths[-1] = words[0], words[1], words[2]
    sizes = {it if it == "varies" else (int(it) + 7) // 8 for it in kinds}
    if len(sizes) == 1 and "varies" not in sizes:
        return Fixed(skip + sizes.pop())
    return field_of(one, files, skip, lengths)


def field_of(one, files, skip, lengths):
    """The rule of a length entry that stands in all kinds at one place, in whole octets; or None."""
    if not lengths or len(set(lengths)) != 1 or lengths[0] is None or "varies" in lengths[0][:2]:
        return None
    offset, size, path = int(lengths[0][0]), int(lengths[0][1]), lengths[0][2]
    sheet = packet_types.Sheet(files)
    parts = [it for each in sheet.under(sheet.types[one]) for it in each.sequence() if it.kind == "LengthEntry"]
    part = next(it for it in parts if path == f"$.{it.name}")
    _, encoding, order = part.type.form()
    if offset % 8 or size % 8 or encoding != "unsigned":
        return None
    add, times = part.calibration()
    return Field(skip + offset // 8, size // 8, skip + add, skip + PACKET, times, order == "littleEndian", True)


class Probe:
    """What eds reads at the front of octets: a run of a component that sends back what it gets, one frame for each."""

    def __init__(self, program, one, files, room):
        self.program, self.package = program, "Probed_" + os.path.basename(room).rpartition("-")[2]
        self.files, self.script = [*files, os.path.join(room, "probe.json")], os.path.join(room, "probe.script")
        self.works = True
        rest = ["BinaryDataType", {"name": "Rest", "sizeInBits": 8 * PACKET, "fixedSize": False}]
        entries = [["LengthEntry", {"name": "octets", "type": "U32"}], ["Entry", {"name": "packet", "type": one}], ["Entry", {"name": "rest", "type": "Rest"}]]
        argument = [["Argument", {"name": "at", "type": "At", "mode": mode}] for mode in ("in", "notify")]
        commands = [["Command", {"name": "take"}, argument[0]], ["Command", {"name": "told"}, argument[1]]]
        send = ["SendCommandPrimitive", {"interface": "end", "command": "told"}, ["ArgumentValue", {"name": "at"}, ["ArgumentRef", {"argumentRef": "at"}]]]
        do = ["Do", {"activity": "tell"}, ["ArgumentValue", {"name": "at"}, ["ArgumentRef", {"argumentRef": "at"}]]]
        step = ["Transition", {"fromState": "S", "toState": "S"}, ["OnCommandPrimitive", {"interface": "end", "command": "take"}], do]
        does = [
            ["ActivitySet", ["Activity", {"name": "tell"}, ["Argument", {"name": "at", "type": "At"}], ["Body", send]]],
            ["StateMachineSet", ["StateMachine", {"name": "m"}, ["EntryState", {"name": "S"}], step]],
        ]
        sheet = ["PackageFile", ["Package", {"name": self.package},
            ["DataTypeSet", integer("U32", 32), rest, ["ContainerDataType", {"name": "At"}, ["EntryList", *entries]]],
            ["DeclaredInterfaceSet", ["Interface", {"name": "End"}, ["CommandSet", *commands]]],
            ["ComponentSet", ["Component", {"name": "C"},
                ["ProvidedInterfaceSet", ["Interface", {"name": "end", "type": "End"}]], ["Implementation", *does]]]]]  # fmt: skip
        with open(self.files[-1], "w", encoding="utf-8") as file:
            json.dump(sheet, file)

    def sizes(self, octets, places, end):
        """For each place the octets of the packet that is read there, 0 where it goes on past the end, or None where none is
        read. Each is tried with few octets first, since most places where no packet begins are told by its front."""
        found, waiting = dict.fromkeys(places), list(places)
        for most in (64, 1024, 16_384, PROBED):
            again = []
            for batch in batches(waiting, min(most, end)):
                frames = [octets[at : min(end, at + most)] for at in batch]
                for at, frame, size in zip(batch, frames, self.run(frames)):
                    if size == 0 and at + len(frame) < end and most < PROBED:
                        again.append(at)
                    else:
                        found[at] = size
            waiting = again
        return found

    def run(self, frames):
        end = f"{self.package}/C:end"
        with open(self.script, "w", encoding="ascii") as file:
            file.writelines(f"frame {end} take {4 + len(it):08x}{it.hex()}\n" for it in frames)
        status, report = packet_types.answer([self.program, "run", self.script, *self.files])
        lines = report.decode().splitlines()
        if status or len(lines) < len(frames):
            # the sheet is at one of its limits, so that no type may be added
            self.works = False
            return [None] * len(frames)
        return [size_told(line, len(frame)) for line, frame in zip(lines, frames)]


def batches(places, most):
    many = max(SCRIPT // (2 * most + 64), 1)
    return [places[at : at + many] for at in range(0, len(places), many)]


def size_told(line, most):
    """The octets in front of the rest in a line of a run; 0 where they end too early, None where they can't be read."""
    words = line.split(" ")
    if words[1] == "reject":
        return 0 if words[4] == "Short" else None
    rest = re.search(r'"rest":"([0-9a-f]*)"\}\}$', line)
    return most - len(rest[1]) // 2


def ends_near(probe, octets, end, mean, skip):
    """Places near an end at which a packet may begin that isn't whole, the likeliest first: the chains of packets that begin at
    each octet of a window run together, and most lead to the true one. In front of each packet stand `skip` octets."""
    begin = max(end - min(max(8 * (mean + skip), 256), 8192), 0)
    sizes, votes = probe.sizes(octets, range(begin, end), end), {}
    for start in range(begin, end):
        at = start
        while at < end and sizes.get(at):
            at += sizes[at] + skip
        if at >= end or sizes.get(at) == 0:
            votes[at] = votes.get(at, 0) + (at != start)
    return sorted(votes, key=lambda it: (-votes[it], it))


# ---------------------------------------------------------------- octets as they come


class Stream:
    """The octets of a file from a place on, which are read once, in order: those that are held, and where they begin."""

    def __init__(self, read, base=0):
        self.read, self.base, self.held, self.ended = read, base, b"", False  # `read` gives no octets at the end

    def fill(self, many):
        """Holds so many octets, or all that there are."""
        parts, size = [self.held], len(self.held)
        while size < many and not self.ended:
            part = self.read()
            self.ended = not part
            parts.append(part)
            size += len(part)
        self.held = b"".join(parts) if len(parts) > 1 else self.held

    def drop(self, many):
        self.held, self.base = self.held[many:], self.base + many


class Stopped(Exception):
    """A packet can't be read, and nothing behind it is to be."""


class Lost(Exception):
    """A packet can't be read, and nothing tells where the next one begins. It keeps its octet."""


def located(chains, number):
    """The chain of a packet of all chains, and its number there."""
    for at, chain in enumerate(chains):
        if number < len(chain) - 1:
            return at, number
        number -= len(chain) - 1
    raise packet_types.Wrong("eds split: it tells a packet that isn't there")


class Cutter:
    """Cuts a stream into packets of one type, by a rule of where they end or by what eds reads."""

    def __init__(self, split, rule, sink, probe, skip=0, stop=False, piece=PIECE):
        self.split, self.rule, self.sink, self.probe, self.skip, self.stop = split, rule, sink, probe, skip, stop
        self.piece, self.mean = max(min(piece, MOST_PIECE), PACKET + skip), 64
        self.least = min(self.piece, LEAST_PIECE)
        self.tried = self.least  # the first piece without a rule is small, since its end is found by trying fronts
        self.expands = 0.0  # octets of lines for an octet
        self.several = False  # whether datagrams were seen to hold several packets

    def goal(self):
        """How many octets a piece has. Each packet that can't be read costs what is in front of it in its piece once more, and
        each piece a process, so pieces are the smaller the more of them there are."""
        piece = self.piece
        if self.expands:
            piece = min(piece, int(NEARLY / self.expands))
        between = (self.sink.octets + FIRST) / (self.sink.damaged + 0.5)
        return max(min(piece, int((2 * START * between) ** 0.5)), self.least)

    def keep(self, packets, octets):
        """The lines of a piece that was cut."""
        self.keep_of(self.split, packets, octets)

    def keep_of(self, split, packets, octets):
        self.sink.packets += packets
        self.sink.octets += octets
        self.expands = max(0.9 * self.expands, split.size / max(octets, 1))
        self.mean = max(octets // max(packets, 1), 1)
        split.lines_to(self.sink.lines)

    def keep_front(self, octets, packets):
        if packets:
            self.split(octets)
            self.keep(packets, len(octets))

    def tell(self, octet, fault):
        self.sink.damage(octet, fault)
        if self.stop:
            raise Stopped

    def cut(self, stream):
        stream.fill(self.goal())
        while stream.held:
            if self.rule:
                done = self.by_rule(stream)
            else:
                done = self.by_ends(stream)
            stream.drop(done)
            stream.fill(self.goal())

    # ---- with a rule

    def by_rule(self, stream):
        """Cuts a piece of what is held. Gives how many octets are done with."""
        view, limit = memoryview(stream.held), min(len(stream.held), self.goal())
        answer = None
        if isinstance(self.rule, Field):
            # most pieces need no look at each packet
            if limit < len(view) or not stream.ended:
                limit = self.rule.likely_end(view, self.mean, limit) or limit
            answer = self.split(view[:limit])
            if answer[1] is None:
                self.keep(answer[0], limit)
                return limit
        # the packets between those that can't be read: where each begins, and where the last one ends
        chains = [self.rule.begins(view, 0, limit)]
        if len(chains[0]) < 2:
            return self.first_is_odd(stream)
        while True:
            runs = [view[it[0] : it[-1]] for it in chains if len(it) > 1]
            if not runs:
                return self.goes_on(stream, chains)
            packets, fault = answer if answer and chains[0][-1] == limit else self.split(*runs)
            answer = None
            if fault is None:
                self.keep(packets, sum(map(len, runs)))
                return self.goes_on(stream, chains)
            if fault == "limit":
                return self.smaller(limit)
            chain, number = located(chains, packets)
            at = chains[chain][number]
            if not self.rule.is_certain:
                return self.by_front(stream, at, packets, fault)
            if number == 0 and chain > 0 and not isinstance(self.rule, Fixed):
                # where a packet that can't be read says that the next one begins, none does
                chains[chain:] = [self.begins_again(stream, chains[chain - 1][-1] + 1, limit)]
            else:
                if self.stop:
                    self.keep_front(view[:at], packets)
                self.tell(stream.base + at, fault)
                chains[chain : chain + 1] = [chains[chain][: number + 1], chains[chain][number + 1 :]]

    def goes_on(self, stream, chains):
        """Where the next piece begins. Where its first packet is told by one that can't be read, it is tried now."""
        at = chains[-1][-1]
        if len(chains) == 1 or len(chains[-1]) > 1 or isinstance(self.rule, Fixed):
            return at
        return at if self.can_be_read(stream, at) else self.found_again(stream, chains[-2][-1] + 1)

    def smaller(self, limit):
        """Nothing is done with, since the lines of so many octets go into no report."""
        if limit <= PACKET + self.skip:
            raise packet_types.Wrong("eds split: limit report 67108864, for the lines of one packet", 7)
        self.piece = max(limit // 2, PACKET + self.skip)
        self.least = min(self.least, self.piece)
        return 0

    def by_front(self, stream, at, packets, fault):
        """The same where a field that the user named says where packets end: it is right where eds cuts the front so, too."""
        view = memoryview(stream.held)
        if packets:
            many, other = self.split(view[:at])
            if other == "limit":
                return self.smaller(at)
            if (many, other) != (packets, None):
                raise packet_types.Wrong(f"--length: its field says that a packet begins at octet {stream.base + at}, but none does")
            self.keep(many, at)
        self.tell(stream.base + at, fault)
        size = self.rule.size(view, at)
        return at + size if size and self.can_be_read(stream, at + size) else self.found_again(stream, at + 1)

    def first_is_odd(self, stream):
        """What comes first isn't whole by its rule. Tells what it is, and gives where it goes on."""
        stream.fill(2 * (PACKET + self.skip))
        packets, fault = self.split(memoryview(stream.held)[: PACKET + self.skip])
        if packets:
            raise packet_types.Wrong(f"--length: the packet at octet {stream.base} can be read, but has another length than its field says")
        self.tell(stream.base, fault)
        return len(stream.held) if isinstance(self.rule, Fixed) else self.found_again(stream, 1)

    def can_be_read(self, stream, at):
        """Whether a packet can be read there, or the recording ends there."""
        stream.fill(at + PACKET + self.skip)
        size = self.rule.size(stream.held, at)
        if at == len(stream.held) and stream.ended:
            return True
        if not size or at + size > len(stream.held):
            return False
        return self.split(memoryview(stream.held)[at : at + size]) == (1, None)

    def found_again(self, stream, begin):
        """The first place from one on, within the octets of a packet, where two packets follow each other; or else behind them."""
        stream.fill(begin + 4 * (PACKET + self.skip))
        end = min(begin + PACKET, len(stream.held))
        for first in range(begin, end, WINDOW):
            places = range(first, min(first + WINDOW, end))
            sizes = self.probe.sizes(stream.held, [it + self.skip for it in places], len(stream.held)) if self.probe.works else {}
            for at in places:
                size = sizes.get(at + self.skip)
                if size and self.can_be_read(stream, at) and self.can_be_read(stream, at + self.skip + size):
                    return at
        return end

    def begins_again(self, stream, begin, limit):
        at = self.found_again(stream, begin)
        return self.rule.begins(stream.held, at, max(limit, at))

    # ---- without one

    def by_ends(self, stream):
        """Cuts a piece of what is held, which ends where packets are likely to end. Gives how many octets are done with."""
        view, limit = memoryview(stream.held), min(len(stream.held), self.goal(), self.tried)
        is_last = stream.ended and limit == len(stream.held)
        if is_last:
            likely = [limit]
        else:
            likely = self.likely_ends(stream, limit)
        for end in [*likely, limit]:
            packets, fault = self.split(view[:end])
            if fault is None:
                self.keep(packets, end)
                self.tried = self.piece
                return end
            if fault == "limit":
                return self.smaller(limit)
            if is_last or not fault.startswith("Short "):
                self.front(view, end, packets)
                self.tell(stream.base + self.done, fault)
                raise Lost(stream.base + self.done)
        self.front(view, limit, packets)
        self.tried = self.piece
        return self.done

    def likely_ends(self, stream, limit):
        if self.sink.packets == 0 or not self.probe.works:
            return []
        octets, begin = stream.held, max(limit - 2 * PACKET, self.skip)
        found = ends_near(self.probe, octets[begin:limit], limit - begin, self.mean, self.skip)
        return [it + begin - self.skip for it in found[:2]]

    def front(self, view, end, packets):
        """Finds the end of so many packets by trying fronts, and keeps them: `done` is where they end."""
        low, self.done = packets, 0
        if packets == 0:
            return
        while low <= end:
            middle = (low + end) // 2
            many, fault = self.split(view[:middle])
            if many == packets and fault is None:
                self.done = middle
                self.keep(many, middle)
                return
            if many >= packets:
                end = middle - 1
            else:
                low = middle + 1
        raise packet_types.Wrong("eds split: it cuts no front into as many packets as it said")

    # ---- datagrams

    def cut_datagrams(self, capture, boxed, end):
        """Cuts the payloads of datagrams in front of an octet of a capture, each of which begins with a packet, as pieces.
        `boxed` is a split of packets behind their lengths, for a type whose packets don't tell their octets."""
        # the next ones are looked for while eds cuts those before them
        with ThreadPoolExecutor(1) as other:
            batch = capture.payloads(self.goal(), end)
            while batch or capture.has_more(end):
                ahead = other.submit(capture.payloads, self.goal(), end)
                self.cut_batch(batch, boxed)
                batch = ahead.result()

    def cut_batch(self, batch, boxed):
        if self.rule and self.rule.is_certain:
            self.cut_sized(batch)
        elif self.several:
            for it in batch:
                self.cut_alone(*it)
        else:
            self.cut_run(batch, boxed, True)

    def cut_sized(self, batch):
        """Cuts payloads of packets that tell their octets: those that say as many as the payload has, together."""
        begin = 0
        for number in self.rule.strange(batch):
            self.cut_run(batch[begin:number], self.split, False)
            self.cut_alone(*batch[number])
            begin = number + 1
        self.cut_run(batch[begin:], self.split, False)

    def cut_run(self, run, split, is_boxed):
        """Cuts payloads of one packet each, which either tell their octets or get them in front. What is none is taken by itself."""
        while run:
            octets = b"".join([(4 + len(it[1])).to_bytes(4, "big") + it[1] for it in run] if is_boxed else [it[1] for it in run])
            packets, fault = split(octets)
            if fault is None and packets == len(run):
                self.keep_of(split, packets, len(octets) - 4 * packets * is_boxed)
                return
            if fault == "limit" and len(run) > 1:
                self.cut_run(run[: len(run) // 2], split, is_boxed)
                run = run[len(run) // 2 :]
                continue
            number = min(packets, len(run) - 1)
            whole, other = self.split(run[number][1])
            self.several = self.several or whole > 1 and other is None
            if whole or self.stop:
                self.cut_run(run[:number], split, is_boxed)
                self.cut_alone(*run[number])
                run = run[number + 1 :]
            else:
                self.cut_alone(*run[number])
                run = run[:number] + run[number + 1 :]
            if self.several and is_boxed:
                self.cut_batch(run, split)
                return

    def cut_alone(self, octet, payload):
        """Cuts the payload of a datagram as if it were a recording."""
        try:
            self.cut(Stream(iter((payload, b"")).__next__, octet))
        except Lost:
            pass
