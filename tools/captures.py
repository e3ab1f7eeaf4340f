"""Reads captures in the forms pcap and pcapng, for tools/recording: the payloads of UDP datagrams, in order.

Ethernet with any VLAN tags, Linux's cooked captures, loopback and bare IP are taken, with IPv4 and IPv6. Fragments are not put
together: they are counted, and so are datagrams of which the capture holds only a part. Where numpy is installed, many records
are looked at at once.
"""

import itertools
import struct

import packet_types
import recorded

numpy = recorded.numpy_here()

READ = 4 << 20
ETHERNET, COOKED, COOKED_2, NULL, LOOP = 1, 113, 276, 0, 108
BARE = {12, 14, 101, 228, 229}
VLAN = {0x8100, 0x88A8, 0x9100}
IPV4, IPV6, UDP = 0x0800, 0x86DD, 17
FRAGMENT = 44
SECTION = b"\x0a\x0d\x0d\x0a"  # what a section of a pcapng capture begins with
EXTENSIONS = {0, 43, 60, 135}  # of IPv6: hop by hop, routing, destination, mobility
FRAME = 1 << 24  # octets of a record, at most: what tells more is no capture
# From octet 12 of a frame of Ethernet without a tag, with UDP over IPv4: the kind of network, its version and length, the
# fragment, the protocol, the port and the octets of the datagram.
PLAIN = struct.Struct(">HB5xHxB12xHH").unpack_from


class Reader:
    """The octets of a file, read once, in order."""

    def __init__(self, file, base=0):
        self.file, self.base, self.octets, self.at = file, base, b"", 0

    @property
    def octet(self):
        """Where in the file those begin that follow."""
        return self.base + self.at

    def has(self, many):
        """Whether so many octets follow. `octets` from `at` on are they."""
        while len(self.octets) - self.at < many:
            more = self.file.read(max(READ, many))
            if not more:
                return False
            self.base += self.at
            self.octets, self.at = self.octets[self.at :] + more, 0
        return True


class Capture:
    """The datagrams of a capture, in order. What isn't taken is counted."""

    def __init__(self, file, port=None):
        self.reader, self.port, self.ended = Reader(file), port, False
        self.datagrams = self.fragments = self.parts = 0

    def told(self):
        return f"datagrams {self.datagrams} fragments {self.fragments} in part {self.parts}"

    def has_more(self, end=None):
        """Whether something follows that begins before an octet of the file."""
        return not self.ended and (end is None or self.reader.octet < end) and self.reader.has(1)

    def payloads(self, many, end=None):
        """The datagrams of the records that begin within so many octets, and before an octet of the file: for each its payload,
        with its octet in front."""
        reader, found = self.reader, []
        stop = reader.octet + many if end is None else min(reader.octet + many, end)
        while reader.octet < stop and self.has_more():
            begins = self.begins_held(stop - reader.base)
            if len(begins) < 2:
                self.take_one(found)
            elif numpy:
                self.take_held(found, numpy.array(begins))
            else:
                self.take_each(found, begins)
        self.datagrams += len(found)
        return found

    def begins_held(self, stop):
        """Where records begin that are held to their ends, up to a place, and where the last one ends."""
        octets, at, read, add, odd = self.reader.octets, self.reader.at, self.head.unpack_from, self.ADD, self.UNIT - 1
        begins, last = [at], len(octets)
        stop = min(stop, last - self.HEAD + 1)
        while at < stop:
            size = add + read(octets, at)[0]
            if size < 12 or size & odd:
                break
            at += size
            begins.append(at)
        if at > last:
            begins.pop()
        return begins

    def take_each(self, found, begins):
        """Takes records that are held, one after another, up to one behind which records are read in another way."""
        kind = self.kind()
        for begin, behind in itertools.pairwise(begins):
            self.take(found, begin, behind)
            if self.kind() != kind:
                break
        self.reader.at = behind

    def take_held(self, found, begins):
        """Takes records that are held, up to one behind which records are read in another way. The plain ones are looked at all
        at once: frames of Ethernet without a tag, with a datagram over IPv4 without options that is no fragment."""
        reader, kind, begin = self.reader, self.kind(), 0
        held, last = numpy.frombuffer(reader.octets, numpy.uint8), len(reader.octets) - 1
        frames, kept = self.frames_held(held, begins)

        def one(place):
            return held[numpy.minimum(frames + place, last)].astype(numpy.int64)

        def two(place):
            return one(place) << 8 | one(place + 1)

        size = two(38)
        is_plain = (two(12) == IPV4) & (one(14) == 0x45) & (two(20) & 0x3FFF == 0) & (one(23) == UDP) & (size >= 8) & (size <= kept - 34)
        is_asked = is_plain if self.port is None else is_plain & (two(36) == self.port)
        places, ends, asked = (frames + 42).tolist(), (frames + 34 + numpy.where(is_asked, size, 8)).tolist(), is_asked.tolist()
        made = list(zip((frames + (42 + reader.base)).tolist(), [reader.octets[it:end] for it, end in zip(places, ends)]))
        for number in numpy.flatnonzero(~is_plain).tolist():
            found += itertools.compress(made[begin:number], asked[begin:number])
            begin = number + 1
            self.take(found, int(begins[number]), int(begins[begin]))
            if self.kind() != kind:
                reader.at = int(begins[begin])
                return
        found += itertools.compress(made[begin:], asked[begin:]) if begin or not is_asked.all() else made
        reader.at = int(begins[-1])

    def give_up(self):
        """What follows is no whole record."""
        self.parts += 1
        self.ended = True

    def payload(self, link, octets, at, end):
        """Where the payload of a frame's datagram begins and ends, or None where it has none for the port."""
        if link == ETHERNET and end - at >= 42:
            kind, head, fragment, protocol, port, size = PLAIN(octets, at + 12)
            if kind == IPV4 and head == 0x45 and protocol == UDP and not fragment & 0x3FFF and 8 <= size <= end - at - 34:
                return (at + 42, at + 34 + size) if self.port in (None, port) else None
        return self.payload_of_any(link, octets, at, end)

    def payload_of_any(self, link, octets, at, end):
        kind, at = network(link, octets, at, end)
        if kind == IPV4 and end - at >= 28 and octets[at + 9] == UDP:
            head = 4 * (octets[at] & 15)
            if octets[at + 6] & 0x3F or octets[at + 7]:
                self.fragments += 1
                return None
            at += head
        elif kind == IPV6 and end - at >= 48:
            at = self.behind_ipv6(octets, at, end)
            if at is None:
                return None
        else:
            return None
        if end - at < 8:
            return None
        port, size = octets[at + 2] << 8 | octets[at + 3], octets[at + 4] << 8 | octets[at + 5]
        if self.port is not None and port != self.port:
            return None
        if size < 8 or at + size > end:
            self.parts += 1
            return None
        return at + 8, at + size

    def behind_ipv6(self, octets, at, end):
        kind, at = octets[at + 6], at + 40
        while kind in EXTENSIONS and end - at >= 8:
            kind, at = octets[at], at + 8 * (octets[at + 1] + 1)
        if kind == FRAGMENT:
            self.fragments += 1
        return at if kind == UDP else None


def network(link, octets, at, end):
    """The kind of packet that a frame carries, as Ethernet numbers them, and where it begins."""
    if link == ETHERNET and end - at >= 14:
        kind, at = octets[at + 12] << 8 | octets[at + 13], at + 14
        while kind in VLAN and end - at >= 4:
            kind, at = octets[at + 2] << 8 | octets[at + 3], at + 4
        return kind, at
    if link == COOKED and end - at >= 16:
        return octets[at + 14] << 8 | octets[at + 15], at + 16
    if link == COOKED_2 and end - at >= 20:
        return octets[at] << 8 | octets[at + 1], at + 20
    if link in (NULL, LOOP) and end - at >= 4:
        at += 4
    elif link not in BARE:
        return None, at
    version = octets[at] >> 4 if at < end else 0
    return {4: IPV4, 6: IPV6}.get(version), at


class Pcap(Capture):
    """A capture in the form pcap: a header of the file, and records behind a header each."""

    HEAD, ADD, UNIT = 16, 16, 1  # octets of a record's header, what is added to the number there, and what all of it is a multiple of

    def __init__(self, file, port=None):
        super().__init__(file, port)
        reader = self.reader
        if not reader.has(24):
            raise packet_types.Wrong("it is no pcap capture: it has no header")
        magic = reader.octets[:4]
        order = {b"\xd4\xc3\xb2\xa1": "<", b"\x4d\x3c\xb2\xa1": "<", b"\xa1\xb2\xc3\xd4": ">", b"\xa1\xb2\x3c\x4d": ">"}.get(magic)
        if order is None:
            raise packet_types.Wrong("it is no pcap capture: it begins with other octets")
        self.link = struct.unpack_from(order + "I", reader.octets, 20)[0] & 0xFFFFFFF
        self.head = struct.Struct(order + "8xI4x")
        reader.at = 24

    def skip_to(self, octet):
        """Goes on at a record that begins at an octet of a file that may be sought in."""
        self.reader.file.seek(octet)
        self.reader.base, self.reader.octets, self.reader.at = octet, b"", 0

    def is_whole(self):
        """Whether the next record is there to its end."""
        reader = self.reader
        if not reader.has(16):
            return False
        size = self.head.unpack_from(reader.octets, reader.at)[0]
        return size <= FRAME and reader.has(16 + size)

    def kind(self):
        """What tells how records are read."""
        return self.link

    def frames_held(self, held, begins):
        """Where the frames of records begin, and how many octets of each are kept; none where they aren't of Ethernet."""
        kept = numpy.diff(begins) - self.ADD
        return begins[:-1] + self.HEAD, kept if self.link == ETHERNET else 0 * kept

    def take(self, found, begin, behind):
        """Takes a record that begins and ends there."""
        octets = self.reader.octets
        place = self.payload(self.link, octets, begin + self.HEAD, behind)
        if place:
            found.append((self.reader.base + place[0], octets[place[0] : place[1]]))

    def take_one(self, found):
        """Takes the next record, which need not be held."""
        if not self.is_whole():
            self.give_up()
            return
        reader, begin = self.reader, self.reader.at
        reader.at = begin + self.HEAD + self.head.unpack_from(reader.octets, begin)[0]
        self.take(found, begin, reader.at)

    def begins(self, octets):
        """Where records begin, each so many octets or more behind the one before."""
        reader, head, told = self.reader, self.head.unpack_from, self.reader.octet
        while self.is_whole():
            held, at, last = reader.octets, reader.at, len(reader.octets)
            while at + self.HEAD <= last:
                if reader.base + at - told >= octets:
                    told = reader.base + at
                    yield told
                behind = at + 16 + head(held, at)[0]
                if behind > last:
                    break
                at = behind
            reader.at = at


class Pcapng(Capture):
    """A capture in the form pcapng: blocks, of which some say of which kind the interfaces are, and others hold frames."""

    INTERFACE, SIMPLE, OLD, ENHANCED = 1, 3, 2, 6
    HEAD, ADD, UNIT = 28, 0, 4

    def __init__(self, file, port=None):
        super().__init__(file, port)
        if not self.reader.has(12) or self.reader.octets[:4] != SECTION:
            raise packet_types.Wrong("it is no pcapng capture: it begins with other octets")
        self.begin("<")

    def kind(self):
        return self.order, self.links[:1]

    def frames_held(self, held, begins):
        at, size = begins[:-1], numpy.diff(begins)
        number = held[at[:, None] + numpy.arange(28)].astype(numpy.int64)
        places = (0, 1, 2, 3) if self.order == "<" else (3, 2, 1, 0)
        kind, interface, kept = (sum(number[:, first + it] << 8 * up for up, it in enumerate(places)) for first in (0, 8, 20))
        is_whole = (kind == self.ENHANCED) & (interface == 0) & (kept + 32 <= size) & (size % 4 == 0)
        return at + 28, kept * (is_whole & (self.links[:1] == [ETHERNET]))

    def take_one(self, found):
        """Takes the next block, which need not be held."""
        reader = self.reader
        if reader.has(12) and reader.octets[reader.at : reader.at + 4] == SECTION:
            self.begin("<" if reader.octets[reader.at + 8] == 0x4D else ">")
        size = self.head.unpack_from(reader.octets, reader.at)[0] if reader.has(12) else 0
        if size < 12 or size % self.UNIT or size > FRAME or not reader.has(size):
            self.give_up()
            return
        begin = reader.at
        reader.at += size
        self.take(found, begin, reader.at)

    def take(self, found, begin, behind):
        """Takes a block that begins and ends there."""
        octets = self.reader.octets
        if octets[begin : begin + 4] == SECTION:
            self.begin("<" if octets[begin + 8] == 0x4D else ">")
        kind = self.number(octets, begin)[0]
        if kind == self.INTERFACE:
            self.links.append(struct.unpack_from(self.order + "H", octets, begin + 8)[0])
        place = self.frame(kind, octets, begin, behind - begin)
        if place:
            found.append((self.reader.base + place[0], octets[place[0] : place[1]]))

    def begin(self, order):
        """Begins a section, which has its own order and interfaces."""
        self.order, self.links, self.head, self.number = order, [], struct.Struct(order + "4xI"), struct.Struct(order + "I").unpack_from

    def frame(self, kind, octets, at, size):
        """Where the payload of a block's frame begins and ends, or None."""
        order, links = self.order, self.links
        if kind == self.ENHANCED and size >= 32:
            interface, kept = struct.unpack_from(order + "I8xI", octets, at + 8)
            begin = at + 28
        elif kind == self.SIMPLE and size >= 16:
            interface, begin = 0, at + 12
            kept = min(struct.unpack_from(order + "I", octets, at + 8)[0], size - 16)
        elif kind == self.OLD and size >= 32:
            interface, kept = struct.unpack_from(order + "H10xI", octets, at + 8)
            begin = at + 28
        else:
            return None
        if interface >= len(links) or begin + kept > at + size - 4:
            self.parts += 1
            return None
        return self.payload(links[interface], octets, begin, begin + kept)
