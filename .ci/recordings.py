#!/usr/bin/env python3
"""Holds tools/recording and tools/recordings to what recordings were made of.

  .ci/recordings.py [--packets N]

Recordings are made here of packets that `eds pack` or `bench/split.py` spell, with some of them damaged, so that it is known which
packets are good, and where those that aren't begin. The lines that are wanted are those of `eds split` over the good packets
alone. Each recording is cut in one piece and in many, with and without headers in front of packets, from captures in the forms
pcap and pcapng with IPv4, IPv6 and VLAN tags, by the sheet's length, by one that is named, by fixed sizes and by nothing but
fronts; and by Dask, where it is installed, with a worker that is killed. The environment's EDS may name the program.
"""

import argparse
import json
import os
import random
import re
import shutil
import struct
import subprocess
import sys
import tempfile
import time

TOP = os.path.dirname(os.path.dirname(os.path.abspath(__file__)))
sys.dont_write_bytecode = True
sys.path[:0] = [os.path.join(TOP, "bench"), os.path.join(TOP, "tools")]
import packet_types  # noqa: E402
import split as packets_of  # noqa: E402

TOOL, MANY = os.path.join(TOP, "tools/recording"), os.path.join(TOP, "tools/recordings")
SMALL = ["--piece", "70000"]
HEADER = b"\x00\x00REC"


# ---------------------------------------------------------------- recordings


class Made:
    """Packets of a type: their octets, which of them are damaged, and the lines of those that aren't."""

    def __init__(self, room, program, name, one, sheet, packets, dice, damaged):
        self.name, self.type, self.room = name, one, room
        self.sheet = os.path.join(room, name + ".json")
        with open(self.sheet, "w", encoding="utf-8") as file:
            file.write(sheet)
        self.packets = [bytearray(it) for it in packets]
        # never two close to each other: what lies between a damaged packet whose field is damaged and the next two good ones is told as one
        self.bad = sorted(dice.sample(range(1, len(packets) - 2, 4), damaged))
        good = b"".join(bytes(it) for at, it in enumerate(self.packets) if at not in set(self.bad))
        self.lines, self.count = self.split(program, good), len(packets) - damaged
        for at in self.bad:
            self.packets[at][dice.randrange(len(self.packets[at]))] ^= 1 << dice.randrange(8)
        self.octets = len(good)

    def split(self, program, octets):
        """The lines of `eds split` over octets that are good."""
        path = self.kept("good.bin", octets)
        ran = subprocess.run([program, "split", self.type, path, self.sheet], stdout=subprocess.PIPE, check=False)
        if ran.returncode:
            sys.exit(f"recordings: {self.name}: {ran.stdout.decode()}")
        return ran.stdout[: ran.stdout.rindex(b"packets ")]

    def kept(self, name, octets):
        path = os.path.join(self.room, f"{self.name}-{name}")
        with open(path, "wb") as file:
            file.write(octets)
        return path

    def begins(self, front=0):
        """Where the packets that are damaged begin, where so many octets stand in front of each packet."""
        at, found = 0, []
        for number, it in enumerate(self.packets):
            if number in self.bad:
                found.append(at)
            at += front + len(it)
        return found


def fixed(dice, count):
    """Packets of 9 octets with a check, which say nothing of their size."""
    sheet = packets_of.package(
        "Fixed", packets_of.integer("U8", 8), packets_of.integer("U48", 48),
        ["ContainerDataType", {"name": "Tick"}, ["EntryList",
            ["FixedValueEntry", {"type": "U8", "fixedValue": 90}], packets_of.entry("Time", "U48"), packets_of.entry("Level", "U8"),
            ["ErrorControlEntry", {"name": "Sum", "type": "U8", "errorControlType": "CRC8"}]]])  # fmt: skip
    made = []
    for _ in range(count):
        octets = b"\x5a" + bytes(dice.randrange(256) for _ in range(7))
        made.append(octets + bytes([crc8(octets)]))
    return "Fixed/Tick", sheet, made


def lists(dice, count, mark=0xA7):
    """Packets of a count and as many numbers, with a check. An entry tells their octets, of which the sheet makes nothing."""
    sheet = packets_of.package(
        "Lists", packets_of.integer("U8", 8), packets_of.integer("U16", 16),
        ["ContainerDataType", {"name": "Sweep"}, ["EntryList",
            ["FixedValueEntry", {"type": "U8", "fixedValue": mark}], packets_of.entry("Octets", "U8"), packets_of.entry("Count", "U8"),
            ["ListEntry", {"name": "Levels", "type": "U16", "listLengthField": "Count"}],
            ["ErrorControlEntry", {"name": "Sum", "type": "U8", "errorControlType": "CRC8"}]]])  # fmt: skip
    made = []
    for _ in range(count):
        levels = [dice.randrange(1 << 16) for _ in range(dice.randrange(12))]
        octets = bytes([mark, 2 * len(levels) + 4, len(levels)]) + struct.pack(f">{len(levels)}H", *levels)
        made.append(octets + bytes([crc8(octets)]))
    return "Lists/Sweep", sheet, made


def kinds(count):
    """Space packets of 64 kinds, with a length and a check."""
    octets, at, made = packets_of.kinds_recording(count), 0, []
    while at < len(octets):
        size = 7 + int.from_bytes(octets[at + 4 : at + 6], "big")
        made.append(octets[at : at + size])
        at += size
    return "Kinds/Packet", packets_of.kinds_sheet(), made


def crc8(octets):
    found = 0
    for it in octets:
        found ^= it
        for _ in range(8):
            found = found << 1 ^ (0x107 if found & 0x80 else 0)
    return found


# ---------------------------------------------------------------- captures


def frame(payload, port, six=False, tags=0):
    """An Ethernet frame of a UDP datagram."""
    udp = struct.pack(">HHHH", 1024, port, 8 + len(payload), 0) + payload
    if six:
        network, kind = struct.pack(">IHBB", 6 << 28, len(udp), 17, 64) + bytes(32) + udp, 0x86DD
    else:
        network, kind = struct.pack(">BBHHHBBH8x", 0x45, 0, 20 + len(udp), 0, 0, 64, 17, 0) + udp, 0x0800
    return bytes(12) + b"\x81\x00\x00\x07" * tags + struct.pack(">H", kind) + network


def pcap(frames, order="<"):
    found = [struct.pack(order + "IHHiIII", 0xA1B2C3D4, 2, 4, 0, 0, 262144, 1)]
    for it in frames:
        found += [struct.pack(order + "IIII", 0, 0, len(it), len(it)), it]
    return b"".join(found)


def pcapng(frames):
    def block(kind, octets):
        octets += bytes(-len(octets) % 4)
        return struct.pack("<II", kind, 12 + len(octets)) + octets + struct.pack("<I", 12 + len(octets))

    found = [block(0x0A0D0D0A, struct.pack("<IHHq", 0x1A2B3C4D, 1, 0, -1)), block(1, struct.pack("<HHI", 1, 0, 0))]
    found += [block(6, struct.pack("<IIIII", 0, 0, 0, len(it), len(it)) + it) for it in frames]
    return b"".join(found)


# ---------------------------------------------------------------- what is wanted


class Held:
    """Counts what was run, and prints what was not as it was wanted."""

    def __init__(self):
        self.ran = self.wrong = 0

    def run(self, title, words, made, octets=None, more=""):
        """Runs the tool on a recording whose packets are all to be read but the damaged ones, which begin at some octets."""
        ran = subprocess.run([TOOL, *words], capture_output=True, check=False)
        told = ran.stderr.decode()
        wanted = f"packets {made.count} octets {made.octets} damaged {len(made.bad)}{more}"
        places = [int(it.split(" ")[1].rstrip(":")) for it in told.splitlines() if it.startswith("octet ")]
        self.hold(
            f"{made.name}, {title}",
            [
                ran.stdout == made.lines or f"{ran.stdout.count(10)} lines that differ from {made.lines.count(10)}",
                told.splitlines()[-1:] == [wanted] or f"{told[-300:]} in place of {wanted}",
                octets is None or sorted(places) == octets or f"damage at {places} in place of {octets}",
                ran.returncode == (3 if made.bad else 0) or f"status {ran.returncode}",
            ],
        )

    def hold(self, title, answers):
        self.ran += 1
        found = [it for it in answers if it is not True]
        if found:
            self.wrong += 1
            print(f"recordings: {title}: {'; '.join(found)}")


def plain(held, made, skip, *more):
    """In one piece and in many, with and without headers."""
    path = made.kept("plain.bin", b"".join(made.packets))
    held.run("plain", [*more, made.type, path, made.sheet], made, made.begins())
    held.run("in pieces", [*more, *SMALL, made.type, path, made.sheet], made, made.begins())
    if skip:
        path = made.kept("headed.bin", b"".join(HEADER + it for it in made.packets))
        words = [*more, *SMALL, "--skip", str(len(HEADER)), made.type, path, made.sheet]
        ahead = made.octets
        made.octets += len(HEADER) * made.count
        held.run("behind headers", words, made, made.begins(len(HEADER)))
        made.octets = ahead


def captured(held, made, dice):
    """From captures."""
    frames = [frame(bytes(it), 4000, dice.random() < 0.3, dice.randrange(3)) for it in made.packets]
    other = frame(b"something else", 4001)
    cut = bytearray(frame(bytes(16), 4000))
    cut[20] |= 0x20  # more fragments follow
    frames = [it for each in frames for it in ([each, other] if dice.random() < 0.1 else [each])] + [bytes(cut)]
    more = f" datagrams {len(made.packets)} fragments 1 in part 0"
    for form, octets in (("pcap", pcap(frames)), ("pcap", pcap(frames, ">")), ("pcapng", pcapng(frames))):
        path = made.kept(form, octets)
        held.run(form, ["--from", form, "--port", "4000", *SMALL, made.type, path, made.sheet], made, None, more)
    several = [b"".join(made.packets[at : at + 3]) for at in range(0, 120, 3)]
    if len(made.bad) == 0:
        path = made.kept("several.pcap", pcap([frame(it, 4000) for it in several]))
        made.lines = b"".join(made.lines.splitlines(True)[:120])
        made.count, made.octets = 120, sum(map(len, several))
        more = f" datagrams {len(several)} fragments 0 in part 0"
        held.run("several in a datagram", ["--from", "pcap", made.type, path, made.sheet], made, None, more)


def stopped(held, made):
    """Up to the first packet that is damaged."""
    path, begin = made.kept("plain.bin", b"".join(made.packets)), made.begins()[0]
    ran = subprocess.run([TOOL, "--stop", made.type, path, made.sheet], capture_output=True, check=False)
    told, lines = ran.stderr.decode(), made.lines.splitlines(True)[: made.bad[0]]
    wanted = f"packets {made.bad[0]} octets {begin} damaged 1"
    held.hold(
        f"{made.name}, stopped",
        [
            ran.stdout == b"".join(lines) or "other lines",
            told.startswith(f"octet {begin}: fault ") or told[:200],
            told.splitlines()[-1].startswith(wanted) or told[-200:],
        ],
    )


# ---------------------------------------------------------------- many recordings


class Workers:
    """Dask's scheduler and two workers, started as its documentation says."""

    def __init__(self, room):
        self.file, self.started = os.path.join(room, "scheduler.json"), []
        self.start("dask-scheduler", "--port", "0", "--no-dashboard", "--host", "127.0.0.1")
        for _ in range(2):
            self.start("dask-worker", "--nthreads", "1", "--no-nanny", "--no-dashboard", "--local-directory", room)

    def start(self, *words):
        words = [*words, "--scheduler-file", self.file]
        self.started.append(subprocess.Popen(words, stdin=subprocess.DEVNULL, stdout=subprocess.DEVNULL, stderr=subprocess.DEVNULL))

    def address(self):
        while not os.path.exists(self.file) or not os.path.getsize(self.file):
            time.sleep(0.1)
        with open(self.file, encoding="utf-8") as file:
            return json.load(file)["address"]

    def stop(self):
        for it in self.started:
            it.kill()
            it.wait()


def by_workers(held, room, program, made):
    """A recording twice, in parts, in order; and again while one of the workers is killed."""
    path = made.kept("many.bin", b"".join(made.packets))
    size = len(made.packets[0])
    parts = -(-len(made.packets) // 500)
    words = ["--octets", str(500 * size), "--sheet", made.sheet, made.type, path, path]
    # a worker that is to be killed in the middle of a task has to be seen there
    slow = os.path.join(room, "slow")
    with open(slow, "w", encoding="utf-8") as file:
        file.write(f'#!/bin/sh\n[ "$1" = split ] && sleep 0.2\nexec {program} "$@"\n')
    os.chmod(slow, 0o755)
    workers = Workers(room)
    try:
        for title, eds, is_lost in (("by workers", program, False), ("by workers of which one is lost", slow, True)):
            folder = tempfile.mkdtemp(dir=room)
            words_here = [MANY, "--scheduler", workers.address(), "--room", folder, *words]
            child = subprocess.Popen(words_here, env=dict(os.environ, EDS=eds), stdout=subprocess.PIPE, stderr=subprocess.PIPE)
            if is_lost:
                begun_before(folder, 3)
                workers.started[1].kill()
            lines, told = child.communicate()
            held.hold(f"{made.name}, {title}", workers_answer(made, lines, told.decode(), 2 * parts, is_lost))
    finally:
        workers.stop()


def begun_before(folder, many):
    """Waits until so many tasks are begun."""
    while True:
        for name, _, files in os.walk(folder):
            if "begun" in files:
                with open(os.path.join(name, "begun"), encoding="ascii") as file:
                    if len(file.readlines()) >= many:
                        return
        time.sleep(0.02)


def workers_answer(made, lines, told, tasks, is_lost):
    counts = f"packets {2 * made.count} octets {2 * made.octets} damaged {2 * len(made.bad)}"
    found = re.search(rf"^all: {counts} tasks {tasks} begun (\d+)$", told, re.M)
    begun = int(found[1]) if found else 0
    places = [int(it.split(" ")[2].rstrip(":")) for it in told.splitlines() if ": octet " in it]
    return [
        lines == made.lines * 2 or "other lines",
        bool(found) or f"{told[-300:]} in place of all: {counts} tasks {tasks}",
        places == made.begins() * 2 or f"damage at {places}",
        # the one that it was at, and those that it had done but not yet handed on
        (tasks < begun <= tasks + 8 if is_lost else begun == tasks) or f"{begun} tasks begun of {tasks}",
    ]


def main():
    words = argparse.ArgumentParser()
    words.add_argument("--packets", type=int, default=3000)
    words.add_argument("--seed", type=int, default=1)
    asked = words.parse_args()
    program, held, dice = packet_types.program(), Held(), random.Random(asked.seed)
    os.environ["EDS"] = program
    count = asked.packets
    with tempfile.TemporaryDirectory(prefix="eds-recordings-") as room:

        def made(name, parts, damaged):
            return Made(room, program, name, *parts[:2], parts[2], dice, damaged)

        few = max(count // 500, 2)
        for name, parts in (("kinds", kinds(count)), ("fixed", fixed(dice, count))):
            one = made(name, parts, few)
            plain(held, one, True)
            captured(held, one, dice)
            stopped(held, one)
            # packets of one size are cut in parts
            if name == "fixed" and shutil.which("dask-scheduler"):
                by_workers(held, room, program, one)
            elif name == "fixed":
                print("recordings: by workers: skipped, since Dask is not installed")
        one = made("lists", lists(dice, count), few)
        plain(held, one, True, "--length", "1", "1", "0")
        captured(held, one, dice)
        stopped(held, one)
        one = made("whole", lists(dice, count), 0)
        plain(held, one, True)
        captured(held, one, dice)
    print(f"recordings: {held.ran - held.wrong} passed, {held.wrong} failed")
    return 1 if held.wrong else 0


if __name__ == "__main__":
    sys.exit(main())
