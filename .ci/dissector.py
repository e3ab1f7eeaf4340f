#!/usr/bin/env python3
"""Holds what tools/dissector writes to `eds unpack`: the same fields, values and kinds, or the same fault.

  .ci/dissector.py [--frames N] [--seed S] [--sheets N]

Random frames of the examples' types, and of random sheets (bench/model/gen.py), most of them packed values, some of them changed
or cut, are read by tshark with the dissector and by `eds unpack`. Each frame has to have the same entries with the same values
below the same containers, or the same fault at the same path. What differs is printed with its sheet and its frame. Where
tshark is not installed, that is said and nothing is run. The environment's EDS may name the program.
"""

import argparse
import json
import os
import random
import shutil
import struct
import subprocess
import sys
import tempfile
from concurrent.futures import ThreadPoolExecutor

TOP = os.path.dirname(os.path.dirname(os.path.abspath(__file__)))
sys.dont_write_bytecode = True
sys.path[:0] = [os.path.join(TOP, "bench/model"), os.path.join(TOP, "tools")]
import gen  # noqa: E402
import run_model  # noqa: E402
import packet_types  # noqa: E402

model = run_model.m
EXAMPLES = [
    ("ccsds", ["Space/Packet", "Space/Secondary"]), ("flat", ["Flat/Word"]), ("inheritance", ["House/Packet", "House/Mode"]),
    ("nested", ["Hk/Report"]), ("receiver", ["Receiver/Message", "Receiver/Fix"]), ("scalars", None), ("texts", None),
]  # fmt: skip
USER_DLT = 147
AS_USER = 'uat:user_dlts:"User 0 (DLT=147)","eds","0","","0",""'
A_SHEET = 40


class Differs(Exception):
    """Where a dissection is not what eds says."""


class Pairs(list):
    """The members of an object of JSON in order, of which several may have one name."""

    def all(self, name):
        return [value for key, value in self if key == name]

    def one(self, name):
        found = self.all(name)
        if len(found) != 1:
            raise Differs(f"{name} is there {len(found)} times")
        return found[0]


def capture(frames):
    """A file in the form pcap of frames that are octets of the type alone."""
    found = [struct.pack("<IHHiIII", 0xA1B2C3D4, 2, 4, 0, 0, 262144, USER_DLT)]
    for frame in frames:
        found += [struct.pack("<IIII", 0, 0, len(frame), len(frame)), frame]
    return b"".join(found)


def dissected(room, dissector, frames):
    """For each frame the members that tshark shows."""
    for name, octets in (("eds.lua", dissector), ("frames.pcap", capture(frames))):
        with open(os.path.join(room, name), "wb") as file:
            file.write(octets)
    words = ["tshark", "-n", "-r", "frames.pcap", "-X", "lua_script:eds.lua", "-o", AS_USER, "-T", "json", "-J", "eds"]
    ran = subprocess.run(words, cwd=room, capture_output=True, check=False)
    if ran.returncode:
        sys.exit(f"tshark: {ran.stderr.decode(errors='replace')}")
    packets = json.loads(ran.stdout.decode("utf-8", "surrogateescape"), object_pairs_hook=Pairs)
    return [it.one("_source").one("layers").one("eds") for it in packets]


def unpacked(words, frame):
    """What eds says of a frame: a value and None, or None and the fault."""
    status, report = packet_types.answer(words, frame.hex().encode())
    first = report.decode().split("\n")[0]
    if status == 0:
        return json.loads(first), None
    if status != 3:
        sys.exit(f"{words}: {first}")
    return None, first.removeprefix("fault ")


class Held:
    """A dissection beside a value, by the model's types."""

    def __init__(self, judge):
        self.types = {it.name: it for it in judge.types}

    def fields(self, members, value):
        """A container's entries: each is there once, with its value, and nothing else but lengths, checks and fixed values."""
        found = self.types[value["$type"]]
        if members.one("eds.type") != found.name:
            raise Differs(f"{members.one('eds.type')} in place of {found.name}")
        known = {"eds.type"}
        for part in model.sequence(found):
            name = f"eds.{part.owner.name.replace('/', '.')}.{part.name}"
            known |= {name, name + "_tree"}
            if part.kind == "ListEntry":
                self.items(members, name, part.type, value[part.name])
            elif part.kind == "Entry":
                self.value(members, name, part.type, value[part.name])
        more = {key for key, _ in members} - known
        if more:
            raise Differs(f"{', '.join(sorted(more))} besides")

    def value(self, members, name, one, value):
        if one.kind == "Array":
            self.items(members, name, one.item, value)
        elif one.kind == "Container":
            self.fields(members.one(name), value)
        else:
            self.scalar(name, members.one(name), one, value)

    def items(self, members, name, one, values):
        """A list or an array: a number, and below it the items in order."""
        if members.one(name) != str(len(values)):
            raise Differs(f"{name}: {members.one(name)} items in place of {len(values)}")
        inner = (members.all(name + "_tree") or [Pairs()])[0]
        # an item that is an array has its items in a member of its own
        shown, below = inner.all(name + ".0"), inner.all(name + ".0_tree")
        if len(shown) != len(values):
            raise Differs(f"{name}: {len(shown)} items are shown in place of {len(values)}")
        for at, value in enumerate(values):
            alone = Pairs([(name + ".0", shown[at]), *([(name + ".0_tree", below[at])] if below else [])])
            self.value(alone, name + ".0", one, value)

    def scalar(self, name, shown, one, value):
        if one.kind == "Enumerated":
            numbers = dict(model.listing(one))
            same = shown in (value, str(numbers[value]))
        elif one.kind == "Boolean":
            same = shown == "01"[value]
        elif one.kind == "Binary":
            same = shown.replace(":", "") == value
        elif one.kind == "String":
            same = shown == value.replace("\0", "\\0")
        else:
            same = shown == str(value)
        if not same:
            raise Differs(f"{name}: {shown!r} in place of {value!r}")


def first_fault(members):
    """The text of the expert information among members, at any depth, or None."""
    for key, value in members:
        if key == "_ws.expert" and isinstance(value, Pairs):
            return value.one("_ws.expert.message")
        found = first_fault(value) if isinstance(value, Pairs) else None
        if found:
            return found
    return None


def check(held, members, wanted, fault, word):
    """Raises Differs where a dissection is not that of a value, or of a fault."""
    told = first_fault(members)
    if told != fault:
        raise Differs(f"{told or 'no fault'} in place of {fault or 'none'}")
    if fault is None:
        one = held.types[word]
        if one.kind == "Container":
            held.fields(members, wanted)
        else:
            held.value(members, "eds.value", one, wanted)


def frames_of(dice, judge, word, many):
    """Random frames of a type: octets, at least one, since Wireshark hands on no empty packet."""
    one, found = next(it for it in judge.types if it.name == word), []
    while len(found) < many:
        text = gen.frame_text(dice, judge, one).decode().replace(" ", "").replace("\n", "")
        if text and len(text) % 2 == 0 and not set(text.lower()) - set("0123456789abcdef"):
            found.append(bytes.fromhex(text))
    return found


def hold(program, files, word, frames):
    """Compares the dissections of frames. Gives how many frames there were, how many of them were read, and what differs."""
    with tempfile.TemporaryDirectory(prefix="eds-dissector-") as room:
        names = []
        for at, octets in enumerate(files):
            names.append(os.path.join(room, f"sheet{at}.json"))
            with open(names[-1], "wb") as file:
                file.write(octets)
        made = subprocess.run([os.path.join(TOP, "tools/dissector"), word, *names], capture_output=True, check=False)
        if made.returncode:
            return 0, 0, [f"{word}: {made.stderr.decode()}"]
        judge = run_model.judged(files, word)
        held, good, wrong = Held(judge), 0, []
        for frame, members in zip(frames, dissected(room, made.stdout, frames), strict=True):
            value, fault = unpacked([program, "unpack", word, "/dev/stdin", *names], frame)
            good += fault is None
            try:
                check(held, members, value, fault, word)
            except Differs as differs:
                shown = b"".join(files).decode(errors="replace")
                wrong.append(f"{word}, frame {frame.hex()}: {differs}\n  {shown if len(shown) < 4000 else names}")
    return len(frames), good, wrong


def of_examples(dice, many):
    """Files, a type and frames of it for each example, so many frames in all."""
    found = []
    for folder, words in EXAMPLES:
        with open(os.path.join(TOP, "examples", folder, "sheet.json"), "rb") as file:
            files = [file.read()]
        judge = run_model.judged(files)
        for word in words or [it.name for it in judge.types if it.kind == "Container"]:
            found.append((files, word))
    return [(files, word, frames_of(dice, run_model.judged(files, word), word, -(-many // len(found)))) for files, word in found]


def of_sheets(seed, many):
    """Files, a type and frames of it for so many random sheets that are accepted."""
    found, at = [], 0
    while len(found) < many:
        dice, at = random.Random(f"{seed}/{at}"), at + 1
        files = gen.case(dice, run_model.EVERYTHING)
        try:
            types = [it.name for it in run_model.judged(files).types]
            word = dice.choice(types)
            judge = run_model.judged(files, word)
            found.append((files, word, frames_of(dice, judge, word, A_SHEET)))
        except model.Refused:
            continue
    return found


def main():
    words = argparse.ArgumentParser()
    words.add_argument("--frames", type=int, default=400, help="of the examples")
    words.add_argument("--sheets", type=int, default=15, help=f"random sheets, of each of which {A_SHEET} frames are read")
    words.add_argument("--seed", type=int, default=1)
    asked = words.parse_args()
    if not shutil.which("tshark"):
        print("dissector: skipped, since tshark is not installed")
        return 0
    program = packet_types.program()
    tried = of_examples(random.Random(asked.seed), asked.frames) if asked.frames else []
    tried += of_sheets(asked.seed, asked.sheets)
    with ThreadPoolExecutor(os.cpu_count()) as pool:
        found = list(pool.map(lambda it: hold(program, *it), tried))
    wrong = [it for *_, differs in found for it in differs]
    for it in wrong:
        print(f"dissector: {it}")
    frames, good = sum(it[0] for it in found), sum(it[1] for it in found)
    print(f"dissector: {frames} frames of {len(found)} types, {good} of them values: {len(wrong)} differ")
    return 1 if wrong else 0


if __name__ == "__main__":
    sys.exit(main())
