#!/usr/bin/env python3
"""Compares `layout` with bench/model on random sheets, and with where `unpack` finds the parts of frames.

  bench/layouts.py [--runs N] [--seed S] [--jobs J] [PROGRAM]

PROGRAM is a built program (by default crates/eds_prog/out/eds_prog). A run is one accepted sheet. `layout` of each of its
types is compared with the model's answer. Ten frames of values of its types are read, and then each of their parts alone that
has an offset and a size by `layout`: its bits, cut out of the frame, have to be read as what stands in the value, or as the
fixed value, the length or the check. The bits of the whole and the numbers on constrained paths have to be those of `layout`
too. Each difference is printed with its words and files. The same seed makes the same inputs.
"""

import argparse
import collections
import json
import os
import random
import subprocess
import sys
import tempfile
import traceback
from concurrent.futures import ProcessPoolExecutor

TOP = os.path.dirname(os.path.dirname(os.path.abspath(__file__)))
sys.dont_write_bytecode = True
sys.path[:0] = [os.path.join(TOP, "bench/model"), os.path.join(TOP, "tools")]
import answers  # noqa: E402
import eds_model as m  # noqa: E402
import gen  # noqa: E402
import gen_templates  # noqa: E402
import run_model  # noqa: E402

FRAMES, TRIES = 10, 40


class Room:
    """A folder with the files of a sheet, and the answers that the program gave there."""

    def __init__(self, program, folder, sheet):
        self.program, self.folder, self.names, self.known = program, folder, sorted(sheet), {}
        for name, octets in sheet.items():
            self.write(name, octets)

    def write(self, name, octets):
        with open(os.path.join(self.folder, name), "wb") as file:
            file.write(octets)

    def ask(self, command, name, *inputs):
        ran = subprocess.run([self.program, command, name, *inputs, *self.names], cwd=self.folder, stdin=subprocess.DEVNULL, capture_output=True, check=False)
        return ran.returncode, (ran.stdout + ran.stderr).decode("utf-8", "replace")

    def unpack(self, name, bits):
        """The status and the report of a frame of these bits and what fills the last octet."""
        key = name, tuple(bits)
        if key not in self.known:
            self.write("frame", m.octets_of(bits).hex().encode())
            self.known[key] = self.ask("unpack", name, "frame")
        return self.known[key]


def accepted_sheet(dice):
    """The files of a random sheet that the model accepts."""
    while True:
        made = [gen_templates.sheet(dice)] if dice.random() < .3 else gen.case(dice, run_model.EVERYTHING)
        sheet = {f"sheet{at}": octets for at, octets in enumerate(made)}
        try:
            return sheet, run_model.judged(made)
        except m.Refused:
            continue


def frames(dice, judge, names):
    """Some types of those names, mostly containers, each with the bits of a random value of it. Some values don't pack."""
    types = [it for it in judge.types if it.name in names]
    containers = [it for it in types if it.kind == "Container"]
    made = 0
    for _ in range(TRIES if types else 0):
        t = dice.choice(containers if containers and dice.random() < .9 else types)
        try:
            value = m.value_of(judge, t, m.Json(json.dumps(gen.Values(dice, judge).value(t)).encode()).read(), "")
            yield t, m.Packer(judge).pack(t, value)
        except (m.BadJson, m.Fault, m.WrongShape):
            continue
        made += 1
        if made == FRAMES:
            return


def wanted_pieces(judge, part, bits, offset, size, value):
    """What is to be read of a part: pairs of bits and the JSON that they stand for."""
    piece = bits[offset:offset + size]
    if part.kind == "Entry":
        return [(piece, value[part.name])]
    if part.kind == "ListEntry":
        items = value[part.name]
        each = size // len(items) if items else 0
        return [(piece[at * each:(at + 1) * each], item) for at, item in enumerate(items)]
    if part.kind == "FixedValueEntry":
        return [(piece, json.loads(m.shown(m.text_value(part.type, part.element.attrs["fixedValue"]))))]
    if part.kind == "ErrorControlEntry":
        return [(piece, m.check_of(part.element.attrs["errorControlType"], bits[:offset]))]
    if part.kind == "LengthEntry":
        c0, c1 = judge.factors(part)
        return [(piece, ((len(bits) + 7) // 8 - c0) // c1)]
    return []


def number_on(judge, part_types, path, value):
    """The number on a path of a value: of labels, truth values and containers too."""
    for name in path.split(".")[1:]:
        value, found = value[name], part_types[name]
        part_types = {}
        if found.kind == "Container":
            concrete = judge.by_own_name[value["$type"]]
            part_types = {p.name: p.type for p in m.sequence(concrete) if p.kind == "Entry"}
    if found.kind == "Container":
        return concrete.id
    return dict(m.listing(found))[value] if found.kind == "Enumerated" else int(value)


def lies_in(number, spans):
    ends = [it.split("..") for it in spans.split(",")]
    return any(int(low) <= number <= int(high) for low, high in ends)


def wrong_in(judge, room, concrete, layout, bits, value, counts):
    """What of a frame isn't where its layout says so."""
    parts = m.sequence(concrete)
    if layout.bits not in (None, len(bits)) or len(parts) != len(layout.rows):
        return [f"{len(bits)} bits and {len(parts)} parts"]
    wrong = []
    for row, part in zip(layout.rows, parts, strict=True):
        counts["parts that vary" if None in (row.offset, row.size) else "parts in their places"] += 1
        if None in (row.offset, row.size):
            continue
        for piece, wanted in wanted_pieces(judge, part, bits, row.offset, row.size, value):
            status, report = room.unpack(part.type.name, piece)
            told = report.split("\n")
            if status != 0 or json.loads(told[0]) != wanted or told[1] != f"bits {len(piece)}":
                wrong.append(f"{row.path} at {row.offset} of {row.size}: {report!r} in place of {wanted!r}")
    types = {p.name: p.type for p in parts if p.kind == "Entry"}
    for path, spans in layout.sets:
        counts["numbers on paths"] += 1
        if not lies_in(number_on(judge, types, path, value), spans):
            wrong.append(f"{path} is not in {spans}")
    return wrong


def wrong_of(judge, room, t, bits, layouts, counts):
    """What is wrong with one frame of a type."""
    status, report = room.unpack(t.name, bits)
    told = report.split("\n")
    if status != 0 or told[1] != f"bits {len(bits)}":
        return [f"unpack {t.name}: {report!r} of {len(bits)} bits"]
    counts["frames"] += 1
    value = json.loads(told[0])
    concrete = judge.by_own_name[value["$type"]] if t.kind == "Container" else t
    layout = layouts[t.name].get(concrete.name)
    if layout is None:
        return [f"layout {t.name} has no {concrete.name}"]
    if t.kind != "Container":
        return [] if layout.bits in (None, len(bits)) else [f"{t.name}: {len(bits)} bits"]
    return [f"{concrete.name}: {it} in {report!r}" for it in wrong_in(judge, room, concrete, layout, bits, value, counts)]


def hold_sheet(asked):
    """What differs in a run, its files, and what was seen."""
    program, seed = asked
    dice, counts, wrong, sheet = random.Random(seed), collections.Counter(), [], {}
    try:
        sheet, judge = accepted_sheet(dice)
        judge.by_own_name = {it.name: it for it in judge.types}
        names, layouts = [it.name for it in judge.types], {}
        with tempfile.TemporaryDirectory(prefix="eds-layouts-") as folder:
            room = Room(program, folder, sheet)
            for name in names + [dice.choice(gen.TYPE_NAMES)]:
                wanted, got = run_model.answer(["layout", name, *room.names], sheet), room.ask("layout", name)
                counts["layouts" if wanted[0] == 0 else "types that are refused"] += 1
                wrong += [] if wanted == got else [f"layout {name}: model {wanted}, program {got}"]
                if got[0] == 0:
                    layouts[name] = answers.layouts_of(got[1])
            for t, bits in frames(dice, judge, layouts):
                wrong += wrong_of(judge, room, t, bits, layouts, counts)
    except Exception:  # the model itself fails
        wrong.append(traceback.format_exc())
    return seed, wrong, sheet, counts


def main():
    asked = argparse.ArgumentParser(usage=__doc__.split("\n\n")[1].strip())
    asked.add_argument("--runs", type=int, default=1000)
    asked.add_argument("--seed", type=int, default=1)
    asked.add_argument("--jobs", type=int, default=1)
    asked.add_argument("program", nargs="?", default=os.path.join(TOP, "crates/eds_prog/out/eds_prog"))
    asked = asked.parse_args()
    work = [(os.path.abspath(asked.program), asked.seed * 10**9 + at) for at in range(asked.runs)]
    seen, differ = collections.Counter(), 0
    with ProcessPoolExecutor(asked.jobs) as pool:
        for seed, wrong, sheet, counts in pool.map(hold_sheet, work, chunksize=4):
            seen += counts
            differ += len(wrong)
            for it in wrong:
                print(f"layouts: seed {seed}: {it}")
            for name, octets in sheet.items() if wrong else ():
                print(f"  {name}: {octets.decode('utf-8', 'replace')}", flush=True)
    for kind, count in seen.most_common():
        print(f"{count:8} {kind}")
    print(f"layouts: {asked.runs} sheets: {differ} differ")
    return 1 if differ else 0


if __name__ == "__main__":
    sys.exit(main())
