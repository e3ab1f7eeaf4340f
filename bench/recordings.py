#!/usr/bin/env python3
"""Measures tools/recording and tools/recordings on a large recording, beside `eds split` over the same octets.

  bench/recordings.py [--octets N] [--runs WORDS] [PROGRAM]

The recording is made by examples/recordings/make, of N octets at least (by default 1 GiB), with one packet in 10,000 damaged, and so
is one without damage. WORDS are some of: split (the recording without damage in pieces of 16 MiB, each by a process of PROGRAM),
whole (the same by the tool), damaged, small (in pieces of 256 KiB), pcap and pcapng (from captures), parts (the capture in the
form pcap in parts, by two workers), and 1, 2, 4 (so many workers, eight recordings). For each run the seconds of processors and
by the clock are printed, how many times as long as split that is by processors, the most memory that the tool held, and what
it counted: all of the damaged recording have to count the same. The lines go to /dev/null.
"""

import argparse
import os
import re
import resource
import subprocess
import sys
import tempfile
import time

TOP = os.path.dirname(os.path.dirname(os.path.abspath(__file__)))
SHEET = os.path.join(TOP, "examples/recordings/tank.json")
TYPE, PACKETS = "Tank/Packet", 200_000
PIECE = 16_700_000


HEADS = {"--pcap": 24, "--pcapng": 48}  # octets of a capture that stand in front of its records


def block(*words):
    how = [os.path.join(TOP, "examples/recordings/make"), "--packets", str(PACKETS), "--payload", "300", *words]
    return subprocess.run(how, stdout=subprocess.PIPE, check=True).stdout


def made(room, name, octets, *words):
    """A recording of so many octets of packets at least: one that is made, again and again. Captures have their header once."""
    path, head, octets_of = os.path.join(room, name), HEADS.get(words[-1] if words else None, 0), block(*words)
    with open(path, "wb") as file:
        file.write(octets_of[:head])
        for _ in range(-(-octets // len(block()))):
            file.write(octets_of[head:])
    return path


def pieces(path):
    """The octets of a recording that is whole, in pieces at packets' boundaries."""
    with open(path, "rb") as file:
        rest = b""
        while more := file.read(PIECE - len(rest)):
            octets, at = rest + more, 0
            while at + 4 <= len(octets) and at + int.from_bytes(octets[at + 2 : at + 4], "big") <= len(octets):
                at += int.from_bytes(octets[at + 2 : at + 4], "big")
            yield octets[:at]
            rest = octets[at:]


def ran(title, words, folder, environment, split):
    """Runs a command, prints what it took, beside the seconds of split, and gives its last line on standard error."""
    began, told, most = time.monotonic(), os.path.join(folder, "told"), 0
    with open(told, "wb") as file:
        child = subprocess.Popen(words, stdout=subprocess.DEVNULL, stderr=file, env=environment)
        pid = 0
        while not pid:
            most = max(most, held_by(child.pid))
            time.sleep(0.05)
            pid, _, usage = os.wait4(child.pid, os.WNOHANG)
    with open(told, encoding="utf-8") as file:
        last = file.read().splitlines()[-1]
    taken = usage.ru_utime + usage.ru_stime
    times = f", {taken / split:.2f} times split" if split else ""
    print(f"{title}: {taken:.1f} s of processors{times}, {time.monotonic() - began:.1f} s by the clock, {most >> 10} MiB: {last}", flush=True)
    return last


def held_by(process):
    """The most memory that a process has held, in KiB."""
    try:
        with open(f"/proc/{process}/status", encoding="ascii") as file:
            return max([0, *(int(line.split()[1]) for line in file if line.startswith("VmHWM:"))])
    except OSError:
        return 0


def main():
    words = argparse.ArgumentParser()
    words.add_argument("--octets", type=int, default=1 << 30)
    words.add_argument("--runs", default="split whole damaged small pcap parts pcapng 1 2 4")
    words.add_argument("program", nargs="?", default=os.path.join(TOP, "crates/eds_prog/out/eds_prog"))
    asked = words.parse_args()
    environment, counted, runs, taken = dict(os.environ, EDS=asked.program), set(), asked.runs.split(), 0.0
    tool = [os.path.join(TOP, "tools/recording")]
    with tempfile.TemporaryDirectory(prefix="eds-bench-") as room:
        print(f"load {os.getloadavg()[0]:.1f} on {os.cpu_count()} processors")
        if {"split", "whole"} & set(runs):
            path = made(room, "whole.bin", asked.octets)
        if "split" in runs:
            piece = os.path.join(room, "piece")
            for octets in pieces(path):
                with open(piece, "wb") as file:
                    file.write(octets)
                before = resource.getrusage(resource.RUSAGE_CHILDREN)
                subprocess.run([asked.program, "split", TYPE, piece, SHEET], stdout=subprocess.DEVNULL, check=True)
                after = resource.getrusage(resource.RUSAGE_CHILDREN)
                taken += after.ru_utime + after.ru_stime - before.ru_utime - before.ru_stime
            print(f"split: {taken:.1f} s of processors", flush=True)
        if "whole" in runs:
            ran("whole", [*tool, TYPE, path, SHEET], room, environment, taken)
        path = made(room, "damaged.bin", asked.octets, "--damaged", "10000")
        for title, more in (("damaged", []), ("small", ["--piece", str(256 << 10)])):
            if title in runs:
                counted.add(ran(title, [*tool, *more, TYPE, path, SHEET], room, environment, taken))
        for form in (it for it in ("pcap", "pcapng") if it in runs):
            capture = made(room, f"damaged.{form}", asked.octets, "--damaged", "10000", f"--{form}")
            told = ran(form, [*tool, "--from", form, TYPE, capture, SHEET], room, environment, taken)
            counted.add(told.partition(" datagrams")[0])
            if form == "pcap" and "parts" in runs:
                many = [tool[0] + "s", "--workers", "2", "--from", form, "--sheet", SHEET, TYPE, capture]
                told = ran("parts", many, room, environment, taken)
                counted.add(told.partition(" datagrams")[0].removeprefix("all: "))
            os.remove(capture)
        names = [os.path.join(room, f"damaged{at}.bin") for at in range(8)]
        for workers in (it for it in runs if it.isdigit()):
            for name in names:
                if not os.path.exists(name):
                    os.link(path, name)
            last = ran(f"{workers} workers, eight recordings", [tool[0] + "s", "--workers", workers, "--sheet", SHEET, TYPE, *names], room, environment, 0)
            found = re.match(r"all: packets (\d+) octets (\d+) damaged (\d+)", last)
            counted.add("packets {} octets {} damaged {}".format(*(int(it) // 8 for it in found.groups())))
    print("the counts are the same" if len(counted) < 2 else f"the counts differ: {counted}")
    return 0 if len(counted) < 2 else 1


if __name__ == "__main__":
    sys.exit(main())
