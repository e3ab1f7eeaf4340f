#!/usr/bin/env python3
"""Measures what a run of the gate costs: the processor minutes of each crate for its proof, its tests and its edits.

  bench/gate.py [--every SECONDS] [COMMAND...]

Runs the command (by default `rt ci`), passes on what it prints and its status, and looks at the processes below it a few
times a second. Each process of the prover names its crate and works in that crate's folder or, where it tries an edit, in
a copy; its processor time is that crate's. What programs and tests take to run counts as tests. At the end a table of
processor minutes stands on standard output, with the wall time and what could not be told apart: processes that began
and ended between two looks. For a run from nothing, run it in a fresh clone:

  git clone -q . /tmp/gate && cd /tmp/gate && bench/gate.py .ci/run
"""

import os
import re
import resource
import subprocess
import sys
import threading
import time

TICK = os.sysconf("SC_CLK_TCK")
KINDS = ["proof", "tests", "edits"]


def crates():
    """The names of the crates, in the order of crates.txt."""
    with open("crates.txt", encoding="utf-8") as file:
        lines = [it.partition("#")[0] for it in file]
    return [it.partition(":")[0].split()[0] for it in lines if ":" in it]


def edits(crate):
    folder = os.path.join("crates", crate, "must-fail")
    return len([it for it in os.listdir(folder) if it.endswith(".edit")]) if os.path.isdir(folder) else 0


class Process:
    """A process below the command, as far as it was seen."""

    def __init__(self, above):
        self.above, self.work, self.ticks = above, None, 0


def work_of(words, place):
    """The crate and the kind of work of a process, by its words and its folder, or None."""
    if "--crate-name" in words[:-1]:
        crate = words[words.index("--crate-name") + 1]
        if "/rt-edit-" in place:
            return crate, "edits"
        return crate, "tests" if "--test" in words else "proof"
    ran = [re.search(r"/rt-run-[^/]+/bin/(\w+?)(_tests)?$", it) for it in words]
    found = next((it for it in ran if it), None)
    return (found[1], "tests") if found else None


class Watch:
    """Looks at all processes below this one, again and again."""

    def __init__(self, every):
        self.every, self.seen, self.ends = every, {}, threading.Event()
        self.thread = threading.Thread(target=self.go, daemon=True)
        self.thread.start()

    def go(self):
        while not self.ends.wait(self.every):
            self.look()

    def look(self):
        found = {}
        for name in filter(str.isdigit, os.listdir("/proc")):
            try:
                with open(f"/proc/{name}/stat", encoding="ascii", errors="replace") as file:
                    fields = file.read().rpartition(")")[2].split()
            except OSError:
                continue
            # the parent, the processor time, and when it began, which tells it from a later process of this number
            found[int(name)] = int(fields[1]), int(fields[11]) + int(fields[12]), fields[19]
        own = os.getpid()
        keys = {pid: (pid, began) for pid, (_, _, began) in found.items()}

        def is_below(pid):
            while pid in found and keys[pid] not in self.seen:
                pid = found[pid][0]
                if pid == own:
                    return True
            return pid in found

        for pid, (above, ticks, _) in sorted(found.items()):
            if pid == own or not is_below(pid):
                continue
            seen = self.seen.setdefault(keys[pid], Process(keys.get(above)))
            seen.ticks = ticks
            if seen.work is None:
                seen.work = self.told(pid)

    def told(self, pid):
        try:
            with open(f"/proc/{pid}/cmdline", "rb") as file:
                words = file.read().decode(errors="replace").split("\0")
            return work_of(words, os.readlink(f"/proc/{pid}/cwd"))
        except OSError:
            return None

    def spent(self):
        """The processor seconds by crate and kind. A process that doesn't tell its work does that of the one above it."""
        self.ends.set()
        self.thread.join()
        sums = {}
        for it in self.seen.values():
            at = it
            while at is not None and at.work is None:
                at = self.seen.get(at.above)
            key = at.work if at is not None else None
            sums[key] = sums.get(key, 0) + it.ticks / TICK
        return sums


def table(sums, whole, wall):
    """The lines of the table, in minutes."""
    names = crates()
    names += sorted({it[0] for it in sums if it and it[0] not in names})
    rows = [[sums.get((name, kind), 0) / 60 for kind in KINDS] for name in names]
    lines = ["| Crate | Proof | Tests | Edits | Number of edits | Sum |", "|---|---|---|---|---|---|"]
    for name, row in zip(names, rows):
        lines.append("| %s | %.1f | %.1f | %.1f | %d | %.1f |" % (name, *row, edits(name), sum(row)))
    each = [sum(it) for it in zip(*rows)] or [0, 0, 0]
    lines.append("| all | %.1f | %.1f | %.1f | %d | %.1f |" % (*each, sum(map(edits, names)), sum(each)))
    lines += ["", "Processor time in all: %.1f minutes, of which %.1f were not told apart; wall time: %.1f minutes."]
    lines[-1] %= (whole / 60, whole / 60 - sum(each), wall / 60)
    return lines


def main():
    words, every = sys.argv[1:], 0.25
    if words[:1] == ["--every"]:
        every, words = float(words[1]), words[2:]
    began, watch = time.time(), Watch(every)
    status = subprocess.call(words or ["rt", "ci"])
    wall, below = time.time() - began, resource.getrusage(resource.RUSAGE_CHILDREN)
    sums = watch.spent()
    # what was killed together with its parent is in no parent's sum
    whole = max(below.ru_utime + below.ru_stime, sum(sums.values()))
    print("\n".join(table(sums, whole, wall)), flush=True)
    return status


if __name__ == "__main__":
    sys.exit(main())
