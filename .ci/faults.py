#!/usr/bin/env python3
"""Runs the program where calls on the system fail, and holds each answer to what must come then.

  .ci/faults.py [--all | --table] [PROGRAM]

PROGRAM is the built program (by default crates/eds_prog/out/eds_prog). First come files that cannot be read and an
output that takes nothing. Then faults.c is compiled, where `cc` is there, and preloaded: of an example the k-th read
fails, for k from 1 until a run meets no failing read; then the k-th opening of a file, the k-th write and the k-th
allocation. A read or an opening that fails is a read fault of that file, and never the end of the file; a file that
isn't there is told as such; after a write that fails, what was written is a front of the report; where memory is
refused, nothing is written, or the answer is as ever. The reports are those of the examples.

A few examples are taken, and the commands of the cases in calls.json, in pieces of 4,096 octets; that takes seconds. With
--table these commands alone are taken, in pieces of 1, 3 and 4,096 octets, and each allocation is refused. With --all every
example and every case is taken besides, and memory is refused where the files of a case are small.
"""

import errno
import os
import shutil
import subprocess
import sys
import tempfile
from concurrent.futures import ThreadPoolExecutor

sys.dont_write_bytecode = True
import cases as case_files  # noqa: E402

TOP = os.path.dirname(os.path.dirname(os.path.abspath(__file__)))
FEW = ["flat/check", "flat/unpack", "flat/pack", "flat/layout", "flat/short", "packages/check", "packages/alone", "bus/alone", "bus/wired", "replay/recorded", "replay/drifted"]
MEMORY = ["flat/unpack", "flat/pack", "flat/layout", "packages/check"]
TABLE = case_files.DATA / "cases" / "calls.json"
SECONDS = 20


class Example:
    """A command of the examples, its status and its report; the octets that one call moves (any number where it is 0);
    whether allocations are refused, and whether each call that fails is tried."""

    def __init__(self, name, is_all):
        front = os.path.join(TOP, "examples", name)
        self.name, self.status, self.folder = name, 0, TOP
        self.reads, self.writes = ((0, 1, 3, 100, 4096), (1, 3, 4)) if is_all else ((0, 100), (4,))
        self.takes_memory, self.takes_each = is_all or name in MEMORY, True
        with open(front + ".words", encoding="utf-8") as file:
            self.words = file.read().split()
        with open(front + ".stdout", "rb") as file:
            self.report = file.read()
        if os.path.exists(front + ".status"):
            with open(front + ".status", encoding="ascii") as file:
                self.status = int(file.read())

    def whole(self):
        return self.status, self.report

    def reads_files(self):
        """Whether it reads a file for sure: what the words alone decide, and a file that is missing, may come before."""
        return self.status not in (2, 8) and self.words[0] != "demo" and not self.report.startswith(b"limit files")

    def word_of(self, file):
        """The word that names this file."""
        path = os.path.realpath(os.path.join(self.folder, file))
        return next(it for it in self.words if os.path.realpath(os.path.join(self.folder, it)) == path)


class Case(Example):
    """A case of eds_cases in a folder of its own."""

    def __init__(self, file, case, folder, reads, writes, takes_memory, takes_each):
        parts, wanted = case["parts"], case.get("today", case)
        self.reads, self.writes, self.takes_memory, self.takes_each = reads, writes, takes_memory, takes_each
        line = case_files.text_of(case["words"], parts)
        self.name, self.words, self.folder = f"{file}: {line[:80]}", line.split(" ") if line else [], folder
        self.status, self.report = wanted.get("status", 0), report_of(wanted, parts).encode()
        for name, content in case["files"].items():
            with open(os.path.join(folder, name), "wb") as it:
                it.write(case_files.octets_of(content, parts))


def report_of(wanted, parts):
    return case_files.text_of(wanted["written"], parts) if "written" in wanted else case_files.lines(wanted["report"], parts)


def all_cases(room):
    """The cases whose calls are those of real files."""
    for file, case in case_files.cases():
        if not {"reads", "writes"} & set(case):
            is_small = sum(len(case_files.octets_of(it, case["parts"])) for it in case["files"].values()) < 5000
            reads, writes = ((0, 100), (4,)) if is_small else ((0,), ())
            yield Case(file, case, tempfile.mkdtemp(dir=room), reads, writes, is_small, False)


def table(room, is_whole):
    """Each command of the table once."""
    mosts, met = (1, 3, 4096) if is_whole else (4096,), []
    for file, case in case_files.cases([TABLE]):
        command = case["words"], case["files"]
        if command not in met:
            met.append(command)
            yield Case(file, case, tempfile.mkdtemp(dir=room), mosts, mosts, is_whole, True)


def all_examples():
    found, top = [], os.path.join(TOP, "examples")
    for folder, _, files in sorted(os.walk(top)):
        fronts = [it[: -len(".words")] for it in sorted(files) if it.endswith(".words")]
        found += [os.path.join(os.path.relpath(folder, top), it) for it in fronts]
    return found


def run(program, words, told, **how):
    """The status and the output of a run. One that doesn't end has the status None."""
    how = {"stdin": subprocess.DEVNULL, "stdout": subprocess.PIPE, "cwd": TOP, "timeout": SECONDS, **how}
    try:
        ran = subprocess.run([program, *words], env=told, check=False, **how)
    except subprocess.TimeoutExpired:
        return None, b""
    return ran.returncode, ran.stdout or b""


# Files and outputs that fail by themselves


def differs(what, answer, wanted):
    """What was tried with its answer and the wanted one, or None where these are equal."""
    return None if answer == wanted else (what, answer, wanted)


def plain(program, room):
    """Tries files that are there and cannot be read, and outputs that take nothing. Gives what went wrong."""
    sheet = os.path.join(TOP, "examples/flat/sheet.json")
    circle = os.path.join(room, "circle.json")
    os.symlink("circle.json", circle)
    unread = [room, circle, sheet + "/below.json", "/proc/self/mem", os.path.join(room, "n" * 300)]
    for name in unread:
        wanted = 4, b"read fault %s\n" % name.encode()
        yield "check of " + name, run(program, ["check", name], {}), wanted
        yield "check of a sheet and " + name, run(program, ["check", sheet, name], {}), wanted
        yield "unpack of " + name, run(program, ["unpack", "Flat/Word", name, sheet], {}), wanted
    gone = os.path.join(room, "gone.json")
    yield "check of no file", run(program, ["check", gone], {}), (8, b"no file %s\n" % gone.encode())
    yield "check of no name", run(program, ["check", ""], {}), (8, b"no file \n")
    yield "check of no octets", run(program, ["check", "/dev/null"], {}), (1, b"refused 1 NotJson at 0:0\n")
    with open("/dev/full", "wb") as full:
        yield "a full output", run(program, ["check", sheet], {}, stdout=full), (5, b"")
    closed = ["-c", 'exec "$0" "$@" >&-', program, "check", sheet]
    yield "a closed output", run("/bin/sh", closed, {}), (5, b"")


# Calls that a preloaded library makes fail


def preloaded(program, library, room, example, fault):
    """The status and the output of a run, and the file of the call that failed, or None where none did."""
    handle, log = tempfile.mkstemp(dir=room)
    os.close(handle)
    told = {"FAULT_" + key: str(value) for key, value in fault.items()}
    answer = run(program, example.words, dict(told, LD_PRELOAD=library, FAULT_LOG=log), cwd=example.folder)
    with open(log, encoding="utf-8") as file:
        lines = file.read().splitlines()
    os.remove(log)
    return answer, lines[0] if lines else None


def sweeps(example):
    """What is tried of an example: each a fault, and the answer that it has to bring, by the file of the call that failed
    and the call's number."""

    def read_fault(_answer, file, _at):
        return 4, b"read fault %s\n" % example.word_of(file).encode()

    def no_file(_answer, file, _at):
        return 8, b"no file %s\n" % example.word_of(file).encode()

    def front(answer, _file, _at):
        return 5, example.report[: len(answer[1])]

    def front_of(most):
        return lambda _answer, _file, at: (5, example.report[: most * (at - 1)])

    def no_memory(answer, _file, _at):
        return example.whole() if answer == example.whole() else (6, b"")

    for most in example.reads:
        yield dict(CALL="read", ERROR=errno.EIO, MOST=most), read_fault
    yield dict(CALL="read", ERROR=errno.EIO, FROM=1), read_fault
    for error in (errno.EACCES, errno.EIO, errno.EMFILE):
        yield dict(CALL="open", ERROR=error), read_fault
    yield dict(CALL="open", ERROR=errno.ENOENT), no_file
    for error in (errno.EIO, errno.ENOSPC, 0):
        yield dict(CALL="write", ERROR=error), front
    for most in example.writes:
        yield dict(CALL="write", ERROR=errno.EIO, MOST=most), front_of(most)
    if example.takes_memory:
        yield dict(CALL="malloc"), no_memory
        yield dict(CALL="malloc", FROM=1), no_memory


def sweep(program, library, room, example, fault, wanted):
    """Lets the call of each number fail in turn, until none does; of a case that is in no table not each one past a thousand.
    Gives what was tried: None where it was well, else with its answer and the wanted one."""
    at, tried = 0, []
    while True:
        at += 1 + (0 if example.takes_each else at // 1000)
        told = dict(fault, AT=at)
        answer, file = preloaded(program, library, room, example, told)
        if answer[0] is None or file is None:
            tried.append(differs(example.name + " after the last call", answer, example.whole()))
            break
        tried.append(differs("%s with %s" % (example.name, told), answer, wanted(answer, file, at)))
    if at == 1 and (example.reads_files() or fault["CALL"] in ("write", "malloc")):
        # a library that meets no call at all would show nothing
        tried.append(differs("%s with %s" % (example.name, fault), "met no call", "a call"))
    return tried


def taken(words, room):
    """What is taken: examples, cases and the table."""
    if "--table" in words:
        return list(table(room, True))
    if "--all" in words:
        return [*(Example(it, True) for it in all_examples()), *table(room, True), *all_cases(room)]
    return [*(Example(it, False) for it in FEW), *table(room, False)]


def main():
    words = [it for it in sys.argv[1:] if not it.startswith("--")]
    program = os.path.abspath(words[0]) if words else os.path.join(TOP, "crates/eds_prog/out/eds_prog")
    with tempfile.TemporaryDirectory(prefix="eds-faults-") as room:
        tried = [differs(*it) for it in plain(program, room)]
        if shutil.which("cc"):
            library = os.path.join(room, "faults.so")
            source = os.path.join(TOP, ".ci", "faults.c")
            subprocess.run(["cc", "-shared", "-fPIC", "-O2", "-o", library, source], check=True)
            todo = [(example, *it) for example in taken(sys.argv[1:], room) for it in sweeps(example)]
            with ThreadPoolExecutor(os.cpu_count()) as pool:
                for found in pool.map(lambda it: sweep(program, library, room, *it), todo):
                    tried += found
        else:
            print("faults: no C compiler is here, so no call was made to fail")
    failed = list(filter(None, tried))
    for it in failed:
        print(("faults: %s: %r in place of %r" % it)[:2000])
    print("faults: %d passed, %d failed" % (len(tried) - len(failed), len(failed)))
    return 1 if failed else 0


if __name__ == "__main__":
    sys.exit(main())
