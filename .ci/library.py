#!/usr/bin/env python3
"""Tries the library for C, and the Python module over it, on the cases of crates/eds_cases/data.

  .ci/library.py [--all | --fuzz SECONDS]

The library is the proved one that `make -C bindings` left in crates/eds_c/out, where no source is younger. Else, as in the gate,
which proves eds_c but builds no static library of it, tools/quick builds one of the same sources without a proof, and that is
said. The environment's EDS_C may name another static library.

Each case is a request to library.c, which holds status and report octet by octet to what the case wants, in rooms of no octet, of
one, of the exact size and of one octet less. Small requests are cut behind each octet, and with these each allocation is refused
in turn. One case in ten runs in four threads at once, one in ten under AddressSanitizer and one in 200 under valgrind, where these
are there. One in ten runs through the Python module, whose wheel is made and unpacked for that, and the examples of bindings and
of docs/LIBRARY.md print what they have to. With --all each case runs in threads and under AddressSanitizer, and one in 20 under
valgrind. --fuzz changes octets of requests at random for so many seconds: a call has to answer, and leave alone what it doesn't
own.
"""

import os
import random
import re
import shutil
import struct
import subprocess
import sys
import tempfile
import zipfile

sys.dont_write_bytecode = True
import cases as case_files  # noqa: E402

TOP = os.path.dirname(os.path.dirname(os.path.abspath(__file__)))
sys.path.insert(0, os.path.join(TOP, "tools"))
import packet_types  # noqa: E402

PROVED = os.path.join(TOP, "crates/eds_c/out/libeds_c.a")
BINDINGS = os.path.join(TOP, "bindings")
EXAMPLES = os.path.join(BINDINGS, "examples")
# Requests of at most so many octets are cut and refused memory; there are enough of them.
SMALL, FEW = 1500, 40
# One case of so many, in threads and under AddressSanitizer, and under valgrind; with --all
SAMPLE, ALL = (10, 200), (1, 20)
# Requests of at most so many octets are changed at random.
CHANGED = 20_000
STRICT = ["-Wall", "-Wextra", "-Werror", "-pedantic"]


class Failed(Exception):
    """What went another way than it has to."""


class Lacking(Exception):
    """What isn't here, so that nothing can be tried."""


def must(words, **how):
    """The output of a command that has to end well."""
    ran = subprocess.run(words, stdin=subprocess.DEVNULL, stdout=subprocess.PIPE, stderr=subprocess.STDOUT, check=False, **how)
    if ran.returncode:
        raise Failed(f"{' '.join(map(str, words))[:200]} ended with status {ran.returncode}: {ran.stdout.decode(errors='replace')[-2000:]}")
    return ran.stdout.decode(errors="replace")


# ---- requests


def block(fields):
    return b"".join(struct.pack("<I", len(it)) + it for it in fields)


def ends(fields, each):
    """After how many octets a block may be cut so that whole groups of so many fields are left."""
    at, found = 0, []
    for number, field in enumerate(fields):
        if number % each == 0:
            found.append(at)
        at += 4 + len(field)
    return found


class Request:
    """A case: its words and files as fields, and the status and the report that are wanted."""

    def __init__(self, name, case):
        parts, wanted = case["parts"], case.get("today", case)
        line = case_files.text_of(case["words"], parts)
        self.name, self.status = f"{name}: {line[:100]}", wanted.get("status", 0)
        self.words = [it.encode() for it in line.split(" ")] if line else []
        self.files = [it for file, text in case["files"].items() for it in (file.encode(), case_files.octets_of(text, parts))]
        written = "written" in wanted
        self.report = (case_files.text_of(wanted["written"], parts) if written else case_files.lines(wanted["report"], parts)).encode()

    def size(self):
        return sum(map(len, self.words + self.files))

    def written(self):
        """The request as library.c reads it."""
        numbers = [b"".join(struct.pack("<Q", it) for it in ends(*of)) for of in ((self.words, 1), (self.files, 2))]
        parts = [block(self.words), block(self.files), self.report, *numbers]
        return struct.pack("<Q", self.status) + b"".join(struct.pack("<Q", len(it)) + it for it in parts)


def all_requests():
    return [Request(*it) for it in case_files.cases() if not {"reads", "writes"} & set(it[1])]


def few(requests):
    """Small requests, of as many commands and statuses as there are."""
    found = {}
    for it in sorted(requests, key=Request.size):
        kind = found.setdefault((*it.words[:1], it.status), [])
        # a demonstration makes its own sheet, and a storm a long report or very many deliveries, however small the request is
        is_storm = it.words[:1] == [b"demo"] or it.words[:1] in ([b"run"], [b"replay"]) and it.status == 7
        if max(it.size(), len(it.report)) <= SMALL and len(kind) < 3 and not is_storm:
            kind.append(it)
    return [it for kind in found.values() for it in kind][:FEW]


def put(requests, file):
    with open(file, "wb") as out:
        out.write(struct.pack("<Q", len(requests)) + b"".join(it.written() for it in requests))
    return file


# ---- the library and its callers


def static_library():
    """The static library to be tried."""
    if os.environ.get("EDS_C"):
        return os.path.abspath(os.environ["EDS_C"])
    if packet_types.is_newest(PROVED):
        return PROVED
    print("library: no proved static library is here, so one of the same sources is tried that tools/quick builds without a proof", flush=True)
    ran = subprocess.run([os.path.join(TOP, "tools/quick"), "eds_c"], stdin=subprocess.DEVNULL, stdout=subprocess.PIPE, check=False)
    if ran.returncode == 3:
        raise Lacking("the toolchain in use builds nothing without a proof")
    if ran.returncode:
        raise Failed(f"tools/quick eds_c ended with status {ran.returncode}")
    return ran.stdout.decode().strip()


def make(room):
    """Makes and installs the library below a folder, and gives that."""
    settings = {**os.environ, "MAKEFLAGS": ""}
    must(["make", "-C", BINDINGS, "install", f"BUILD={room}/out", f"PREFIX={room}/usr", f"PROVED={static_library()}"], env=settings)
    shown = must(["nm", "-D", "--defined-only", f"{room}/usr/lib/libeds.so.0"]).split()
    if shown[2:] != ["eds_call"] or shown[1] != "T":
        raise Failed(f"the shared library shows {shown}")
    return f"{room}/usr"


def driver(usr, room, name, *how):
    """The program library.c over the static library."""
    made = os.path.join(room, name)
    words = ["cc", "-O1", "-g", "-std=gnu11", "-Wall", "-Wextra", "-Werror", f"-I{usr}/include", *how]
    must([*words, "-o", made, os.path.join(TOP, ".ci", "library.c"), f"{usr}/lib/libeds.a", "-lpthread"])
    return made


def drive(words, tally, what, **how):
    """Runs library.c, and counts what it tried."""
    ran = subprocess.run(words, stdin=subprocess.DEVNULL, capture_output=True, check=False, **how)
    *said, last = ran.stdout.decode(errors="replace").split("\n")[:-1] or [""]
    numbers = last.split()
    if ran.returncode not in (0, 1) or len(numbers) != 2:
        raise Failed(f"{what}: status {ran.returncode}: {ran.stderr.decode(errors='replace')[-2000:]}")
    print(*said, sep="\n", end="\n" * bool(said))
    tally(what, int(numbers[0]) - int(numbers[1]), int(numbers[1]))
    sys.stdout.flush()


# ---- what is tried


def with_c(usr, room, requests, each, tally):
    every, some, small = (put(it, f"{room}/{name}") for name, it in (("every", requests), ("some", requests[::each]), ("small", few(requests))))
    plain = driver(usr, room, "plain")
    drive([plain, "rooms", every], tally, "rooms")
    drive([plain, "cuts", small], tally, "cuts")
    drive([plain, "threads", some], tally, "threads")
    wraps = [f"-Wl,--wrap={it}" for it in ("malloc", "realloc", "free")]
    drive([driver(usr, room, "wrapped", "-DWRAPPED", *wraps), "memory", small], tally, "memory")


def with_sanitizer(usr, room, tally):
    try:
        checked = driver(usr, room, "checked", "-fsanitize=address,undefined")
    except Failed:
        return print("library: AddressSanitizer isn't here, so nothing ran under it")
    settings = {**os.environ, "ASAN_OPTIONS": "detect_leaks=1"}
    for mode, file in (("rooms", "some"), ("cuts", "small")):
        drive([checked, mode, f"{room}/{file}"], tally, f"{mode} under AddressSanitizer", env=settings)


def with_valgrind(room, requests, each, tally):
    if not shutil.which("valgrind"):
        return print("library: valgrind isn't here, so nothing ran under it")
    few_of_all = put(requests[::each], f"{room}/few")
    how = ["valgrind", "-q", "--leak-check=full", "--errors-for-leak-kinds=all", "--error-exitcode=99"]
    drive([*how, f"{room}/plain", "rooms", few_of_all], tally, "rooms under valgrind")


# The examples: source, compilers with their words, the words of a command, and what it prints.
EXAMPLES_OF = [
    ("unpack.c", (("cc", "-std=c99"), ("g++", "-x", "c++")), "unpack Flat/Word examples/flat/frame.hex examples/flat/sheet.json", "examples/flat/unpack.stdout"),
    ("split.cpp", (("g++", "-std=c++17"),), "split Space/Packet examples/split/packets.bin examples/ccsds/sheet.json", "examples/split/split.stdout"),
    ("split.cpp", (("g++", "-std=c++17"),), "split Space/Packet examples/split/noise.bin examples/ccsds/sheet.json", "examples/split/noise.stdout"),
]  # fmt: skip


def examples(usr, room, tally):
    """Each example in C and in C++, compiled as its page says, statically and not, and the one in C as C++ too."""
    settings = {**os.environ, "PKG_CONFIG_PATH": f"{usr}/lib/pkgconfig", "LD_LIBRARY_PATH": f"{usr}/lib"}
    flags = [f"-I{usr}/include", f"-L{usr}/lib", "-leds"]
    if shutil.which("pkg-config"):
        flags = must(["pkg-config", "--cflags", "--libs", "eds"], env=settings).split()
    else:
        print("library: pkg-config isn't here, so what it says of the library wasn't read")
    for source, compilers, line, wanted_in in EXAMPLES_OF:
        with open(os.path.join(TOP, wanted_in), "rb") as file:
            wanted = file.read()
        for compiler, *how in compilers:
            if not shutil.which(compiler):
                print(f"library: {compiler} isn't here, so {source} wasn't compiled by it")
                continue
            for link in (flags, [f"-I{usr}/include", "-x", "none", f"{usr}/lib/libeds.a"]):
                must([compiler, *how, *STRICT, "-o", f"{room}/example", os.path.join(EXAMPLES, source), *link])
                ran = subprocess.run([f"{room}/example", *line.split()[1:]], cwd=TOP, env=settings, stdout=subprocess.PIPE, check=False)
                is_well = ran.stdout == wanted and ran.returncode == (3 if b"fault" in wanted else 0)
                if not is_well:
                    print(f"library: {source} prints {ran.stdout[:300]}, status {ran.returncode}")
                tally("examples in C and C++", is_well, not is_well)


def shown(kind):
    """An example of the page, and what stands there that it prints."""
    with open(os.path.join(TOP, "docs", "LIBRARY.md"), encoding="utf-8") as file:
        found = re.search(rf"```{kind}\n(.*?)```.*?```text\n(.*?)```", file.read(), re.S)
    return found.groups()


def page(usr, room, tally):
    """The example in C that the page shows."""
    source, wanted = shown("c")
    with open(f"{room}/first.c", "w", encoding="utf-8") as file:
        file.write(source)
    must(["cc", *STRICT, "-std=c99", f"-I{usr}/include", "-o", f"{room}/first", f"{room}/first.c", f"{usr}/lib/libeds.a"])
    printed = must([f"{room}/first"])
    tally("the page", printed == wanted, printed != wanted)


def wheel(room):
    """Makes the wheel as pip does, and unpacks it. Gives the folder."""
    pip = [sys.executable, "-m", "pip", "wheel", "-q", "--no-deps", "--no-index", "--no-build-isolation"]
    settings = {**os.environ, "BUILD": f"{room}/out", "PIP_DISABLE_PIP_VERSION_CHECK": "1", "PYTHONDONTWRITEBYTECODE": "1"}
    if subprocess.run([*pip[:3], "--version"], capture_output=True, check=False).returncode:
        print("library: pip isn't here, so the wheel was made without it")
        must([sys.executable, "-c", f"import backend; backend.build_wheel({room!r})"], cwd=f"{BINDINGS}/python", env=settings)
    else:
        must([*pip, "-w", room, f"{BINDINGS}/python"], env=settings)
    made = next(it for it in os.listdir(room) if it.endswith(".whl"))
    with zipfile.ZipFile(f"{room}/{made}") as file:
        file.extractall(f"{room}/site")
    return f"{room}/site"


def with_python(room, requests, tally):
    site = wheel(room)
    sys.path.insert(0, site)
    os.environ.pop("EDS_LIBRARY", None)
    import eds

    for it in requests[::10]:
        got = eds.library.call(block(it.words), block(it.files))
        is_well = got == (it.status, it.report)
        if not is_well:
            print(f"library: {it.name}: {got!r} in place of {(it.status, it.report)!r}"[:1000])
        tally("cases in Python", is_well, not is_well)
    settings = {**os.environ, "PYTHONPATH": site, "PYTHONDONTWRITEBYTECODE": "1"}
    print(must([sys.executable, os.path.join(TOP, ".ci", "module.py")], cwd=TOP, env=settings), end="")
    tally("the module", 1, 0)
    source, wanted = shown("python")
    printed = must([sys.executable, "-c", source], cwd=TOP, env=settings)
    tally("the page", printed == wanted, printed != wanted)


def fuzz(usr, room, requests, seconds):
    """Changes octets of requests for so many seconds, and runs them under AddressSanitizer: each has to be answered."""
    checked = driver(usr, room, "checked", "-fsanitize=address,undefined")
    requests = [it for it in requests if 0 < it.size() <= CHANGED and it.words[:1] != [b"demo"]]
    until, tried = os.times().elapsed + seconds, 0
    while os.times().elapsed < until:
        changed = []
        for it in random.sample(requests, 50):
            words, files = bytearray(block(it.words)), bytearray(block(it.files))
            for octets in filter(len, random.choices((words, files), k=3)):
                octets[random.randrange(len(octets))] = random.randrange(256)
            changed.append((bytes(words), bytes(files)))
        parts = (b"".join(struct.pack("<Q", len(part)) + part for part in (*it, b"", b"", b"")) for it in changed)
        with open(f"{room}/fuzz", "wb") as file:
            file.write(struct.pack("<Q", len(changed)) + b"".join(struct.pack("<Q", 0) + it for it in parts))
        ran = subprocess.run([checked, "survives", f"{room}/fuzz"], capture_output=True, check=False)
        if ran.returncode:
            shutil.copy(f"{room}/fuzz", "/tmp/eds-library-fuzz")
            raise Failed(f"fuzz: {ran.stderr.decode(errors='replace')[-2000:]} (the requests are kept in /tmp/eds-library-fuzz)")
        tried += len(changed)
    print(f"library: {tried} changed requests, each answered")
    return 0


def main(words):
    counts = {}

    def tally(what, passed, failed):
        before = counts.get(what, (0, 0))
        counts[what] = before[0] + passed, before[1] + failed

    if not shutil.which("cc") or not shutil.which("make"):
        print("library: no C compiler or no make is here, so nothing was tried")
        return 0
    requests = all_requests()
    with tempfile.TemporaryDirectory(prefix="eds-library-") as room:
        try:
            usr = make(room)
            if words[:1] == ["--fuzz"]:
                return fuzz(usr, room, requests, float(words[1]))
            each, each_slow = ALL if words == ["--all"] else SAMPLE
            with_c(usr, room, requests, each, tally)
            with_sanitizer(usr, room, tally)
            with_valgrind(room, requests, each_slow, tally)
            examples(usr, room, tally)
            page(usr, room, tally)
            with_python(room, requests, tally)
        except Lacking as why:
            print(f"library: {why}, so nothing was tried")
        except Failed as why:
            print(f"library: {why}")
            tally("steps", 0, 1)
    for what, (passed, failed) in counts.items():
        print(f"library: {what}: {passed} passed, {failed} failed")
    return 1 if any(failed for _, failed in counts.values()) else 0


if __name__ == "__main__":
    sys.exit(main(sys.argv[1:]))
