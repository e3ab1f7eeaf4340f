#!/usr/bin/env python3
"""Tries the way to a first answer without a proof (./eds and tools/quick), in copies of the repository with nothing built.

  .ci/quick.py

One copy has the sources as they stand: ./eds has to answer the first command of the README, and then run the fast program
that follows; how long both took is told at the end. In the others a stand-in of some lines takes the program's place, which
the toolchain builds in seconds: two starts at once, a source that is edited, builds that are interrupted, sources that are
refused, a toolchain that hands out nothing, and a program that is proved.
"""

import glob
import os
import re
import shutil
import signal
import subprocess
import sys
import tempfile
import time
from concurrent.futures import ThreadPoolExecutor

TOP = os.path.dirname(os.path.dirname(os.path.realpath(__file__)))
# What nothing here takes, however many others use the machine.
SECONDS = 3600
QUICK = "crates/eds_prog/out/quick"
WORDS = ["unpack", "Flat/Word", "examples/flat/frame.hex", "examples/flat/sheet.json"]
UNPROVED = "eds: this program is not proved on this machine yet; tools/build or rt ci proves it\n"
SOURCE = "crates/eds_prog/src/main.rt"
STAND_IN = """//! Answers one command, and ends with status 7 otherwise.
#![tactic(auto)]

use std::env;
use std::process::ExitCode;

fn main(rt: HostRuntime) -> ExitCode {
    let Ok(words) = env::args(&rt) else {
        return ExitCode::from(9);
    };
    for word in words.skip(1) {
        if word.as_str() == "unpack" {
            return match println!(rt; "{{\\"$type\\":\\"Flat/Word\\",\\"a\\":1,\\"b\\":564}}\\nbits 16") {
                Ok(()) => ExitCode::from(0),
                Err(_) => ExitCode::from(5),
            };
        }
    }
    ExitCode::from(7)
}
"""
# What stands for tools/build here: it makes no proof, and a program that says so.
BUILDS = """#!/bin/sh
printf '#!/bin/sh\\necho proved\\n' >"$(dirname "$0")/../crates/eds_prog/out/eds_prog"
chmod +x "$(dirname "$0")/../crates/eds_prog/out/eds_prog"
touch "$(dirname "$0")/../crates/eds_prog/out/built-for-eds"
"""


def write(path, text, mode=0o644):
    os.makedirs(os.path.dirname(path), exist_ok=True)
    with open(path, "w", encoding="utf-8") as file:
        file.write(text)
    os.chmod(path, mode)


class Copy:
    """A copy of the repository in a folder of its own, with its own folder for temporary files."""

    def __init__(self, room, name, stands_in=True):
        self.top, self.temporary = os.path.join(room, f"a copy, {name}"), os.path.join(room, f"temporary, {name}")
        os.makedirs(self.temporary)
        left_out = shutil.ignore_patterns("out", ".git", *["crates", "crates.txt"] * stands_in)
        shutil.copytree(TOP, self.top, ignore=left_out)
        self.env = {**os.environ, "TMPDIR": self.temporary}
        self.env.pop("HOME", None)
        if stands_in:
            write(os.path.join(self.top, "crates.txt"), "eds_prog:\n")
            write(os.path.join(self.top, SOURCE), STAND_IN)
            write(os.path.join(self.top, "tools/build"), BUILDS, 0o755)

    def start(self, *words):
        """Starts ./eds as a leader of its own, as a shell does."""
        how = {"stdin": subprocess.DEVNULL, "stdout": subprocess.PIPE, "stderr": subprocess.PIPE, "text": True}
        return subprocess.Popen(["./eds", *words], cwd=self.top, env=self.env, start_new_session=True, **how)

    def eds(self, *words):
        """The status of ./eds, what it printed and what it said."""
        ran = self.start(*words)
        printed, said = ran.communicate(timeout=SECONDS)
        return ran.returncode, printed, said

    def edit(self, old, new):
        """Edits the source so that neither its size nor its time tells it."""
        path = os.path.join(self.top, SOURCE)
        times = os.stat(path)
        with open(path, encoding="utf-8") as file:
            text = file.read()
        write(path, text.replace(old, new))
        os.utime(path, ns=(times.st_atime_ns, times.st_mtime_ns))

    def kept(self, end=""):
        return [it for it in glob.glob(os.path.join(glob.escape(self.top), QUICK, f"eds_prog-*{end}")) if end or "." not in os.path.basename(it)]

    def is_clean(self):
        """Whether nothing half-made is there, among the temporary files neither."""
        return not os.listdir(self.temporary) and not self.kept(".part")

    def wait_until(self, holds):
        ends = time.monotonic() + SECONDS
        while not holds():
            if time.monotonic() > ends:
                return False
            time.sleep(0.2)
        return True

    def wait_for_fast(self):
        """Waits until the program is optimised: then no module stands beside it."""
        return self.wait_until(lambda: self.kept() and not self.kept(".module") and self.is_clean())


PASSED, FAILED = [], []


def want(what, got, wanted=True):
    (PASSED if got == wanted else FAILED).append(what)
    if got != wanted:
        print(f"{what}\n  wanted {wanted!r}\n  got    {got!r}", flush=True)


def printed():
    with open(os.path.join(TOP, "examples/flat/unpack.stdout"), encoding="utf-8") as file:
        return file.read()


def the_program(room):
    """The sources as they stand. Gives how long the first answer took, and the fast program."""
    copy, begun = Copy(room, "whole", stands_in=False), time.monotonic()
    status, answer, said = copy.eds(*WORDS)
    first = time.monotonic() - begun
    want("the first command of the README", (status, answer), (0, printed()))
    want("it is said that the program isn't proved", said.endswith(UNPROVED) and said.count(UNPROVED) == 1)
    status, answer, said = copy.eds("check", "no such file")
    want("a status is passed on", (status, answer, said), (8, "no file no such file\n", UNPROVED))
    want("a fast program follows", copy.wait_for_fast())
    want("the fast program answers", copy.eds(*WORDS), (0, printed(), UNPROVED))
    return first, time.monotonic() - begun


def a_stand_in(room):
    """Two starts at once, and then an edit."""
    copy = Copy(room, "stand-in")
    started = [copy.start(*WORDS) for _ in range(2)]
    ended = [it.communicate(timeout=SECONDS) for it in started]
    want("two starts at once answer", [(it.returncode, ended[at][0]) for at, it in enumerate(started)], [(0, printed())] * 2)
    saying = sorted("another start is building" in said for _, said in ended)
    want("one of two starts at once waits for the other", saying, [False, True])
    want("both say that the program isn't proved", all(said.endswith(UNPROVED) for _, said in ended))
    want("a fast program follows the stand-in", copy.wait_for_fast())
    want("a kept program runs with one line", copy.eds(), (7, "", UNPROVED))
    without = {**copy.env, "PATH": "/usr/bin:/bin"}
    if not shutil.which("rt", path=without["PATH"]) and shutil.which("python3", path=without["PATH"]):
        ran = subprocess.run(["./eds"], cwd=copy.top, env=without, capture_output=True, text=True, check=False)
        want("a kept program needs no toolchain", (ran.returncode, ran.stderr), (7, UNPROVED))
    copy.edit("from(7)", "from(8)")
    status, _, said = copy.eds()
    want("an edited source is built anew", (status, "without its proof" in said), (8, True))
    copy.wait_for_fast()
    want("the program of the old source is gone", len(copy.kept()), 1)
    copy.edit("bits 16", "bits 61")
    status, answer, said = copy.eds()
    want("a program that answers wrongly isn't run", (status, answer, "rightly" in said), (0, "proved\n", True))
    want("nothing of it is left", (copy.is_clean(), copy.kept(), copy.kept(".module")), (True, [], []))
    want("a proved program runs without a word", copy.eds(), (0, "proved\n", ""))


def interrupted(room):
    """Builds that are ended in their midst, in order and for good."""
    copy = Copy(room, "interrupted")
    at_work = lambda: glob.glob(os.path.join(glob.escape(copy.temporary), "*", "tmp", "*", "*"))
    started = copy.start(*WORDS)
    copy.wait_until(at_work)
    os.killpg(started.pid, signal.SIGTERM)
    _, said = started.communicate(timeout=SECONDS)
    want("a build that is told to end does so", "eds: interrupted" in said and started.returncode != 0)
    want("a build that was told to end leaves nothing", (copy.wait_until(copy.is_clean), copy.kept(), copy.kept(".module")), (True, [], []))
    started = copy.start(*WORDS)
    copy.wait_until(at_work)
    os.killpg(started.pid, signal.SIGKILL)
    started.communicate(timeout=SECONDS)
    want("a build that is killed leaves no program", (copy.kept(), copy.kept(".module")), ([], []))
    want("the next start builds it", copy.eds(*WORDS)[:2], (0, printed()))
    want("what a killed start left is removed", copy.wait_for_fast())


def other_toolchains(room):
    """Sources that are refused, no toolchain, and one that hands out no module."""
    copy = Copy(room, "refused")
    copy.edit("from(7)", "from(7")
    status, _, said = copy.eds()
    want("refused sources are told by their place", (status, "a copy, refused/crates/eds_prog/src/main.rt" in said or "src/main.rt:" in said), (125, True))
    want("refused sources leave nothing", (copy.is_clean(), copy.kept()), (True, []))
    copy.edit("from(7", "from(7)")
    rt, kit = os.path.join(room, "kit/bin/rt"), os.path.dirname(os.path.dirname(os.path.realpath(shutil.which("rt"))))
    for it in ("bin/rattle-link", "toolchain", "c"):
        os.makedirs(os.path.dirname(os.path.join(room, "kit", it)), exist_ok=True)
        os.symlink(os.path.join(kit, it), os.path.join(room, "kit", it))
    write(rt, "#!/bin/sh\nexit 2\n", 0o755)
    copy.env["PATH"] = f"{os.path.dirname(rt)}:{os.environ['PATH']}"
    status, answer, said = copy.eds()
    want("without a module it is built through its proof", (status, answer, "no module" in said and "through its proof" in said), (0, "proved\n", True))
    os.remove(os.path.join(copy.top, "crates/eds_prog/out/built-for-eds"))
    os.remove(os.path.join(room, "kit/toolchain"))
    status, answer, said = copy.eds()
    want("without clang it is built through its proof", (status, answer, "it has no toolchain/bin/clang" in said), (0, "proved\n", True))


def main():
    with tempfile.TemporaryDirectory() as room, ThreadPoolExecutor() as pool:
        whole = pool.submit(the_program, room)
        others = [pool.submit(it, room) for it in (a_stand_in, interrupted, other_toolchains)]
        for it in others:
            it.result()
        first, fast = (re.sub(r"^(\d+)$", lambda it: f"{int(it[1]) // 60}:{int(it[1]) % 60:02}", str(int(it))) for it in whole.result())
    print(f"quick: {len(PASSED)} passed, {len(FAILED)} failed; the first answer came after {first}, the fast program after {fast}")
    return 1 if FAILED else 0


if __name__ == "__main__":
    sys.exit(main())
