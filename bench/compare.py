#!/usr/bin/env python3
"""Compares the program with bench/model, a second reading of the rules, on random sheets, frames, values and scripts.

  bench/compare.py [--runs N] [--seed S] [--stage WORDS] [--jobs J] [PROGRAM]

PROGRAM is a built program (by default crates/eds_prog/out/eds_prog), or `-` for the model alone. A run is one sheet: it is
checked, and where it is accepted, frames and values of its types are read and packed, and packets are split. WORDS say what
sheets may hold: `built`, `whole`, `scalars`, or words of `EVERYTHING` in bench/model/run_model.py with commas between them.
With `runs` sheets have components, and where they are accepted, scripts are run over them; with `sessions` these hold
recordings of what is sent, right and wrong ones, and are replayed; with `snapshots`, of which the model alone (`-`) knows, they
are cut at some places, and the rest goes on from the snapshot of what stands before it, or from one with something changed. With
`recordings` the containers of an accepted sheet split recordings of some hundred packets each, with `templates` those of a sheet
whose parts stand at fixed places. With `changed` a run is one of bench/fuzz.py: a command of the cases and examples, of whose
files some are changed. Each difference is printed with its words and files. The last lines count the answers, of scripts what
their runs show, the packets, and the differences. The same seed makes the same inputs.
"""

import argparse
import collections
import functools
import os
import random
import re
import signal
import subprocess
import sys
import tempfile
import traceback
from concurrent.futures import ProcessPoolExecutor

TOP = os.path.dirname(os.path.dirname(os.path.abspath(__file__)))
sys.dont_write_bytecode = True
sys.path.insert(0, os.path.join(TOP, "bench/model"))
import fuzz  # noqa: E402
import gen  # noqa: E402
import gen_components  # noqa: E402
import gen_scripts  # noqa: E402
import gen_sessions  # noqa: E402
import gen_snapshots  # noqa: E402
import gen_templates  # noqa: E402
import run_model  # noqa: E402
import runs  # noqa: E402

TYPES, INPUTS, SCRIPTS, PACKETS = 4, 3, 4, 400
PATIENCE = 5  # seconds for one answer of the model: 10,000 firings of 100,000 statements would take days


class Slow(Exception):
    """The model has no answer in time."""


def lose_patience(*_):
    raise Slow


def in_time(made, *arguments):
    """What the model makes of some arguments, or None where it takes too long."""
    signal.signal(signal.SIGALRM, lose_patience)
    signal.setitimer(signal.ITIMER_REAL, PATIENCE)
    try:
        return made(*arguments)
    except Slow:
        return None
    finally:
        signal.setitimer(signal.ITIMER_REAL, 0)


def run(program, words, files):
    """The status and the report of the program."""
    with tempfile.TemporaryDirectory(prefix="eds-compare-") as room:
        for name, octets in files.items():
            with open(os.path.join(room, name), "wb") as file:
                file.write(octets)
        ran = subprocess.run([program, *words], cwd=room, stdin=subprocess.DEVNULL, capture_output=True, check=False)
    return ran.returncode, (ran.stdout + ran.stderr).decode("utf-8", "replace")


def inputs(dice, sheet, stage):
    """Words and an input file for an accepted sheet: frames and values of some of its types, mostly containers."""
    types = run_model.judged(list(sheet.values()), None, stage).types
    types.sort(key=lambda it: (it.kind != "Container") + dice.random())
    for word in [it.name for it in types[:TYPES]] + [dice.choice(gen.TYPE_NAMES + gen.FACE_NAMES)]:
        try:
            judge = run_model.judged(list(sheet.values()), word, stage)
        except run_model.m.Refused:
            yield ["unpack", word], b"00"
            continue
        for _ in range(INPUTS):
            yield ["unpack", word], gen.frame_text(dice, judge, judge.word)
            yield ["pack", word], gen.value_text(dice, judge, judge.word)
        yield ["split", word], gen.packets(dice, judge, judge.word)


def accepted(sheet, stage):
    """The model's judge of a sheet, or None where it is refused."""
    try:
        return run_model.judged(list(sheet.values()), None, stage)
    except run_model.m.Refused:
        return None


def of_values(seed, stage):
    """The words and files of one run: a check, and frames and values where the sheet is accepted."""
    dice = random.Random(seed)
    sheet = {f"sheet{at}": octets for at, octets in enumerate(gen.case(dice, stage))}
    yield ["check", *sheet], sheet
    if accepted(sheet, stage):
        for words, octets in inputs(dice, sheet, stage):
            yield [*words, "input", *sheet], {**sheet, "input": octets}


def of_lines(dice, sheet, stage, command, made):
    """The words and files of one run: a check, and commands over texts of lines that are made where the sheet is accepted."""
    sheet = {"sheet": sheet}
    yield ["check", "sheet"], sheet
    judge = accepted(sheet, stage)
    for _ in range(SCRIPTS if judge else 0):
        octets = in_time(made, dice, judge)
        if octets is not None:
            yield [command, "lines", "sheet"], {**sheet, "lines": octets}


def of_scripts(seed, stage):
    """The words and files of one run: scripts."""
    yield from of_lines(random.Random(seed), gen_components.octets(gen_components.case(seed)), stage, "run", gen_scripts.script)


def of_sessions(seed, stage):
    """The words and files of one run: sessions, which hold recordings besides."""
    dice = random.Random(seed)
    yield from of_lines(dice, gen_sessions.sheet(seed, dice), stage, "replay", gen_sessions.session)


def of_snapshots(seed, stage):
    """The words and files of one run: scripts that are cut, snapshots of their fronts, and rests that go on from these."""
    dice = random.Random(seed)
    for words, files in of_lines(dice, gen_components.octets(gen_components.case(seed)), stage, "run", gen_scripts.script):
        yield words, files
        if words[0] == "run":
            yield from cut(dice, files, stage)


def cut(dice, files, stage):
    """The words and files of a script that is cut at some places. Both parts come to what the whole comes to, or the model is wrong."""
    def answer(words, files):
        return in_time(run_model.answer, words, files, stage)

    whole = answer(["run", "lines", "sheet"], files)
    for front, rest, lines in gen_snapshots.parts(dice, files["lines"]) if whole else ():
        before = {"sheet": files["sheet"], "lines": front}
        snap, told = answer(["snapshot", "lines", "sheet"], before), answer(["run", "lines", "sheet"], before)
        yield ["snapshot", "lines", "sheet"], before
        if snap is None or told is None or snap[0]:
            continue
        behind = {"sheet": files["sheet"], "snap": snap[1].encode(), "lines": rest}
        more = answer(["resume", "snap", "lines", "sheet"], behind)
        yield ["resume", "snap", "lines", "sheet"], behind
        if more is not None and not gen_snapshots.joined(told, more, whole, lines):
            raise AssertionError(f"{told} and {more} aren't {whole}")
        yield ["resume", "snap", "lines", "sheet"], {**behind, "snap": gen_snapshots.spoiled(dice, snap[1])}


def of_recordings(seed, stage):
    """The words and files of one run: recordings of many packets of an accepted sheet's containers."""
    dice = random.Random(seed)
    yield from recorded(dice, {f"sheet{at}": octets for at, octets in enumerate(gen.case(dice, stage))}, stage)


def of_templates(seed, stage):
    """The same of a sheet whose parts stand at fixed places."""
    dice = random.Random(seed)
    yield from recorded(dice, {"sheet": gen_templates.sheet(dice)}, stage)


def recorded(dice, sheet, stage):
    """The words and files of recordings of an accepted sheet's containers."""
    if not accepted(sheet, stage):
        return
    for word in [it.name for it in run_model.judged(list(sheet.values()), None, stage).types if it.kind == "Container"]:
        try:
            judge = run_model.judged(list(sheet.values()), word, stage)
        except run_model.m.Refused:
            continue
        yield ["split", word, "input", *sheet], {**sheet, "input": gen.recording(dice, judge, judge.word, PACKETS)}


@functools.cache
def seeds():
    return fuzz.Seeds()


def of_changed(seed, _):
    """The words and files of one run: a command of the cases and examples with changed files."""
    yield fuzz.Maker(seeds(), seed).made()


OTHER = {"runs": of_scripts, "sessions": of_sessions, "snapshots": of_snapshots, "recordings": of_recordings, "templates": of_templates, "changed": of_changed}


def replay_shown(status, report):
    """What an answer of `replay` shows."""
    if status == 0:
        _, agreed, _, respelled = report.split()
        return {"that agrees"} | ({"with events"} if agreed != "0" else set()) | ({"with other spellings"} if respelled != "0" else set())
    if report.startswith("differs"):
        return {"without a recording" if " want nothing got " in report else "without an event" if report.endswith(" got nothing\n") else "that differs"}
    return {report.split(" at ")[0].strip()}


def shown_by(words, status, report):
    """What an answer shows: of a run its events too."""
    if words[0] == "replay" and not report.startswith("bad line"):
        return {"replay " + it for it in replay_shown(status, report)}
    if words[0] not in ("run", "resume") or status not in (0, 7):
        first = report.split("\n")[0]
        bad = re.match("(bad (?:snapshot )?line) [0-9]+ (.*)", first)
        return {f"{bad[1]} {bad[2]}" if bad else first.split(" at ")[0] if status else words[0] + " done"}
    events = [line.split(" ") for line in report.splitlines() if line[0].isdigit()]
    shown = {words[0] + " with " + " ".join(it[1:2] + it[4:5] * (it[1] in ("halt", "reject"))) for it in events}
    return shown | {"run with " + it for it, times in runs.SEEN.items() if times} | {words[0] + " done" if status == 0 else "limit deliveries"}


def packets_read(words, report):
    """How many packets `split` has read by its answer, the one that fails among them."""
    told = re.search(r"(?:^packets|in packet) ([0-9]+)", report, re.M) if words[0] == "split" else None
    return int(told[1]) if told else 0


def compare(asked):
    """The differences of a run, and what its answers show."""
    program, seed, stage, makes = asked
    found, kinds, words, files = [], collections.Counter(), ["none"], {}
    try:
        for words, files in makes(seed, stage):
            runs.SEEN.clear()
            want = in_time(run_model.answer, words, files, stage)
            if want is None:
                kinds["passed over, too slow for the model"] += 1
                continue
            kinds.update(shown_by(words, *want) | {"answers"})
            kinds["packets"] += packets_read(words, want[1])
            got = want if program == "-" else run(program, words, files)
            if got != want:
                found.append((words, files, want, got))
    except Exception:  # the model itself fails
        found.append((["model", *words], files, traceback.format_exc(), None))
    return seed, found, kinds


def main():
    asked = argparse.ArgumentParser(usage=__doc__.split("\n\n")[1].strip())
    asked.add_argument("--runs", type=int, default=1000)
    asked.add_argument("--seed", type=int, default=1)
    asked.add_argument("--stage", default="built")
    asked.add_argument("--jobs", type=int, default=1)
    asked.add_argument("program", nargs="?", default=os.path.join(TOP, "crates/eds_prog/out/eds_prog"))
    asked = asked.parse_args()
    program = asked.program if asked.program == "-" else os.path.abspath(asked.program)
    stage, makes = run_model.STAGES.get(asked.stage) or set(asked.stage.split(",")) - {"scalars"}, of_values
    if asked.stage in OTHER:
        stage, makes = run_model.EVERYTHING, OTHER[asked.stage]
    work = [(program, asked.seed * 10**9 + at, stage, makes) for at in range(asked.runs)]
    kinds, wrong = collections.Counter(), 0
    with ProcessPoolExecutor(asked.jobs) as pool:
        for seed, found, more in pool.map(compare, work, chunksize=8):
            kinds += more
            wrong += len(found)
            for words, files, want, got in found:
                print(f"compare: seed {seed}: {' '.join(words)}")
                for name, octets in files.items():
                    print(f"  {name}: {octets.decode('utf-8', 'replace')}")
                print(f"  model   {want}\n  program {got}", flush=True)
    for kind, count in kinds.most_common():
        print(f"{count:8} {kind}")
    print(f"compare: {asked.runs} sheets, {kinds['answers']} answers: {wrong} differ")
    return 1 if wrong else 0


if __name__ == "__main__":
    sys.exit(main())
