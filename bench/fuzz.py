#!/usr/bin/env python3
"""Runs the program on sheets, frames, values and scripts that were changed at random, and looks for what must never come.

  bench/fuzz.py [--minutes M] [--seed S] [--jobs J] [--found FOLDER] [PROGRAM]

PROGRAM is a built program (by default crates/eds_prog/out/eds_prog). Inputs are made from the examples and the cases: octets
are changed, elements and attributes are moved, doubled, dropped, renamed and given other texts, frames and values are made up,
and of scripts lines and words are. A run must end within two seconds of processor time (a script has more, by its lines), by no
signal, with a status from 0 to 8 and a report that fits it, and must
write nothing to standard error; and the same words over the same files give the same report again. What doesn't is kept in
FOLDER (by default fuzz-found), with its words. The last line counts the runs by status. The same seed makes the same
inputs.
"""

import argparse
import collections
import copy
import json
import os
import random
import re
import resource
import signal
import subprocess
import sys
import tempfile
import time
from concurrent.futures import ThreadPoolExecutor

TOP = os.path.dirname(os.path.dirname(os.path.abspath(__file__)))
sys.dont_write_bytecode = True
sys.path.insert(0, os.path.join(TOP, ".ci"))
import cases as case_files  # noqa: E402

SECONDS = 2
# the most octets of a file to begin with
FILE = 20_000
# A word of the sheet is told as it stands there, with its line feeds.
LINES = (["run"], ["replay"])  # the commands over a script
REPORTS = {
    1: rb"refused \d+ \w+ at \d+:\d+( (?s:.*))?\n",
    2: rb"usage: eds COMMAND ARGUMENTS\n",
    3: rb"(fault \w+ at \$[^\n]*|bad line \d+ \w+|differs at line \d+ want [^\n]* got [^\n]*)\n",
    4: rb"read fault [^\n]*\n",
    6: rb"",
    7: rb"(?s:.*)limit \w+ \d+( at line \d+)?\n",
    8: rb"no file [^\n]*\n",
}
TEXTS = [
    "", "0", "1", "-1", "7", "8", "16", "63", "64", "65", "255", "256", "65535", "65536", "524288", "524289", "4294967296",
    "9223372036854775807", "18446744073709551615", "18446744073709551616", "-18446744073709551616", "99999999999999999999",
    "+5", "-0", "5.00", "5.5", "1e3", "true", "false", "A", "A/B", "a.b", "é", "a b", "0" * 20, "9" * 300,
]  # fmt: skip


def elements(tree):
    """All elements of a tree, the root first."""
    if tree and isinstance(tree[0], str):
        yield tree
    for it in tree:
        if isinstance(it, list):
            yield from elements(it)


def holders(value):
    """All objects and lists of a value, itself first."""
    yield value
    for it in value.values() if isinstance(value, dict) else value:
        if isinstance(it, (dict, list)):
            yield from holders(it)


class Seeds:
    """The inputs to begin with: commands with their files, the sheets, frames, values and scripts among these, and the words
    that occur in them."""

    def __init__(self):
        self.commands, self.sheets, self.frames, self.values, self.scripts = [], [], [], [], []
        for _, case in case_files.cases():
            words = case_files.text_of(case["words"], case["parts"]).split(" ")
            self.take(words, {it: case_files.octets_of(octets, case["parts"]) for it, octets in case["files"].items()})
        for folder, _, names in sorted(os.walk(os.path.join(TOP, "examples"))):
            for name in sorted(it for it in names if it.endswith(".words")):
                with open(os.path.join(folder, name), encoding="utf-8") as file:
                    words = file.read().split()
                named = {it: f"f{at}" for at, it in enumerate(words) if os.path.isfile(os.path.join(TOP, it))}
                files = {}
                for it, short in named.items():
                    with open(os.path.join(TOP, it), "rb") as file:
                        files[short] = file.read()
                self.take([named.get(it, it) for it in words], files)
        nodes = [it for sheet in self.sheets for it in elements(sheet)]
        self.names = sorted({it[0] for it in nodes} | set(self.known()))
        attributes = [it[1] for it in nodes if len(it) > 1 and isinstance(it[1], dict)]
        self.keys = sorted({key for it in attributes for key in it})
        self.texts = sorted({str(value) for it in attributes for value in it.values()}) + TEXTS
        self.runs = [it for it in self.commands if it[0][:1] in LINES and any(name in it[1] for name in it[0][1:2])]
        self.lines = sorted({line for it in self.scripts for line in it.decode("utf-8", "replace").split("\n") if len(line) < 200})

    def take(self, words, files):
        """Takes a command with its files, where they are small."""
        if any(len(it) > FILE for it in files.values()) or len(words) > 20:
            return
        self.commands.append((words, files))
        for name, octets in files.items():
            if words[:1] in LINES and words[1:2] == [name]:
                self.scripts.append(octets)
                continue
            try:
                found = json.loads(octets)
            except ValueError:
                self.frames.append(octets)
                continue
            if isinstance(found, list) and found[:1] in (["PackageFile"], ["DataSheet"]):
                self.sheets.append(found)
            elif isinstance(found, dict):
                self.values.append(found)

    def known(self):
        """The names of elements that the sheet language has."""
        folder = os.path.join(TOP, "crates/eds_tree/src")
        for name in sorted(os.listdir(folder)):
            if name.endswith(".rt"):
                with open(os.path.join(folder, name), encoding="utf-8") as file:
                    yield from re.findall(r'"([A-Z][A-Za-z]+)"', file.read())


class Maker:
    """Makes the inputs of one run from a number."""

    def __init__(self, seeds, number):
        self.seeds, self.dice = seeds, random.Random(number)

    def sheet(self, is_whole):
        tree = copy.deepcopy(self.dice.choice(self.seeds.sheets))
        return json.dumps(tree).encode() if is_whole else self.changed_sheet(tree)

    def changed_sheet(self, tree):
        for _ in range(self.dice.choice([1, 1, 2, 3, 6])):
            self.change(tree)
        text = json.dumps(tree).encode()
        return text if self.dice.random() < 0.9 else self.spoiled(text)

    def changed(self, octets):
        """A file in the place of this one, of the same sort."""
        try:
            found = json.loads(octets)
        except ValueError:
            return self.spoiled(octets) if self.dice.random() < 0.7 else self.frame()
        if isinstance(found, list) and found and isinstance(found[0], str):
            return self.changed_sheet(found)
        return self.changed_value(found) if isinstance(found, dict) and found else self.spoiled(octets)

    def change(self, tree):
        """Changes one thing of a tree."""
        dice, nodes = self.dice, list(elements(tree))
        node = dice.choice(nodes)
        attributes = node[1] if len(node) > 1 and isinstance(node[1], dict) else None
        children = [at for at, it in enumerate(node) if isinstance(it, list)]
        what = dice.randrange(9)
        if what < 3 and attributes:
            key = dice.choice(sorted(attributes))
            attributes[key] = dice.choice(self.near(nodes, key) if dice.random() < 0.6 else self.seeds.texts)
        elif what == 3 and attributes is not None:
            attributes[dice.choice(self.seeds.keys)] = dice.choice([*self.seeds.texts, True, 5, 64, None, 1.5])
        elif what == 4 and attributes:
            del attributes[dice.choice(sorted(attributes))]
        elif what == 5:
            node[0] = dice.choice(self.seeds.names)
        elif what == 6 and children:
            del node[dice.choice(children)]
        elif what == 7 and children:
            at = dice.choice(children)
            node[at:at] = [copy.deepcopy(node[at])] * dice.choice([1, 1, 2, 20])
        else:
            other = dice.choice(list(elements(dice.choice(self.seeds.sheets))))
            node.append(copy.deepcopy(other))

    def near(self, nodes, key):
        """The texts that an attribute has in a tree, with the names that are declared there: what it could well have."""
        attributes = [it[1] for it in nodes if len(it) > 1 and isinstance(it[1], dict)]
        return [it[own] for it in attributes for own in (key, "name") if own in it]

    def spoiled(self, octets):
        """The octets with some changed, dropped or put in."""
        octets = bytearray(octets)
        for _ in range(self.dice.choice([1, 1, 2, 8])):
            at = self.dice.randrange(len(octets) + 1)
            new = bytes(self.dice.choice([34, 91, 93, 123, 125, 44, 92, 0, 255, 195, self.dice.randrange(256)]) for _ in range(self.dice.randrange(3)))
            octets[at : at + self.dice.choice([0, 1, 1, 5])] = new
        return bytes(octets)

    def frame(self):
        dice = self.dice
        if dice.random() < 0.3:
            return self.spoiled(dice.choice(self.seeds.frames)) if self.seeds.frames else b""
        octets = bytes(dice.choice([0, 255, dice.randrange(256)]) for _ in range(dice.choice([0, 1, 2, 4, 8, 16, 64])))
        return octets.hex().encode()

    def value(self):
        dice = self.dice
        if dice.random() < 0.1 or not self.seeds.values:
            return self.spoiled(b'{"$type":"A/B","a":[1,true,"x"]}')
        return self.changed_value(copy.deepcopy(dice.choice(self.seeds.values)))

    def changed_value(self, value):
        dice = self.dice
        for _ in range(dice.choice([0, 1, 2])):
            held = dice.choice(list(holders(value)))
            new = dice.choice([0, -1, 2**64, 2**64 - 1, 1.5, "", "ON", "00ff", True, None, [], [1, 2], {}, copy.deepcopy(value)])
            if isinstance(held, dict):
                at = dice.choice(sorted(held) or ["a"])
                if held and dice.random() < 0.2:
                    del held[at]
                else:
                    held[at] = new
            else:
                at = dice.randrange(len(held) + 1)
                held[at : at + dice.choice([0, 1])] = [new] * dice.choice([0, 1, 1, 3])
        return json.dumps(value).encode()

    def changed_script(self, octets):
        """A script of which some lines are changed."""
        lines = octets.decode("utf-8", "replace").split("\n")
        for _ in range(self.dice.choice([1, 1, 2, 4])):
            self.change_lines(lines)
        made = "\n".join(lines).encode("utf-8", "replace")
        return made if self.dice.random() < 0.9 else self.spoiled(made)

    def change_lines(self, lines):
        """Changes one line: it is dropped, repeated, put elsewhere, joined by one of another script, or has another word."""
        dice, at = self.dice, self.dice.randrange(len(lines))
        what = dice.randrange(6)
        if what == 0 and len(lines) > 1:
            del lines[at]
        elif what == 1:
            lines[at:at] = [lines[at]] * dice.choice([1, 1, 3, 20])
        elif what == 2:
            lines.insert(dice.randrange(len(lines)), lines.pop(at))
        elif what == 3:
            lines.insert(at, dice.choice([*self.seeds.lines, "tick " + dice.choice(self.seeds.texts)]))
        else:
            lines[at] = self.changed_line(lines[at])

    def changed_line(self, line):
        """The line with another word, or with another value in its JSON."""
        front, brace, json_text = line.partition("{")
        try:
            value = json.loads(brace + json_text)
        except ValueError:
            value = None
        if value and self.dice.random() < 0.6:
            return front + self.changed_value(value).decode()
        words = line.split(" ")
        others = self.dice.choice(self.seeds.lines or [""]).split(" ")
        words[self.dice.randrange(len(words))] = self.dice.choice([*others, self.dice.choice(self.seeds.texts), self.frame().decode("utf-8", "replace")])
        return " ".join(words).replace("\n", "")

    def type_of(self, sheets):
        """The name of a type of the sheets, mostly."""
        found = []
        for text in sheets:
            try:
                tree = json.loads(text)
                packages = [it for it in tree if isinstance(it, list) and it[:1] == ["Package"]]
                found += [f"{it[1]['name']}/{type_[1]['name']}" for it in packages for set_ in it[2:] for type_ in set_[1:]]
            except (ValueError, LookupError, TypeError):
                continue
        return self.dice.choice(found or ["A/B"]) if self.dice.random() < 0.9 else self.dice.choice(self.seeds.texts)

    def made(self):
        """The words of a run, and the files by their names: a command to begin with, one of whose files is changed, or one
        that is made up of others."""
        if self.dice.random() < 0.6:
            words, files = self.dice.choice(self.seeds.commands)
            if files:
                name = self.dice.choice(sorted(files))
                is_script = words[:1] in LINES and words[1:2] == [name]
                return words, {**files, name: self.changed_script(files[name]) if is_script else self.changed(files[name])}
        command = self.dice.choice(["check", "unpack", "pack", "split", "run", "run"])
        if command == "run":
            words, files = self.dice.choice(self.seeds.runs)
            made = {**files, words[1]: self.changed_script(files[words[1]])}
            if self.dice.random() < 0.3:
                name = self.dice.choice(sorted(set(files) - {words[1]}) or [words[1]])
                made[name] = self.changed(files[name])
            return words, made
        is_whole = command != "check" and self.dice.random() < 0.6
        sheets = [self.sheet(is_whole) for _ in range(self.dice.choice([1, 1, 1, 2]))]
        files = {f"s{at}": sheet for at, sheet in enumerate(sheets)}
        if command == "check":
            return ["check", *files], files
        words = [command, self.type_of(sheets).replace("\0", ""), "input", *files]
        return words, {**files, "input": self.value() if command == "pack" else self.frame()}


def run(program, words, room, seconds):
    """What came of a run: its status, its report, and what is wrong with them."""

    def begin():
        resource.setrlimit(resource.RLIMIT_CPU, (seconds, seconds))
        resource.setrlimit(resource.RLIMIT_CORE, (0, 0))

    ran = subprocess.run([program, *words], cwd=room, stdin=subprocess.DEVNULL, capture_output=True, preexec_fn=begin, check=False)
    status, report = ran.returncode, ran.stdout
    if status in (-signal.SIGKILL, -signal.SIGXCPU):
        return status, report, f"it had not ended after {seconds} seconds"
    if not 0 <= status <= 8:
        return status, report, f"status {status}: {ran.stderr[:2000]!r}"
    if ran.stderr:
        return status, report, f"it wrote to standard error: {ran.stderr[:2000]!r}"
    if status == 0 and not report.endswith(b"\n") or status in REPORTS and not re.fullmatch(REPORTS[status], report):
        return status, report, f"status {status} with the report {report[:300]!r}"
    return status, report, None


def turn(program, seeds, number, found):
    """Makes the inputs of a number and runs the program on them twice."""
    words, files = Maker(seeds, number).made()
    with tempfile.TemporaryDirectory(prefix="eds-fuzz-") as room:
        for name, octets in files.items():
            with open(os.path.join(room, name), "wb") as file:
                file.write(octets)
        # a script's lines are bounded one by one
        seconds = SECONDS + (files[words[1]].count(b"\n") // 5 if words[:1] in LINES and words[1:2] and words[1] in files else 0)
        status, report, wrong = run(program, words, room, seconds)
        if not wrong and run(program, words, room, seconds)[:2] != (status, report):
            wrong = "another run gave another answer"
        if wrong:
            kept = os.path.join(found, str(number))
            os.makedirs(kept, exist_ok=True)
            for name, octets in files.items():
                with open(os.path.join(kept, name), "wb") as file:
                    file.write(octets)
            with open(os.path.join(kept, "words"), "w", encoding="utf-8") as file:
                file.write("\n".join(words) + "\n" + wrong + "\n")
            print(f"fuzz: {kept}: {wrong}"[:400], flush=True)
    return status, wrong is not None


def main():
    asked = argparse.ArgumentParser(usage=__doc__.split("\n\n")[1].strip())
    asked.add_argument("--minutes", type=float, default=60)
    asked.add_argument("--seed", type=int, default=1)
    asked.add_argument("--jobs", type=int, default=os.cpu_count())
    asked.add_argument("--found", default="fuzz-found")
    asked.add_argument("program", nargs="?", default=os.path.join(TOP, "crates/eds_prog/out/eds_prog"))
    asked = asked.parse_args()
    program, seeds, ends = os.path.abspath(asked.program), Seeds(), time.time() + 60 * asked.minutes
    counts, wrong, number = collections.Counter(), 0, asked.seed * 10**12
    with ThreadPoolExecutor(asked.jobs) as pool:
        while time.time() < ends:
            turns = range(number, number + 50 * asked.jobs)
            number = turns.stop
            for status, failed in pool.map(lambda it: turn(program, seeds, it, asked.found), turns):
                counts[status] += 1
                wrong += failed
    told = ", ".join(f"{count} of {status}" for status, count in sorted(counts.items(), key=str))
    print(f"fuzz: {sum(counts.values())} inputs, by status {told}: {wrong} wrong")
    return 1 if wrong else 0


if __name__ == "__main__":
    sys.exit(main())
