#!/usr/bin/env python3
"""Runs the cases of crates/eds_cases/data through ./eds, each as a process in a folder of its own with real files.

    .ci/cases.py [WORD..]      the cases whose file or words hold one of the words; without words all of them

The environment's EDS may name a built program in the place of ./eds, such as one without proof: EDS=$(tools/quick eds_prog).
A case that says how reads or writes behave is passed over: real files can't show it. docs/TESTING.md says how a case is written.
"""
import json
import os
import pathlib
import subprocess
import sys
import tempfile
from concurrent.futures import ThreadPoolExecutor

ROOT = pathlib.Path(__file__).resolve().parent.parent
DATA = ROOT / "crates" / "eds_cases" / "data"


def program():
    """The program to try: the one that EDS names, or ./eds, where what it runs is proved."""
    if os.environ.get("EDS"):
        return os.path.abspath(os.environ["EDS"])
    subprocess.run([ROOT / "eds"], stdout=subprocess.DEVNULL, check=False)  # builds the program once, where it isn't built
    if subprocess.run([ROOT / "eds"], capture_output=True, check=False).stderr:
        sys.exit("./eds runs a program that isn't proved yet: prove it by tools/build, or name it by EDS=$(tools/quick eds_prog)")
    return ROOT / "eds"


def copies(piece, count, separator):
    """Copies of a text, in which # is the copy's number from 0 and % the next number."""
    if "#" not in piece and "%" not in piece:
        return separator.join([piece] * count) if separator else piece * count
    return separator.join(piece.replace("#", str(i)).replace("%", str(i + 1)) for i in range(count))


def items(values, parts):
    return ",".join(filter(None, (printed(value, parts) for value in values)))


def printed(value, parts):
    """JSON without spaces and with the members in byte order, its parts put in."""
    if isinstance(value, str) and value.startswith("@"):
        return parts[value[1:]]
    if isinstance(value, list):
        return f"[{items(value, parts)}]"
    if isinstance(value, dict):
        if "@items" in value:
            return items(value["@items"], parts)
        if "@repeat" in value:
            piece, count = value["@repeat"]
            return copies(printed(piece, parts), count, ",")
        members = (f"{json.dumps(name, ensure_ascii=False)}:{printed(value[name], parts)}" for name in sorted(value))
        return "{" + ",".join(members) + "}"
    return json.dumps(value, ensure_ascii=False)


def text_of(content, parts):
    if isinstance(content, str) and not content.startswith("@"):
        return content
    if isinstance(content, dict) and "@repeat" in content:
        piece, count = content["@repeat"]
        return copies(text_of(piece, parts), count, "")
    if isinstance(content, dict) and "@join" in content:
        return "".join(text_of(piece, parts) for piece in content["@join"])
    return printed(content, parts)


def octets_of(content, parts):
    if isinstance(content, dict) and "@hex" in content:
        return bytes.fromhex(content["@hex"])
    return text_of(content, parts).encode()


def with_parts(parts, members):
    return {**parts, **{name: printed(value, parts) for name, value in (members or {}).items()}}


def lines(report, parts):
    report = report if isinstance(report, list) else [report]
    return "".join(text_of(line, parts) + "\n" for line in report)


def cases(files=None):
    """Each case of some files, without them of all, with its file's name and its parts."""
    parts = with_parts({}, json.loads((DATA / "elements.json").read_text()))
    parts = with_parts(parts, json.loads((DATA / "sheets.json").read_text()))
    for file in files or sorted((DATA / "cases").iterdir()):
        for group in json.loads(file.read_text())["groups"]:
            outer = with_parts(parts, group.get("parts"))
            for own in group["cases"]:
                files = {**group.get("files", {}), **own.get("files", {})}
                case = {**group, **own, "files": files, "parts": with_parts(outer, own.get("parts"))}
                yield file.name, case


def run(tried, case):
    """The wanted answer and the one that came, as pairs of a status and a report."""
    parts = case["parts"]
    line = text_of(case["words"], parts)
    wanted = case.get("today", case)
    report = text_of(wanted["written"], parts) if "written" in wanted else lines(wanted["report"], parts)
    with tempfile.TemporaryDirectory() as folder:
        for name, content in case["files"].items():
            pathlib.Path(folder, name).write_bytes(octets_of(content, parts))
        words = line.split(" ") if line else []
        ran = subprocess.run([tried, *words], cwd=folder, stdin=subprocess.DEVNULL, capture_output=True, timeout=60)
    return (wanted.get("status", 0), report.encode(), b""), (ran.returncode, ran.stdout, ran.stderr)


def main(words):
    chosen = [
        (file, case)
        for file, case in cases()
        if "reads" not in case and "writes" not in case
        and (not words or any(word in f"{file} {case['words']}" for word in words))
    ]
    tried, failed = program(), 0
    with ThreadPoolExecutor(os.cpu_count()) as pool:
        for (file, case), (wanted, got) in zip(chosen, pool.map(lambda pair: run(tried, pair[1]), chosen)):
            if wanted != got:
                failed += 1
                print(f"{file}: {text_of(case['words'], case['parts'])[:200]}\n  wanted {wanted}\n  got    {got}"[:2000])
    print(f"cases: {len(chosen) - failed} passed, {failed} failed")
    return 1 if failed else 0


if __name__ == "__main__":
    sys.exit(main(sys.argv[1:]))
