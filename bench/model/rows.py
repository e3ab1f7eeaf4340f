#!/usr/bin/env python3
"""The model against answers that were worked out by hand: the cases of the program, the rows of runs, and those of snapshots and of
runs that go on from them, for which the program has no command.

    rows.py [WORD..]      the cases and rows whose file or words hold one of the words; without words all of them

What differs is printed. The cases that say how reads or writes behave are passed over."""
import pathlib
import sys

HERE = pathlib.Path(__file__).resolve().parent
sys.path.insert(0, str(HERE.parent.parent / ".ci"))
sys.path.insert(0, str(HERE))
import activities
import cases
import run_model as r
import runs

DEV_END = ["end 10000000", "state Dev/Heater m Run", "var Dev/Heater n 255", 'var Dev/Heater b {"$type":"Dev/Beat","N":255}']


def wanted(case):
    parts = case["parts"]
    report = cases.text_of(case["written"], parts) if "written" in case else cases.lines(case["report"], parts)
    return (case.get("status", 0), report)


def answered(case):
    """The model's answer to a case; one that is refused for a transaction is of the time before these are built."""
    parts = case["parts"]
    line = cases.text_of(case["words"], parts)
    files = {name: cases.octets_of(content, parts) for name, content in case["files"].items()}
    stage = r.EVERYTHING - {"transactions"} if wanted(case)[1].endswith(" transaction\n") else r.EVERYTHING
    return r.answer(line.split(" ") if line else [], files, stage)


def long_ticks():
    """Two rows whose lines are too many to write down: a timer that counts to 255 and then halts, 10,000 times and once more."""
    lines = ["%d000 frame Dev/Heater:bus send a5%02x" % (n, n) for n in range(1, 256)]
    lines += ["%d000 halt Dev/Heater m OutOfRange" % n for n in range(256, 10001)]
    dev = next(case["parts"]["Dev"] for _, case in cases.cases())
    for ticks, status, end in ((10000000, 0, DEV_END), (10001000, 7, ["limit deliveries 10000 at line 2"])):
        script = "cmd Dev/Heater:ctl On {}\ntick %d\n" % ticks
        yield "rows.py", {"words": "run script sheet", "files": {"script": script, "sheet": "@dev"}, "parts": {"dev": dev},
                          "status": status, "report": lines + end}


def beat_twice():
    """An activity that is run twice from the initial values of its component: what is wrong, or None."""
    dev = next(case["parts"]["Dev"] for _, case in cases.cases())
    judge = r.judged([dev.encode()])
    component = judge.components[0]
    state = runs.ComponentState(component)
    sent = []
    for _ in range(2):
        doing = activities.Doing(judge, 0, component, state)
        doing.body(component.activities[0].body, [])
        sent += doing.sent
    n, b = state.variables
    return None if (n, b[2], len(sent)) == (("num", 2), [("num", 2)], 2) else (n, b, sent)


def main(words):
    every = list(cases.cases()) + list(cases.cases([HERE / "rows.json", HERE / "snapshots.json"])) + list(long_ticks())
    chosen = [(file, case) for file, case in every if "reads" not in case and "writes" not in case
              and (not words or any(word in "%s %s" % (file, case["words"]) for word in words))]
    differ = 0
    for file, case in chosen:
        want, got = wanted(case), answered(case)
        if want != got:
            differ += 1
            print("%s: %s\n  by hand %s\n  model   %s" % (file, str(case["words"])[:200], str(want)[:700], str(got)[:700]))
    if not words and beat_twice() is not None:
        differ += 1
        print("beat twice:", beat_twice())
    print(len(chosen), "cases and rows,", differ, "differ")
    return 1 if differ else 0


if __name__ == "__main__":
    sys.exit(main(sys.argv[1:]))
