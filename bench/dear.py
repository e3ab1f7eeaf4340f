#!/usr/bin/env python3
"""Lists what of a crate's proof takes longest, and what a change added to it.

  bench/dear.py CRATE [HOW_MANY]
  bench/dear.py BEFORE AFTER [HOW_MANY]

The first lists the modules that the prover checked, by the time since the one before. The second compares two kept works of one
crate, as crates/CRATE/out/incremental and a copy of it from before a change, and lists the functions whose modules differ, by
the seconds that the change added, with the dearest stages of each after it.

Run it behind a check of the crate from nothing by one process, as `cd crates/CRATE && rm -rf out && rt check --jobs 1`: the
prover writes a file for each module once it is checked, and their times tell how long each took. The check of a function's
code ends in `Lts`, and that of its proof in `Proof`. Two checks under different loads are brought to one rate by the stage
`Tie`, which hangs on a function's clauses and hardly on its code. The second check may be a single one over what the first
kept: then only what it checked anew has a time of its own, and the rate rests on few functions. Where a gain hangs on the
rate, drop the modules of these functions from both kept works, and compare what `time rt check --jobs 1` tells of either.
"""

import collections
import os
import statistics
import sys

# What the prover makes of a function, each a module, or a folder of modules.
STAGES = (
    "Kinds Mir Reads Layout Tie Statement Code Lts Given Goals Met TheLink Invariants Answers Proof"
).split()


def modules_in(folder):
    """The modules that are kept in a folder, in the order in which they were written: when, the file and the name."""
    found = []
    for place, _, names in os.walk(folder):
        files = [os.path.join(place, it) for it in names if it.endswith(".oantt")]
        found += [(os.stat(it).st_mtime, it) for it in files]
    if not found:
        sys.exit(f"nothing is kept in {folder}: check the crate first")
    return [(when, it, name_of(it)) for when, it in sorted(found)]


def name_of(file):
    """The name of a module without its crate."""
    return os.path.basename(file).removesuffix(".oantt").removesuffix(".decls").split("-", 2)[-1]


def taken(modules):
    """Each module but the first with the seconds since the one before."""
    return [(now - before, file, name) for (before, _, _), (now, file, name) in zip(modules, modules[1:])]


def function_of(name):
    """The function to which a module belongs, or the module itself, and its stage."""
    words = name.split(".")
    stage = next((at for at, word in enumerate(words) if word.split("-")[0] in STAGES), None)
    if words[0] != "proofs" or not stage:
        return name, ""
    return ".".join(words[1:stage]), words[stage].split("-")[0]


class Function:
    """The seconds of a function's stages, and what its modules hold."""

    def __init__(self):
        self.stages = collections.Counter()
        self.held = {}

    @property
    def seconds(self):
        return sum(self.stages.values())


def functions_of(modules, kept=()):
    """The functions of some modules, by their names; what is kept from an earlier check has no time in this one."""
    earlier = {(when, os.path.basename(file)) for when, file, _ in kept}
    anew = [it for it in modules if (it[0], os.path.basename(it[1])) not in earlier]
    seconds = {file: it for it, file, _ in taken(anew)}
    found = collections.defaultdict(Function)
    for _, file, module in modules:
        name, stage = function_of(module)
        found[name].stages[stage] += seconds.get(file, 0)
        with open(file, "rb") as held:
            found[name].held[os.path.basename(file)] = hash(held.read())
    return found


def rate_between(before, after):
    """How many times as long the second check took for the same work, and by how many functions that is told."""
    both = [(before[it].stages["Tie"], after[it].stages["Tie"]) for it in before if it in after]
    rates = [now / then for then, now in both if then > 0.1 and now > 0.1]
    return statistics.median(rates or [1.0]), len(rates)


def compare(before, after, many):
    """Prints what a change added, function by function."""
    earlier, later = modules_in(before), modules_in(after)
    before = functions_of(earlier)
    after = functions_of(later, kept=earlier)
    rate, told_by = rate_between(before, after)
    print(f"in seconds of the first check; the second took {rate:.2f} times as long for the same work, by {told_by} functions")
    none = Function()
    changed = [it for it in before.keys() | after.keys() if before.get(it, none).held != after.get(it, none).held]
    rows = [(after.get(it, none).seconds / rate - before.get(it, none).seconds, it) for it in changed]
    print(f"{sum(added for added, _ in rows):+.1f} s in {len(rows)} functions that differ")
    for added, name in sorted(rows, key=lambda row: (-abs(row[0]), row[1]))[:many]:
        now = after.get(name, none)
        stages = ", ".join(f"{stage} {seconds / rate:.1f}" for stage, seconds in now.stages.most_common(2))
        print(f"{added:+7.1f} s  {before.get(name, none).seconds:6.1f} to {now.seconds / rate:6.1f}  {name}  {stages}")


def dearest(crate, many):
    """Prints the modules of a crate that took longest."""
    modules = modules_in(os.path.join("crates", crate, "out/incremental"))
    print(f"{len(modules)} modules in {modules[-1][0] - modules[0][0]:.0f} s")
    for seconds, _, name in sorted(taken(modules), key=lambda it: -it[0])[:many]:
        print(f"{seconds:6.1f} s  {name}")


def main():
    words = sys.argv[1:]
    many = int(words.pop()) if words and words[-1].isdigit() else 20
    if len(words) == 1:
        dearest(words[0], many)
    elif len(words) == 2:
        compare(*words, many)
    else:
        sys.exit(__doc__)


if __name__ == "__main__":
    main()
