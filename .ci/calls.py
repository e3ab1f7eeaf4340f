#!/usr/bin/env python3
"""Lists the public calls of the crates and which program or test executes each; says which none does, and fails for these.

.ci/calls.py --table prints a row for each: the call, where it stands, and which of these lead to it: the program's `main` (which
the cases and examples run), that of eds_cases, that of eds_trials, and the #[test] functions. A function leads to those whose
names stand in it as calls, by what the sources say alone: a method's name stands for each method of that name below. So a row
may name too much, and a call that none of these leads to is executed by nothing. A function that does nothing but call laws is a
law: there is nothing to execute. A call of WAITING, a table of names with reasons, isn't executed for the reason that stands there.
"""

import collections
import os
import re
import sys

TOP = os.path.dirname(os.path.dirname(os.path.realpath(__file__)))
PROGRAMS = {"eds_prog": "program", "eds_cases": "cases", "eds_trials": "trials", "eds_bench": ""}
GOES_ON = "a run that goes on from a snapshot calls it, and no command does that yet"
WAITING = {
    "eds_plan::States::into_items": GOES_ON,
    "eds_script::parse_more": GOES_ON,
    "eds_host::Host::resume": GOES_ON,
    "eds_host::Host::into_states": GOES_ON,
    "eds_snap::print_snap": GOES_ON,
    "eds_snap::parse_snap": GOES_ON,
}


class Call(collections.namedtuple("Call", "crate module owner trait name public line body renamed")):
    """A function: its type and trait, where it is a method; and the names that its file gives to functions of other crates."""

    def __hash__(self):
        return hash(self[:7])


HEAD = re.compile(r"^( {0,4})(pub(?:\((?:crate|super)\))? )?(?:const )?fn (\w+)")
IMPL = re.compile(r"^impl(?:<[^{]*?>)? (?:(?P<trait>[\w:]+)(?:<[^{]*?>)? for )?(?P<owner>\w+)")
FREE = re.compile(r"(?<![.\w])(?:(\w+)::)?(\w+)(?=\s*\()")
PASSED = re.compile(r"[(,]\s*(?:&)?(?:(\w+)::)?(\w+)\s*(?=[,)])")
METHOD = re.compile(r"\.(\w+)(?=\s*(?:::<[^>]*>)?\()")


def crates_below():
    """For each crate of the repository those that it may call, itself among them."""
    listed = {}
    with open(os.path.join(TOP, "crates.txt"), encoding="utf-8") as file:
        for line in file:
            name, _, below = line.partition("#")[0].partition(":")
            if name.strip():
                listed[name.split()[0]] = below.split()

    def reach(crate):
        return {crate}.union(*(reach(it) for it in listed[crate] if it in listed))

    return {crate: reach(crate) for crate in listed}


def calls_of(crate):
    """The functions of a crate with their bodies, and the names that its root file offers."""
    found, offered = [], set()
    folder = os.path.join(TOP, "crates", crate, "src")
    for at, _, names in sorted(os.walk(folder)):
        for name in sorted(it for it in names if it.endswith(".rt")):
            path = os.path.join(at, name)
            with open(path, encoding="utf-8") as file:
                lines = file.read().split("\n")
            module = os.path.relpath(path, folder)[:-3]
            if module == "lib":
                text = re.sub(r"//.*", "", "\n".join(lines))
                for use in re.findall(r"^pub use ([^;]+);", text, re.M):
                    offered |= set(re.findall(r"\w+", use.split("::", 1)[1]))
                offered |= {f"mod {it}" for it in re.findall(r"^pub mod (\w+)", text, re.M)}
            found += functions(crate, module, lines)
    return found, offered


def last_line(lines, first, column):
    """Where the function that begins on a line ends: at the brace in its column, or where it has no body of several lines."""
    for k in range(first, len(lines)):
        begun = any(it.startswith(column + "{") or it.endswith("{") for it in lines[first:k])
        if lines[k] in (column + "}", column + "{}") or not begun and lines[k].endswith((";", "{}")):
            return k
    return len(lines) - 1


def functions(crate, module, lines):
    renamed = {new: old for old, new in re.findall(r"(\w+) as (\w+)", "\n".join(it for it in lines if not it.startswith("ghost")))}
    owner = trait = None
    test = False
    for i, line in enumerate(lines):
        impl = IMPL.match(line)
        if impl:
            owner, trait = impl["owner"], impl["trait"]
        elif line.startswith("}"):
            owner = trait = None
        test = test and not line.strip() == "" or line.strip() == "#[test]"
        head = HEAD.match(line)
        if head and not (head[1] and owner is None):
            last = last_line(lines, i, head[1])
            text = "\n".join(lines[i:last + 1])
            body = re.sub(r"//.*|^\s*(?:requires|ensures|ghost)\b.*$", "", text, flags=re.M)
            body = body.partition(head[3])[2]
            yield Call(crate, module, owner, trait, head[3], "test" if test else head[2] == "pub ", i + 1, body, renamed)


def is_law(call):
    """Whether nothing happens in it, or laws are called alone."""
    return not re.sub(r"^[^{]*\{|\w+\(\);|\}\s*$", "", call.body, flags=re.S).strip()


def leads(calls, below):
    """For each function those that it may call."""
    free, owned, methods = collections.defaultdict(list), collections.defaultdict(list), collections.defaultdict(list)
    for call in calls:
        if call.owner is None:
            free[call.name].append(call)
        else:
            owned[call.owner, call.name].append(call)
            methods[call.name].append(call)
    to = {}
    for call in calls:
        found = []
        for before, name in FREE.findall(call.body) + PASSED.findall(call.body):
            owner = call.owner if before == "Self" else before
            if before[:1].isupper():
                found += owned[owner, name] or [it for it in methods[name] if it.trait]
            else:
                name = call.renamed.get(name, name)
                crate = before if before in below else call.crate
                found += [it for it in free[name] if it.crate == crate] or free[name]
        for name in METHOD.findall(call.body):
            found += methods[name]
        to[call] = [it for it in found if it.crate in below[call.crate]]
    return to


def reached(roots, to, always):
    """What functions lead to; what the traits of the standard library ask for is called by it."""
    seen, todo = set(), list(roots) + always
    while todo:
        call = todo.pop()
        if call not in seen:
            seen.add(call)
            todo += to[call]
    return seen


def is_offered(call, offered):
    """Whether another crate may call it: its name or its type's is offered at the root, or its module is."""
    return call.public is True and call.trait is None and ((call.owner or call.name) in offered or f"mod {call.module.split('/')[0]}" in offered)


def main():
    below = crates_below()
    calls, offered = [], {}
    for crate in below:
        found, offered[crate] = calls_of(crate)
        calls += found
    to = leads(calls, below)
    always = [it for it in calls if it.trait and it.name in {"fmt", "from", "drop", "clone", "eq", "cmp", "partial_cmp", "next"}]
    roots = {kind: [it for it in calls if it.crate == crate and it.name == "main" and it.module == "main"] for crate, kind in PROGRAMS.items() if kind}
    roots["tests"] = [it for it in calls if it.public == "test"]
    by = {kind: reached(some, to, always) for kind, some in roots.items()}
    rows = [it for it in calls if it.crate not in PROGRAMS and is_offered(it, offered[it.crate]) and not is_law(it)]
    nothing = waiting = 0
    for it in rows:
        name = f"{it.crate}::{it.owner + '::' if it.owner else ''}{it.name}"
        who = [kind for kind, some in by.items() if it in some]
        why = WAITING.get(name) or WAITING.get(it.crate)
        if "--table" in sys.argv[1:]:
            print(f"| `{name}` | {it.crate}/src/{it.module}.rt:{it.line} | {', '.join(who) or why or 'nothing'} |")
        if not who and not why:
            print(f"{name} is executed by nothing ({it.crate}/src/{it.module}.rt:{it.line})")
        if who and name in WAITING:
            print(f"{name} is executed, and needs no place in WAITING")
        nothing += not who and not why
        waiting += not who and why is not None
    print(f"public calls: {len(rows) - nothing - waiting} executed, {waiting} waiting, {nothing} executed by nothing")
    return 1 if nothing else 0


if __name__ == "__main__":
    sys.exit(main())
