#!/usr/bin/env python3
"""Runs the examples of the pages, and compares what they print with what stands there.

  .ci/pages.py [--renew] [PAGE...]

An example is a fenced block of the kind `console`, or an indented block that begins with `$ `. A line `$ COMMAND` is run by
the shell, and the lines below it are what it prints, on either stream. `$ cat NAME` is no command: the lines below it are
the file NAME, which the page's later examples have. `$ echo $?` prints the status of the command before it. A page's
examples are run in one empty folder, in which eds, tools, examples and the built program stand as they do at the top of the
repository.
Without words all pages are taken. The environment's EDS may name a built program to be run in the place of ./eds.

A fenced block of the kind `rust` whose first line is `// FILE: NAME` shows the function NAME as it stands in that file of
the repository, so that what a page shows is proved. With --renew such blocks are written anew, and nothing is run.

docs/ERRORS.md has to explain each word of a report: the rules, faults, reasons, limits and halts that the crates name each
have an example there that prints them, with a heading where the word has a section of its own, and each status has a row.
docs/PROFILE.md has to list each element of the element table, with its attributes. Each file of definitions, code, cases and
edits that docs/RULES.md names has to be there. The table of edits in docs/TESTING.md has to count those of each crate, and to
add up. And each link of a page to one of these files has to lead to a file and a heading that are there.
"""

import glob
import os
import re
import shutil
import subprocess
import sys
import tempfile
import textwrap
from collections import Counter
from concurrent.futures import ThreadPoolExecutor

import cases

TOP = os.path.dirname(os.path.dirname(os.path.abspath(__file__)))
SECONDS = 300
# words of examples, and for each a command that a machine may lack: an example with the word is then passed over
SPARE = {"xxd": "xxd", "tshark": "tshark", "tools/recordings": "dask-scheduler"}
ERRORS, PROFILE, RULES, TESTING = "docs/ERRORS.md", "docs/PROFILE.md", "docs/RULES.md", "docs/TESTING.md"
BUILT = "crates/eds_prog/out"
ELEMENTS = "crates/eds_tree/specs/ElementTable.antt"
# Where the crates name the words of reports: the files, the words in them, and for each word a line of ERRORS.md that shows
# it and the heading that it has, if it has one.
NAMED = [
    (r"eds_base/src/rule.rt", r'Rule::\w+ => "(\w+)"', r"refused \d+ {} at \d+:\d+.*", r"### \d+ {}"),
    (r"eds_base/src/fault.rt", r'Reason::\w+ => "(\w+)"', r"fault {} at \$.*", r"### {}"),
    (r"eds_types/src/reason.rt", r'PackReason::\w+ => "(\w+)"', r"fault {} at \$.*", r"### {}"),
    (r"eds_cmd/src/stop.rt", r'fault_line\(alloc, "(\w+)"', r"fault {} at \$.*", r"### {}"),
    (r"eds_cmd/src/report.rt", r'(?:Line|Wire)Why::\w+ => "(\w+)"', r"bad line \d+ {}", r"### {}"),
    (r"eds_cmd/src/report.rt", r'What::\w+ => "(\w+)"', r"limit {} \d+.*", None),
    (r"eds_script/src/event.rt", r'Halt::\w+ => "(\w+)"', r"\d+ halt \S+ \S+ {}", r"### Halt {}"),
    (r"eds_\w+/specs/\w+.antt", r'(?:Limit at|breaks_count|limit_in file) \(codes "(\w+)"\)', r"refused 8 Limit at \d+:\d+ {}", None),
    (r"eds_cmd/src/status.rt", r"Status::\w+.* => (\d+)", r"\| {} \|.*", None),
]
# reasons of library calls that no command prints
SILENT = {"WrongKind", "Room"}


def pages():
    found = []
    for folder, folders, files in os.walk(TOP):
        folders[:] = sorted(it for it in folders if it not in (".git", "out", "src", "specs", "proofs", "must-fail"))
        found += [os.path.join(folder, it) for it in sorted(files) if it.endswith(".md")]
    return found


def blocks(text):
    """The examples of a page: the number of the first line of each, and its lines."""
    lines, found, at = text.split("\n"), [], 0
    while at < len(lines):
        fence = re.match(r"( *)```console$", lines[at])
        is_indented = lines[at].startswith("    $ ")
        begins = at + 1 if fence else at
        if fence:
            end = next(i for i in range(begins, len(lines)) if lines[i].strip() == "```")
            found.append((begins, [it[len(fence[1]) :] for it in lines[begins:end]]))
        elif is_indented:
            end = next((i for i in range(begins, len(lines)) if not lines[i].startswith("    ")), len(lines))
            found.append((begins, [it[4:] for it in lines[begins:end]]))
        at = end + 1 if fence or is_indented else at + 1
    return found


def steps(block):
    """The commands of an example, each with the lines below it."""
    found = []
    for line in block:
        if line.startswith("$ "):
            found.append((line[2:], []))
        elif found:
            found[-1][1].append(line)
    return found


def run(command, room):
    """What a command prints, and its status."""
    how = {"cwd": room, "stdin": subprocess.DEVNULL, "stdout": subprocess.PIPE, "stderr": subprocess.STDOUT, "timeout": SECONDS}
    path = os.pathsep.join([room, os.environ.get("PATH", "")])
    ran = subprocess.run(["sh", "-c", command], env=dict(os.environ, PATH=path), check=False, **how)
    return ran.stdout.decode(errors="replace"), ran.returncode


def hold(program, page):
    """Runs a page's examples by a program. Gives how many commands were run, and what went wrong."""
    with open(page, encoding="utf-8") as file:
        text = file.read()
    found, short, ran, wrong = blocks(text), os.path.relpath(page, TOP), 0, []
    if shown(text) != text:
        ran, wrong = 1, [f"{short}: a function that it shows has changed: .ci/pages.py --renew"]
    with tempfile.TemporaryDirectory(prefix="eds-page-") as room:
        os.symlink(program, os.path.join(room, "eds"))
        os.makedirs(os.path.join(room, BUILT))
        os.symlink(program if os.environ.get("EDS") else os.path.join(TOP, BUILT, "eds_prog"), os.path.join(room, BUILT, "eds_prog"))
        for name in ("tools", "examples"):
            os.symlink(os.path.join(TOP, name), os.path.join(room, name))
        for begins, block in found:
            lacking = [it for word, it in SPARE.items() if re.search(rf"\b{word}\b", "\n".join(block)) and not shutil.which(it)]
            if lacking:
                print(f"pages: {short}, line {begins + 1}: passed over, since {lacking[0]} is not here")
                continue
            status = 0
            for command, below in steps(block):
                wanted = "".join(it + "\n" for it in below)
                named = re.fullmatch(r"cat ([\w.-]+)", command)
                if named:
                    with open(os.path.join(room, named[1]), "w", encoding="utf-8") as file:
                        file.write(wanted)
                    continue
                printed, status = (f"{status}\n", 0) if command == "echo $?" else run(command, room)
                ran += 1
                if printed != wanted:
                    wrong.append(f"{short}, line {begins + 1}: {command}\nstatus {status}, printed:\n{printed}")
    return ran, wrong


def sources():
    """The files of the crates that may name words, by their paths below crates/."""
    top = os.path.join(TOP, "crates")
    for folder, _, files in os.walk(top):
        for name in files:
            path = os.path.relpath(os.path.join(folder, name), top)
            if any(re.fullmatch(file, path) for file, *_ in NAMED):
                with open(os.path.join(top, path), encoding="utf-8") as file:
                    yield path, file.read()


def unexplained():
    """What ERRORS.md lacks of the words that the crates name. Gives how many words there are, and what is wrong."""
    with open(os.path.join(TOP, ERRORS), encoding="utf-8") as file:
        lines = file.read()
    texts, many, wrong = list(sources()), 0, []
    for file, pattern, line, heading in NAMED:
        words = {it for path, text in texts if re.fullmatch(file, path) for it in re.findall(pattern, text)}
        if not words:
            wrong.append(f"{ERRORS}: no word of reports is found in {file}")
        for word in sorted(words):
            if line.startswith("fault") and word in SILENT:
                continue
            many += 1
            for it in filter(None, (line, heading)):
                if not re.search(f"^{it.format(word)}$", lines, re.M):
                    wrong.append(f"{ERRORS}: no line as {it.format(word)}")
    return many, wrong


def unlisted():
    """What PROFILE.md lacks of the element table: elements and attributes. Gives how many there are, and what is wrong."""
    with open(os.path.join(TOP, ELEMENTS), encoding="utf-8") as file:
        table = file.read()
    with open(os.path.join(TOP, PROFILE), encoding="utf-8") as file:
        rows = [it for it in file.read().split("\n") if it.startswith("| `")]
    attributes, many, wrong = dict(re.findall(r'^(\w+) = attribute "(\w+)"', table, re.M)), 0, []
    for name, shape in re.findall(r'^    element(?:_twice)? "(\w+)" (.*)', table, re.M):
        own = "".join(it for it in rows if f"`{name}`" in it)
        wanted = [attributes[it] for it in re.findall(r"\w+", shape) if it in attributes]
        many += 1 + len(wanted)
        if not any(f"`{name}`" in it.split(" | ")[0] for it in rows):
            wrong.append(f"{PROFILE}: the table of elements has no row of {name}")
        wrong += [f"{PROFILE}: the row of {name} lacks {it}" for it in wanted if f"`{it}`" not in own]
    return many, wrong if many else [f"{PROFILE}: no element is found in {ELEMENTS}"]


def unplaced():
    """What RULES.md names and isn't there: definitions, functions, edits and cases. Gives how many there are, and what is wrong."""
    with open(os.path.join(TOP, RULES), encoding="utf-8") as file:
        rows = [it.split(" | ") for it in file.read().split("\n") if re.match(r"\| .*\| \d \|", it)]
    named = []
    for _, _, definitions, functions, edits, cases_of in rows:
        for column, folder, ending in ((definitions, "specs", "antt"), (functions, "src", "rt")):
            for crate, names in re.findall(r"(eds_\w+): ([^;]*)", column):
                named += [f"crates/{crate}/{folder}/{it}.{ending}" for it in re.findall(r"`(\w+)`", names)]
        named += [f"crates/*/must-fail/{it}.edit" for it in re.findall(r"`(\w+)`", edits.partition("exact:")[0])]
        named += [f"crates/eds_cases/data/cases/{it}.json" for it in re.findall(r"`(\w+)`", cases_of)]
    wrong = [f"{RULES}: there is no {it}" for it in named if not glob.glob(os.path.join(TOP, it))]
    return len(named), wrong if named else [f"{RULES}: no rule is found"]


def miscounted():
    """What TESTING.md has wrong of the edits of each crate, and of the sums. Gives how many rows there are, and what is wrong."""
    with open(os.path.join(TOP, TESTING), encoding="utf-8") as file:
        rows = re.findall(r"^\| (eds_\w+|all) \| (\d+) \| (.*) \|$", file.read(), re.M)
    told = {name: int(many) for name, many, _ in rows}
    there = Counter(it.split(os.sep)[-3] for it in glob.glob(os.path.join(TOP, "crates/*/must-fail/*.edit")))
    crates = sorted({*told, *there} - {"all"})
    wrong = [f"{TESTING}: {it} has {there[it]} edits, not {told.get(it)}" for it in crates if told.get(it) != there[it]]
    bodies = sum(len(re.findall(r"\w+", it.partition("`: ")[2])) for *_, cell in rows for it in cell.split("; "))
    if ("all", str(there.total()), str(bodies)) not in rows:
        wrong.append(f"{TESTING}: all crates have {there.total()} edits, and {bodies} wrong bodies without one")
    return len(rows), wrong


def headings(page):
    """The words by which a page's headings are linked to."""
    with open(page, encoding="utf-8") as file:
        text = re.sub(r"^```.*?^```$", "", file.read(), flags=re.S | re.M)
    titles = [re.sub(r"`|\[([^\]]*)\]\([^)]*\)", lambda it: it[1] or "", title) for title in re.findall(r"^#+ (.*)$", text, re.M)]
    return {re.sub(r"[^\w\- ]", "", it.strip().lower()).replace(" ", "-") for it in titles}


def astray(page):
    """The links of a page that lead to no file, or to no heading of one. Gives how many there are, and what is wrong."""
    with open(page, encoding="utf-8") as file:
        links = [it for it in re.findall(r"\]\(([^)\s]+)\)", file.read()) if "://" not in it]
    wrong = []
    for link in links:
        path, _, heading = link.partition("#")
        there = os.path.normpath(os.path.join(os.path.dirname(page), path)) if path else page
        if not os.path.exists(there) or (heading and heading not in headings(there)):
            wrong.append(f"{os.path.relpath(page, TOP)}: nothing is at {link}")
    return len(links), wrong


def function(file, name):
    """A function's text in a file, from its name to its end, without the indentation."""
    with open(os.path.join(TOP, file), encoding="utf-8") as it:
        found = re.search(rf"^( *)(pub(\(crate\))? )?fn {name}\b.*?^\1}}$", it.read(), re.S | re.M)
    return textwrap.dedent(found[0]) if found else f"// {file} has no function {name}"


def shown(text):
    """A page's text with each function that it shows as it stands in its file."""
    block = r"```rust\n(// (\S+): (\w+)\n)(?:.*?\n)??```"
    return re.sub(block, lambda it: f"```rust\n{it[1]}{function(it[2], it[3])}\n```", text, flags=re.S)


def renew(page):
    with open(page, encoding="utf-8") as file:
        text = file.read()
    if shown(text) != text:
        with open(page, "w", encoding="utf-8") as file:
            file.write(shown(text))
        print(f"pages: {os.path.relpath(page, TOP)} is renewed")


def main():
    words = [it for it in sys.argv[1:] if it != "--renew"]
    taken = [os.path.abspath(it) for it in words] or pages()
    if "--renew" in sys.argv:
        for page in taken:
            renew(page)
        return 0
    program = cases.program()
    with ThreadPoolExecutor(os.cpu_count()) as pool:
        found = list(pool.map(lambda page: hold(program, page), taken))
    found += [astray(page) for page in taken]
    for page, check in ((ERRORS, unexplained), (PROFILE, unlisted), (RULES, unplaced), (TESTING, miscounted)):
        if os.path.join(TOP, page) in taken:
            found.append(check())
    ran, wrong = sum(it[0] for it in found), [it for _, failed in found for it in failed]
    for it in wrong:
        print(f"pages: {it}")
    print(f"pages: {ran - len(wrong)} passed, {len(wrong)} failed")
    return 1 if wrong else 0


if __name__ == "__main__":
    sys.exit(main())
