#!/usr/bin/env python3
"""Checks docs/eds.1, the manual of eds, and the completion beside it.

  .ci/manual.py

The manual's examples, which are blocks of `.Bd -literal` that begin with `$ `, print what stands there: they are run as those
of the pages are, in one folder. Its commands, statuses and limits are those of docs/PROFILE.md; the commands that bash and
zsh complete are those too. Where mandoc and man are installed, neither has anything to say of the manual.
The environment's EDS may name a built program to be run in the place of ./eds.
"""

import os
import re
import shutil
import subprocess
import sys
import tempfile

sys.dont_write_bytecode = True
import cases  # noqa: E402
import pages  # noqa: E402

MANUAL = "docs/eds.1"
NUMBER = r"\d+(?:,\d{3})+|\d+\^\d+(?: - 1)?|\d+"


def text_of(name):
    with open(os.path.join(pages.TOP, name), encoding="utf-8") as file:
        return file.read()


def section(text, begins, ends):
    found = re.search(rf"^{begins}\n(.*?)(?=^{ends}|\Z)", text, re.M | re.S)
    return found[1] if found else ""


def plain(text):
    """What a block of the manual shows."""
    for written, shown in (("\\(aq", "'"), ("\\(ga", "`"), ("\\-", "-"), ("\\&", ""), ("\\e", "\\")):
        text = text.replace(written, shown)
    return text


def examples():
    """Runs the examples. Gives how many commands were run, and what went wrong."""
    blocks = re.findall(r"^\.Bd -literal.*?\n(.*?)^\.Ed$", text_of(MANUAL), re.M | re.S)
    with tempfile.TemporaryDirectory(prefix="eds-manual-") as room:
        page = os.path.join(room, "eds.1.md")
        with open(page, "w", encoding="utf-8") as file:
            file.writelines(f"```console\n{plain(it)}```\n" for it in blocks)
        ran, wrong = pages.hold(cases.program(), page)
    return ran, wrong if ran else ["it has no example"]


def differ(what, wanted, found):
    """What is wrong where two lists that must have the same items don't."""
    lacking, strange = [it for it in wanted if it not in found], [it for it in found if it not in wanted]
    none = [f"{what}: nothing is found"] if not wanted else []
    return none + [f"{what}: lacks {it}" for it in lacking] + [f"{what}: has {it}, which {pages.PROFILE} has not" for it in strange]


def told():
    """Compares the manual and the completion with the page. Gives how many things were compared, and what differs."""
    manual, page = text_of(MANUAL), text_of(pages.PROFILE)
    commands = re.findall(r"^    eds (\w+) ", section(page, "## Commands", "`TYPE`"), re.M)
    statuses = re.findall(r"^\| [^|]+ \| (\d) \|", section(page, "## Commands", "## "), re.M)
    limits = re.findall(NUMBER, "\n".join(re.findall(r"^\| .* \|$", section(page, "## Limits", "## "), re.M)))
    in_words = {
        "the manual's SYNOPSIS": re.findall(r"^\.Cm (\w+)", section(manual, ".Sh SYNOPSIS", r"\.Sh"), re.M),
        "the manual's COMMANDS": re.findall(r"^\.It Cm (\w+)", section(manual, ".Sh COMMANDS", r"\.S[hs]"), re.M),
        "the completion of bash": re.findall(r"^  \[(\w+)\]=", text_of("packaging/eds.bash"), re.M),
        "the completion of zsh": re.findall(r'^  (\w+) +"', text_of("packaging/_eds"), re.M),
    }
    wrong = [it for what, found in in_words.items() for it in differ(what, commands, found)]
    wrong += differ("the manual's EXIT STATUS", statuses, re.findall(r"^\.It (\d)$", section(manual, ".Sh EXIT STATUS", r"\.Sh"), re.M))
    wrong += differ("the manual's LIMITS", limits, re.findall(NUMBER, section(manual, ".Sh LIMITS", r"\.Sh")))
    return 6, wrong


def checkers():
    """Has the manual's text checked. Gives how many checkers there were, and what they say."""
    ran, wrong = 0, []
    for name, *words in (("mandoc", "-T", "lint"), ("man", "--warnings=w", "-E", "UTF-8", "-l")):
        if not shutil.which(name):
            print(f"manual: {name} is not here, so it does not check it")
            continue
        ran += 1
        said = subprocess.run([name, *words, MANUAL], cwd=pages.TOP, capture_output=True, check=False)
        lines = (said.stdout if name == "mandoc" else said.stderr).decode(errors="replace").splitlines()
        # the manuals of the tools are made when these are packaged
        wrong += [f"{name}: {it}" for it in lines if "referenced manual not found" not in it]
    return ran, wrong


def main():
    found = [examples(), told(), checkers()]
    ran, wrong = sum(it[0] for it in found), [it for _, failed in found for it in failed]
    for it in wrong:
        print(f"manual: {it}")
    print(f"manual: {ran - len(wrong)} passed, {len(wrong)} failed")
    return 1 if wrong else 0


if __name__ == "__main__":
    sys.exit(main())
