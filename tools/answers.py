"""Asks the program, for the scripts beside this one: what it reports of a sheet, and the layouts of its types.

The program is ./eds of this repository, or the one that the environment's EDS names.
"""

import os
import re
import subprocess
from concurrent.futures import ThreadPoolExecutor

TOP = os.path.dirname(os.path.dirname(os.path.realpath(__file__)))
ROW = re.compile(r"(\d+|varies) (\d+|varies) (\$\S*) (\w+)")
HEAD = re.compile(r"(container|type) (\S+) bits (\d+|varies)")


def program():
    return os.environ.get("EDS") or os.path.join(TOP, "eds")


def ask(*words):
    """The status and the report of a command."""
    ran = subprocess.run([program(), *words], stdin=subprocess.DEVNULL, stdout=subprocess.PIPE, check=False)
    return ran.returncode, ran.stdout.decode("utf-8", errors="replace")


class Row:
    """A part in a layout: its offset and size in bits, each None where it varies, its path and its kind."""

    def __init__(self, offset, size, path, kind):
        self.offset, self.size, self.path, self.kind = offset, size, path, kind


class Layout:
    """What `eds layout` says of one type: its bits, or None where they vary, its parts, and what is left on its paths."""

    def __init__(self, kind, name, bits):
        self.kind, self.name, self.bits, self.rows, self.sets = kind, name, bits, [], []


def number(word):
    return None if word == "varies" else int(word)


def layouts_of(report):
    """The layouts of a report, by name."""
    found = {}
    for line in report.splitlines():
        head, row = HEAD.fullmatch(line), ROW.fullmatch(line)
        if head:
            here = Layout(head[1], head[2], number(head[3]))
            found[head[2]] = here
        elif row:
            here.rows.append(Row(number(row[1]), number(row[2]), row[3], row[4]))
        elif line.startswith("where "):
            here.sets.append(tuple(line.split(" ", 2)[1:]))
        else:
            raise ValueError(f"eds layout: {line}")
    return found


class Layouts:
    """The layouts of all types of a sheet. Where there is none, `why` says so: the report of eds."""

    def __init__(self, sheet, files):
        self.by_name, self.why, self.files = {}, {}, files
        families = [it for it in sheet.types if it.kind == "Container" and it.base is None]
        with ThreadPoolExecutor(os.cpu_count()) as pool:
            self.take(families, pool)
            # a family that is refused as a whole may have containers that are not
            broken = [it for it in families if it.name in self.why]
            self.take([it for first in broken for it, depth in first.under() if depth], pool)
            self.note_parts(sheet)
            self.take([it for it in sheet.types if it.kind != "Container" and it.name not in self.by_name], pool)

    def note_parts(self, sheet):
        """The sizes of types that parts of containers have: a part that is no list has the size of its type."""
        for found in sheet.types:
            layout, parts = self.by_name.get(found.name), found.sequence() if found.kind == "Container" else []
            if layout is not None and len(parts) == len(layout.rows):
                for row, part in zip(layout.rows, parts, strict=True):
                    if part.type is not None and part.type.kind != "Container" and row.kind != "list":
                        self.by_name.setdefault(part.type.name, Layout("type", part.type.name, row.size))

    def take(self, types, pool):
        """Asks for the layouts of types."""
        for it, (status, report) in zip(types, pool.map(lambda it: ask("layout", it.name, *self.files), types), strict=True):
            if status == 0:
                self.by_name.update(layouts_of(report))
            else:
                self.why[it.name] = report.rstrip("\n")
