#!/usr/bin/env python3
"""Makes the pages, timelines, tables and plots of the examples by the scripts in tools/, and checks them.

  .ci/pictures.py [--sheets N] [--keep FOLDER] [--screens FOLDER] [--large]

What is checked: a page is well formed as HTML, its links lead somewhere in it, it asks for nothing outside, its headings,
tables and drawings have what readers of the screen need; every number in a layout's picture and table is that of `eds
layout`, asked for each container by itself; a timeline has every line that `eds run` reports, in order; a table has the
values of `eds split`. A sheet with marks of HTML in each place of a free text is shown as text. What tools/sheets.py reads of
N random sheets (40 by default) is what bench/model reads, and the layouts on their pages are those of `eds layout` too. Where
Chromium is installed, all pages are opened in it at two widths: no error, and what must be seen is there. With --large a
sheet of 4,096 types and a run of 10,000 events are opened too, and the times are told, the least of five turns: two seconds at
most to open, and half of one to zoom, scroll or search in the run. With --keep the pages stay in FOLDER,
and with --screens FOLDER Chromium takes the pictures of docs/PICTURES.md. EDS may name another program than ./eds. What is
skipped is said.
"""

import argparse
import csv
import html.parser
import io
import json
import os
import random
import re
import shutil
import subprocess
import sys
import tempfile
import time
from concurrent.futures import ThreadPoolExecutor

TOP = os.path.dirname(os.path.dirname(os.path.abspath(__file__)))
sys.dont_write_bytecode = True
sys.path[:0] = [os.path.join(TOP, "tools"), os.path.join(TOP, "bench/model")]
import answers  # noqa: E402
import gen  # noqa: E402
import gen_components  # noqa: E402
import run_model  # noqa: E402
import sheets  # noqa: E402

TOOLS = os.path.join(TOP, "tools")
VOID = {"area", "base", "br", "col", "embed", "hr", "img", "input", "link", "meta", "source", "wbr"}
SCRIPT = "<script>alert(1)</script>"
WIDTHS = (1280, 400)


def tool(name, *words, given=None):
    """Runs a script of tools/. Gives its status, what it prints, and what it complains of."""
    words = [os.path.join(TOOLS, name), *words]
    ran = subprocess.run(words, cwd=TOP, input=given if given is not None else b"", capture_output=True, check=False)
    return ran.returncode, ran.stdout, ran.stderr.decode(errors="replace")


# ---------------------------------------------------------------- a page as HTML


class Seen(html.parser.HTMLParser):
    """What stands in a page, and what is wrong with it as HTML."""

    def __init__(self, text):
        super().__init__(convert_charrefs=True)
        self.open, self.wrong, self.ids, self.links, self.headings, self.scripts = [], [], [], [], [], []
        self.texts, self.parts, self.rows, self.labels, self.inputs = [], {}, [], set(), []
        self.item, self.cells, self.title, self.facts = None, None, None, {}
        self.feed(text)
        self.close()
        self.wrong += [f"{it} is not closed" for it, _ in self.open]
        self.judge()

    def handle_starttag(self, tag, found):
        attributes = dict(found)
        if tag not in VOID:
            self.open.append((tag, attributes))
        self.note(tag, attributes)

    def handle_startendtag(self, tag, found):
        self.note(tag, dict(found))

    def note(self, tag, attributes):
        if "id" in attributes:
            self.ids.append(attributes["id"])
        target = attributes.get("href", attributes.get("xlink:href"))
        if tag in ("a", "use") and target is not None:
            self.links.append(target)
        if "src" in attributes or tag in ("iframe", "object", "embed", "base", "image", "img") or tag == "link" and target != "data:,":
            self.wrong.append(f"{tag} may ask for something outside")
        if any(name.startswith("on") for name in attributes):
            self.wrong.append(f"{tag} has a handler of its own")
        if re.fullmatch("h[1-6]", tag):
            self.headings.append(int(tag[1]))
        if tag == "svg" and not (attributes.get("role") == "img" and attributes.get("aria-label") or attributes.get("aria-hidden") == "true"):
            self.wrong.append("a drawing has no alternative text")
        if tag == "th" and attributes.get("scope") not in ("col", "row"):
            self.wrong.append("a head of a table has no scope")
        if tag == "html" and not attributes.get("lang"):
            self.wrong.append("no language")
        if tag == "label":
            self.labels.add(attributes.get("for", ""))
        if tag in ("input", "select") and not any(it == "label" for it, _ in self.open):
            self.inputs.append(attributes.get("id"))
        if tag == "script":
            self.scripts.append(attributes.get("type", ""))
        if tag == "section" and "item" in attributes.get("class", ""):
            self.item = attributes["id"]
        if "data-offset" in attributes:
            self.parts.setdefault(self.item, []).append([attributes["data-row"], attributes["data-offset"], attributes["data-size"], []])
        if tag == "tr":
            self.cells = []
        if tag == "td":
            self.cells.append("")

    def handle_endtag(self, tag):
        if not self.open or self.open[-1][0] != tag:
            self.wrong.append(f"{tag} is closed where {self.open[-1][0] if self.open else 'nothing'} is open")
            return
        _, attributes = self.open.pop()
        if tag == "tr" and self.cells:
            kind = next((it.get("class") for name, it in reversed(self.open) if name == "table"), "")
            self.rows.append((self.item, kind, self.cells))
            self.cells = None

    def handle_data(self, text):
        names = [it for it, _ in self.open]
        if "script" in names or "style" in names:
            return
        self.texts.append(text)
        if self.cells:
            self.cells[-1] += text
        if self.open and self.open[-1][0] == "text" and any("data-offset" in it for _, it in self.open):
            self.parts[self.item][-1][3].append(text)
        if "dt" in names:
            self.facts[self.item, text] = ""
        if "dd" in names and self.facts:
            self.facts[list(self.facts)[-1]] += text
        if names[-1:] == ["title"] and "head" in names:
            self.title = text

    def judge(self):
        known = set(self.ids)
        self.wrong += [f"the id {it} stands twice" for it in {it for it in self.ids if self.ids.count(it) > 1}] if len(known) < len(self.ids) else []
        self.wrong += [f"a link leads to {it}" for it in self.links if not it.startswith("#") or it[1:] not in known]
        self.wrong += [f"a field {it} has no label" for it in self.inputs if it not in self.labels]
        if self.headings[:1] != [1] or self.headings.count(1) != 1:
            self.wrong.append("the first heading is not the only one of its kind")
        for above, here in zip(self.headings, self.headings[1:], strict=False):
            if here > above + 1:
                self.wrong.append(f"a heading of level {here} follows one of level {above}")
        if not self.title:
            self.wrong.append("no title")

    def text(self):
        return " ".join(" ".join(self.texts).split())


# ---------------------------------------------------------------- layouts


def layout_of(name, files):
    """The layout of a container by itself, or None where eds has none."""
    status, report = answers.ask("layout", name, *files)
    return answers.layouts_of(report).get(name) if status == 0 else None


def word(number):
    return "varies" if number is None else str(number)


def hold_layouts(seen, files, sheet):
    """Every number in the pictures and tables of parts against `eds layout`. Gives how many there are, and what is wrong."""
    many, wrong = 0, []
    for it in sheet.types:
        if it.kind != "Container":
            status, report = answers.ask("layout", it.name, *files)
            told = seen.facts.get((it.name, "Size"), "")
            # an open binary stands for no bits alone, so that its size is told by the parts that have it, if any
            sizes = [report.split(" ")[-1].strip()] if status == 0 else ["varies", "refused"]
            many += 1
            if told.split(" ")[0] not in sizes or not told.endswith("eds"):
                wrong.append(f"{it.name}: the page says {told}, eds layout {report}")
            continue
        layout = layout_of(it.name, files)
        drawn = seen.parts.get(it.name, [])
        told = [cells for name, kind, cells in seen.rows if name == it.name and kind == "parts"]
        wanted = [(str(at), word(row.offset), word(row.size)) for at, row in enumerate(layout.rows, 1)] if layout else []
        many += 2 * len(wanted)
        if [tuple(cells[:3]) for cells in told] != wanted:
            wrong.append(f"{it.name}: the table has {[tuple(cells[:3]) for cells in told]}, eds layout {wanted}")
        if [tuple(each[:3]) for each in drawn] != [each for each in wanted if each[2] != "0"]:
            wrong.append(f"{it.name}: the picture has {[tuple(each[:3]) for each in drawn]}, eds layout {wanted}")
        for number, offset, size, texts in drawn:
            # what is no name is the part's offset, its size, perhaps with its value, or its number in the table
            told = [each for each in texts if not re.match("[A-Za-z_]", each) or each == "varies"]
            others = [each for each in told if each not in (offset, size, f"#{number}") and not each.startswith(f"{size} = ")]
            if others:
                wrong.append(f"{it.name}: the picture of part {number} says {texts}")
    return many, wrong


# ---------------------------------------------------------------- the examples


def examples():
    """The sheets of the examples: a name and the files."""
    found, top = [], os.path.join(TOP, "examples")
    for name in sorted(os.listdir(top)):
        words = os.path.join(top, name, "check.words")
        if os.path.exists(words):
            with open(words, encoding="utf-8") as file:
                found.append((name, file.read().split()[1:]))
    return [*found, ("xml", ["examples/xml/wheel.json"])]


def runs():
    """The scripts of the examples that run to an end: a name, and the words behind `run`."""
    found, top = [], os.path.join(TOP, "examples")
    for folder in sorted(os.listdir(top)):
        for name in sorted(os.listdir(os.path.join(top, folder))) if os.path.isdir(os.path.join(top, folder)) else []:
            if name.endswith(".words") and not os.path.exists(os.path.join(top, folder, name[:-6] + ".status")):
                with open(os.path.join(top, folder, name), encoding="utf-8") as file:
                    words = file.read().split()
                if words[0] == "run":
                    found.append((f"{folder}-{name[:-6]}", words[1:]))
    return found


def read_sheet(files):
    octets = []
    for name in files:
        with open(name, "rb") as file:
            octets.append(file.read())
    return sheets.Sheet(octets)


class Gate:
    """What is checked, counted by kind, and what failed."""

    def __init__(self, room):
        self.room, self.counts, self.wrong, self.pages = room, {}, [], []

    def count(self, kind, many=1):
        self.counts[kind] = self.counts.get(kind, 0) + many

    def keep(self, name, octets, looks_for):
        path = os.path.join(self.room, name + ".html")
        with open(path, "wb") as file:
            file.write(octets)
        self.pages.append((name, path, looks_for))

    def parsed(self, name, status, octets, complaint):
        """A page as a parser sees it; what is wrong with it is noted."""
        if status or complaint:
            self.wrong.append(f"{name}: status {status}: {complaint}")
            return None
        seen = Seen(octets.decode())
        self.count("pages as HTML")
        self.wrong += [f"{name}: {it}" for it in seen.wrong]
        return seen

    def page(self, name, files):
        status, octets, complaint = tool("page", *files)
        seen = self.parsed(name, status, octets, complaint)
        if seen is None:
            return
        sheet = read_sheet([os.path.join(TOP, it) for it in files])
        lacking = [it.name for it in [*sheet.types, *sheet.interfaces, *sheet.components] if it.name not in seen.ids]
        self.wrong += [f"{name}: {it} is not on the page" for it in lacking]
        files = [os.path.join(TOP, it) for it in files]
        many, wrong = hold_layouts(seen, files, sheet)
        self.count("numbers of layouts", many)
        self.wrong += [f"{name}: {it}" for it in wrong]
        layouts = [layout_of(it.name, files) for it in sheet.types if it.kind == "Container"]
        drawings = sum(layout is not None and any(row.size != 0 for row in layout.rows) for layout in layouts)
        self.keep("page-" + name, octets, {"items": len(sheet.types) + len(sheet.interfaces) + len(sheet.components), "drawings": drawings})

    def timeline(self, name, words):
        status, octets, complaint = tool("timeline", *words)
        seen = self.parsed(name, status, octets, complaint)
        if seen is None:
            return
        _, report = answers.ask("run", *(os.path.join(TOP, it) for it in words))
        lines = report.splitlines()
        events = [it for it in lines if it[:1].isdigit()]
        told = [cells for _, kind, cells in seen.rows if kind == "steps"]
        by_eds = [f"{cells[1]} {cells[4]}" for cells in told if cells[5] == "eds"]
        if by_eds != events:
            self.wrong.append(f"{name}: the steps by eds are {by_eds}, eds run reports {events}")
        text = seen.text()
        self.wrong += [f"{name}: the end does not say {it}" for it in lines if it.startswith(("state ", "end ")) and " ".join(it.split(" ")[1:]) not in text]
        if "are not shown" in text:
            self.wrong.append(f"{name}: bench/model did not tell what goes on within")
        self.count("lines of runs", len(lines))
        self.keep("run-" + name, octets, {"steps": len(told)})

    def table(self):
        """The example of split as a table, against its values."""
        status, report = answers.ask("split", "Space/Packet", os.path.join(TOP, "examples/split/packets.bin"), os.path.join(TOP, "examples/ccsds/sheet.json"))
        values = [json.loads(it) for it in report.splitlines()[:-1]]
        ended, octets, complaint = tool("table", given=report.encode())
        rows = list(csv.DictReader(io.StringIO(octets.decode())))
        wanted = [(str(it["Temp"]), it["SeqFlags"], str(it["Header"]["Seconds"]), "true" if it["SecHdr"] else "false") for it in values]
        found = [(it["Temp"], it["SeqFlags"], it["Header.Seconds"], it["SecHdr"]) for it in rows]
        if status or ended or complaint or found != wanted:
            self.wrong.append(f"tools/table: status {ended}, {complaint}, has {found}, eds split {wanted}")
        mixed = b'{"$type":"A/B","x":1,"l":[{"y":18446744073709551615},{"y":-1}]}\n{"$type":"A/C","t":"a,\\"b\\"\\n"}\npackets 2 octets 9\n'
        wanted = 'packet,kind,x,l[0].y,l[1].y,t|1,A/B,1,18446744073709551615,-1,|2,A/C,,,,"a,""b""\n"'
        _, octets, _ = tool("table", given=mixed)
        if octets.decode().replace('"packet"', "packet") and list(csv.reader(io.StringIO(octets.decode()))) != list(csv.reader(io.StringIO(wanted.replace("|", "\n")))):
            self.wrong.append(f"tools/table: two kinds became {octets!r}")
        each = os.path.join(self.room, "each")
        tool("table", "--each", each, given=mixed)
        if sorted(os.listdir(each)) != ["A.B.csv", "A.C.csv"]:
            self.wrong.append(f"tools/table --each: {sorted(os.listdir(each))}")
        status, _, complaint = tool("table", given=b"fault Short at $.x in packet 2\n")
        if status != 1 or "fault Short" not in complaint:
            self.wrong.append(f"tools/table: of a fault status {status}, {complaint}")
        self.count("tables", 4)

    def plot(self):
        """The example of split as a plot, as SVG and PNG, and labels with marks of HTML and of formulas."""
        _, report = answers.ask("split", "Space/Packet", os.path.join(TOP, "examples/split/packets.bin"), os.path.join(TOP, "examples/ccsds/sheet.json"))
        status, octets, complaint = tool("plot", "Temp", "Volt", "SeqFlags", "--over", "Header.Seconds", given=report.encode())
        if "matplotlib is not installed" in complaint:
            print("pictures: plots are skipped, since matplotlib is not here")
            return
        if status or complaint or b"<svg" not in octets or b"Header.Seconds" not in octets or b"UNSEG" not in octets:
            self.wrong.append(f"tools/plot: status {status}, {complaint}")
        hostile = json.dumps({"$type": "A/B", "label": SCRIPT + "$x^2$", "n": 1}).encode() + b"\n"
        status, octets, complaint = tool("plot", "label", "n", "--title", SCRIPT, given=hostile)
        if status or b"<script" in octets or octets.count(b"&lt;script&gt;") < 2 or b"$x^2$" not in octets:
            self.wrong.append(f"tools/plot: a label with marks of HTML: status {status}, {complaint}")
        picture = os.path.join(self.room, "plot.png")
        status, _, complaint = tool("plot", "Temp", "--to", picture, given=report.encode())
        with open(picture, "rb") as file:
            if status or file.read(8) != b"\x89PNG\r\n\x1a\n":
                self.wrong.append(f"tools/plot --to plot.png: status {status}, {complaint}")
        status, _, complaint = tool("plot", "Nowhere", given=report.encode())
        if status != 1 or "no packet has Nowhere" not in complaint:
            self.wrong.append(f"tools/plot Nowhere: status {status}, {complaint}")
        self.count("plots", 4)


# ---------------------------------------------------------------- texts with marks of HTML


def hostile_sheet():
    """A sheet that is accepted and has marks of HTML in each place where it may have a free text."""
    byte = ["IntegerDataEncoding", {"sizeInBits": 8, "encoding": "unsigned"}]
    told = {"shortDescription": f"short {SCRIPT}"}
    long = ["LongDescription", f"long {SCRIPT} </style> & \" ' <!-- ]]>"]
    label, other = f"label {SCRIPT}", 'b\\n"&amp;<b>'
    labels = ["EnumerationList", ["Enumeration", {"label": label, "value": 1, **told}], ["Enumeration", {"label": other, "value": 2}]]
    return ["PackageFile", ["Package", {"name": "Html", **told}, long, ["DataTypeSet",
        ["IntegerDataType", {"name": "U8", **told}, long, byte],
        ["EnumeratedDataType", {"name": "Mode", **told}, long, byte, labels],
        ["StringDataType", {"name": "Text", "length": 60, **told}, long],
        ["ContainerDataType", {"name": "Base", **told}, long, ["EntryList", ["Entry", {"name": "mode", "type": "Mode", **told}, long],
            ["FixedValueEntry", {"type": "Text", "fixedValue": f"fixed {SCRIPT}", **told}]]],
        ["ContainerDataType", {"name": "One", "baseType": "Base"}, ["ConstraintSet", ["ValueConstraint", {"entry": "mode", "value": label}]]],
        ["ContainerDataType", {"name": "Two", "baseType": "Base"}, ["ConstraintSet", ["ValueConstraint", {"entry": "mode", "value": other}]]]],
        ["DeclaredInterfaceSet", ["Interface", {"name": "Face", **told}, long,
            ["ParameterSet", ["Parameter", {"name": "p", "type": "Mode", **told}, long]],
            ["CommandSet", ["Command", {"name": "c", **told}, long, ["Argument", {"name": "a", "type": "Text", "mode": "inout", **told}]]]]],
        ["ComponentSet", ["Component", {"name": "Unit", **told}, long,
            ["RequiredInterfaceSet", ["Interface", {"name": "end", "type": "Face", **told}, long]],
            ["Implementation",
                ["VariableSet", ["Variable", {"name": "text", "type": "Text", "initialValue": f"begins {SCRIPT}", **told}, long],
                    ["Variable", {"name": "mode", "type": "Mode"}]],
                ["ActivitySet", ["Activity", {"name": "act", **told}, long, ["Body",
                    ["Conditional", ["Condition", ["Comparison", {"operator": "=="}, ["VariableRef", {"variableRef": "text"}], ["Value", {"value": f"if {SCRIPT}"}]]]],
                    ["SendCommandPrimitive", {"interface": "end", "command": "c", "transaction": "t"},
                        ["ArgumentValue", {"name": "a"}, ["Value", {"value": f"sent {SCRIPT}"}]]]]]],
                ["StateMachineSet", ["StateMachine", {"name": "m", **told}, long, ["EntryState", {"name": "S", **told}],
                    ["Transition", {"fromState": "S", "toState": "S"}, ["Do", {"activity": "act"}]],
                    ["Transition", {"fromState": "S", "toState": "S"}, ["OnCommandPrimitive", {"interface": "end", "command": "c", "transaction": "t"}],
                        ["Guard", ["Comparison", {"operator": "=="}, ["ArgumentRef", {"argumentRef": "a"}], ["Value", {"value": f"guard {SCRIPT}"}]]]]]]]]]]]  # fmt: skip


PLACES = ("short", "long", "label", "fixed", "begins", "if", "sent", "guard")
# sheets that are refused, each with marks of HTML in another place of what the page shows
REFUSED = {
    "name": ["PackageFile", ["Package", {"name": SCRIPT}]],
    "element": ["PackageFile", [SCRIPT.replace("(", "<").replace(")", ">")]],
    "attribute": ["PackageFile", ["Package", {"name": "A"}, ["DataTypeSet", ["BinaryDataType", {"name": "B", "sizeInBits": SCRIPT}]]]],
    "reference": ["PackageFile", ["Package", {"name": "A"}, ["DataTypeSet", ["SubRangeDataType", {"name": "B", "baseType": "C"}, ["Range", ["MinMaxRange", {"rangeType": "atMost", "max": 1, "x": SCRIPT}]]]]]],
    "transaction": ["PackageFile", ["Package", {"name": "A"}, ["ComponentSet", ["Component", {"name": "B"}, ["Implementation", ["ActivitySet", ["Activity", {"name": "C"}, ["Body", ["SendCommandPrimitive", {"interface": "d", "command": "e", "transaction": SCRIPT}]]]]]]]]],
    "text": SCRIPT,
}  # fmt: skip


def hostile(gate):
    """Each place of a free text in a sheet, in a refused sheet, in the name of a file, in a script and in what a run reports."""
    folder = os.path.join(gate.room, "b <i>&amp;")
    os.makedirs(folder)
    path = os.path.join(folder, "sheet <script>alert(1)<!--.json")
    with open(path, "w", encoding="utf-8") as file:
        json.dump(hostile_sheet(), file)
    status, octets, complaint = tool("page", path)
    seen = gate.parsed("marks of HTML", status, octets, complaint)
    if seen is not None:
        text = seen.text()
        gate.wrong += [f"marks of HTML: {it} is not shown as text" for it in PLACES if f"{it} {SCRIPT}" not in text]
        gate.wrong += ["marks of HTML: the name of the file is not shown as text"] if "b <i>&amp;/sheet <script>alert(1)<!--.json" not in text else []
        gate.wrong += [f"marks of HTML: scripts {seen.scripts}"] if seen.scripts != [""] else []
        gate.keep("page-marks", octets, {"items": 8, "drawings": 0})
    for name, tree in REFUSED.items():
        with open(path, "w", encoding="utf-8") as file:
            json.dump(tree, file) if name != "text" else file.write(f"[{tree}")
        status, octets, complaint = tool("page", path)
        seen = gate.parsed(f"a refused sheet with marks in its {name}", status, octets, complaint)
        if seen is not None and (seen.scripts != [""] or "<script>alert" not in seen.text()):
            gate.wrong.append(f"a refused sheet with marks in its {name}: {seen.text()[:400]}")
    hostile_run(gate, path)
    gate.count("places of marks", len(PLACES) + len(REFUSED) + 3)


def hostile_run(gate, path):
    with open(path, "w", encoding="utf-8") as file:
        json.dump(hostile_sheet(), file)
    script = path + ".script"
    with open(script, "w", encoding="utf-8") as file:
        file.write(f'cmd Html/Unit:end c {{"a":"{SCRIPT}"}}\ntick 1\ncmd Html/Unit:end c {{"a":"guard {SCRIPT}"}}\n')
    status, octets, complaint = tool("timeline", script, path)
    seen = gate.parsed("a run with marks of HTML", status, octets, complaint)
    if seen is not None:
        text = seen.text()
        lacking = [it for it in (f'{{"a":"guard {SCRIPT}"}}', f"sent {SCRIPT}", f"begins {SCRIPT}") if it not in text]
        if lacking or seen.scripts != ["application/json", ""]:
            gate.wrong.append(f"a run with marks of HTML: lacks {lacking}, scripts {seen.scripts}")
        gate.keep("run-marks", octets, {"steps": sum(kind == "steps" for _, kind, _ in seen.rows)})


# ---------------------------------------------------------------- random sheets against bench/model


def differences(octets):
    """What tools/sheets.py reads otherwise than bench/model of one sheet, or None where the sheet is refused."""
    try:
        judge = run_model.judged(octets)
    except run_model.m.Refused:
        return None
    model, sheet, wrong = run_model.m, sheets.Sheet(octets), []

    def same(what, here, there):
        if here != there:
            wrong.append(f"{what}: {here}, bench/model {there}")

    same("types", [it.name for it in sheet.types], [it.name for it in judge.types])
    same("interfaces", [it.name for it in sheet.interfaces], [it.name for it in judge.faces])
    same("components", [it.name for it in sheet.components], [it.name for it in judge.components])
    for here, there in zip(sheet.types, [it for it in judge.types], strict=False):
        same(f"{here.name}: kind", here.kind, there.kind)
        same(f"{here.name}: chain", [it.name for it in here.chain()], [it.name for it in model.chain(there)])
        below = [it.name for it in judge.types if there in model.chain(it)]
        same(f"{here.name}: at or under", sorted(it.name for it, _ in here.under()), sorted(below))
        if here.kind in ("Integer", "SubRange", "Enumerated"):
            same(f"{here.name}: form", here.form(), model.int_form(there))
        if here.kind in sheets.NUMBERS:
            same(f"{here.name}: numbers", here.interval(), model.interval(there))
        if here.kind == "Enumerated":
            same(f"{here.name}: labels", here.labels(), model.listing(there))
        if here.kind == "Array":
            many = 1
            for it in here.dimensions:
                many *= here.count(it)
            same(f"{here.name}: items", (here.item.name, many), (there.item.name, model.array_count(there)))
        if here.kind == "Container":
            same(f"{here.name}: abstract", here.abstract, there.hidden)
            said = lambda found: [(it.kind, it.name, it.owner.name, it.position, it.type.name if it.type else None) for it in found]
            same(f"{here.name}: parts", said(here.sequence()), said(model.sequence(there)))
    for here, there in zip(sheet.components, judge.components, strict=False):
        same(f"{here.name}: ends", [(it.name, it.required, it.face.name) for it in here.ends], [(it.name, it.required, it.face.name) for it in there.ends])
        for mine, its in zip(here.ends, there.ends, strict=False):
            same(f"{here.name}:{mine.name}: members", members(mine.face.members(mine.pairs)[0]), model_members(its.members))
    for here, there in zip(sheet.interfaces, judge.faces, strict=False):
        if not there.generics:
            same(f"{here.name}: members", members(here.members([])[0]), model_members(run_model.Resolution(there.place, there, []).members))
    return wrong


def members(found):
    """Members as plain data: names with the names of types."""
    return [(it.name, it.types[0].name) if it.is_parameter else (it.name, [(name, each.name, mode) for name, each, mode in it.arguments()]) for it in found]


def model_members(found):
    return [(it.name, it.type.name) if hasattr(it, "read_only") else (it.name, [(each.name, each.type.name, each.mode) for each in it.arguments]) for it in found]


def random_layouts(gate, seed, octets):
    """What is wrong in the pictures and tables of an accepted sheet's page."""
    names = [os.path.join(gate.room, f"random{seed}-{at}.json") for at in range(len(octets))]
    for name, text in zip(names, octets, strict=True):
        with open(name, "wb") as file:
            file.write(text)
    seen = gate.parsed(f"random sheet {seed}", *tool("page", *names))
    many, wrong = hold_layouts(seen, names, read_sheet(names)) if seen else (0, [])
    gate.count("numbers of layouts of random sheets", many)
    return wrong


def random_sheets(gate, many):
    accepted = seed = 0
    while accepted < many and seed < 20 * many:
        seed += 1
        octets = gen.case(random.Random(seed), run_model.EVERYTHING) if seed % 2 else [gen_components.octets(gen_components.case(seed))]
        try:
            found = differences(octets)
        except Exception as error:
            found = [f"{type(error).__name__}: {error}"]
        if found is not None:
            accepted += 1
            found += random_layouts(gate, seed, octets)
        gate.wrong += [f"random sheet {seed}: {it}" for it in found or []]
    gate.count("random sheets", accepted)


# ---------------------------------------------------------------- Chromium

LISTENS = """<script>window.wrong=[];addEventListener('error',function(e){wrong.push(String(e.message));});
['error','warn'].forEach(function(kind){console[kind]=function(){wrong.push([].slice.call(arguments).join(' '));};});window.alert=function(){wrong.push('alert');};</script>"""
PROBES = """<script>addEventListener('load',function(){
function seen(what){return [].filter.call(document.querySelectorAll(what),function(it){var b=it.getBoundingClientRect();return b.width>0&&b.height>0;}).length;}
var out={name:NAME,width:innerWidth,items:seen('section.item'),drawings:seen('.bits svg'),graphs:seen('.graph svg'),rows:seen('table.steps tbody tr'),
drawn:seen('#drawing svg g[data-step]'),verdict:seen('.verdict'),title:seen('h1'),legend:seen('.legend'),wide:document.documentElement.scrollWidth-innerWidth};
var box=document.getElementById('search');
if(box){box.value=BOX;box.dispatchEvent(new Event('input'));}
var zoom=document.getElementById('in');if(zoom){zoom.click();document.getElementById('mode').value='time';document.getElementById('mode').dispatchEvent(new Event('change'));document.getElementById('fit').click();document.getElementById('each').click();}
setTimeout(function(){out.found=box?seen('section.item'):0;out.after=seen('#drawing svg');out.wrong=wrong;parent.postMessage(JSON.stringify(out),'*');},400);
});</script>"""
OUTER = """<!DOCTYPE html><html><head><meta charset="utf-8"></head><body>FRAMES<pre id="said"></pre><script>
addEventListener('message',function(it){document.getElementById('said').textContent+=it.data+'\\n';});</script></body></html>"""


def chromium():
    return next((found for found in map(shutil.which, ("chromium", "chromium-browser", "google-chrome")) if found), None)


def opened(program, path, room, budget=20000):
    """The document that Chromium has made of a file, and what it says on its console."""
    words = [program, "--headless", "--no-sandbox", "--disable-gpu", "--disable-extensions", "--disable-background-networking", "--no-first-run"]
    words += ["--disable-component-update", "--disable-sync", f"--user-data-dir={os.path.join(room, 'browser')}", "--enable-logging=stderr"]
    words += [f"--virtual-time-budget={budget}"] if budget else []
    words += ["--dump-dom", "file://" + path]
    ran = subprocess.run(words, stdin=subprocess.DEVNULL, capture_output=True, timeout=600, check=False)
    said = [it for it in ran.stderr.decode(errors="replace").splitlines() if ":CONSOLE" in it]
    return ran.stdout.decode(errors="replace"), said


def in_chromium(gate):
    """Opens all pages in one window, in frames of two widths, and has each say what is seen in it."""
    program = chromium()
    if program is None:
        print("pictures: opening the pages is skipped, since Chromium is not here")
        return
    frames, room = [], os.path.join(gate.room, "framed")
    os.makedirs(room)
    for name, path, _ in gate.pages:
        with open(path, encoding="utf-8") as file:
            text = file.read()
        text = text.replace("<head>", "<head>" + LISTENS, 1).replace("</body>", PROBES.replace("NAME", json.dumps(name)).replace("BOX", json.dumps("e")) + "</body>")
        with open(os.path.join(room, name + ".html"), "w", encoding="utf-8") as file:
            file.write(text)
        frames += [f'<iframe src="{name}.html" width="{width}" height="900"></iframe>' for width in WIDTHS]
    outer = os.path.join(room, "all.html")
    with open(outer, "w", encoding="utf-8") as file:
        file.write(OUTER.replace("FRAMES", "\n".join(frames)))
    text, said = opened(program, outer, gate.room)
    gate.wrong += [f"Chromium says {it}" for it in said]
    lines = html.unescape((re.search(r'<pre id="said">(.*?)</pre>', text, re.S) or ["", ""])[1]).splitlines()
    found = {(it["name"], it["width"]): it for it in map(json.loads, lines)}
    for name, _, wanted in gate.pages:
        for width in WIDTHS:
            it = found.get((name, width))
            gate.wrong += [f"{name} at {width}: {wrong}" for wrong in (unseen(it, wanted) if it else ["it did not open in Chromium"])]
            gate.count("pages in Chromium")


def unseen(it, wanted):
    """What is not as it should be on a page that was opened."""
    wrong = [f"an error: {each}" for each in it["wrong"]]
    if not (it["title"] == 1 and it["verdict"] and it["legend"]):
        wrong.append("no title, verdict or legend is seen")
    if it["wide"] > 0:
        wrong.append(f"it is {it['wide']} wider than the window")
    if "items" in wanted and (it["items"] != wanted["items"] or not 0 < it["found"] <= it["items"]):
        wrong.append(f"{it['items']} declared names are seen, {it['found']} after a search, of {wanted['items']}")
    if wanted.get("drawings", 0) > it["drawings"]:
        wrong.append(f"{it['drawings']} pictures of bits are seen, of {wanted['drawings']}")
    if "steps" in wanted and (it["rows"] != wanted["steps"] or not it["drawn"] or not it["after"]):
        wrong.append(f"{it['rows']} steps are seen of {wanted['steps']}, {it['drawn']} in the drawing, {it['after']} drawing after zooming")
    return wrong


# ---------------------------------------------------------------- large pages


def large_sheet():
    """4,096 types: 1,024 containers of ten parts, which derive by eights, and numbers."""
    numbers = [["IntegerDataType", {"name": f"N{at}"}, ["IntegerDataEncoding", {"sizeInBits": 1 + at % 64, "encoding": "unsigned"}]] for at in range(3072)]
    containers = []
    for at in range(1024):
        base = {} if at % 8 == 0 else {"baseType": f"C{at - at % 8}"}
        parts = [["Entry", {"name": f"e{at}_{each}", "type": f"N{(at * 3 + each) % 3072}"}] for each in range(10)]
        asked = [["ConstraintSet", ["ValueConstraint", {"entry": f"kind{at - at % 8}", "value": at % 8}]]] if base else []
        kind = [] if base else [["Entry", {"name": f"kind{at}", "type": "N7"}]]
        containers.append(["ContainerDataType", {"name": f"C{at}", **base}, *asked, ["EntryList", *kind, *parts]])
    return ["PackageFile", ["Package", {"name": "Large"}, ["DataTypeSet", *numbers, *containers]]]


# when a page has been read and laid out, and how long the slowest of some actions on a run's drawing takes, in milliseconds
TIMES = """<script>addEventListener('load',function(){
document.body.getBoundingClientRect();
var out={opened:performance.now(),slowest:0},view=document.getElementById('view');
function act(what){var begun=performance.now();what();document.body.getBoundingClientRect();out.slowest=Math.max(out.slowest,performance.now()-begun);}
function click(id){act(function(){document.getElementById(id).click();});}
if(view){
['in','out','fit','in','each'].forEach(click);
[.1,.5,.9].forEach(function(it){act(function(){view.scrollTop=it*view.scrollHeight;view.dispatchEvent(new Event('scroll'));});});
act(function(){var it=document.getElementById('mode');it.value='time';it.dispatchEvent(new Event('change'));});
['in','out','fit','in','each'].forEach(click);
act(function(){var it=document.getElementById('find');it.value='clock';it.dispatchEvent(new Event('input'));});
}
document.documentElement.innerHTML='<pre id="times">'+JSON.stringify(out)+'</pre>';
});</script>"""
AT_ONCE = "<script>window.requestAnimationFrame=function(it){it();return 0;};</script>"


def times_of(gate, path):
    """What the page says of itself, the least of some turns: the milliseconds until it was opened, and those of the slowest action."""
    with open(path, encoding="utf-8") as file:
        front, _, end = file.read().rpartition("</body>")
    probe, found = os.path.join(gate.room, "times.html"), []
    with open(probe, "w", encoding="utf-8") as file:
        file.write(front.replace("<head>", "<head>" + AT_ONCE, 1) + TIMES + "</body>" + end)
    for _ in range(5):
        text, _ = opened(chromium(), probe, gate.room, None)
        found.append(json.loads(re.search(r'<pre id="times">(.*?)</pre>', text)[1]))
    return min(it["opened"] for it in found), min(it["slowest"] for it in found)


def large(gate):
    """A page of 4,096 types and a timeline of 10,000 events, and how long Chromium takes to open them."""
    sheet, script = os.path.join(gate.room, "large.json"), os.path.join(gate.room, "large.script")
    with open(sheet, "w", encoding="utf-8") as file:
        json.dump(large_sheet(), file)
    with open(script, "w", encoding="utf-8") as file:
        file.write("".join(f"get Receiver/Unit:control clock\ntick {1000 * at}\n" for at in range(5000)))
    for name, words in (("page", ["page", sheet]), ("run", ["timeline", script, os.path.join(TOP, "examples/receiver/sheet.json")])):
        begun = time.time()
        status, octets, complaint = tool(*words)
        print(f"pictures: large {name}: status {status} {complaint}made in {time.time() - begun:.1f} s, {len(octets):,} octets")
        path = os.path.join(gate.room, f"large-{name}.html")
        with open(path, "wb") as file:
            file.write(octets)
        if chromium():
            took, slowest = times_of(gate, path)
            print(f"pictures: large {name}: opened in {took / 1000:.2f} s, the slowest action {slowest:.0f} ms; load {os.getloadavg()[0]:.1f}")
            if took > 2000 or slowest > 500:
                gate.wrong.append(f"the large {name} takes {took / 1000:.2f} s to open, and {slowest:.0f} ms for an action")


# the pictures of docs/PICTURES.md: the page, how far down it begins, its width and its height
SCREENS = {
    "ccsds": ("page-ccsds", 0, 1280, 1095), "ccsds-phone": ("page-ccsds", 432, 400, 900), "bus": ("page-bus", 562, 1280, 1010),
    "run": ("run-bus-pass", 0, 1280, 1150),
}  # fmt: skip


def screens(gate, folder):
    """Takes the pictures of docs/PICTURES.md."""
    os.makedirs(folder, exist_ok=True)
    paths = {name: path for name, path, _ in gate.pages}
    for name, (page, top, width, height) in SCREENS.items():
        outer = os.path.join(gate.room, "screen.html")
        with open(outer, "w", encoding="utf-8") as file:
            file.write(f'<!DOCTYPE html><body style="margin:0;overflow:hidden"><iframe src="{os.path.basename(paths[page])}" style="border:0;position:absolute;left:0;top:-{top}px;width:{width}px;height:{top + height}px"></iframe></body>')
        words = [chromium(), "--headless", "--no-sandbox", "--disable-gpu", "--hide-scrollbars", f"--user-data-dir={os.path.join(gate.room, 'browser')}"]
        words += [f"--window-size={width},{height}", f"--screenshot={os.path.join(os.path.abspath(folder), name)}.png", f"file://{outer}"]
        subprocess.run(words, stdin=subprocess.DEVNULL, capture_output=True, timeout=600, check=True)


def words():
    parser = argparse.ArgumentParser(prog=".ci/pictures.py", description="Makes and checks the pages of the examples.")
    parser.add_argument("--sheets", type=int, default=40)
    parser.add_argument("--keep")
    parser.add_argument("--large", action="store_true")
    parser.add_argument("--screens", metavar="FOLDER")
    return parser.parse_args()


def main():
    asked = words()
    with tempfile.TemporaryDirectory(prefix="eds-pictures-") as room:
        gate = Gate(room)
        if not shutil.which("dot"):
            print("pictures: graphs of machines are skipped, since graphviz is not here")
        with ThreadPoolExecutor(os.cpu_count()) as pool:
            list(pool.map(lambda it: gate.page(*it), examples()))
            list(pool.map(lambda it: gate.timeline(*it), runs()))
        gate.table()
        gate.plot()
        hostile(gate)
        random_sheets(gate, asked.sheets)
        in_chromium(gate)
        if asked.large:
            large(gate)
        if asked.screens and chromium():
            screens(gate, asked.screens)
        if asked.keep:
            shutil.copytree(room, asked.keep, dirs_exist_ok=True, ignore=shutil.ignore_patterns("browser", "framed"))
    for it in gate.wrong:
        print(f"pictures: {it}")
    told = ", ".join(f"{many} {kind}" for kind, many in gate.counts.items())
    print(f"pictures: {told}; {len(gate.wrong)} failed")
    return 1 if gate.wrong else 0


if __name__ == "__main__":
    sys.exit(main())
