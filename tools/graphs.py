"""Draws state machines as graphs, by graphviz where it is installed: SVG for the page of a sheet."""

import re
import shutil
import subprocess
import textwrap

LACKING = "The machines are not drawn: graphviz, whose command is dot, is not installed here."
FONT = "Helvetica,Arial,sans-serif"


def quoted(text):
    """A text as dot reads it, as it stands: dot takes & for the beginning of a character's name and \\ for an escape."""
    for each, by in (("&", "&amp;"), ("\\", "&#92;"), ('"', "&quot;")):
        text = text.replace(each, by)
    return "".join(chr(0x2400 + ord(it)) if it < " " else it for it in text)


def wrapped(lines, width, end, begin=""):
    """Lines that are broken where they are long, each with dot's mark for how it stands behind it."""
    cut = [it for line in lines if line for it in textwrap.wrap(line, width) or [line]]
    return "".join(begin + quoted(it) + end for it in cut)


def actions(reader, state):
    return [f"{word} / {reader.activity(it).plain()}" for word, name in (("entry", "OnEntry"), ("exit", "OnExit")) for it in state.kids(name)]


def graph(reader, machine):
    """The machine in dot's language: states as nodes, transitions as edges."""
    states = machine.kids("EntryState", "State", "ExitState")
    at = {it.get("name"): number for number, it in enumerate(states)}
    out = ["digraph {", f'graph [bgcolor=transparent, nodesep=.5, ranksep=.6]; node [fontname="{FONT}", fontsize=12];']
    out.append(f'edge [fontname="{FONT}", fontsize=11, color="#445566", fontcolor="#1c2733"];')
    for number, it in enumerate(states):
        style = {"EntryState": 'style="rounded,filled", fillcolor="#dbe9fb", penwidth=2', "ExitState": 'style="rounded,filled", fillcolor="#ececec", peripheries=2'}
        look = style.get(it.name, 'style="rounded,filled", fillcolor="#ffffff"')
        text = wrapped([it.get("name"), *actions(reader, it)], 32, "\\n")
        out.append(f'n{number} [shape=box, color="#445566", {look}, label="{text}"];')
        if it.name == "EntryState":
            out.append(f'begin [shape=circle, width=.14, label="", style=filled, fillcolor="#1c2733"]; begin -> n{number};')
    loops = {}
    for it in machine.kids("Transition"):
        lines = [reader.event(it).plain()]
        lines += [f"[{reader.condition(guard).plain()}]" for guard in it.kids("Guard")]
        lines += [f"/ {reader.activity(does).plain()}" for does in it.kids("Do")]
        text, begins, ends = wrapped(lines, 34, "\\l", begin="&#160;&#160;"), at[it.get("fromState")], at[it.get("toState")]
        if begins == ends:
            loops.setdefault(begins, []).append(text)
        else:
            out.append(f'n{begins} -> n{ends} [label="{text}"];')
    # the transitions from a state to itself share one edge: dot draws several across each other's texts
    blank = "&#160;\\l"
    out += [f'n{state} -> n{state} [label="{blank.join(texts)}"];' for state, texts in loops.items()]
    return "\n".join([*out, "}"])


def drawn(machines):
    """The SVG of each machine, all by one call of dot; None where dot isn't there. Machines come with their component's reader."""
    dot = shutil.which("dot")
    if dot is None:
        return None
    if not machines:
        return []
    text = "\n".join(graph(reader, it) for reader, it in machines)
    ran = subprocess.run([dot, "-Tsvg"], input=text.encode(), stdout=subprocess.PIPE, stderr=subprocess.PIPE, check=False)
    found = re.findall(r"<svg.*?</svg>", ran.stdout.decode(errors="replace"), re.S)
    if len(found) != len(machines):
        return None
    return [tidy(it) for it in found]


def tidy(svg):
    """dot's SVG without what it says twice: comments, titles and ids, which would be the same in each graph."""
    svg = re.sub(r"<!--.*?-->\n?|<title>.*?</title>\n?", "", svg, flags=re.S)
    svg = re.sub(r' (id|class|xmlns|xmlns:xlink|xlink:title)="[^"]*"', "", svg)
    size = re.search(r'viewBox="[\d.-]+ [\d.-]+ ([\d.]+) ([\d.]+)"', svg)
    width = round(float(size[1]) * 1.25)
    style = f"width:{width}px;min-width:{min(width, 340)}px"
    return re.sub(r'<svg width="[^"]*" height="[^"]*"', f'<svg style="{style}"', svg, count=1)
