"""Runs that are cut. `parts(rng, octets)` gives fronts and rests of a script that is cut behind its wires, `spoiled(rng, text)` a
snapshot with something changed, and `joined(front, rest, whole)` whether three reports are those of one run, cut and uncut."""
import re

from scripts import is_wire

PLACES = 10     # at how many places a script is cut at most
WORDS = ["snapshot", "end", "wire", "machine", "var", "wait", "1", "0", "x", "", "99999999999999999999", "9223372036854775808", "nul", "{}", "-1", "007"]


def parts(rng, octets):
    """(front, rest, lines in front) at some places of a script behind its wires; each front ends with a line feed, or is empty."""
    lines = octets.split(b"\n")
    wires = [at for at, line in enumerate(lines, 1) if is_wire(line.removesuffix(b"\r"))]
    first = max(wires, default=0)
    places = list(range(first, len(lines)))
    for at in sorted(rng.sample(places, min(PLACES, len(places)))):
        front = b"".join(line + b"\n" for line in lines[:at])
        yield front, b"\n".join(lines[at:]), at


def shifted(report, lines):
    """A report with the numbers of its lines larger by so many."""
    return re.sub(r"^(bad line |limit deliveries 10000 at line )(\d+)", lambda found: found[1] + str(int(found[2]) + lines), report, flags=re.M)


def events(report):
    """The lines of a report that tell what left the run."""
    return "".join(line for line in report.splitlines(True) if line[0].isdigit())


def joined(front, rest, whole, lines):
    """Whether the run of a whole script, and of its rest behind its front, come to the same: answers, and the front's lines."""
    if rest[0] == 3:
        return whole == (3, shifted(rest[1], lines))
    return whole == (rest[0], events(front[1]) + shifted(rest[1], lines))


def spoiled(rng, text):
    """A snapshot with something changed, which mostly makes it bad."""
    lines = text.split("\n")
    for _ in range(rng.choice([1, 1, 1, 2])):
        at = rng.randrange(len(lines))
        lines = rng.choice([dropped, doubled, moved, with_word, with_number, with_octets, cut_short])(rng, lines, at)
    return "\n".join(lines).encode("utf-8", "surrogateescape")


def dropped(_, lines, at):
    return lines[:at] + lines[at + 1:] or [""]


def doubled(_, lines, at):
    return lines[:at] + lines[at:at + 1] + lines[at:]


def moved(rng, lines, at):
    rest = lines[:at] + lines[at + 1:]
    to = rng.randrange(len(rest) + 1)
    return rest[:to] + [lines[at]] + rest[to:]


def with_word(rng, lines, at):
    words = lines[at].split(" ")
    words[rng.randrange(len(words))] = rng.choice(WORDS)
    return lines[:at] + [" ".join(words)] + lines[at + 1:]


def with_number(rng, lines, at):
    """A line with one of its numbers made less or more."""
    found = list(re.finditer(r"(?<=[ :])\d+", lines[at]))
    if not found:
        return lines
    it = rng.choice(found)
    number = max(0, int(it[0]) + rng.choice([-1000, -250, -1, 1, 5, 1000, 10**6]))
    return lines[:at] + [lines[at][:it.start()] + str(number) + lines[at][it.end():]] + lines[at + 1:]


def with_octets(rng, lines, at):
    line = lines[at]
    to = rng.randrange(len(line) + 1)
    return lines[:at] + [line[:to] + rng.choice([" ", "\udcff", "\r", "a", "\"", "}"]) + line[to:]] + lines[at + 1:]


def cut_short(rng, lines, at):
    line = lines[at]
    return lines[:at] + [line[:rng.randrange(len(line) + 1)]]
