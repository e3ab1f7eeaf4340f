"""What a run reports: its events, and how all stand in the end."""

from __future__ import annotations

import json
from typing import Any, NamedTuple


class Event(NamedTuple):
    """What left a run, at a `time` in nanoseconds.

    `kind` is the first word of its line behind the time. `at` is the end where it left (of a halt the component), and `name` the command
    or the parameter (of a halt the machine). `value` is the octets of a frame, the object of a cmd, the value of a set or val, None of
    a get, and of a halt or a reject the reason, with the path.
    """

    time: int
    kind: str
    at: str
    name: str
    value: Any
    line: str


class End(NamedTuple):
    """How all stand where a run ended: the `time` in nanoseconds; the state of each machine by its component and name; the value of each
    variable by its component and name; and each transaction that waits, as an end, a member and a name, in the order of their begin."""

    time: int
    states: dict[tuple[str, str], str]
    variables: dict[tuple[str, str], Any]
    waits: list[tuple[str, str, str]]


class Run(NamedTuple):
    """The events of a run, and its end."""

    events: list[Event]
    end: End


def _value(kind: str, text: str) -> Any:
    if kind == "frame":
        return bytes.fromhex(text)
    return json.loads(text) if kind in ("cmd", "set", "val") else text or None


def event_of(line: str) -> Event:
    """The event that a line tells."""
    time, kind, at, name, *rest = line.split(" ", 4)
    return Event(int(time), kind, at, name, _value(kind, rest[0] if rest else ""), line)


def run_of(report: str) -> Run:
    """The run that a report tells."""
    lines = report.split("\n")[:-1]
    last = next(number for number, line in enumerate(lines) if line.startswith("end "))
    end = End(int(lines[last][4:]), {}, {}, [])
    for line in lines[last + 1 :]:
        word, at, name, *rest = line.split(" ", 3)
        if word == "state":
            end.states[at, name] = rest[0]
        elif word == "var":
            end.variables[at, name] = json.loads(rest[0])
        else:
            end.waits.append((at, name, rest[0]))
    return Run([event_of(it) for it in lines[:last]], end)
