"""What a command ends with that isn't done, as exceptions."""

from __future__ import annotations

import re
from typing import Sequence

from .elements import File


class Error(Exception):
    """A command that isn't done. Its text is the report, in whole."""

    def __init__(self, status: int, report: bytes) -> None:
        self.status = status
        self.report = report.decode("utf-8", errors="replace").removesuffix("\n")
        super().__init__(self.report)


class Usage(Error):
    """The words are no command of this library."""


class Refused(Error):
    """The sheet breaks a rule.

    `number` and `rule` are the number and the name of the rule, `place` the file and the element, both counted from 0, and `word`
    what the rule keeps, or None. `file` is the name of the file, and `element` shows the element in it: its line and column, the
    elements around it, and its text. Both are None where the place is the type that the words name.
    """

    def __init__(self, status: int, report: bytes, names: Sequence[str], files: Sequence[bytes]) -> None:
        super().__init__(status, report)
        found = re.fullmatch(r"refused (\d+) (\w+) at (\d+):(\d+)(?: (.*))?", self.report, re.S)
        assert found, self.report
        self.number, self.rule, self.word = int(found[1]), found[2], found[5]
        self.place = int(found[3]), int(found[4])
        at, element = self.place
        is_there = at < len(names)
        self.file = names[at] if is_there else None
        self.element = File(names[at], files[at]).described(element) if is_there else None


class Fault(Error):
    """The frame or the value is refused: `reason` says why, `path` where in the value, and `packet` in which packet of a recording,
    counted from 1, or None."""

    def __init__(self, status: int, report: bytes, packets: bool) -> None:
        super().__init__(status, report)
        found = re.fullmatch(r"fault (\w+) at (.*?)" + r" in packet (\d+)" * packets, self.report, re.S)
        assert found, self.report
        self.reason, self.path = found[1], found[2]
        self.packet = int(found[3]) if packets else None


class BadLine(Error):
    """A line of a script or a session means nothing, or ties what can't be tied: `line`, counted from 1, and `reason`."""

    def __init__(self, status: int, report: bytes) -> None:
        super().__init__(status, report)
        found = re.fullmatch(r"bad line (\d+) (\w+)", self.report)
        assert found, self.report
        self.line, self.reason = int(found[1]), found[2]


class Differs(Error):
    """What leaves a replayed run isn't what was recorded: `line` is the line of the session, counted from 1, `wanted` what was recorded
    there, and `got` what left the run, each None where there was nothing."""

    def __init__(self, status: int, report: bytes) -> None:
        super().__init__(status, report)
        found = re.fullmatch(r"differs at line (\d+) want (.*?) got (nothing|\d+ .*)", self.report, re.S)
        assert found, self.report
        self.line = int(found[1])
        self.wanted, self.got = (None if it == "nothing" else it for it in (found[2], found[3]))


class Limit(Error):
    """A limit is passed: `what` and its `most`. Of the deliveries of a run `line` is the line of the script, counted from 1, and `events`
    are the lines of the events before; else they are None and empty."""

    def __init__(self, status: int, report: bytes) -> None:
        super().__init__(status, report)
        *self.events, last = self.report.split("\n")
        found = re.fullmatch(r"limit (\w+) (\d+)(?: at line (\d+))?", last)
        assert found, self.report
        self.what, self.most = found[1], int(found[2])
        self.line = int(found[3]) if found[3] else None


class NoFile(Error):
    """There is no file of that `name`."""

    def __init__(self, status: int, report: bytes) -> None:
        super().__init__(status, report)
        self.name = self.report.removeprefix("no file ")
