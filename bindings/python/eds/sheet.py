"""A sheet, and what the commands make of it."""

from __future__ import annotations

import json
import os
import re
from typing import Any, Iterator, NamedTuple, Union

from . import library
from .answers import Layout, layouts_of
from .errors import BadLine, Differs, Error, Fault, Limit, NoFile, Refused, Usage
from .library import block
from .runs import Run, run_of

Source = Union[str, "os.PathLike[str]", bytes]
Octets = Union[bytes, bytearray, memoryview]
# What the input file of a command is called.
INPUT = "input"


class Agreement(NamedTuple):
    """What a replay comes to: how many `events` agree with what was recorded, and how many of them were `respelled`: recorded in another
    spelling of the same value."""

    events: int
    respelled: int


class Sheet:
    """The files of a sheet, in the order that places in reports count.

    Each file is a path, or the octets of a file: `Sheet("a.json", b"[...]")`. Paths are read at once. `names` are what errors call the
    files: their paths, and `octets 1` and so on by the place among the files, counted from 0.
    """

    def __init__(self, *files: Source) -> None:
        self.names = [f"octets {at}" if isinstance(it, bytes) else os.fspath(it) for at, it in enumerate(files)]
        self._texts = [it if isinstance(it, bytes) else _read(it) for it in files]
        # the library knows the files by their numbers
        self._words = [str(at) for at in range(len(files))]
        self._files = block(it for word, text in zip(self._words, self._texts) for it in (word.encode(), text))

    def command(self, *words: str, data: Octets | None = None) -> bytes:
        """The report of a command that is done, as `eds` prints it. `words` stand in front of the sheet's files; where there is `data`,
        the octets of an input file, its name stands between."""
        files, given = self._files, list(words)
        if data is not None:
            files += block((INPUT.encode(), bytes(data)))
            given.append(INPUT)
        status, report = library.call(block(it.encode() for it in (*given, *self._words)), files)
        if status == library.DONE:
            return report
        raise self._error(status, report, words)

    def _error(self, status: int, report: bytes, words: tuple[str, ...]) -> Exception:
        if status == library.MEMORY:
            return MemoryError("eds found no memory")
        if status == library.SHEET:
            return Refused(status, report, self.names, self._texts)
        if status == library.DATA and report.startswith(b"fault "):
            return Fault(status, report, packets=words[0] == "split")
        if status == library.DATA:
            return (Differs if report.startswith(b"differs ") else BadLine)(status, report)
        return {library.USAGE: Usage, library.LIMIT: Limit, library.NO_FILE: NoFile}.get(status, Error)(status, report)

    def check(self) -> dict[str, int]:
        """How many types, containers, interfaces and components the sheet declares, which is accepted."""
        _, *words = self.command("check").decode().split()
        return {name: int(count) for name, count in zip(words[::2], words[1::2])}

    def unpack(self, type_name: str, frame: Octets) -> Any:
        """The value that a frame spells, by a type: of a container a dict with its `$type`, and its entries in their order. Numbers are
        ints, and binaries hex digits. Up to seven bits may follow the value."""
        return self.unpack_with_bits(type_name, frame)[0]

    def unpack_with_bits(self, type_name: str, frame: Octets) -> tuple[Any, int]:
        """The same, and how many bits the value has in the frame."""
        value, bits = _with_bits(self.command("unpack", type_name, data=bytes(frame).hex().encode()))
        return json.loads(value), bits

    def pack(self, type_name: str, value: Any) -> bytes:
        """The one canonical frame of a value, by a type. Its last octet is filled with zeros."""
        return self.pack_with_bits(type_name, value)[0]

    def pack_with_bits(self, type_name: str, value: Any) -> tuple[bytes, int]:
        """The same, and how many bits the value has in the frame."""
        octets, bits = _with_bits(self.command("pack", type_name, data=json.dumps(value).encode()))
        return bytes.fromhex(octets.decode()), bits

    def split(self, type_name: str, recording: Octets) -> Iterator[Any]:
        """The values of the packets of a recording, of at most 16 MiB, one after another. Where one can't be read, that is raised at the
        call, before the first value."""
        return map(json.loads, self.split_lines(type_name, recording))

    def split_lines(self, type_name: str, recording: Octets) -> Iterator[bytes]:
        """The same, each value as a line of JSON without its line feed."""
        report = self.command("split", type_name, data=recording)
        return iter(report.split(b"\n")[:-2])

    def run(self, script: Union[str, bytes]) -> Run:
        """What a script has the components of the sheet send, and how they stand in the end."""
        return run_of(self.command("run", data=_octets(script)).decode())

    def replay(self, session: Union[str, bytes]) -> Agreement:
        """Holds what leaves a run to what was recorded in a session. Where they don't agree, Differs is raised."""
        report = self.command("replay", data=_octets(session)).decode()
        found = re.fullmatch(r"agrees (\d+) respelled (\d+)\n", report)
        assert found, report
        return Agreement(int(found[1]), int(found[2]))

    def layout(self, type_name: str) -> dict[str, Layout]:
        """Where the parts of each concrete container at or under a type stand, by the names of the containers."""
        return layouts_of(self.command("layout", type_name).decode())


def _read(path: Union[str, "os.PathLike[str]"]) -> bytes:
    with open(path, "rb") as file:
        return file.read()


def _with_bits(report: bytes) -> tuple[bytes, int]:
    """What stands before the line `bits N`, and that number."""
    text, _, bits = report[:-1].rpartition(b"\nbits ")
    return text, int(bits)


def _octets(text: Union[str, bytes]) -> bytes:
    return text.encode() if isinstance(text, str) else text
