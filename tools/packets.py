"""Reads the lines of `eds split`, or values as `eds unpack` prints them, for the tables and plots of the scripts beside this one."""

import json
import re


class Packet:
    """A packet: its number, its kind, which is its qualified type or nothing, and the scalars in it by their paths."""

    def __init__(self, number, value):
        self.number = number
        self.kind = value.get("$type", "") if isinstance(value, dict) else ""
        self.values = {}
        self.note("", value)

    def note(self, path, value):
        if isinstance(value, dict):
            for name, it in value.items():
                # which container stands inside another one is told, since its entries depend on it
                if name != "$type" or path:
                    self.note(f"{path}.{name}" if path else name, it)
        elif isinstance(value, list):
            for at, it in enumerate(value):
                self.note(f"{path}[{at}]", it)
        else:
            self.values[path or "value"] = value


def read(lines):
    """The packets of a report, and the lines that are no packets, without the one that counts them."""
    found, others = [], []
    for line in lines:
        text = line.decode("utf-8", errors="replace").rstrip("\n")
        if re.fullmatch(r"packets \d+ octets \d+|bits \d+", text) or not text:
            continue
        try:
            found.append(Packet(len(found) + 1, json.loads(text)))
        except ValueError:
            others.append(text)
    return found, others
