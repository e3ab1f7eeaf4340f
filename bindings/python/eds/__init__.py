"""Electronic data sheets: values from frames, frames from values, recordings into packets, and components that run.

    import eds

    sheet = eds.Sheet("sheet.json")
    sheet.unpack("Flat/Word", bytes.fromhex("1234"))    # {"$type": "Flat/Word", "a": 1, "b": 564}
    sheet.pack("Flat/Word", {"a": 1, "b": 564})         # b"\\x12\\x34"
    for packet in sheet.split("Flat/Word", recording):
        print(packet["b"])

A Sheet holds the files of a sheet. Each method is one call of libeds, which does what one run of the program `eds` does over these
files: the sheet is compiled in each call, so hand packets that stand one after another to `split`, all at once. What is no answer
is raised as an Error. A Sheet never changes, and threads may share it: the interpreter is free during a call.
"""

from .errors import BadLine, Differs, Error, Fault, Limit, NoFile, Refused, Usage
from .runs import End, Event, Run
from .sheet import Agreement, Sheet

__all__ = [
    "Agreement", "BadLine", "Differs", "End", "Error", "Event", "Fault", "Limit", "NoFile", "Refused", "Run", "Sheet", "Usage",
]  # fmt: skip
