#!/usr/bin/env python3
"""Measures what a call of the library costs, from C and from Python, with a small sheet and with one of 4 MiB.

  bench/library.py [LIBRARY.so]

LIBRARY.so is by default bindings/out/libeds.so.0, which `make -C bindings` makes of what is proved. Times are of the processor,
the least of some turns. The library's own part is a call whose words are no command: its blocks are read and its files copied, and
no sheet is compiled.
"""

import os
import struct
import subprocess
import sys
import tempfile
import time

sys.dont_write_bytecode = True
TOP = os.path.dirname(os.path.dirname(os.path.abspath(__file__)))
sys.path[:0] = [os.path.join(TOP, "bench"), os.path.join(TOP, "bindings/python")]
import tree  # noqa: E402

TURNS = 7


def octets_of(name):
    with open(os.path.join(TOP, name), "rb") as file:
        return file.read()


def block(fields):
    return b"".join(struct.pack("<I", len(it)) + it for it in fields)


def build(room, library):
    program = os.path.join(room, "library")
    here, name = os.path.dirname(os.path.abspath(library)), os.path.basename(library)
    how = ["-O2", f"-I{TOP}/include", "-o", program, f"{TOP}/bench/library.c", f"-L{here}", f"-l:{name}", f"-Wl,-rpath,{here}"]
    subprocess.run(["cc", *how], check=True)
    return program


def in_c(room, program, count, words, files):
    """The microseconds of a call from C, and its status."""
    for name, fields in (("words", words), ("files", files)):
        with open(os.path.join(room, name), "wb") as file:
            file.write(block(it if isinstance(it, bytes) else it.encode() for it in fields))
    ran = subprocess.run([program, str(count), str(TURNS), f"{room}/words", f"{room}/files"], capture_output=True, text=True, check=True)
    status, each = ran.stdout.split()
    return float(each), int(status)


def in_python(count, call):
    """The microseconds of a call from Python."""
    least = float("inf")
    for _ in range(TURNS):
        begun = time.process_time()
        for _ in range(count):
            call()
        least = min(least, (time.process_time() - begun) / count)
    return least * 1e6


def main():
    library = sys.argv[1] if len(sys.argv) > 1 else os.path.join(TOP, "bindings/out/libeds.so.0")
    os.environ["EDS_LIBRARY"] = os.path.abspath(library)
    os.environ["BUILD"] = os.path.dirname(os.path.abspath(library))
    import backend

    flat, space, large = octets_of("examples/flat/sheet.json"), octets_of("examples/ccsds/sheet.json"), tree.sheet().encode()
    packets = octets_of("examples/split/packets.bin")
    many = packets * (16777216 // len(packets) // 8)
    frame, split = "unpack Flat/Word input 0".split(), "split Space/Packet input 0".split()
    cases = [
        ("the library's own part, a sheet of 0.4 KB", 100000, ["none"], flat, b"1234"),
        ("the library's own part, a sheet of 4 MiB", 100, ["none"], large, b"1234"),
        ("unpack of a frame, a sheet of 0.4 KB", 2000, frame, flat, b"1234"),
        ("check, a sheet of 4 MiB", 1, "check 0".split(), large, b""),
        (f"split of {len(many) // 17} packets, a sheet of 2.2 KB", 1, split, space, many),
    ]
    with tempfile.TemporaryDirectory() as room:
        sys.path.insert(0, os.path.join(room, backend.build_wheel(room)))
        import eds

        program = build(room, library)
        for what, count, words, sheet, given in cases:
            files = ["0", sheet, "input", given]
            each, status = in_c(room, program, count, words, files)
            print(f"C: {what}: {each:,.2f} us, status {status}", flush=True)
            blocks = block(it.encode() for it in words), block(it if isinstance(it, bytes) else it.encode() for it in files)
            print(f"Python: the same call: {in_python(count, lambda: eds.library.call(*blocks)):,.2f} us", flush=True)
    sheet = eds.Sheet(flat)
    print(f"Python: Sheet.unpack of a frame: {in_python(2000, lambda: sheet.unpack('Flat/Word', b'12')):,.2f} us")
    sheet = eds.Sheet(space)
    print(f"Python: Sheet.split of as many packets, as lines: {in_python(1, lambda: sum(1 for _ in sheet.split_lines('Space/Packet', many))):,.0f} us")
    print(f"Python: Sheet.split of as many packets, as dicts: {in_python(1, lambda: sum(1 for _ in sheet.split('Space/Packet', many))):,.0f} us")


if __name__ == "__main__":
    main()
