"""Tries the Python module on answers that are known, for .ci/library.py, which says where the module is."""

import threading

import eds

FLAT = eds.Sheet("examples/flat/sheet.json")
BUS = eds.Sheet("examples/bus/sheet.json")
SPACE = eds.Sheet("examples/ccsds/sheet.json")
NARROW = b"""["PackageFile", ["Package", {"name": "N"}, ["DataTypeSet",
 ["IntegerDataType", {"name": "Wide"}, ["IntegerDataEncoding", {"sizeInBits": "64", "encoding": "unsigned"}]],
 ["ContainerDataType", {"name": "C"}, ["EntryList", ["Entry", {"name": "w", "type": "%s"}]]]]]]"""


def raised(kind, call, *words, **wanted):
    """Wants an exception with these attributes."""
    try:
        call(*words)
    except kind as error:
        got = {name: getattr(error, name) for name in wanted}
        assert got == wanted, (got, wanted)
        return error
    raise AssertionError(f"{call} raised nothing")


def octets_of(name):
    with open(name, "rb") as file:
        return file.read()


def values():
    assert FLAT.unpack("Flat/Word", bytes.fromhex("1234")) == {"$type": "Flat/Word", "a": 1, "b": 564}
    assert list(FLAT.unpack("Flat/Word", b"\x12\x34")) == ["$type", "a", "b"]
    assert FLAT.unpack_with_bits("Flat/U12", b"\x12\x34") == (0x123, 12)
    assert FLAT.pack("Flat/Word", {"b": 564, "a": 1}) == b"\x12\x34"
    assert FLAT.pack_with_bits("Flat/U12", 0x123) == (b"\x12\x30", 12)
    assert FLAT.check() == {"types": 3, "containers": 1, "interfaces": 0, "components": 0}
    wide = eds.Sheet(NARROW % b"Wide")
    assert wide.unpack("N/C", b"\xff" * 8)["w"] == 2**64 - 1
    assert wide.pack("N/C", {"w": 2**64 - 1}) == b"\xff" * 8
    assert [it["SeqCount"] for it in SPACE.split("Space/Packet", octets_of("examples/split/packets.bin"))] == [77, 78, 79]
    assert list(SPACE.split("Space/Packet", b"")) == []


def errors():
    raised(eds.Fault, FLAT.unpack, "Flat/Word", b"\x12", status=3, reason="Short", path="$.b", packet=None)
    raised(eds.Fault, FLAT.pack, "Flat/Word", {"a": 16, "b": 0}, status=3, path="$.a")
    raised(eds.Fault, FLAT.pack, "Flat/Word", {"a": 1.5, "b": 0}, status=3, path="$.a")
    noise = octets_of("examples/split/noise.bin")
    raised(eds.Fault, SPACE.split, "Space/Packet", noise, reason="CheckDiffers", path="$.Crc", packet=2)
    refused = raised(eds.Refused, eds.Sheet(NARROW % b"None").check, status=1, number=10, rule="Unresolved", place=(0, 7), word="None")
    around = 'PackageFile / Package "N" / DataTypeSet / ContainerDataType "C" / EntryList / Entry "w"'
    assert refused.element == f'octets 0:3:53: {around}\n  ["Entry", {{"name": "w", "type": "None"}}]', refused.element
    raised(eds.Refused, FLAT.unpack, "Flat/None", b"", rule="Unresolved", place=(1, 0), file=None, element=None)
    raised(eds.Refused, eds.Sheet(b"no JSON").check, rule="NotJson", place=(0, 0))
    raised(eds.BadLine, BUS.run, "tick 1\nwire Bus/Obc:heater Bus/Heater:unit\n", line=2, reason="Late")
    raised(eds.Limit, eds.Sheet(b" " * 4194305).check, status=7, what="file", most=4194304, line=None, events=[])
    raised(eds.Usage, FLAT.command, "chekc", status=2, report="usage: eds COMMAND ARGUMENTS")
    raised(eds.Usage, eds.Sheet().check)


def runs():
    run = BUS.run(octets_of("examples/bus/alone.script"))
    first, second, third = run.events
    assert first[:5] == (0, "cmd", "Bus/Obc:stars", "measure", {"exposure": 200})
    assert second[:5] == (0, "frame", "Bus/Obc:heater", "send", b"\x01")
    assert third.line == "1000000000 frame Bus/Obc:radio send 4801011f0000"
    assert run.end.time == 1000000000
    assert run.end.states["Bus/Obc", "modes"] == "Nominal"
    assert run.end.variables["Bus/Obc", "celsius"] == 31
    assert run.end.waits == [("Bus/Obc:stars", "measure", "fix")]


def layouts():
    (word,) = FLAT.layout("Flat/Word").values()
    assert (word.kind, word.name, word.bits) == ("container", "Flat/Word", 16)
    assert [(it.offset, it.size, it.path, it.kind) for it in word.rows] == [(0, 4, "$.a", "entry"), (4, 12, "$.b", "entry")]


def sessions():
    assert BUS.replay(octets_of("examples/replay/recorded.session")) == eds.Agreement(events=3, respelled=2)
    wanted, got = (f"1000000000 frame Bus/Obc:radio send {it}" for it in ("4801011E0000", "4801011f0000"))
    drifted = octets_of("examples/replay/drifted.session")
    raised(eds.Differs, BUS.replay, drifted, status=3, line=10, wanted=wanted, got=got)
    silent = raised(eds.Differs, BUS.replay, "# nothing was sent\n> 0 frame Bus/Obc:radio send 00\n", line=2)
    assert silent.wanted == "0 frame Bus/Obc:radio send 00", silent.wanted


def threads():
    """Threads that share a sheet, each with answers of its own."""
    wrong = []

    def unpacks(at):
        for k in range(200):
            number = (at * 200 + k) % 4096
            if FLAT.unpack("Flat/Word", number.to_bytes(2, "big"))["b"] != number:
                wrong.append(number)

    started = [threading.Thread(target=unpacks, args=(at,)) for at in range(8)]
    for it in started:
        it.start()
    for it in started:
        it.join()
    assert not wrong, wrong


for tried in (values, errors, runs, layouts, sessions, threads):
    tried()
