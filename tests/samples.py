#!/usr/bin/env python3
"""usage: samples.py FOLDER [DOCUMENT-000]

Writes FOLDER/stdin, the questions that the program `samples` is asked, and FOLDER/stdout, the line that it must give for each
(crates/samples has both). A sample is one call here. The lines come from rules.py, a reading of document 01 that shares nothing with the
library. What the papers say of a sample is asserted. With document 000's text, the examples' bytes are held to the tables that it prints.
"""
import os
import re
import struct
import sys

sys.dont_write_bytecode = True
import rules

QUESTIONS = []
LINES = []


def ask(letter, name, data, *fields, first=0, second=0, header=(0, 0, 0, 0)):
    """A question, and the line that answers it: its name, and the fields that are not empty.

    A question is a head of 16 bytes, the name and the data. The head: the letter, a byte (the version of a header, or a septet), and in two
    bytes each, low byte first, the lengths of the name and the data, two numbers, and the destination, the source and the command.
    """
    head = struct.pack("<cB7H", letter.encode(), header[0], len(name), len(data), first, second, *header[1:])
    QUESTIONS.append(head + name.encode() + data)
    LINES.append(" ".join(str(f) for f in (name, *fields) if f != ""))


def hexed(data):
    return data.hex().upper()


def told(record):
    return "%02X %04X %04X %04X" % record[:4], hexed(record[4])


def checksum(name, text, number):
    block = bytes.fromhex(text)
    assert rules.checksum(block) == number, name
    ask("c", name, block, "%02X" % number)


def septets(letter, name, data, length, answer, given=0):
    number, block, count, septet = answer
    ask(letter, name, data, number, hexed(block), count, "%02X" % septet, first=length, header=(given, 0, 0, 0))


def extract(name, text, length):
    block = bytes.fromhex(text)
    septets("x", name, block, length, rules.extract(block, length))


def inject(name, text, length, septet, number, put="00 00 00 00 00 00 00"):
    """`put` is the seven bytes that must come back"""
    block = bytes.fromhex(text)
    answer = rules.inject(block, length, septet)
    assert answer == (number, bytes.fromhex(put), 0 if number else length, 0), (name, answer)
    septets("j", name, block, length, answer, septet)


def one(name, text, verdict, offset, payload=None, unused=0):
    """a stream, with the verdict, the offset and the number of blocks with unused septet bits that a paper gives or that were worked out
    by hand; written again it has the same bytes, or others where there are such bits"""
    s = bytes.fromhex(text)
    assert rules.validate(s) == (verdict, offset, unused), (name, rules.validate(s))
    if verdict:
        return ask("v", name, s, "V%d" % verdict, offset, unused)
    record = rules.decode(s)
    assert payload is None or record[4] == bytes.fromhex(payload), name
    number, stream = rules.encode(record, offset)
    assert number == 0 and rules.validate(stream) == (0, offset, 0) and rules.decode(stream) == record, name
    assert (stream == s[:offset]) == (unused == 0), name
    ask("v", name, s, "V0", offset, unused, *told(record), "changed" if unused else "again")


def encode(name, record, room, number):
    said, stream = rules.encode(record, room)
    assert said == number, (name, said)
    ask("e", name, record[4], said, len(stream), hexed(stream), "kept", first=room, header=record[:4])


def long_packet(name, record):
    """a packet whose stream is too long for a line"""
    number, stream = rules.encode(record, 800)
    assert number == 0 and rules.decode(stream) == record, name
    ask("l", name, record[4], number, len(stream), "ok", "kept", header=record[:4])


def row(name, destination, source, command, ident, value):
    payload = ident.to_bytes(2, "little") + value.to_bytes(4, "little", signed=True)
    record = (0x20, destination, source, command, payload)
    ask("r", name, payload, hexed(rules.encode(record, 16)[1]), *told(record), value, header=record[:4])


def value(name, text, number):
    payload = bytes.fromhex(text)
    assert int.from_bytes(payload[2:], "little", signed=True) == number, name
    ask("i", name, payload, number)


def next_(name, text, start, room, position=None):
    """`position` is where the first whole stream must be, or "none"; left out where the start is refused"""
    s = bytes.fromhex(text)
    assert position is None or (rules.positions(s, start) + ["none"])[0] == position, (name, rules.positions(s, start))
    number, found = rules.next_record(s, start, room)
    if number:
        fields = ()
    elif found is None:
        fields = ("none",)
    else:
        fields = (*found[:2], *told(found[2]))
    ask("n", name, s, number, *fields, "kept", first=start, second=room)


def receive(name, text, held, *positions, reset=None):
    """byte after byte to a fresh receiver, which may be reset when so many are used: the bytes held at last, and the position of each record"""
    s = bytes.fromhex(text)
    begin = reset or 0
    later, kept = rules.received(s[begin:], begin)
    records = rules.received(s[:begin])[0] + later
    assert (tuple(position for position, _, _ in records), kept) == (positions, held), (name, records, kept)
    fields = [field for position, length, record in records for field in (position, length, *told(record))]
    # the program resets before a byte: behind the last one there is none
    ask("w", name, s, *fields, "held", held, "position", len(s), first=len(s) if reset is None else reset)


def receive_last(name, text, left, room, number, used):
    """one chunk to a receiver that holds nothing and whose count is `left` below the largest 64-bit number"""
    s = bytes.fromhex(text)
    position = 2**64 - 1 - left
    said, count, found, held = rules.receive(position, s, room)
    assert (said, count) == (number, used), (name, said, count)
    fields = () if found is None else (*found[:2], *told(found[2]))
    ask("W", name, s, number, used, *fields, "held", held, "position", position + used, "kept", first=left, second=room)


def normalize(name, text, room, number, same_as=""):
    """`same_as` is what must be written"""
    s = bytes.fromhex(text)
    said, out = rules.normalize(s, room)
    assert (said, out) == (number, bytes.fromhex(same_as)), (name, said, out)
    ask("z", name, s, said, len(out), hexed(out), "kept", first=room)


def fault(name, text, start, told):
    """`told` is what must be told of the first 0xAA, at the start or behind it, that gave no record: place, verdict, offset, the byte found
    and the byte wanted where there is one; or "none"; document 02: the reason must be true"""
    s = bytes.fromhex(text)
    found = rules.next_fault(s, start)
    assert found is None or rules.reason_is_true(s, found), (name, found)
    line = "none" if found is None else rules.fault_line(found)
    assert line.removesuffix(" cut off by a new stream") == told, (name, line)
    ask("f", name, s, told, first=start)


BLOCK = (0x10, 0x0015, 0x7E11, 0x0100)


def sections(name, text, count, number=0, header=BLOCK):
    payload = bytes.fromhex(text)
    assert rules.section_count(header, payload) == (number, count), name
    ask("s", name, payload, number, count, header=header)


def elements(name, text, k, count, number=0):
    payload = bytes.fromhex(text)
    assert rules.element_count(BLOCK, payload, k) == (number, count), name
    ask("m", name, payload, number, count, first=k, header=BLOCK)


def section(name, text, k):
    payload = bytes.fromhex(text)
    number, start, length = rules.section(BLOCK, payload, k)
    ask("S", name, payload, number, start, length, hexed(payload[start : start + length]), first=k, header=BLOCK)


def element(name, text, k, i, number=0):
    payload = bytes.fromhex(text)
    said, start, length = rules.element(BLOCK, payload, k, i)
    assert said == number, name
    ask("M", name, payload, number, start, length, hexed(payload[start : start + length]), first=k, second=i, header=BLOCK)


def temperature(name, text, number):
    two = bytes.fromhex(text)
    assert int.from_bytes(two, "little", signed=True) == number, name
    ask("t", name, two, number)


def slave_id(name, record, *answer):
    """`answer` is number, product, device, week and consecutive number"""
    assert rules.read_slave_id(record) == answer, (name, rules.read_slave_id(record))
    ask("k", name, record[4], *answer, header=record[:4])


def write_slave_id(name, destination, source, product, device, room, number, stream=""):
    """`stream` is what must be written"""
    said, out = rules.write_slave_id(destination, source, product, device, room)
    assert (said, out) == (number, bytes.fromhex(stream)), (name, said, out)
    ask("K", name, struct.pack("<2I", product, device), said, len(out), hexed(out), "kept", first=room, header=(0, destination, source, 0))


# ── the samples

P1 = "AA 11 44 10 66 10 00 02 01 21 07 04 0F 00 00 65"
D1 = "AA 20 00 11 19 20 00 01 00 00 00 00 00 00 00 14"
T1 = "AA 10 20 31 77 30 01 76"
T2 = "AA 31 77 10 20 30 23 54 38 10 0D 36 46 23 00 1A 71"
T3 = "AA 31 77 10 20 30 25 52 68 03 69 00 00 00 00 05 26"
# Unused septet bits: bit 4 in P1, bit 6 in D1 and in one whose other bits are all set, bits 4, 5 and 6 in two of three frames, beside bits
# that are used. The checksums are those of these septets.
P1_UNUSED = P1[:-5] + "10 55"
D1_UNUSED = D1[:-5] + "40 54"
D2_UNUSED = D1[:23] + "34 12 6E 02 00 00 7F 5F"
P3_HEADER = "AA 11 44 10 66 10 00 02 03 1F"
P3_UNUSED = P3_HEADER + "68 03 74 01 65 3A 07 04 0F 7F 09 5D 01 02 03 04 1A 5B"
P3 = P3_HEADER + "68 03 74 01 05 1A 07 04 0F 7F 09 5D 01 02 03 04 0A 6B"
P3_PAYLOAD = "E8 03 F4 01 87 04 0F FF 01 82 03 84"
# All seven bits of a telegram's septet are used.
T4 = "AA 31 77 10 20 30 25 52 01 02 03 04 05 06 07 7F 64"
PRINTED = {  # document 000
    "short-packet": P1,
    "request-slave-id": T1,
    "slave-id": T2,
    "request-data": "AA 10 20 31 77 30 04 73",
    "slave-data": T3,
    "baud-rate": "AA 31 77 10 20 30 25 52 00 42 01 00 00 00 00 02 3A",
    "sub-address": "AA 10 20 31 77 30 27 50 38 10 0D 36 46 23 01 1A 70",
}
PATTERN = bytes(i % 251 + 1 for i in range(512))

checksum("checksum-none", "", 0x7F)
checksum("checksum-frame", "68 03 74 01 05", 0x1A)
checksum("checksum-P1-header", P1[3:26], 0x21)
assert rules.extract(bytes.fromhex("E8 03 F4 01"), 4) == (0, bytes.fromhex("68 03 74 01 00 00 00"), 4, 0x05)
extract("extract-four", "E8 03 F4 01 00 00 00", 4)
extract("extract-beyond", "E8 03 F4 01 FF FF FF", 4)
extract("extract-seven", "38 90 0D B6 C6 23 00", 7)
extract("extract-none", "FF FF FF FF FF FF FF", 0)
extract("extract-eight", "FF FF FF FF FF FF FF", 8)
inject("inject-four", "68 03 74 01 00 00 00", 4, 0x05, 0, "E8 03 F4 01 00 00 00")
inject("inject-beyond", "68 03 74 01 FF FF FF", 4, 0x05, 0, "E8 03 F4 01 00 00 00")
inject("inject-seven", "38 10 0D 36 46 23 00", 7, 0x1A, 0, "38 90 0D B6 C6 23 00")
inject("inject-none", "FF FF FF FF FF FF FF", 0, 0, 0)
inject("inject-eight", "68 03 74 01 00 00 00", 8, 0x05, 7)
inject("inject-byte-80", "68 03 74 80 00 00 00", 4, 0x05, 7)
inject("inject-septet-80", "68 03 74 01 00 00 00", 7, 0x80, 7)
inject("inject-septet-10", "68 03 74 01 00 00 00", 4, 0x10, 0, "68 03 74 01 00 00 00")
inject("inject-septet-75", "68 03 74 01 FF FF FF", 4, 0x75, 0, "E8 03 F4 01 00 00 00")
inject("inject-septet-7F-six", "01 02 03 04 05 06 07", 6, 0x7F, 0, "81 82 83 84 85 86 00")
inject("inject-septet-7F-none", "FF FF FF FF FF FF FF", 0, 0x7F, 0)
inject("inject-septet-90", "68 03 74 01 00 00 00", 4, 0x90, 7)
inject("inject-septet-80-none", "FF FF FF FF FF FF FF", 0, 0x80, 7)

one("P1", P1, 0, 16, "07 04 0F 00")
one("P1-cut", P1[:-3], 7, 15)
one("P1-septet-10", P1_UNUSED, 0, 16, "07 04 0F 00", unused=1)  # document 02
one("AA-P1", "AA " + P1, 2, 1)
one("D1", D1, 0, 16, "00 00 00 00 00 00")
one("T1-77", T1[:-2] + "77", 4, 7)
one("empty", "", 7, 0)
one("T1", T1, 0, 8, "")
one("T2", T2, 0, 17, "38 90 0D B6 C6 23 00")
one("T3", T3, 0, 17)
for name in ("request-data", "baud-rate", "sub-address"):
    one(name, PRINTED[name], 0, len(bytes.fromhex(PRINTED[name])))
number = lambda text, a, b: int.from_bytes(rules.decode(bytes.fromhex(text))[4][a:b], "little")
for text in (T2, PRINTED["sub-address"]):  # document 000's product and device identifiers
    assert number(text, 0, 3) == 888888 and number(text, 3, 6) == 17 * 2**17 + 116406
assert number(PRINTED["sub-address"], 6, 7) == 1 and number(PRINTED["baud-rate"], 0, 4) == 115200
one("P1-checksum-64", P1[:-2] + "64", 6, 15)
one("D1-checksum-15", D1[:-2] + "15", 4, 15)
one("D1-septet-40", D1_UNUSED, 0, 16, "00 00 00 00 00 00", unused=1)
one("three-septets", P3, 0, 28, P3_PAYLOAD)
one("three-septets-65-1A", P3_UNUSED, 0, 28, P3_PAYLOAD, unused=2)
one("D-septet-7F", D2_UNUSED, 0, 16, "B4 92 EE 82 80 80", unused=1)
one("T-septet-7F", T4, 0, 17, "81 82 83 84 85 86 87")
one("P1-septet-70", P1[:-5] + "70 75", 0, 16, "07 04 0F 00", unused=1)
one("P1-septet-90", P1[:-5] + "90 55", 2, 14)
# A checksum covers the septet as it came: these are those of the septets 00 and 0A.
one("P1-septet-10-checksum-65", P1[:-5] + "10 65", 6, 15)
one("D1-septet-40-checksum-14", D1[:-5] + "40 14", 4, 15)
one("three-septets-checksum-6B", P3_UNUSED[:-2] + "6B", 6, 27)
# Blocks are counted only of a whole stream.
one("P1-septet-10-cut", P1_UNUSED[:-3], 7, 15)
one("three-septets-cut", P3_UNUSED[:-2], 7, 27)
one("T1-sync-2A", "2A" + T1[2:], 1, 0)
one("T1-version-11", "AA 10 20 31 77 11 01 76", 3, 5)
one("T1-version-90", "AA 10 20 31 77 90 01 76", 2, 5)
one("T1-version-31", "AA 10 20 31 77 31 01 75", 0, 8, "")
one("T1-command-14", "AA 10 20 31 77 30 14 63", 0, 8, "")
one("T1-and-more", T1 + "FF AA", 0, 8)

row("row-1", 0x0000, 0x7210, 0x0500, 0, 0)
row("row-2", 0x7210, 0x0020, 0x0300, 0x1234, 0)
row("row-3", 0x0020, 0x7210, 0x0100, 0x1234, 750)
row("row-4", 0x7210, 0x0020, 0x0300, 0x1235, 0)
row("row-5", 0x0020, 0x7210, 0x0100, 0x3456, 12)
row("row-6", 0x7210, 0x0020, 0x0600, 0, 0)
value("value-FFFFFFFF", "34 12 FF FF FF FF", -1)
value("value-00000080", "34 12 00 00 00 80", -2147483648)
value("value-FFFFFF7F", "34 12 FF FF FF 7F", 2147483647)
value("value-01020304", "00 80 01 02 03 04", 0x04030201)

for version, command, frames in (  # document 000's table of commands
    (0x30, 0x01, 0), (0x30, 0x02, 0), (0x30, 0x23, 1), (0x30, 0x04, 0), (0x30, 0x24, 1),
    (0x30, 0x25, 1), (0x30, 0x26, 1), (0x30, 0x27, 1), (0x31, 0x08, 0), (0x31, 0x69, 3),
):  # fmt: skip
    payload = PATTERN[120:141] if frames == 3 else PATTERN[: 7 * frames]
    encode("command-%02X" % command, (version, 0x7731, 0x2010, command, payload), 800, 0)

packet = lambda payload, destination=0x4411, source=0x6610, command=0x0200, version=0x10: (version, destination, source, command, payload)
assert len(rules.written(packet(PATTERN[:508]))) == 772
long_packet("packet-508", packet(PATTERN[:508]))
encode("packet-512", packet(PATTERN[:512]), 800, 4)
encode("packet-3", packet(PATTERN[:3]), 800, 4)
encode("packet-0", packet(b""), 800, 0)
encode("packet-E803F401", packet(bytes.fromhex("E8 03 F4 01")), 800, 0)
encode("datagram-4", (0x20, 0x0020, 0x1911, 0x0100, bytes([7, 4, 15, 0])), 800, 4)
encode("telegram-0", (0x30, 0x7731, 0x2010, 0x23, b""), 800, 4)

four = bytes.fromhex("07 04 0F 00")
encode("version-11", packet(four, version=0x11), 800, 1)
encode("destination-0080", packet(four, destination=0x0080), 800, 2)
encode("destination-7F7F", packet(four, destination=0x7F7F), 800, 0)
encode("source-8000", packet(four, source=0x8000), 800, 2)
encode("packet-command-0080", packet(four, command=0x0080), 800, 3)
encode("datagram-command-8000", (0x20, 0x0020, 0x1911, 0x8000, four), 800, 3)
encode("telegram-command-0100", (0x30, 0x7731, 0x2010, 0x0100, four), 800, 3)
encode("output-15", packet(four), 15, 5)
encode("output-16", packet(four), 16, 0)
encode("first-is-1", packet(b"\x07", version=0, destination=0x0080, command=0x0080), 0, 1)
encode("first-is-2", packet(b"\x07", destination=0x0080, command=0x0080), 0, 2)
encode("first-is-3", packet(b"\x07", command=0x0080), 0, 3)
encode("first-is-4", packet(b"\x07"), 0, 4)

next_("next-empty-0", "", 0, 800, "none")
next_("next-empty-1", "", 1, 800)
normalize("normalize-empty", "", 0, 0, "")
next_("next-AA-P1", "AA" + P1, 0, 800, 1)
normalize("normalize-AA-P1", "AA" + P1, 800, 0, P1)

damaged = P1 + "00 FF 7F" + D1[:29] + T2
next_("next-0", damaged, 0, 4, 0)
next_("next-1", damaged, 1, 7, 29)
next_("next-16", damaged, 16, 800, 29)
next_("next-30", damaged, 30, 800, "none")
next_("next-46", damaged, 46, 0, "none")
next_("next-47", damaged, 47, 0)
next_("next-0-room-3", damaged, 0, 3, 0)
next_("next-1-room-6", damaged, 1, 6, 29)
normalize("normalize-room-32", damaged, 32, 5)
normalize("normalize-damaged", damaged, 800, 0, P1 + T2)
normalize("normalize-room-33", damaged, 33, 0, P1 + T2)
normalize("normalize-P1-D1-T2", P1 + D1 + T2, 49, 0, P1 + D1 + T2)
normalize("normalize-P1-cut", P1[:-3], 800, 0, "")

unused = P1_UNUSED + "00" + P1[:-5] + "10 65" + D1_UNUSED + P3_UNUSED + T4
next_("next-septet-10", P1_UNUSED, 0, 4, 0)
next_("next-three-septets", unused, 34, 12, 49)
next_("next-three-septets-room-11", unused, 34, 11, 49)
next_("next-checksum-65", unused, 1, 800, 33)
normalize("normalize-septet-10", P1_UNUSED, 16, 0, P1)
normalize("normalize-septet-40", D1_UNUSED, 16, 0, D1)
normalize("normalize-D-septet-7F", D2_UNUSED, 16, 0, D2_UNUSED[:-5] + "3F 1F")
normalize("normalize-three-septets", P3_UNUSED, 800, 0, P3)
normalize("normalize-T-septet-7F", T4, 800, 0, T4)
normalize("normalize-checksum-65", P1[:-5] + "10 65", 800, 0, "")
normalize("normalize-unused", unused, 800, 0, P1 + D1 + P3 + T4)
normalize("normalize-unused-room-77", unused, 77, 0, P1 + D1 + P3 + T4)
normalize("normalize-unused-room-76", unused, 76, 5)

receive("receive-empty", "", 0)
receive("receive-P1", P1, 0, 0)
receive("receive-P1-cut", P1[:-3], 15)
receive("receive-AA-P1", "AA" + P1, 0, 1)
receive("receive-P1-D1-T2", P1 + D1 + T2, 0, 0, 16, 32)
receive("receive-damaged", damaged, 0, 0, 29)
receive("receive-septet-10", P1_UNUSED, 0, 0)
receive("receive-unused", unused, 0, 0, 33, 49, 77)
receive("receive-T1-77", T1[:-2] + "77" + T1, 0, 8)
receive("receive-high", "AA 10 20 FF 31 77 30 01 76", 0)
receive("receive-version-11", "AA 10 20 31 77 11", 0)
receive("receive-nine", P1[:26], 9)
longest = rules.written(packet(PATTERN[:508])).hex()
receive("receive-772", longest, 0, 0)
receive("receive-771", longest[:-2], 771)
receive("receive-771-twice", longest[:-2] + longest, 0, 771)
receive("reset-within", P1 + D1 + T2, 0, 0, 32, reset=20)
receive("reset-between", P1 + D1 + T2, 0, 0, 16, 32, reset=16)
receive("reset-held", P1 + D1[:-3], 15, 0, reset=16)
receive("reset-last", P1 + D1, 0, 0, reset=31)

# A count of 2^64 - 1 less n, with chunks of n - 1, n and n + 1 bytes.
for n, stream in ((0, ""), (1, ""), (8, T1), (16, P1), (17, T2), (772, longest)):
    some = stream or n * "00"
    receive_last(f"count-{n}-fits", some, n, 508, 0, n)
    receive_last(f"count-{n}-past", some + "00", n, 508, 12, 0)
    receive_last(f"count-{n}-room-first", some + "00", n, 507, 5, 0)
    if n > 0:
        receive_last(f"count-{n}-less", some[:-2], n, 508, 0, n - 1)
receive_last("count-P1-T1", P1 + T1, 24, 508, 0, 16)
receive_last("count-P1-T1-past", P1 + T1, 23, 508, 12, 0)
receive_last("count-P1-D1", P1 + D1, 1000, 508, 0, 16)

# Why there is no record. The first two are document 02's.
T1_77 = T1[:-2] + "77"
assert rules.explanation(bytes.fromhex(D1 + T1_77)) == "16 V4 7 77 76\n"
assert rules.explanation(bytes.fromhex("AA" + P1)) == "0 V2 1 AA cut off by a new stream\n"
fault("fault-D1-T1-77", D1 + T1_77, 0, "16 V4 7 77 76")
fault("fault-AA-P1", "AA" + P1, 0, "0 V2 1 AA")
fault("fault-empty", "", 0, "none")
fault("fault-empty-1", "", 1, "none")
fault("fault-noise", "00 FF 7F A9 AB 2A", 0, "none")
for name, text in (("P1", P1), ("P1-D1-T2", P1 + D1 + T2), ("772", longest)):
    fault("fault-clean-" + name, text, 0, "none")
# V2, by another sync byte and by other bytes: of an address, at the place of a version, a septet, each kind's checksum, a frame's
fault("fault-AA-AA-AA", "AA AA AA", 1, "1 V2 1 AA")
fault("fault-AA-at-checksum", P1[:-2] + "AA" + T1, 0, "0 V2 15 AA")
fault("fault-AA-at-checksum-15", P1[:-2] + "AA" + T1, 15, "15 V2 1 AA")
fault("fault-high-address", "AA 10 20 FF 77 30 01 76", 0, "0 V2 3 FF")
fault("fault-high-80", "AA 80", 0, "0 V2 1 80")
fault("fault-high-version", "AA 10 20 31 77 90 01 76", 0, "0 V2 5 90")
fault("fault-high-septet", P1[:-5] + "90 55", 0, "0 V2 14 90")
fault("fault-high-checksum-P", P1[:27] + "A1" + P1[29:], 0, "0 V2 9 A1")
fault("fault-high-checksum-D", D1[:-2] + "94", 0, "0 V2 15 94")
fault("fault-high-checksum-T", T1[:-2] + "F6", 0, "0 V2 7 F6")
fault("fault-high-checksum-frame", T2[:-2] + "F1", 0, "0 V2 16 F1")
fault("fault-high-771", longest[:-2] + "FF", 0, "0 V2 771 FF")
# V3, with and without more behind the version
for version in ("00", "11", "32", "7F"):
    fault("fault-version-" + version, "AA 10 20 31 77" + version + "01 76", 0, f"0 V3 5 {version}")
fault("fault-version-last", "AA 10 20 31 77 11", 0, "0 V3 5 11")
# V4, of each kind; the frame count is a header's byte too
fault("fault-header-P", P1[:27] + "22" + P1[29:], 0, "0 V4 9 22 21")
fault("fault-header-D", D1[:-2] + "15", 0, "0 V4 15 15 14")
fault("fault-header-T", T1_77, 0, "0 V4 7 77 76")
fault("fault-header-count", P1[:24] + "02" + P1[26:], 0, "0 V4 9 21 20")
fault("fault-header-command", T2[:18] + "43" + T2[20:], 0, "0 V4 7 54 34")
# V6, of a packet and of a telegram, of the first frame and of the last; 0B leaves the septet out
fault("fault-frame-P", P1[:-2] + "64", 0, "0 V6 15 64 65")
fault("fault-frame-T", T2[:-2] + "0B", 0, "0 V6 16 0B 71")
fault("fault-frame-T-last", rules.written((0x31, 0x7731, 0x2110, 0x69, PATTERN[:21])).hex()[:-2] + "00", 0, "0 V6 34 00 01")
fault("fault-frame-P-last", longest[:-2] + "00", 0, "0 V6 771 00 6D")
# Unused septet bits: no fault under the checksums of these septets, one under others
for name, text in (("P1", P1_UNUSED), ("D1", D1_UNUSED), ("three", P3_UNUSED), ("T4", T4)):
    fault("fault-unused-" + name, text, 0, "none")
fault("fault-unused-P1-65", P1[:-5] + "10 65", 0, "0 V6 15 65 55")
fault("fault-unused-D1-14", D1[:-5] + "40 14", 0, "0 V4 15 14 54")
fault("fault-unused-three-6B", P3_UNUSED[:-2] + "6B", 0, "0 V6 27 6B 5B")
fault("fault-unused-cut", P1_UNUSED[:-3], 0, "0 V7 15")
# V7: the recording ends behind the sync byte, within a header, before a frame, within one
fault("fault-end-1", P1 + "AA", 0, "16 V7 1")
fault("fault-end-5", P1 + T1[:14], 0, "16 V7 5")
fault("fault-end-6", T1[:17], 0, "0 V7 6")
fault("fault-end-9", P1[:26], 0, "0 V7 9")
fault("fault-end-10", P1[:29], 0, "0 V7 10")
fault("fault-end-15-D", D1[:-3], 0, "0 V7 15")
fault("fault-end-15", P1[:-3], 0, "0 V7 15")
fault("fault-end-771", longest[:-2], 0, "0 V7 771")
# Starts before, at and behind a fault, at the end and past it
for start in (0, 1, 16, 19):
    fault("fault-start-%d" % start, damaged, start, "19 V2 10 AA")
for start in (20, 29, 30, 46, 47, 65535):
    fault("fault-start-%d" % start, damaged, start, "none")
# Faults and a record within the announced length of a damaged stream
inside = P3_HEADER + "68 03 74 01 05 1B" + T1_77 + T1 + "AA 01"
for start, told in ((0, "0 V6 15 1B 1A"), (1, "16 V4 7 77 76"), (16, "16 V4 7 77 76"), (17, "32 V7 2"), (33, "none")):
    fault("fault-inside-%d" % start, inside, start, told)

E48 = (  # document 000's block packet
    "02 0A 00 00 03 00 08 00 00 00 00 00 01 0B 00 00 00 00 00 00 04 08 00 00"
    + "00" * 16
    + "01 0C 00 00 00 00 00 00"
)
assert len(bytes.fromhex(E48)) == 48
sections("sections-48", E48, 4)
for k, count in enumerate((1, 1, 16, 1)):
    elements("elements-48-%d" % k, E48, k, count)
    section("section-48-%d" % k, E48, k)
elements("elements-48-4", E48, 4, 0, 10)
section("section-48-4", E48, 4)
for k, i, number in ((0, 0, 0), (0, 1, 10), (2, 15, 0), (2, 16, 10), (4, 0, 10)):
    element("element-48-%d-%d" % (k, i), E48, k, i, number)
sections("sections-eight-02", "02 0B 00 00 00 00 00 00", 0, 9)
sections("sections-eight-01", "01 0B 00 00 00 00 00 00", 1)
sections("sections-last-past", "00 0B 00 00 01 0B 00 00", 0, 9)
sections("sections-empty", "", 0)
sections("sections-3", "00 0B 00", 0, 8)
sections("sections-508", "00" * 508, 127)
sections("sections-512", "00" * 512, 0, 8)
sections("sections-source-0000", "00" * 4, 1, 0, (0x10, 0x0015, 0x0000, 0x0100))
sections("sections-version-20", "00" * 4, 0, 8, (0x20, 0x0015, 0x7E11, 0x0100))
sections("sections-destination-10", "00" * 4, 0, 8, (0x10, 0x0010, 0x7E11, 0x0100))
sections("sections-command-0200", "00" * 4, 0, 8, (0x10, 0x0015, 0x7E11, 0x0200))
TYPES = "03 01 00 00" + "01 02 03 04 05 06 07 08 09 0A 0B 0C" + "02 05 00 00 D1 D2 D3 D4 E1 E2 E3 E4" + "03 0A 00 00" + "0F" * 12 + "01 02 00 00 00 00 00 00"
for k, (count, number) in enumerate(((6, 0), (2, 0), (0, 13), (0, 11))):
    elements("elements-types-%d" % k, TYPES, k, count, number)
for k, i, number in ((0, 5, 0), (1, 1, 0), (2, 0, 13), (2, 1, 13), (3, 0, 11)):
    element("element-types-%d-%d" % (k, i), TYPES, k, i, number)
# number, count, and the numbers of the first element and of one far beyond
for frames, (number, count, first, far) in enumerate(((0, 0, 10, 10), (13, 0, 13, 13), (0, 1, 0, 10), (13, 0, 13, 13))):
    display = "%02X 0A 00 00" % frames + "D1" * 4 * frames
    elements("elements-display-%d" % frames, display, 0, count, number)
    section("section-display-%d" % frames, display, 0)
    element("element-display-%d-first" % frames, display, 0, 0, first)
    element("element-display-%d-far" % frames, display, 0, 0xFFFF, far)
element("element-display-past-end", "03 0A 00 00" + "D1" * 8, 0, 0, 9)
temperature("temperature-F6FF", "F6 FF", -10)
temperature("temperature-0080", "00 80", -32768)
temperature("temperature-FF7F", "FF 7F", 32767)

# product 888888, week 17, consecutive number 116406 is T2
DEVICE = 17 * 131072 + 116406
T2_RECORD = rules.decode(bytes.fromhex(T2))
REFUSED = (18, 0, 0, 0, 0)
slave_id("slave-id-T2", T2_RECORD, 0, 888888, DEVICE, 17, 116406)
slave_id("slave-id-version-31", (0x31, *T2_RECORD[1:]), 0, 888888, DEVICE, 17, 116406)
slave_id("slave-id-others", (0x30, 0xFFFF, 0x0000, 0x23, T2_RECORD[4]), 0, 888888, DEVICE, 17, 116406)
slave_id("slave-id-greatest", (0x30, 0, 0, 0x23, b"\xFF" * 6 + b"\0"), 0, 0xFFFFFF, 0xFFFFFF, 127, 131071)
slave_id("slave-id-zero", (0x30, 0, 0, 0x23, bytes(7)), 0, 0, 0, 0, 0)
slave_id("slave-id-week-1", (0x30, 0, 0, 0x23, bytes.fromhex("01 00 00 00 00 02 00")), 0, 1, 131072, 1, 0)
slave_id("slave-id-serial", (0x30, 0, 0, 0x23, bytes.fromhex("00 01 00 FF FF 01 00")), 0, 256, 131071, 0, 131071)
slave_id("slave-id-packet", (0x10, *T2_RECORD[1:]), *REFUSED)
slave_id("slave-id-datagram", (0x20, *T2_RECORD[1:]), *REFUSED)
slave_id("slave-id-version-32", (0x32, *T2_RECORD[1:]), *REFUSED)
slave_id("slave-id-sub-address", rules.decode(bytes.fromhex(PRINTED["sub-address"])), *REFUSED)
slave_id("slave-id-command-22", (0x30, 0, 0, 0x22, bytes(7)), *REFUSED)
slave_id("slave-id-command-0123", (0x30, 0, 0, 0x0123, bytes(7)), *REFUSED)
slave_id("slave-id-six", (0x30, 0, 0, 0x23, bytes(6)), *REFUSED)
slave_id("slave-id-eight", (0x30, 0, 0, 0x23, bytes(8)), *REFUSED)
slave_id("slave-id-none", (0x30, 0, 0, 0x23, b""), *REFUSED)
slave_id("slave-id-seventh-1", (0x30, 0, 0, 0x23, bytes(6) + b"\1"), *REFUSED)
slave_id("slave-id-seventh-80", (0x30, 0, 0, 0x23, bytes(6) + b"\x80"), *REFUSED)
write_slave_id("write-slave-id-T2", 0x7731, 0x2010, 888888, DEVICE, 17, 0, T2)
write_slave_id("write-slave-id-room-20", 0x7731, 0x2010, 888888, DEVICE, 20, 0, T2)
write_slave_id("write-slave-id-room-16", 0x7731, 0x2010, 888888, DEVICE, 16, 5)
write_slave_id("write-slave-id-room-0", 0x7731, 0x2010, 888888, DEVICE, 0, 5)
write_slave_id("write-slave-id-greatest", 0x7F7F, 0x7F7F, 0xFFFFFF, 0xFFFFFF, 17, 0, "AA 7F 7F 7F 7F 30 23 30 7F 7F 7F 7F 7F 7F 00 3F 46")
write_slave_id("write-slave-id-product-25", 0x7731, 0x2010, 0x1000000, DEVICE, 17, 18)
write_slave_id("write-slave-id-device-25", 0x7731, 0x2010, 888888, 0x1000000, 17, 18)
write_slave_id("write-slave-id-18-before-2", 0x8000, 0x2010, 0xFFFFFFFF, DEVICE, 17, 18)
write_slave_id("write-slave-id-18-before-5", 0x7731, 0x2010, 888888, 0xFFFFFFFF, 0, 18)
for name, destination, source in (("15", 0x8000, 0), ("7", 0x0080, 0), ("source-15", 0, 0x8000), ("source-7", 0, 0x0080)):
    write_slave_id("write-slave-id-bit-" + name, destination, source, 888888, DEVICE, 17, 2)
write_slave_id("write-slave-id-2-before-5", 0x8000, 0x2010, 888888, DEVICE, 16, 2)

if len(sys.argv) > 2:  # each example's bytes, as document 000 prints them from offset 0 on
    tables, run = [], []
    for text in open(sys.argv[2]):
        cell = re.match(r"(\d+)0x([0-9A-Fa-f]{2})", text)
        if cell and int(cell[1]) == len(run):
            run.append(cell[2].upper())
        elif run:
            tables.append(" ".join(run))
            run = []
    tables = [t for t in tables if t.startswith("AA ")]
    assert tables == list(PRINTED.values()), tables

questions = b"".join(QUESTIONS)
assert len(questions) < 65536  # what the program reads
with open(os.path.join(sys.argv[1], "stdin"), "wb") as file:
    file.write(questions)
with open(os.path.join(sys.argv[1], "stdout"), "w") as file:
    file.write("".join(line + "\n" for line in LINES))
