#!/usr/bin/env python3
"""Makes the recordings, and with tests/rules.py the listing and the explanation expected of each.

usage: make.py           the recordings of this folder, and stdin and stdout of crates/lister and crates/explainer
       make.py FOLDER    the same (the programs' as lister.* and explainer.*), and those too large to ship, into FOLDER

The streams are written here from RESOL's specification alone (document 000); nothing of the library is used. Each piece of a recording
carries the lines that it must give and, where the writer knows it, what must be told of it by document 01's verdicts, so that the reader
is checked by the writer. The same files come out every time.
"""
import os
import sys

HERE = os.path.dirname(os.path.abspath(__file__))
CRATES = os.path.join(HERE, "..", "crates")
sys.path.insert(0, os.path.join(HERE, "..", "tests"))
sys.dont_write_bytecode = True
import rules


class Numbers:
    """A fixed sequence of numbers that look random."""

    def __init__(self, seed):
        self.state = seed

    def below(self, n):
        self.state = (self.state * 6364136223846793005 + 1442695040888963407) % 2**64
        return (self.state >> 33) % n

    def some(self, count):
        return bytes(self.below(256) for _ in range(count))


# Document 000's two C functions.


def checksum(data):
    crc = 0x7F
    for byte in data:
        crc = (crc - byte) & 0x7F
    return crc


def with_septet(data, unused=0):
    """`unused` goes to the bits above the data's, as far as a septet has any"""
    septet = unused << len(data) & 0x7F
    for i, byte in enumerate(data):
        if byte & 0x80:
            septet |= 1 << i
    return bytes(byte & 0x7F for byte in data) + bytes([septet])


def with_checksum(data):
    return data + bytes([checksum(data)])


def clear():
    """What stands in a block's unused septet bits: nothing."""
    return 0


def frames(payload, width, unused=clear):
    parts = [payload[at : at + width] for at in range(0, len(payload), width)]
    return b"".join(with_checksum(with_septet(part, unused())) for part in parts)


def word(value):
    return value.to_bytes(2, "little")


def address(destination, source, version):
    return word(destination) + word(source) + bytes([version])


CUT_OFF = "AA cut off by a new stream"
LAYOUT = {0x10: (10, 6), 0x20: (16, 16), 0x30: (8, 9), 0x31: (8, 9)}  # of each version the length of a header and of a frame


def told_of(whole, data):
    """What must be told of a whole stream that has come with these bytes in place of its own. A block of it ends in its checksum: the
    header, then each frame. None where the bytes announce another kind of stream."""
    head, frame = LAYOUT[whole[5]]
    for start, end in [(1, head - 1)] + [(at, at + frame - 1) for at in range(head, len(whole), frame)]:
        for at in range(start, end + 1):
            if data[at] >= 0x80:
                return f"V2 {at} " + (CUT_OFF if data[at] == 0xAA else f"{data[at]:02X}")
            if at == 5 and data[at] != whole[at]:
                return None if data[at] in LAYOUT else f"V3 5 {data[at]:02X}"
        if data[end] != checksum(data[start:end]):
            return f"V{4 if start == 1 else 6} {end} {data[end]:02X} {checksum(data[start:end]):02X}"
    raise ValueError("nothing of it has changed")


class Recording:
    """Bytes, the lines that they must give, and what must be told of those that give none."""

    def __init__(self):
        self.bytes = bytearray()
        self.lines = []
        self.positions = set()  # where whole streams begin
        self.told = {}  # of a damaged stream's place, what is told behind the place
        self.cuts = {}  # of a cut stream's place, how many bytes there are
        self.too_long = False  # that is all that is said then

    def stream(self, letter, destination, source, version, command, digits, payload, data):
        line = f"{letter} {destination:04X} {source:04X} {version:02X} {command:0{digits}X} {payload.hex().upper()}"
        self.lines.append(line.rstrip())
        self.positions.add(len(self.bytes))
        self.bytes += b"\xAA" + data

    def packet(self, destination, source, command, payload, unused=clear):
        head = address(destination, source, 0x10) + word(command) + bytes([len(payload) // 4])
        self.stream("P", destination, source, 0x10, command, 4, payload, with_checksum(head) + frames(payload, 4, unused))

    def datagram(self, destination, source, command, identifier, value, unused=clear):
        payload = word(identifier) + value.to_bytes(4, "little", signed=value < 0)
        head = address(destination, source, 0x20) + word(command) + with_septet(payload, unused())
        self.stream("D", destination, source, 0x20, command, 4, payload, with_checksum(head))

    def telegram(self, destination, source, command, payload=b"", version=0x30):
        assert len(payload) == 7 * (command >> 5)
        head = address(destination, source, version) + bytes([command])
        self.stream("T", destination, source, version, command, 2, payload, with_checksum(head) + frames(payload, 7))

    def noise(self, data):
        """Bytes that give no line. What is told of a 0xAA among them, the writer doesn't know."""
        self.bytes += data

    def damaged(self, data, told):
        """A 0xAA and more, with what is told of it."""
        self.told[len(self.bytes)] = told
        self.noise(data)

    def changed(self, whole, data):
        """A stream with other bytes in place of some of its own."""
        if data[0] == 0xAA:
            self.damaged(data, told_of(whole, data))
        else:
            self.noise(data)

    def cut(self, data):
        """A stream's beginning."""
        if data:
            self.cuts[len(self.bytes)] = len(data)
        self.noise(data)

    def told_at(self, place):
        """What must be told of the 0xAA at a place, or None where the writer doesn't know. Of a cut stream the byte behind it decides."""
        if place not in self.cuts:
            return self.told.get(place)
        count = self.cuts[place]
        behind = self.bytes[place + count : place + count + 1]
        return {b"": f"V7 {count}", b"\xAA": f"V2 {count} {CUT_OFF}"}.get(bytes(behind))


def one(write):
    """The bytes of one stream."""
    alone = Recording()
    write(alone)
    return bytes(alone.bytes)


# The streams that are cut, flipped and filled with 0xAA.
SAMPLES = [
    lambda r: r.packet(0x4411, 0x6610, 0x0200, bytes.fromhex("07040F00")),
    lambda r: r.packet(0x0010, 0x7E21, 0x0100, bytes.fromhex("E803F401FFFF0080")),
    lambda r: r.datagram(0x0020, 0x7210, 0x0100, 0x1234, -750),
    lambda r: r.telegram(0x2010, 0x7731, 0x01),
    lambda r: r.telegram(0x7731, 0x2010, 0x23, bytes.fromhex("38900DB6C62300")),
    lambda r: r.telegram(0x7731, 0x2110, 0x69, bytes(range(0x75, 0x8A)), version=0x31),
]


def examples():
    """Every example stream of document 000, byte by byte as printed there, end to end."""
    r = Recording()
    r.packet(0x4411, 0x6610, 0x0200, bytes.fromhex("07040F00"))
    r.telegram(0x2010, 0x7731, 0x01)
    r.telegram(0x7731, 0x2010, 0x23, bytes.fromhex("38900DB6C62300"))
    r.telegram(0x2010, 0x7731, 0x04)
    r.telegram(0x7731, 0x2010, 0x25, bytes.fromhex("E803E900000000"))
    r.telegram(0x7731, 0x2010, 0x25, bytes.fromhex("00C20100000000"))
    r.telegram(0x2010, 0x7731, 0x27, bytes.fromhex("38900DB6C62301"))
    printed = """
        AA 11 44 10 66 10 00 02 01 21 07 04 0F 00 00 65
        AA 10 20 31 77 30 01 76
        AA 31 77 10 20 30 23 54 38 10 0D 36 46 23 00 1A 71
        AA 10 20 31 77 30 04 73
        AA 31 77 10 20 30 25 52 68 03 69 00 00 00 00 05 26
        AA 31 77 10 20 30 25 52 00 42 01 00 00 00 00 02 3A
        AA 10 20 31 77 30 27 50 38 10 0D 36 46 23 01 1A 70"""
    assert r.bytes == bytes.fromhex(printed)
    block = "020A0000 0300080000000000 010B0000 00000000 04080000" + "00" * 16 + "010C0000 00000000"
    r.packet(0x0015, 0x7E21, 0x0100, bytes.fromhex(block))
    parameters(r)
    return r


def sizes():
    """Each kind at its smallest and its largest, with the largest addresses and commands."""
    r = Recording()
    numbers = Numbers(3)
    for count in [0, 1, 126, 127]:
        r.packet(0x7F7F, 0x7F7F, 0x7F7F, b"\xFF" * 4 * count)
        r.packet(0x0000, 0x0000, 0x0000, b"\x00" * 4 * count)
        r.packet(0x0010, 0x7321, 0x0300, numbers.some(4 * count))
    for value in [0, -1, -(2**31), 2**31 - 1]:
        r.datagram(0x7F7F, 0x0000, 0x7F00, 0xFFFF, value)
    for version in [0x30, 0x31]:
        for command in range(0x80):
            r.telegram(0x2000 + command // 16, 0x7731, command, numbers.some(7 * (command >> 5)), version)
    return r


def uncovered(r, whole, bits):
    """A packet or a datagram with these septet bits set, and its checksums as they were."""
    data = bytearray(whole)
    for at in range(14, len(data), 6 if data[5] == 0x10 else 16):
        data[at] |= bits
    r.changed(whole, bytes(data))


def flipped(whole, at, bit):
    return whole[:at] + bytes([whole[at] ^ (1 << bit)]) + whole[at + 1 :]


def damage():
    """Each sample cut at every place, with every bit flipped, and with a 0xAA at every place; unknown versions, and checksums
    that leave septets or their unused bits out."""
    r = Recording()
    for sample in SAMPLES:
        whole = one(sample)
        for end in range(len(whole)):
            r.cut(whole[:end])
            sample(r)
        for at in range(len(whole)):
            for bit in range(8):
                r.changed(whole, flipped(whole, at, bit))
        for at in range(2, len(whole)):
            # a whole stream inside another, and a sync byte alone
            r.cut(whole[:at])
            sample(r)
            r.noise(whole[at:])
            r.cut(whole[:at])
            r.noise(b"\xAA" + whole[at:])
        # two sync bytes, and a sync byte at the end
        r.cut(b"\xAA")
        sample(r)
        r.cut(b"\xAA")
    for version in [0x00, 0x0F, 0x11, 0x21, 0x2F, 0x32, 0x40, 0x7F]:
        r.damaged(b"\xAA" + with_checksum(address(0x0010, 0x7E21, version) + word(0x0100) + b"\x00"), f"V3 5 {version:02X}")
    # unused septet bits that the checksums leave out
    for bits in range(0x10, 0x80, 0x10):
        uncovered(r, one(SAMPLES[1]), bits)
    uncovered(r, one(SAMPLES[2]), 0x40)
    # the septet left out of the frame's checksum
    head = with_checksum(address(0x0010, 0x7E21, 0x10) + word(0x0100) + b"\x01")
    r.damaged(b"\xAA" + head + bytes([1, 2, 3, 4, 5, checksum([1, 2, 3, 4])]), "V6 15 75 70")
    SAMPLES[0](r)
    r.cut(one(SAMPLES[1])[:-1])
    return r


# A plant: a controller at 0x7E21 and digital sensors, with a PC that asks for values.


def parameters(r):
    """Document 000's table of datagrams, from the clearance on."""
    r.datagram(0x0000, 0x7210, 0x0500, 0, 0)
    r.datagram(0x7210, 0x0020, 0x0300, 0x1234, 0)
    r.datagram(0x0020, 0x7210, 0x0100, 0x1234, 750)
    r.datagram(0x7210, 0x0020, 0x0300, 0x1235, 0)
    r.datagram(0x0020, 0x7210, 0x0100, 0x3456, 12)
    r.datagram(0x7210, 0x0020, 0x0600, 0, 0)


def identity(product, week, number, sub=0):
    return product.to_bytes(3, "little") + (week * 2**17 + number).to_bytes(3, "little") + bytes([sub])


def detect(r, group, product, first, second):
    """Two slaves get their sub addresses."""
    for sub, number in [(1, first), (2, second)]:
        r.telegram(group, 0x7731, 0x01)
        r.telegram(0x7731, group, 0x23, identity(product, 0, number))
        r.telegram(group, 0x7731, 0x27, identity(product, 0, number, sub))
    r.telegram(group, 0x7731, 0x01)
    r.telegram(group, 0x7731, 0x02)


def collide(r, group, product, first, second):
    """Two slaves answer at once: a bit is 0 on the bus if either sends 0. The second kind of request tells them apart."""
    r.telegram(group, 0x7731, 0x01)
    answers = [one(lambda s: s.telegram(0x7731, group, 0x23, identity(product, 0, n))) for n in (first, second)]
    r.changed(answers[0], bytes(a & b for a, b in zip(*answers)))
    r.telegram(group, 0x7731, 0x02)
    r.telegram(0x7731, group, 0x23, identity(product, 0, first))
    r.telegram(group, 0x7731, 0x27, identity(product, 0, first, 1))
    r.telegram(group, 0x7731, 0x01)
    r.telegram(0x7731, group, 0x23, identity(product, 0, second))
    r.telegram(group, 0x7731, 0x27, identity(product, 0, second, 2))
    r.telegram(group, 0x7731, 0x01)
    r.telegram(group, 0x7731, 0x02)


class Plant:
    """What the controller measures: tenths of a degree, litres an hour, speeds and watt-hours."""

    def __init__(self):
        self.numbers = Numbers(2023)
        self.temperatures = [652, 487, 311, 228, -88, 1204, 8888, 453, 402, 219, 185, -1]
        self.heat = 1_234_567
        self.flow = 355

    def step(self):
        for i in range(len(self.temperatures)):
            if self.temperatures[i] != 8888:
                self.temperatures[i] += self.numbers.below(7) - 3
        self.flow = 300 + self.numbers.below(120)
        self.heat += self.flow // 20

    def packet(self, second):
        payload = b"".join(t.to_bytes(2, "little", signed=True) for t in self.temperatures)
        payload += self.flow.to_bytes(4, "little") + self.heat.to_bytes(4, "little")
        payload += bytes([100, 64, 0, 30, 0, 100, 0, 0]) + bytes([1 if second < 150 else 0, 0, 0, 0x80])
        return payload + (1_700_000_000 + second).to_bytes(4, "little") + bytes(48)

    def block(self):
        display = bytes([3, 0, 8, 0]) + self.temperatures[0].to_bytes(4, "little", signed=True)
        temperatures = b"".join(t.to_bytes(2, "little", signed=True) for t in self.temperatures[:6])
        sections = [(0x0A, display), (0x01, temperatures), (0x05, self.heat.to_bytes(4, "little"))]
        sections += [(0x08, bytes([100, 64, 0, 30, 0, 100, 0, 0])), (0x0B, bytes(4)), (0x0C, bytes(4)), (0x0D, bytes([0x81, 0, 0, 0]))]
        return b"".join(bytes([len(data) // 4, kind, 0, 0]) + data for kind, data in sections)


def trouble(r, numbers, second, whole):
    """What a long line does to a stream now and then."""
    at = 1 + numbers.below(len(whole) - 1)
    if second % 3 == 0:
        r.cut(whole[:at])
    elif second % 3 == 1:
        r.changed(whole, flipped(whole, at, numbers.below(8)))
    else:
        r.noise(numbers.some(1 + numbers.below(24)))


def plant():
    """Four minutes of a plant, from the moment that its sensors are switched on; the recording begins and ends within a stream."""
    r = Recording()
    p = Plant()
    r.noise(one(lambda s: s.packet(0x0010, 0x7E21, 0x0100, p.packet(0)))[70:])
    detect(r, 0x2010, 888888, 1023, 1099)
    collide(r, 0x2020, 888889, 1233, 1333)
    for second in range(240):
        p.step()
        payload = p.packet(second)
        if second % 17 == 11:
            trouble(r, p.numbers, second, one(lambda s: s.packet(0x0010, 0x7E21, 0x0100, payload)))
        r.packet(0x0010, 0x7E21, 0x0100, payload)
        if second % 2 == 0:
            sub = 1 + second // 2 % 2
            r.telegram(0x2010 + sub, 0x7731, 0x04)
            r.telegram(0x7731, 0x2010 + sub, 0x25, word(p.flow) + p.temperatures[1].to_bytes(2, "little", signed=True) + bytes(3))
        if second % 10 == 5:
            r.packet(0x0015, 0x7E21, 0x0100, p.block())
        if second % 30 == 20:
            r.packet(0x4411, 0x6610, 0x0200, bytes([7, 4, second % 256, 0]))
            r.packet(0x6610, 0x4411, 0x0100, bytes([0x87, 4, second % 256, 0xFF]))
        if second % 60 == 40:
            parameters(r)
        elif second % 15 == 10:
            r.datagram(0x0000, 0x7E21, 0x0500, 0, 0)
    r.cut(one(lambda s: s.packet(0x0010, 0x7E21, 0x0100, p.packet(240)))[:101])
    return r


def older():
    """Forty seconds of an older controller, which leaves anything in unused septet bits, on a bus with others that leave none."""
    r = Recording()
    p = Plant()
    numbers = Numbers(10)

    def anything():
        return numbers.below(2) * numbers.below(8)

    def everything():
        return 7

    # the fewest and the most bytes, and each value that the unused bits of a packet and a datagram can have
    r.packet(0x0010, 0x4221, 0x0300, b"", everything)
    r.packet(0x0010, 0x4221, 0x0100, numbers.some(508), anything)
    for bits in range(8):
        r.packet(0x0010, 0x4221, 0x0100, bytes.fromhex("01820384"), lambda: bits)
        r.datagram(0x0020, 0x4221, 0x0100, 0x9234, bits - 4, lambda: bits)
    for second in range(40):
        p.step()
        values = p.packet(second)[:32]
        if second % 7 == 3:
            trouble(r, numbers, second, one(lambda s: s.packet(0x0010, 0x4221, 0x0100, values, everything)))
        if second % 7 == 5:
            # the same values under the checksums of septets without unused bits
            uncovered(r, one(lambda s: s.packet(0x0010, 0x4221, 0x0100, values)), 0x70)
        r.packet(0x0010, 0x4221, 0x0100, values, anything if second % 2 else everything)
        if second % 4 == 1:
            r.packet(0x0010, 0x7E21, 0x0100, values)
        if second % 5 == 2:
            r.datagram(0x0000, 0x4221, 0x0500, 0, 0, anything)
            r.datagram(0x4221, 0x0020, 0x0300, 0x1234, 0)
            r.datagram(0x0020, 0x4221, 0x0100, 0x1234, p.temperatures[4], everything)
        if second % 10 == 6:
            r.telegram(0x2011, 0x7731, 0x04)
            r.telegram(0x7731, 0x2011, 0x25, bytes(range(0xF9, 0x100)))
    r.cut(one(lambda s: s.packet(0x0010, 0x4221, 0x0100, p.packet(40)[:32], everything))[:-1])
    return r


def full():
    """The most that the lister takes, 65,536 bytes: telegrams without frames, which give the longest listing."""
    r = Recording()
    for i in range(65536 // 8):
        r.telegram(0x2000 + i % 128, 0x7731, i % 32)
    return r


def over():
    """One byte more. Nothing but the one line is expected."""
    r = full()
    r.noise(b"\x00")
    r.too_long = True
    return r


def syncs(count=65536):
    """As many bytes, all 0xAA, which give the longest explanation."""
    r = Recording()
    for _ in range(count):
        r.cut(b"\xAA")
    return r


def syncs_over():
    """One byte more."""
    r = syncs(65537)
    r.too_long = True
    return r


def empty():
    """No bytes."""
    return Recording()


def lister():
    """What `rt ci` runs the lister on: document 01's P1, D1 and T2, the smallest and largest streams, unused septet bits, and damage."""
    r = Recording()
    r.packet(0x4411, 0x6610, 0x0200, bytes.fromhex("07040F00"))
    r.datagram(0x0020, 0x1911, 0x0100, 0, 0)
    r.telegram(0x7731, 0x2010, 0x23, bytes.fromhex("38900DB6C62300"))
    printed = """
        AA 11 44 10 66 10 00 02 01 21 07 04 0F 00 00 65
        AA 20 00 11 19 20 00 01 00 00 00 00 00 00 00 14
        AA 31 77 10 20 30 23 54 38 10 0D 36 46 23 00 1A 71"""
    assert r.bytes == bytes.fromhex(printed)
    assert r.lines == ["P 4411 6610 10 0200 07040F00", "D 0020 1911 20 0100 000000000000", "T 7731 2010 30 23 38900DB6C62300"]
    numbers = Numbers(1)
    r.packet(0x0010, 0x7E21, 0x0100, numbers.some(508))
    r.packet(0x0010, 0x7E21, 0x0300, b"")
    r.telegram(0x2010, 0x7731, 0x04)
    r.telegram(0x7731, 0x2110, 0x69, numbers.some(21), version=0x31)
    r.packet(0x0010, 0x4221, 0x0100, bytes.fromhex("E803F401FFFF0080"), lambda: 7)
    r.datagram(0x0020, 0x4221, 0x0100, 0x1234, -750, lambda: 1)
    r.noise(bytes.fromhex("00 FF 7F"))
    r.damaged(bytes.fromhex("AA 55 80"), "V2 2 80")
    r.cut(b"\xAA")
    # six frames announced, the first with a wrong checksum; a whole telegram stands in place of the next ones
    whole = one(lambda s: s.packet(0x0010, 0x7E21, 0x0100, numbers.some(24)))
    r.changed(whole, flipped(whole, 15, 0)[:16])
    r.telegram(0x7731, 0x2010, 0x25, bytes.fromhex("E803E900000000"))
    r.noise(whole[33:])
    r.datagram(0x0020, 0x7210, 0x0100, 0x1234, -750)
    r.cut(one(SAMPLES[1])[:-1])
    return r


def requested(r):
    """Document 02's two samples: D1 and T1 with last byte 77, 0xAA and P1."""
    r.datagram(0x0020, 0x1911, 0x0100, 0, 0)
    r.damaged(bytes.fromhex("AA 10 20 31 77 30 01 77"), "V4 7 77 76")
    r.damaged(b"\xAA", "V2 1 AA cut off by a new stream")
    r.packet(0x4411, 0x6610, 0x0200, bytes.fromhex("07040F00"))
    printed = """
        AA 20 00 11 19 20 00 01 00 00 00 00 00 00 00 14
        AA 10 20 31 77 30 01 77
        AA
        AA 11 44 10 66 10 00 02 01 21 07 04 0F 00 00 65"""
    assert r.bytes == bytes.fromhex(printed)


# A sample, a place in it, the byte that stands there instead, and what must be told of it.
CHANGES = [
    (SAMPLES[1], 1, 0xFF, "V2 1 FF"),
    (SAMPLES[1], 5, 0x90, "V2 5 90"),  # a version's place
    (SAMPLES[1], 9, 0x80, "V2 9 80"),  # a checksum's place
    (SAMPLES[4], 15, 0xA9, "V2 15 A9"),  # a septet's place
    (SAMPLES[1], 5, 0x11, "V3 5 11"),
    (SAMPLES[3], 5, 0x7F, "V3 5 7F"),
    (SAMPLES[1], 8, 0x7F, "V4 9 3D 40"),  # a frame count
    (SAMPLES[2], 15, 0x00, "V4 15 00 31"),
    (SAMPLES[4], 6, 0x43, "V4 7 54 34"),  # a telegram's command, and so its frame count
    (SAMPLES[1], 14, 0x75, "V6 15 1A 2A"),  # an unused septet bit that the checksum leaves out
    (SAMPLES[1], 21, 0x00, "V6 21 00 76"),  # of the second frame
    (SAMPLES[4], 16, 0x70, "V6 16 70 71"),
    (SAMPLES[5], 34, 0x00, "V6 34 00 56"),  # of the third frame
]


def explainer():
    """What `rt ci` runs the explainer on: document 02's samples, every verdict that there can be, unused septet bits, places of one to
    five digits and offsets of one to three."""
    r = Recording()
    requested(r)
    r.packet(0x0010, 0x4221, 0x0100, bytes.fromhex("E803F401FFFF0080"), lambda: 7)
    r.datagram(0x0020, 0x4221, 0x0100, 0x1234, -750, lambda: 1)
    for sample, at, byte, told in CHANGES:
        whole = one(sample)
        data = whole[:at] + bytes([byte]) + whole[at + 1 :]
        assert told == told_of(whole, data), (told, told_of(whole, data))
        r.damaged(data, told)
        sample(r)
    numbers = Numbers(4)
    # six frames announced, the first with a wrong checksum; a damaged telegram and a whole one stand in place of the next ones
    whole = one(lambda s: s.packet(0x0010, 0x7E21, 0x0100, numbers.some(24)))
    r.changed(whole, flipped(whole, 15, 0)[:16])
    r.damaged(bytes.fromhex("AA 10 20 31 77 30 01 77"), "V4 7 77 76")
    r.telegram(0x2010, 0x7731, 0x01)
    r.noise(bytes.fromhex("00 FF 7F"))
    for _ in range(13):
        r.packet(0x0010, 0x7E21, 0x0100, numbers.some(508))
    longest = one(lambda s: s.packet(0x0010, 0x7E21, 0x0100, numbers.some(508)))
    r.changed(longest, flipped(longest, 771, 6))
    r.cut(longest[:771])
    r.cut(longest[:770])
    return r


SHIPPED = [examples, sizes, damage, plant, older, empty]
PROGRAMS = [lister, explainer]
LARGE = [full, over, syncs, syncs_over]
# Of how many 0xAA the writer knows no more than that they give no record: those that stand alone within a stream, and those whose version
# was flipped to another that there is.
UNKNOWN = {"damage": sum(len(one(sample)) - 2 for sample in SAMPLES) + 10}


def check_faults(name, recording):
    """Holds the reader's faults to what the writer knows, and to document 02: the reason must be true."""
    data, faults = bytes(recording.bytes), rules.faults(bytes(recording.bytes))
    without_record = [at for at, byte in enumerate(data) if byte == 0xAA and at not in recording.positions]
    assert [fault[0] for fault in faults] == without_record, f"{name}: the reader's places aren't the writer's"
    told = [recording.told_at(place) for place in without_record]
    for fault, known in zip(faults, told):
        assert known is None or rules.fault_line(fault) == f"{fault[0]} {known}", (name, fault, known)
        assert rules.reason_is_true(data, fault), (name, fault)
    assert told.count(None) == UNKNOWN.get(name, 0), (name, told.count(None), len(told))


def write(make, recording_file, listing_file=None, explanation_file=None):
    recording = make()
    check_faults(make.__name__, recording)
    data = bytes(recording.bytes)
    listing, explanation = rules.listing(data), rules.explanation(data)
    expected = ["too long"] if recording.too_long else recording.lines
    assert listing == "".join(line + "\n" for line in expected), f"{make.__name__}: the reader and the writer disagree"
    assert (explanation == "too long\n") == recording.too_long
    for file_name, content in ((recording_file, data), (listing_file, listing.encode()), (explanation_file, explanation.encode())):
        if file_name:
            with open(file_name, "wb") as file:
                file.write(content)


def write_into(folder, make):
    path = os.path.join(folder, make.__name__)
    write(make, path + ".vbus", path + ".txt", path + ".faults.txt")


if __name__ == "__main__":
    if len(sys.argv) > 1:
        for make in SHIPPED + PROGRAMS + LARGE:
            write_into(sys.argv[1], make)
    else:
        for make in SHIPPED:
            write_into(HERE, make)
        stored = lambda program, name: os.path.join(CRATES, program, name)
        write(lister, stored("lister", "stdin"), listing_file=stored("lister", "stdout"))
        write(explainer, stored("explainer", "stdin"), explanation_file=stored("explainer", "stdout"))
