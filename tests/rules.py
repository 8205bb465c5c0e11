"""Document 01's rules, as document 02 changes them, read independently of the library: nothing of it is used here.

Plain and slow, to compare with. Streams, payloads and recordings are bytes; a record is (version, destination, source, command, payload),
a header the same without the payload. `number` is 0, or the refusal's.
"""

PACKET, DATAGRAM, TELEGRAMS = 0x10, 0x20, (0x30, 0x31)
HEADER = {0x10: 10, 0x20: 16, 0x30: 8, 0x31: 8}  # bytes before the first frame
WIDTH = {0x10: 4, 0x20: 6, 0x30: 7, 0x31: 7}  # payload bytes to a septet

# ── checksum and septet


def checksum(data):
    total = 0x7F
    for byte in data:
        total = (total - byte) & 0x7F
    return total


def without_top_bits(block):
    return bytes(b & 0x7F for b in block), sum(1 << i for i, b in enumerate(block) if b & 0x80)


def with_top_bits(block, septet):
    return bytes(b | (septet >> i & 1) << 7 for i, b in enumerate(block))


def extract(block, length):
    """number, seven bytes, length, septet"""
    if length > 7:
        return 7, bytes(7), 0, 0
    low, septet = without_top_bits(block[:length])
    return 0, low.ljust(7, b"\0"), length, septet


def inject(block, length, septet):
    """number, seven bytes, length, septet"""
    if length > 7 or any(b >= 0x80 for b in block[:length]) or septet >= 0x80:
        return 7, bytes(7), 0, 0
    return 0, with_top_bits(block[:length], septet).ljust(7, b"\0"), length, 0


# ── one stream


def frame_count(s):
    return s[8] if s[5] == PACKET else 0 if s[5] == DATAGRAM else s[6] >> 5 & 3


def validate(s):
    """the verdict's number, the offset, and how many blocks of a whole stream have unused septet bits"""
    end = None  # known once the header is right
    unused = 0
    for k, byte in enumerate(s):
        if k == end:
            break
        if k == 0:
            if byte != 0xAA:
                return 1, 0, 0
            continue
        if byte >= 0x80:
            return 2, k, 0
        if k == 5 and byte not in HEADER:
            return 3, 5, 0
        if k < 6:
            continue
        head, width = HEADER[s[5]], WIDTH[s[5]]
        if k < head:
            if s[5] == DATAGRAM and k == 14 and byte >> width:
                unused += 1
            if k == head - 1:
                if checksum(s[1:k]) != byte:
                    return 4, k, 0
                end = head + (width + 2) * frame_count(s)
            continue
        start = head + (k - head) // (width + 2) * (width + 2)
        if k == start + width and byte >> width:
            unused += 1
        if k == start + width + 1 and checksum(s[start:k]) != byte:
            return 6, k, 0
    return (0, end, unused) if end is not None and len(s) >= end else (7, len(s), 0)


def decode(s):
    """the record of the whole stream that these bytes begin with"""
    word = lambda k: s[k] | s[k + 1] << 8
    version, width = s[5], WIDTH[s[5]]
    starts = [8] if version == DATAGRAM else [HEADER[version] + (width + 2) * j for j in range(frame_count(s))]
    payload = b"".join(with_top_bits(s[a : a + width], s[a + width]) for a in starts)
    return version, word(1), word(3), s[6] if version in TELEGRAMS else word(6), payload


def written(record):
    """the stream of a record that fits"""
    version, destination, source, command, payload = record
    word = lambda x: x.to_bytes(2, "little")
    header = word(destination) + word(source) + bytes([version])
    frames = b""
    if version == DATAGRAM:
        low, septet = without_top_bits(payload)
        header += word(command) + low + bytes([septet])
    else:
        for a in range(0, len(payload), WIDTH[version]):
            low, septet = without_top_bits(payload[a : a + WIDTH[version]])
            frame = low + bytes([septet])
            frames += frame + bytes([checksum(frame)])
        header += bytes([command]) if version in TELEGRAMS else word(command) + bytes([len(payload) // 4])
    return b"\xAA" + header + bytes([checksum(header)]) + frames


def encode(record, room):
    """number, stream"""
    version, destination, source, command, payload = record
    if version not in HEADER:
        return 1, b""
    if (destination | source) & 0x8080:
        return 2, b""
    if command > 0x7F if version in TELEGRAMS else command & 0x8080:
        return 3, b""
    if version == PACKET:
        fits = len(payload) % 4 == 0 and len(payload) <= 508
    else:
        fits = len(payload) == (6 if version == DATAGRAM else 7 * (command >> 5 & 3))
    if not fits:
        return 4, b""
    return (5, b"") if room < len(written(record)) else (0, written(record))


# ── a slave ID response


def read_slave_id(record):
    """number, product, device, week, consecutive number"""
    version, _, _, command, payload = record
    if version not in TELEGRAMS or command != 0x23 or len(payload) != 7 or payload[6] != 0:
        return 18, 0, 0, 0, 0
    product, device = (int.from_bytes(payload[k : k + 3], "little") for k in (0, 3))
    return 0, product, device, *divmod(device, 131072)


def write_slave_id(destination, source, product, device, room):
    """number, stream"""
    if max(product, device) >= 2**24:
        return 18, b""
    payload = product.to_bytes(3, "little") + device.to_bytes(3, "little") + b"\0"
    return encode((0x30, destination, source, 0x23, payload), room)


# ── a recording


def positions(s, start=0):
    return [k for k in range(start, len(s) + 1) if validate(s[k:])[0] == 0]


def deliveries(s):
    return [decode(s[k:]) for k in positions(s)]


def next_record(s, start, room):
    """number, and (position, length, record) or None"""
    if start > len(s):
        return 6, None
    found = positions(s, start)
    if not found:
        return 0, None
    rest = s[found[0] :]
    if room < len(decode(rest)[4]):
        return 5, None
    return 0, (found[0], validate(rest)[1], decode(rest))


def normalize(s, room):
    """number, bytes"""
    out = b"".join(written(record) for record in deliveries(s))
    return (5, b"") if room < len(out) else (0, out)


# ── why a 0xAA gave no record


def wanted(s, verdict, offset):
    """the checksum that the bytes before the offset ask for, where the fault is a wrong one"""
    if verdict == 4:
        return checksum(s[1:offset])
    return checksum(s[offset - WIDTH[s[5]] - 1 : offset]) if verdict == 6 else None


def faults(s):
    """of each 0xAA whose stretch isn't whole, in order: place, verdict, offset, the byte found or None at the end, the byte wanted or None"""
    found = []
    for place in range(len(s)):
        if s[place] != 0xAA:
            continue
        stretch = s[place:]
        verdict, offset, _ = validate(stretch)
        if verdict:
            found.append((place, verdict, offset, None if verdict == 7 else stretch[offset], wanted(stretch, verdict, offset)))
    return found


def next_fault(s, start):
    """the first fault at or behind the start, or None"""
    return next((fault for fault in faults(s) if fault[0] >= start), None)


def grown(prefix):
    """these bytes, and behind them what makes a whole stream of them if anything does: a sync byte, the version of a packet, zeros, and
    the right checksums; of an unknown version nothing"""
    s = bytearray(prefix)
    s += (b"\xAA" + bytes(4) + bytes([PACKET]))[len(s) :]
    if s[5] not in HEADER:
        return bytes(s)
    head, width = HEADER[s[5]], WIDTH[s[5]]
    s += bytes(max(0, head - 1 - len(s)))
    s += bytes([checksum(s[1 : head - 1])]) if len(s) < head else b""
    for start in range(head, head + (width + 2) * frame_count(s), width + 2):
        end = start + width + 1
        s += bytes(max(0, end - len(s)))
        s += bytes([checksum(s[start:end])]) if len(s) == end else b""
    return bytes(s)


def can_grow(prefix):
    """whether these bytes, with some behind them or with none, are one whole stream"""
    s = grown(prefix)
    return validate(s)[:2] == (0, len(s))


def reason_is_true(s, fault):
    """document 02's words: before the offset all could have grown into a valid stream, with the byte found no longer, with the byte
    wanted still; at the end all could have grown on"""
    place, verdict, offset, found, want = fault
    before = s[place : place + offset]
    if verdict == 7:
        return place + offset == len(s) and (found, want) == (None, None) and can_grow(before)
    if found != s[place + offset] or not can_grow(before) or can_grow(before + bytes([found])):
        return False
    return can_grow(before + bytes([want])) if verdict in (4, 6) else want is None


# ── a receiver, fed a recording until it is used up


def announced(s):
    """the length of the stream that s begins with, or the least that it can have, as far as its bytes tell"""
    if len(s) < 6:
        return 6
    if s[5] == PACKET:
        return 10 + 6 * s[8] if len(s) > 8 else 10
    if s[5] in TELEGRAMS:
        return 8 + 9 * (s[6] >> 5 & 3) if len(s) > 6 else 8
    return 16 if s[5] == DATAGRAM else 6


def received(s, first=0):
    """of a receiver that has used `first` bytes and holds none: each record of s as (position, length, record), and how many bytes are held at last"""
    last = max((k for k in range(len(s)) if s[k] >= 0x80), default=-1)
    rest = s[last:] if last >= 0 and s[last] == 0xAA else b""
    held = len(rest) if len(rest) < announced(rest) else 0
    return [(first + k, validate(s[k:])[1], decode(s[k:])) for k in positions(s)], held


def receive(position, chunk, room):
    """of a receiver that holds nothing: the number, how many bytes are used, and (position, length, record) or None; held then"""
    if room < 508:
        return 5, 0, None, 0
    if position + len(chunk) > 2**64 - 1:
        return 12, 0, None, 0
    records, held = received(chunk, position)
    if not records:
        return 0, len(chunk), None, held
    return 0, records[0][0] + records[0][1] - position, records[0], 0


# ── sections of a block packet

ELEMENT_SIZE = {0x01: 2, 0x05: 4, 0x08: 1, 0x0A: 8, 0x0B: 4, 0x0C: 4, 0x0D: 4}


def sections(header, payload):
    """number, and the start of each section"""
    version, destination, _, command = header
    if (version, destination, command) != (0x10, 0x0015, 0x0100) or len(payload) % 4 or len(payload) > 508:
        return 8, []
    starts, at = [], 0
    while at < len(payload):
        starts.append(at)
        at += 4 + 4 * payload[at]
    return (0, starts) if at == len(payload) else (9, [])


def section_count(header, payload):
    """number, count"""
    number, starts = sections(header, payload)
    return number, len(starts)


def section(header, payload, k):
    """number, start, length"""
    number, starts = sections(header, payload)
    if number or k >= len(starts):
        return number or 10, 0, 0
    return 0, starts[k], 4 + 4 * payload[starts[k]]


def element_count(header, payload, k):
    """number, count"""
    number, start, _ = section(header, payload, k)
    if number:
        return number, 0
    frames, section_type = payload[start], payload[start + 1]
    if section_type not in ELEMENT_SIZE:
        return 11, 0
    if section_type == 0x0A and frames % 2 == 1:
        return 13, 0
    return 0, 4 * frames // ELEMENT_SIZE[section_type]


def element(header, payload, k, i):
    """number, start, length"""
    number, count = element_count(header, payload, k)
    if number or i >= count:
        return number or 10, 0, 0
    start = section(header, payload, k)[1]
    size = ELEMENT_SIZE[payload[start + 1]]
    return 0, start + 4 + i * size, size


# ── the lister


def line(record):
    version, destination, source, command, payload = record
    kind, digits = {PACKET: ("P", 4), DATAGRAM: ("D", 4)}.get(version, ("T", 2))
    return f"{kind} {destination:04X} {source:04X} {version:02X} {command:0{digits}X} {payload.hex().upper()}".rstrip()


def listing(recording):
    if len(recording) > 65536:
        return "too long\n"
    return "".join(line(record) + "\n" for record in deliveries(recording))


# ── the explainer


def fault_line(fault):
    place, verdict, offset, *bytes_told = fault
    told = "".join(f" {byte:02X}" for byte in bytes_told if byte is not None)
    return f"{place} V{verdict} {offset}{told}" + (" cut off by a new stream" if (verdict, bytes_told[0]) == (2, 0xAA) else "")


def explanation(recording):
    if len(recording) > 65536:
        return "too long\n"
    return "".join(fault_line(fault) + "\n" for fault in faults(recording))
