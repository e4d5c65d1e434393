"""Random packets: good ones, and ones that are damaged or break a rule."""
import struct

SPACES = {0: (65536, 4), 2: (128, 2), 6: (32, 2), 7: (32, 2)}
COUNT = bytes.fromhex("01590A00")
UNLOCK = bytes.fromhex("01D91A00025A")
FLASH = bytes.fromhex("014E0800")


def word(write, address, info, space, size, increment, count):
    number = write << 15 | address << 14 | info << 13 | space << 10 | size << 8 | increment << 7 | count
    return struct.pack("<H", number)


def command(random, protected):
    """A command that is most often good, with its data."""
    space = random.choice([0, 0, 0, 2, 6, 7])
    size, width = SPACES[space]
    write = random.random() < (0.0 if space == 7 else 0.4)
    info = not write and random.random() < 0.1
    if info:
        size, width = 16, 2
    count = random.choice([1, 1, 2, 3, 8, 20, 64, 127])
    count = min(count, size // width)
    low = 0x20 if write and space == 2 else 0
    if write and space == 2:
        count = min(count, 48)
    address = random.randrange(low, size - width * count + 1, width)
    if write and random.random() < 0.04 and space == 0:
        address = random.choice(protected)
        count = random.choice([1, 2])
    increment = random.random() < 0.8
    head = word(write, 1, info, space, 2 if width == 4 else 1, increment, count) + struct.pack("<H", address)
    unlock = UNLOCK if write and space == 2 and random.random() < 0.95 else b""
    return unlock + head + (random.randbytes(count * width) if write else b"")


def without_address(random):
    """A command at its space's pointer, wherever that stands."""
    space = random.choice([0, 2, 6, 7])
    width = SPACES[space][1]
    write = random.random() < 0.3
    count = random.choice([1, 1, 2, 5])
    return word(write, 0, 0, space, 2 if width == 4 else 1, random.random() < 0.5, count) + (
        random.randbytes(count * width) if write else b"")


def bad(random):
    """A command that breaks a rule, or may."""
    return random.choice([
        lambda: random.randbytes(2),
        lambda: random.randbytes(random.randrange(9)),
        lambda: word(1, 1, 1, 0, 1, 1, 1) + bytes(4),
        lambda: word(0, 1, 0, random.choice([1, 3, 4, 5]), 2, 1, 1) + bytes(2),
        lambda: word(0, 1, 0, random.choice([0, 2, 6, 7]), random.randrange(4), 1, 1) + bytes(2),
        lambda: word(0, 1, 0, 0, 2, 1, 0) + bytes(2),
        lambda: word(0, 1, 0, 0, 2, 1, 127) + struct.pack("<H", random.randrange(0xFE00, 0x10000)),
        lambda: word(1, 1, 0, 7, 1, 1, 1) + bytes(4),
        lambda: UNLOCK + word(1, 1, 0, 2, 1, 1, 2) + struct.pack("<H", 0x1E) + bytes(4),
        lambda: word(1, 1, 0, 2, 1, 1, 1) + struct.pack("<H", 0x20) + bytes(2),
        lambda: word(1, 1, 0, 0, 2, 1, 100) + bytes(2) + random.randbytes(random.randrange(400)),
        lambda: word(0, 1, 0, 0, 2, 1, 127) * 3 + bytes(2),
        lambda: (word(0, 1, 0, 0, 2, 1, 127) + bytes(2)) * 3,
    ])()


def changed(random, packet):
    """A packet with a byte changed, cut off or put in."""
    place = random.randrange(len(packet) + 1)
    return random.choice([
        lambda: packet[:place],
        lambda: packet[:place] + random.randbytes(1) + packet[place + 1:],
        lambda: packet[:place] + random.randbytes(random.randrange(4)) + packet[place:],
    ])()


def random_packet(random, protected=(0x1000,)):
    kind = random.random()
    if kind < 0.03:
        return random.randbytes(random.randrange(1473))
    if kind < 0.04:
        return b""
    most = random.choice([1, 2, 4, 8, 40, 368])
    packet = b""
    for _ in range(random.randrange(1, most + 1)):
        more = without_address(random) if random.random() < 0.1 else command(random, protected)
        if len(packet + more) > 1472:
            break
        packet += more
    if kind < 0.25:
        packet += bad(random)
    elif kind < 0.4:
        packet = changed(random, packet)
    return packet[:1472]


def readout():
    """Packets that read the pointers, by the info areas, and then the whole store."""
    yield b"".join(word(0, 1, 1, space, 1, 1, 8) + bytes(2) for space in SPACES)
    for first in range(0, 65536, 4 * 368):
        left, at, packet = min(368, (65536 - first) // 4), first, b""
        while left:
            count = min(left, 127)
            packet += word(0, 1, 0, 0, 2, 1, count) + struct.pack("<H", at)
            at, left = at + 4 * count, left - count
        yield packet
    yield b"".join(word(0, 1, 0, space, 1, 1, SPACES[space][0] // 2) + bytes(2) for space in (2, 6, 7))
