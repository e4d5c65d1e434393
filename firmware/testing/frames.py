"""Frames of all kinds, good and bad."""
from net import ALL, HOST_IP, HOST_MAC, IP, MAC, PORT, arp, datagram, echo, ethernet, ipv4, udp
from packets import COUNT, random_packet

NOBODY = [bytes(4), b"\xFF" * 4, bytes([127, 0, 0, 1]), bytes([224, 0, 0, 1]), bytes([240, 1, 2, 3]), IP]


def good(random, packet):
    """Datagrams that are taken, in all their forms."""
    return random.choice([
        lambda: datagram(packet),
        lambda: datagram(packet),
        lambda: datagram(packet, udp_checksum=0),
        lambda: datagram(packet, ttl=random.choice([0, 1, 255])),
        lambda: datagram(packet, fragment=random.choice([0, 0x4000, 0x8000]), number=random.randrange(65536)),
        lambda: datagram(packet[:1400], options=random.randbytes(4 * random.randrange(1, 11))),
        lambda: datagram(packet, source_port=random.choice([1, 53, 65535])),
        lambda: ethernet(ipv4(udp(packet, source=bytes([10, 9, 8, 7])), 17, source=bytes([10, 9, 8, 7])), source=random_mac(random)),
        lambda: (datagram(packet) + bytes(random.randrange(60)))[:1514],
    ])()


def random_mac(random):
    return bytes([random.randrange(128) * 2]) + random.randbytes(5)


def bad_datagram(random, packet):
    wrong = random.randrange(65536)
    return random.choice([
        lambda: datagram(packet, udp_checksum=wrong),
        lambda: datagram(packet, length=wrong),
        lambda: datagram(packet, length=8 + len(packet) + random.choice([-1, 1, -8, 8])),
        lambda: datagram(packet, length=random.randrange(8), udp_checksum=0),
        lambda: datagram(packet, port=wrong),
        lambda: datagram(packet, source_port=random.choice([0, PORT])),
        lambda: datagram(b"", total=20 + random.randrange(8)),
        lambda: datagram(packet, source=random.choice(NOBODY)),
    ])()


def bad_ip(random, packet):
    wrong = random.randrange(65536)
    return random.choice([
        lambda: datagram(packet, checksum=wrong),
        lambda: datagram(packet, version=random.randrange(16)),
        lambda: datagram(packet, words=random.randrange(16)),
        lambda: datagram(packet, total=wrong),
        lambda: datagram(packet, total=28 + len(packet) + random.choice([-1, 1, -9, 9])),
        lambda: datagram(packet, total=random.randrange(29)),
        lambda: datagram(packet, fragment=random.randrange(1, 0x4000)),
        lambda: datagram(packet, fragment=0x2000),
        lambda: ethernet(ipv4(udp(packet), random.randrange(256))),
        lambda: datagram(packet, target=random.choice([bytes([10, 0, 2, 16]), b"\xFF" * 4, bytes([10, 0, 2, 255])])),
        lambda: ethernet(ipv4(udp(packet), 17), target=ALL),
        lambda: ethernet(ipv4(udp(packet), 17), source=MAC),
        lambda: ethernet(ipv4(udp(packet), 17), source=bytes([HOST_MAC[0] | 1]) + HOST_MAC[1:]),
        lambda: ethernet(ipv4(udp(packet), 17), target=random.randbytes(6)),
    ])()


def some_icmp(random):
    data = random.randbytes(random.choice([4, 5, 36, 60, 1000, 1475, 1476]))
    return random.choice([
        lambda: echo(data),
        lambda: echo(data),
        lambda: echo(data, ttl=0),
        lambda: echo(data[:1400], options=random.randbytes(40)),
        lambda: echo(data, kind=random.randrange(256)),
        lambda: echo(data, code=random.randrange(1, 256)),
        lambda: echo(data, icmp_checksum=random.randrange(65536)),
        lambda: echo(data[:random.randrange(4)]),
        lambda: echo(data, source=random.choice(NOBODY)),
        lambda: echo(data, target=b"\xFF" * 4),
    ])()


def some_arp(random):
    return random.choice([
        lambda: arp(),
        lambda: arp(target=MAC),
        lambda: arp(sender_ip=bytes(4)),
        lambda: arp() + bytes(18),
        lambda: arp(hardware=random.randrange(65536)),
        lambda: arp(protocol=random.randrange(65536)),
        lambda: arp(macs=random.randrange(256)),
        lambda: arp(ips=random.randrange(256)),
        lambda: arp(kind=random.randrange(65536)),
        lambda: arp(asked=random.randbytes(4)),
        lambda: arp(sender_mac=random.choice([ALL, MAC, random.randbytes(6)])),
        lambda: arp(sender_ip=random.choice(NOBODY)),
        lambda: arp(source=random.choice([MAC, ALL])),
        lambda: arp()[:random.randrange(14, 42)],
    ])()


def other(random, packet):
    frame = random.choice([datagram(packet), echo(random.randbytes(60)), arp()])
    place = random.randrange(len(frame))
    return random.choice([
        lambda: frame[:max(place, 14)],
        lambda: frame[:place] + bytes([frame[place] ^ 1 << random.randrange(8)]) + frame[place + 1:],
        lambda: frame[:place] + random.randbytes(1) + frame[place + 1:],
        lambda: ethernet(frame[14:], random.choice([0x86DD, 0x8100, 0x88CC, random.randrange(65536)])),
        lambda: frame[:14] + random.randbytes(random.randrange(1501)),
        lambda: MAC + random.randbytes(random.randrange(8, 1509)),
        lambda: (datagram(packet) + bytes(2000))[:random.randrange(1515, 2001)],
        lambda: datagram(COUNT + bytes(random.randrange(1469, 1900))),
    ])()


def special():
    """Frames that chance seldom makes."""
    # An empty cell of space 7, asked from the one port for which the reply's checksum is 0 and has to be sent as 0xFFFF.
    empty = bytes.fromhex("815D1C00")
    for port in range(1, 65536):
        reply = udp(bytes(2), source=IP, target=HOST_IP, source_port=PORT, port=port)
        if reply[6:8] == b"\xFF\xFF":
            yield datagram(empty, source_port=port)
    yield echo(bytes(1476))
    yield datagram(b"")
    yield datagram(bytes(1472))
    yield datagram(empty) + bytes(1514 - 46)
    yield datagram(empty) + bytes(1515 - 46)


def random_frame(random, protected=(0x1000,)):
    packet = random_packet(random, protected)
    kind = random.random()
    if kind < 0.4:
        return good(random, packet)
    if kind < 0.55:
        return bad_datagram(random, packet)
    if kind < 0.7:
        return bad_ip(random, packet)
    if kind < 0.8:
        return some_icmp(random)
    if kind < 0.9:
        return some_arp(random)
    return other(random, packet)
