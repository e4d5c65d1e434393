"""What the firmware must do with each frame, written from the table in firmware/README.md; and frames of all kinds."""
import struct

MAC, IP, PORT = bytes.fromhex("020000000092"), bytes([10, 0, 2, 15]), 27181
HOST_MAC, HOST_IP, HOST_PORT = bytes.fromhex("525400123456"), bytes([10, 0, 2, 2]), 50000
ALL = b"\xFF" * 6


def checksum(data):
    data += bytes(len(data) % 2)
    total = sum(struct.unpack(f">{len(data) // 2}H", data))
    while total >> 16:
        total = (total & 0xFFFF) + (total >> 16)
    return total ^ 0xFFFF


def pseudo(source, target, udp):
    return source + target + struct.pack(">HH", 17, len(udp))


def ethernet(data, kind=0x0800, target=MAC, source=HOST_MAC):
    return target + source + struct.pack(">H", kind) + data


def ipv4(data, protocol, **given):
    """An IP packet. What is given stands in place of what would be right."""
    options = given.get("options", b"")
    words = given.get("words", 5 + len(options) // 4)
    head = struct.pack(">BBHHHBB", given.get("version", 4) << 4 | words, 0, given.get("total", 20 + len(options) + len(data)),
                       given.get("number", 0), given.get("fragment", 0x4000), given.get("ttl", 64), protocol)
    ends = given.get("source", HOST_IP) + given.get("target", IP)
    right = checksum(head + bytes(2) + ends + options)
    return head + struct.pack(">H", given.get("checksum", right)) + ends + options + data


def udp(data, **given):
    head = struct.pack(">HHH", given.get("source_port", HOST_PORT), given.get("port", PORT), given.get("length", 8 + len(data)))
    ends = given.get("source", HOST_IP), given.get("target", IP)
    right = checksum(pseudo(*ends, head + bytes(2) + data) + head + bytes(2) + data) or 0xFFFF
    return head + struct.pack(">H", given.get("udp_checksum", right)) + data


def datagram(data, **given):
    return ethernet(ipv4(udp(data, **given), 17, **given))


def echo(data, **given):
    head = bytes([given.get("kind", 8), given.get("code", 0)])
    right = checksum(head + bytes(2) + data)
    return ethernet(ipv4(head + struct.pack(">H", given.get("icmp_checksum", right)) + data, 1, **given))


def arp(target=ALL, source=HOST_MAC, **given):
    head = struct.pack(">HHBBH", given.get("hardware", 1), given.get("protocol", 0x0800), given.get("macs", 6), given.get("ips", 4),
                       given.get("kind", 1))
    ends = given.get("sender_mac", source) + given.get("sender_ip", HOST_IP) + bytes(6) + given.get("asked", IP)
    return ethernet(head + ends, 0x0806, target, source)


class Net:
    """The firmware's rules: what a frame is counted as, and the frame that goes back. Where there is a chip, it filters frames for
    others. While the board is busy, nothing goes out."""

    def __init__(self, card, names, filtered=True):
        self.card = card
        self.filtered = filtered
        self.busy = False
        self.counters = dict.fromkeys(names, 0)
        self.lines = []
        self.numbers = {}

    def count(self, name):
        self.counters[name] += 1

    def answer(self, frame):
        """The reply to a frame, None if there is none. A frame that is None is a damaged one."""
        if self.filtered and frame[:6] not in (MAC, ALL):
            return None
        self.count("FRAMES")
        found = "DROPPED_DAMAGED" if frame is None else self.found(frame)
        if isinstance(found, str):
            self.count(found)
            return None
        if found is None:
            return None
        self.count("UNSENT" if self.busy else "REPLIES")
        return None if self.busy else found

    def say(self, line):
        if self.busy:
            self.count("LINES_LOST")
        else:
            self.lines.append(line)

    def found(self, frame):
        if len(frame) > 1514:
            return "DROPPED_LONG"
        if len(frame) < 14:
            return "DROPPED_CUT"
        target, source, kind = frame[:6], frame[6:12], frame[12:14]
        if target not in (MAC, ALL) or source == MAC or source[0] & 1:
            return "DROPPED_ADDRESS"
        if kind == b"\x08\x06":
            return self.arp(frame[14:], source)
        if kind == b"\x08\x00":
            return self.ip(frame[14:], target, source)
        return "DROPPED_OTHER"

    def arp(self, message, source):
        if len(message) < 28:
            return "DROPPED_CUT"
        hardware, protocol, macs, ips, kind = struct.unpack(">HHBBH", message[:8])
        mac, ip, asked = message[8:14], message[14:18], message[24:28]
        if (hardware, protocol) != (1, 0x0800):
            return "DROPPED_OTHER"
        if (macs, ips) != (6, 4):
            return "DROPPED_LENGTH"
        if kind != 1:
            return "DROPPED_OTHER"
        if asked != IP or mac != source or not (is_other(ip) or ip == bytes(4)):
            return "DROPPED_ADDRESS"
        self.count("ARP")
        return ethernet(message[:6] + b"\x00\x02" + MAC + IP + mac + ip, 0x0806, source, MAC)

    def ip(self, packet, target, source):
        if len(packet) < 20:
            return "DROPPED_CUT"
        if packet[0] >> 4 != 4:
            return "DROPPED_OTHER"
        head, total = 4 * (packet[0] & 15), int.from_bytes(packet[2:4], "big")
        if head < 20 or total < head:
            return "DROPPED_LENGTH"
        if total > len(packet):
            return "DROPPED_CUT"
        if checksum(packet[:head]) != 0:
            return "DROPPED_CHECKSUM"
        sender = packet[12:16]
        if target != MAC or packet[16:20] != IP or not is_other(sender):
            return "DROPPED_ADDRESS"
        if int.from_bytes(packet[6:8], "big") & 0x3FFF:
            return "DROPPED_FRAGMENT"
        data = packet[head:total]
        inner = {1: self.icmp, 17: self.udp}.get(packet[9])
        found = inner(data, sender) if inner else "DROPPED_OTHER"
        if not isinstance(found, bytes):
            return found
        return ethernet(ipv4(found, packet[9], source=IP, target=sender), 0x0800, source, MAC)

    def icmp(self, message, _):
        if len(message) < 8:
            return "DROPPED_LENGTH"
        if checksum(message) != 0:
            return "DROPPED_CHECKSUM"
        if message[:2] != b"\x08\x00":
            return "DROPPED_OTHER"
        self.count("ECHO")
        rest = bytes(2) + message[4:]
        return bytes(2) + struct.pack(">H", checksum(bytes(2) + rest)) + message[4:]

    def udp(self, message, sender):
        if len(message) < 8 or int.from_bytes(message[4:6], "big") != len(message):
            return "DROPPED_LENGTH"
        if message[6:8] != bytes(2) and checksum(pseudo(sender, IP, message) + message) != 0:
            return "DROPPED_CHECKSUM"
        source, port = struct.unpack(">HH", message[:4])
        if port != PORT or source in (0, PORT):
            return "DROPPED_OTHER"
        reply = self.packet(message[8:])
        return udp(reply, source=IP, target=sender, source_port=PORT, port=source) if reply else None

    def packet(self, packet):
        """The reply to a packet, empty if there is none."""
        self.count("PACKETS")
        if self.card.hostmot2 and packet == bytes.fromhex("014E0800"):
            self.count("OUTSIDE")
            self.say("answered outside the library: the flash chip's id")
            return bytes.fromhex("14000000")
        number, place, reply = self.card.run(packet)
        self.numbers[number] = self.numbers.get(number, 0) + 1
        if number:
            self.count("REFUSED")
            self.say(f"refused {number} at {place}: {self.card.sentence(number)}")
        return reply


def is_other(ip):
    return ip[0] not in (0, 127) and ip[0] < 224 and ip != IP
