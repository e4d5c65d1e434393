"""The datagrams of a capture of tests/captures: little-endian, Ethernet."""
import struct

from board import ROOT
from net import PORT


def requests(name):
    """Each request, with its reply, empty if there was none."""
    capture = (ROOT / "tests/captures" / name).read_bytes()
    at, found = 24, []
    while at < len(capture):
        length = struct.unpack_from("<I", capture, at + 8)[0]
        frame = capture[at + 16:at + 16 + length]
        at += 16 + length
        udp = 14 + 4 * (frame[14] & 15)
        source, target, bytes_ = struct.unpack_from(">HHH", frame, udp)
        data = frame[udp + 8:udp + bytes_]
        if target == PORT:
            found.append([data, b""])
        elif source == PORT:
            found[-1][1] = data
    return found
