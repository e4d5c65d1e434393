"""The firmware on this machine, with gcc's sanitizers: whatever comes, nothing outside a frame's bytes is touched."""
import random
import struct
import subprocess

from board import ROOT, Failed, made
from frames import random_frame, special
from library import Card
from net import Net
from talk import NAMES, agree

SOURCES = ["controller.c", "hostmot2.c", "main.c", "net.c", "text.c", "testing/board_host.c"]
IMAGE = "target/firmware/host"


def some_frame(draw):
    """Also frames that no chip hands over: short of a header, or for another card. None is a damaged one."""
    kind = draw.random()
    if kind < 0.02:
        return None
    frame = random_frame(draw)
    return frame[:draw.randrange(1, 20)] if kind < 0.05 else frame


def put(frame, busy):
    """As testing/board_host.c takes it."""
    return (b"\xFE\xFF" if busy else b"") + (b"\xFF\xFF" if frame is None else struct.pack("<H", len(frame)) + frame)


def build():
    made(["gcc", "-std=c11", "-O1", "-g", "-Wall", "-Wextra", "-Werror", "-fsanitize=address,undefined", "-fno-sanitize-recover=all",
          "-DHOSTMOT2", "-Iinclude", *(f"firmware/{source}" for source in SOURCES), "target/x86_64-linux/libhead.a", "-o", IMAGE])


def host_run(calls, seed, count):
    build()
    draw = random.Random(seed)
    frames = [(frame, False) for frame in special()] + [(some_frame(draw), draw.random() < 0.1) for _ in range(count)]
    done = subprocess.run([ROOT / IMAGE], input=b"".join(put(*frame) for frame in frames), capture_output=True, check=False)
    if done.returncode:
        raise Failed(f"on this machine: {done.stderr.decode()[-2000:]}")
    net = Net(Card(calls, hostmot2=True), NAMES, filtered=False)
    # What it says of itself at its start.
    at = 2 + struct.unpack_from("<H", done.stdout)[0]
    for frame, net.busy in frames:
        length = struct.unpack_from("<H", done.stdout, at)[0]
        agree(done.stdout[at + 2:at + 2 + length], net.answer(frame) or b"", frame or b"")
        at += 2 + length
    if list(struct.unpack(f"<{len(NAMES)}I", done.stdout[at:])) != list(net.counters.values()):
        raise Failed(f"on this machine it counts otherwise than {net.counters}")
    if done.stderr.decode().splitlines()[1:] != net.lines:
        raise Failed("on this machine the text differs")
    print(f"on this machine, with sanitizers: {len(frames):,} frames, all answered rightly")
