"""What the firmware costs: flash, RAM, stack and instructions."""
import re
import time

from board import PATIENCE, ROOT, Board, Failed, made
from library import Card
from net import Net
from packets import word
from talk import NAMES, Frames

TIMES = 20
# What the C library's functions need at most on a Cortex-M4 (docs/FIRMWARE.md).
LIBC = 32


def sizes(image):
    """Bytes in flash, and in RAM with the stack."""
    text, data, bss = map(int, made(["arm-none-eabi-size", image]).splitlines()[1].split()[:3])
    return text + data, data + bss


def library_stack():
    """The stack of each export on the Cortex-M4, from the table of costs."""
    found = {}
    for row in re.findall(r"^\| stack of (head_\w+) \|(.*)\|$", (ROOT / "docs/FIRMWARE.md").read_text(), re.M):
        found[row[0]] = int(row[1].split("|")[4].replace(",", ""))
    return found


def deepest(image):
    """The most stack that the firmware can need: the frames that gcc reports, along the calls between them."""
    frames, calls, exports = {}, {}, library_stack()
    for file in (ROOT / "target/firmware").glob(f"{image.rsplit('/', 1)[-1]}-*.ci"):
        text = file.read_text()
        for name, size in re.findall(r'node: \{ title: "([^"]*)" label: "[^"]*\\n(\d+) bytes \(static\)', text):
            frames[name] = int(size)
        for caller, callee in re.findall(r'edge: \{ sourcename: "([^"]*)" targetname: "([^"]*)"', text):
            calls.setdefault(caller, set()).add(callee)

    def below(name, above):
        if name in above:
            raise Failed(f"{name} is reached from itself")
        if name.startswith("head_"):
            return exports[name]
        if name in ("memcpy", "memset", "memcmp"):
            return LIBC
        if name not in frames:
            raise Failed(f"{name} is called, and its stack is not known")
        return frames[name] + max((below(callee, above + [name]) for callee in calls.get(name, ())), default=0)

    return below("reset", [])


def counted(board):
    """What it says of the last answers, which it says behind each."""
    lines, late = [], time.monotonic() + PATIENCE
    while len(lines) < TIMES:
        if time.monotonic() > late:
            raise Failed(f"instructions of {TIMES} answers are said as {lines}")
        lines += board.new_lines()
    return sum(int(line.removeprefix("instructions ")) for line in lines) // TIMES


def instructions(calls):
    """From the look at the chip that finds a frame to the last word of the reply, by packet."""
    image = made(["firmware/build", "--ticks", "target/firmware/ticks.elf"]).strip()
    reads = [word(0, 1, 0, 0, 2, 1, count) + place.to_bytes(2, "little") for count, place in ((127, 0), (127, 508), (114, 1016))]
    small = [word(0, 1, 0, 0, 2, 1, 1) + (4 * k).to_bytes(2, "little") for k in range(368)]
    found = {}
    board = Board(image, "frames", ["-icount", "shift=0"])
    try:
        board.receive()
        board.wait_for_lines()
        talk = Frames(board, Net(Card(calls), NAMES))
        for name, packet in (("1 read", small[:1]), ("368 reads", reads), ("368 small commands", small)):
            for _ in range(TIMES):
                talk.packet(b"".join(packet))
                talk.settle()
            found[name] = counted(board)
    finally:
        board.stop()
    return found
