"""Frames and packets to a board, beside what is expected of each."""
import re
import socket
import time

from board import PATIENCE, ROOT, Failed
from net import IP, PORT, arp, datagram
from packets import COUNT, readout

FLOOD = 300
PAINT = bytes([0xA5] * 4)
NAMES = re.findall(r"^    ([A-Z_]+),", (ROOT / "firmware/counters.h").read_text(), re.M)


def counters(board):
    memory = board.memory("counters", 4 * len(NAMES))
    return {name: int.from_bytes(memory[4 * k:4 * k + 4], "little") for k, name in enumerate(NAMES)}


def stack_used(board):
    """The deepest that the stack has been: what is painted below was never used."""
    memory = board.memory("stack_bottom", "stack_top")
    return len(memory) - next(k for k in range(0, len(memory), 4) if memory[k:k + 4] != PAINT)


def agree(got, expected, asked):
    if got != expected:
        raise Failed(f"{asked.hex()}\nis answered with\n{got.hex()}\nwhere this is right\n{expected.hex()}")


def agree_frame(got, expected, asked):
    """A frame may be padded to Ethernet's least length."""
    agree(got, expected + bytes(max(0, min(60, len(got)) - len(expected))), asked)


def asked_once(at, packet):
    """The reply to a packet, from a port of its own."""
    with socket.socket(socket.AF_INET, socket.SOCK_DGRAM) as asker:
        asker.settimeout(PATIENCE)
        asker.connect((at, PORT))
        asker.send(packet)
        return asker.recv(2000)


class Talk:
    """What frames and packets have in common: some are sent at once, and then their replies are awaited in order. One that comes for
    something that has none would be met before the next."""

    def __init__(self, board, net):
        self.board, self.net = board, net
        self.sent = self.bytes = 0
        self.waiting = []

    def post(self, sent):
        expected = self.put(sent)
        self.sent += 1
        self.bytes += len(sent)
        self.waiting.append((expected, sent))
        return expected

    def tell(self, sent):
        """Sends it, and answers the reply that is expected, if there is one. The chip has room for about 10 KB."""
        expected = self.post(sent)
        if len(self.waiting) == 8 or self.bytes > 4000:
            self.settle()
        return expected

    def settle(self):
        """Waits for all replies. The last that was sent has one, so that the chip is empty afterwards."""
        if self.waiting and not self.waiting[-1][0]:
            self.post(self.ANSWERED)
        for expected, sent in self.waiting:
            if expected:
                self.agree(self.received(), expected, sent)
        self.waiting, self.bytes = [], 0

    def compare(self):
        """The pointers and the store, read out by packets; the counters, read from memory; and the text."""
        for packet in readout():
            self.packet(packet)
        self.settle()
        late = time.monotonic() + PATIENCE
        # The last reply is here before it is counted there.
        while not self.counted(counters(self.board)):
            if time.monotonic() > late:
                raise Failed(f"counted {counters(self.board)}\nwhere this is right {self.net.counters}")
        lines, self.net.lines = self.net.lines, []
        if self.board.new_lines() != lines:
            raise Failed(f"the text differs from these lines: {lines}")


class Frames(Talk):
    """Raw frames."""

    ANSWERED = arp()
    agree = staticmethod(agree_frame)

    def __init__(self, board, net):
        super().__init__(board, net)
        self.floods = self.flooded = 0

    def put(self, frame):
        expected = self.net.answer(frame)
        self.board.send(frame)
        return expected

    def packet(self, packet):
        self.tell(datagram(packet))

    def received(self):
        return self.board.receive()

    def counted(self, found):
        return found == self.net.counters

    def flood(self, frame):
        """The same frame many times without waiting. The chip loses some; those that it took must be answered rightly."""
        self.settle()
        before = counters(self.board)["FRAMES"]
        for _ in range(FLOOD):
            self.board.send(frame)
        got, asked = self.passed()
        taken = counters(self.board)["FRAMES"] - before - asked
        expected = [reply for reply in (self.net.answer(frame) for _ in range(taken)) if reply]
        if len(got) != len(expected):
            raise Failed(f"{taken} frames of a flood taken, {len(got)} replies where {len(expected)} are right, to {frame.hex()}")
        for one, other in zip(got, expected):
            agree_frame(one, other, frame)
        self.sent += FLOOD
        self.floods += 1
        self.flooded += taken

    def passed(self):
        """Asks until all that was sent before has been looked at: the replies to that, and how many requests were answered."""
        got, asked = [], 0
        for turn in range(100, 200):
            request = arp(sender_ip=IP[:3] + bytes([turn]))
            self.board.send(request)
            for reply in self.board.replies(3):
                if reply[12:14] != b"\x08\x06" or reply[41] < 100:
                    got.append(reply)
                    continue
                asked += 1
                self.net.answer(request)
                if reply[41] == turn:
                    return got, asked
        raise Failed("no answer after a flood")


class Packets(Talk):
    """Packets through a forwarded port."""

    ANSWERED = COUNT
    agree = staticmethod(agree)

    def __init__(self, board, net, address):
        super().__init__(board, net)
        self.replies = 0
        self.socket = socket.socket(socket.AF_INET, socket.SOCK_DGRAM)
        self.socket.connect(address)
        self.begin()

    def begin(self):
        """What is sent before QEMU knows the firmware's address is lost; a packet with a longer reply comes behind those."""
        self.socket.settimeout(1)
        for _ in range(PATIENCE):
            self.socket.send(COUNT)
            try:
                got = [self.socket.recv(2000)]
                break
            except TimeoutError:
                pass
        else:
            raise Failed("no answer to the first packets")
        self.socket.settimeout(PATIENCE)
        self.socket.send(COUNT + COUNT)
        while len(got[-1]) == 2:
            got.append(self.socket.recv(2000))
        for reply in got:
            self.reply(reply, COUNT * (len(reply) // 2))
        self.sent += len(got)

    def reply(self, got, packet):
        expected = self.net.packet(packet)
        self.replies += 1
        agree(got, expected, packet)

    def put(self, packet):
        expected = self.net.packet(packet)
        self.replies += bool(expected)
        self.socket.send(packet)
        return expected

    def packet(self, packet):
        return self.tell(packet)

    def received(self):
        try:
            return self.socket.recv(2000)
        except TimeoutError as late:
            raise Failed(f"no answer within {PATIENCE} s") from late

    def counted(self, found):
        """QEMU asks for addresses when it likes, and nothing else comes by this network."""
        if found["REPLIES"] != found["ARP"] + self.replies or found["FRAMES"] != found["ARP"] + found["PACKETS"]:
            return False
        return all(found[name] == count for name, count in self.net.counters.items() if name not in ("FRAMES", "ARP", "REPLIES"))
