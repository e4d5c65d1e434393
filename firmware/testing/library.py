"""The proved library on this machine, as the firmware uses it."""
import ctypes

from board import ROOT, made

STORE_BYTES, REPLY_BYTES, POINTERS = 65728, 1472, 8
BUILT = ROOT / "target/firmware/libhead.so"


def library():
    BUILT.parent.mkdir(parents=True, exist_ok=True)
    made(["gcc", "-shared", "-fPIC", "-O2", "-Iinclude", "firmware/hostmot2.c", "-Wl,--whole-archive", "target/x86_64-linux/libhead.a",
          "-Wl,--no-whole-archive", "-o", str(BUILT)])
    return ctypes.CDLL(str(BUILT))


def lent(numbers, kind=ctypes.c_uint8):
    """A buffer and its length, as every function takes them."""
    room = numbers if isinstance(numbers, ctypes.Array) else (kind * len(numbers))(*numbers)
    return room, ctypes.c_uint64(len(room))


class Card:
    """A store and its pointers, fresh or with the cells of a HostMot2 board."""

    def __init__(self, calls, hostmot2=False, guard=()):
        self.calls = calls
        self.store = (ctypes.c_uint8 * STORE_BYTES)()
        self.pointers = (ctypes.c_uint32 * POINTERS)()
        self.reply = (ctypes.c_uint8 * REPLY_BYTES)()
        self.guard = lent(guard, ctypes.c_uint32) if guard else ()
        self.hostmot2 = hostmot2
        if hostmot2:
            calls.hostmot2_fill(self.store)

    def run(self, packet):
        """The number of the refusal, 0 if accepted; its place; and the reply."""
        value, elements = ctypes.c_uint64(), ctypes.c_uint64()
        call = self.calls.head_guarded_run if self.guard else self.calls.head_run
        number = call(*lent(packet), *lent(self.store), *lent(self.pointers), *lent(self.reply), *self.guard,
                      ctypes.byref(value), ctypes.byref(elements))
        return number, value.value, b"" if number else bytes(self.reply[:value.value])

    def sentence(self, number):
        length, room = ctypes.c_uint64(), lent(bytes(100))
        self.calls.head_sentence(number, *room, ctypes.byref(length))
        return bytes(room[0][:length.value]).decode()
