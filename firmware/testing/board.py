"""A firmware image on QEMU's board: its networks, its text and its memory."""
import json
import os
import pathlib
import select
import socket
import subprocess
import tempfile
import time

ROOT = pathlib.Path(__file__).resolve().parents[2]
# A machine that has much else to do may take long to answer.
PATIENCE = 60


class Failed(Exception):
    """What the firmware did wrong, or why it can't be tried."""


def made(words):
    """Runs a command of the repository, and answers what it writes."""
    done = subprocess.run(words, cwd=ROOT, capture_output=True, text=True, check=False)
    if done.returncode:
        raise Failed(f"{' '.join(map(str, words))}: {done.stderr or done.stdout}")
    return done.stdout


class Board:
    """Its text goes to a file, or to a pipe that somebody has to read."""

    def __init__(self, image, net, words=(), text="file"):
        self.folder = tempfile.TemporaryDirectory()
        self.path = pathlib.Path(self.folder.name)
        if text == "pipe":
            os.mkfifo(self.path / "text.in")
            os.mkfifo(self.path / "text.out")
        self.read = 0
        self.symbols = {}
        for line in made(["arm-none-eabi-nm", image]).splitlines():
            address, _, name = line.split()
            self.symbols[name] = int(address, 16)
        self.process = subprocess.Popen(
            ["qemu-system-arm", "-M", "mps2-an386", "-display", "none", "-monitor", "none", "-serial", f"{text}:{self.path}/text",
             "-qmp", f"unix:{self.path}/control,server=on,wait=off", *self.net(net), *words, "-kernel", image],
            cwd=ROOT, stderr=open(self.path / "errors", "wb"))
        self.control = self.connected().makefile("rw")
        self.asked("qmp_capabilities")

    def net(self, net):
        if net != "frames":
            return ["-nic", f"user,model=lan9118,hostfwd=udp:{net}-:27181"]
        self.frames = socket.socket(socket.AF_UNIX, socket.SOCK_DGRAM)
        self.frames.bind(f"{self.path}/here")
        self.frames.settimeout(PATIENCE)
        ends = f"local.type=unix,local.path={self.path}/there,remote.type=unix,remote.path={self.path}/here"
        return ["-netdev", f"dgram,id=net,{ends}", "-net", "nic,netdev=net,model=lan9118"]

    def connected(self):
        for _ in range(10 * PATIENCE):
            try:
                line = socket.socket(socket.AF_UNIX)
                line.settimeout(PATIENCE)
                line.connect(f"{self.path}/control")
                return line
            except OSError:
                try:
                    self.process.wait(0.1)
                    raise Failed(f"QEMU ended: {(self.path / 'errors').read_text()}")
                except subprocess.TimeoutExpired:
                    pass
        raise Failed("QEMU does not answer")

    def asked(self, command, **arguments):
        """A command of QEMU's control, to its end."""
        self.control.write(json.dumps({"execute": command, "arguments": arguments}) + "\n")
        self.control.flush()
        while True:
            answer = json.loads(self.control.readline())
            if "error" in answer:
                raise Failed(f"QEMU: {answer['error']['desc']}")
            if "return" in answer:
                return

    def memory(self, first, end):
        """The bytes between two of the image's symbols, or so many from a symbol on."""
        start = self.symbols[first]
        size = end if isinstance(end, int) else self.symbols[end] - start
        self.asked("pmemsave", val=start, size=size, filename=f"{self.path}/memory")
        return (self.path / "memory").read_bytes()

    def wait_for_lines(self):
        """What it says at its start; a little later it has told QEMU its address, too."""
        late = time.monotonic() + PATIENCE
        lines = []
        while not lines:
            if time.monotonic() > late:
                raise Failed("it does not start")
            time.sleep(0.1)
            lines = self.new_lines()
        time.sleep(1)
        return lines + self.new_lines()

    def send(self, frame):
        self.frames.sendto(frame, f"{self.path}/there")

    def receive(self):
        try:
            return self.frames.recv(4096)
        except TimeoutError as late:
            raise Failed(f"no answer within {PATIENCE} s") from late

    def replies(self, seconds):
        """Frames that come, until none came for so long."""
        self.frames.settimeout(seconds)
        try:
            while True:
                yield self.frames.recv(4096)
        except TimeoutError:
            return
        finally:
            self.frames.settimeout(PATIENCE)

    def new_lines(self):
        """The lines that it wrote since this was last asked; one that is still being written comes with the next."""
        with open(self.path / "text", "rb") as text:
            text.seek(self.read)
            lines = text.read()
        whole = lines[:lines.rfind(b"\n") + 1]
        self.read += len(whole)
        return whole.decode("ascii").splitlines()

    def piped_lines(self, count):
        """So many lines from the pipe."""
        pipe = os.open(self.path / "text.out", os.O_RDONLY | os.O_NONBLOCK)
        text = b""
        while text.count(b"\n") < count and select.select([pipe], [], [], PATIENCE)[0]:
            text += os.read(pipe, 65536)
        os.close(pipe)
        return text.decode("ascii").splitlines()

    def stop(self):
        self.process.kill()
        self.process.wait()
        self.folder.cleanup()
