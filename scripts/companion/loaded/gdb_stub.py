"""QEMU's gdb stub: a breakpoint, and going on (GDB Remote Serial Protocol)."""
import re
import socket

from companion.refusals import Wrong

PACKET = re.compile(rb"\$([^#]*)#..")
# Z1: a breakpoint of the processor, which writes nothing into memory
SET, CLEAR = "Z1", "z1"


class Stub:
    """A connection to the stub; the machine stops as it is made."""

    def __init__(self, line):
        self.line, self.rest = line, b""
        # QEMU tells each stop by a packet of its own, that of the connection too: these answer nothing
        while self.take(0.5):
            pass

    def send(self, text):
        self.line.sendall(b"$" + text.encode() + b"#%02x" % (sum(text.encode()) & 255))

    def take(self, seconds):
        """The next packet; None where none came in time."""
        self.line.settimeout(seconds)
        while True:
            found = PACKET.search(self.rest)
            if found:
                self.rest = self.rest[found.end() :]
                self.line.sendall(b"+")
                return found[1].decode("latin-1")
            try:
                data = self.line.recv(4096)
            except socket.timeout:
                return None
            if not data:
                raise Wrong("QEMU's gdb stub went away")
            self.rest += data

    def ask(self, text, seconds=60):
        """Asks for what lets the machine stand still, and answers the reply."""
        self.send(text)
        while True:
            reply = self.take(seconds)
            if reply is None:
                raise Wrong(f"QEMU's gdb stub does not answer {text}")
            if not reply.startswith("T"):
                return reply

    def breakpoint(self, how, address):
        if self.ask(f"{how},{address:x},1") != "OK":
            raise Wrong(f"QEMU takes no breakpoint at {address:#x}")

    def go(self):
        self.send("c")

    def go_to(self, address, is_there, seconds):
        """Lets the machine run until it is at an address, as `is_there` says: a program of its own may have the same
        address."""
        self.breakpoint(SET, address)
        while True:
            self.go()
            if self.take(seconds) is None:
                raise Wrong(f"the machine did not come to {address:#x} in {seconds} seconds")
            if is_there():
                self.breakpoint(CLEAR, address)
                return
            # past the breakpoint, which else would stop it again
            self.breakpoint(CLEAR, address)
            self.send("s")
            self.take(seconds)
            self.breakpoint(SET, address)
