"""Commands and packets as bytes, as docs/FORMATS.md has them."""
import struct
from dataclasses import dataclass

TICK, HALT = b"\2", b"\3"


def frame(kind, payload):
    return bytes([kind]) + len(payload).to_bytes(4, "big") + payload


def command(payload):
    return frame(0xE2, payload)


def packet(payload):
    return frame(0xE1, payload)


# What a greeting is for.
OPENING, SERVING, LOOK = 0, 1, 3


@dataclass
class Greeting:
    """What a node says of itself to another, in the order in which it is written."""

    errand: int
    sender: int
    to: int
    nodes: int = 0
    homes: int = 0
    all_homes: int = 0
    start: int = 0
    heard: int = 0
    clock: int = 0
    contexts: bytes = bytes(64)

    FORM = ">BBBBBBBQQQ64s"

    def text(self):
        fields = (self.errand, self.sender, self.to, self.nodes, self.homes, self.all_homes, self.start, self.heard, self.clock, self.contexts)
        return frame(0xE3, struct.pack(self.FORM, 1, *fields))

    @classmethod
    def of(cls, text):
        return cls(*struct.unpack(cls.FORM, text[5:])[1:])


def key_of(cookie):
    """The home and the serial of a cookie's session."""
    digits = cookie.rpartition("=")[2]
    return int(digits[2:4], 16), int(digits[4:20], 16)


def move(key, to):
    """The payload of the command that a session be handed over."""
    return struct.pack(">BBQB", 1, *key, to)
