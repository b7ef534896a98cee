"""Reads a node's journal as its formats say, apart from the nodes' own code: which disk is current, its entries, the
records that they are, and the state that the records lead to.
"""
import os
from dataclasses import dataclass, field

OPEN = 0xA5
DISK_FRONT = b"SVJRNL\x01"


class Damaged(Exception):
    """The files are no journal of a node."""


@dataclass
class Held:
    """A session as a node holds it: "active", "sent", "gone" or "ended", at an epoch."""

    how: str
    epoch: int
    attributes: dict = field(default_factory=dict)
    to: int = -1


# The epoch of a key that isn't held since it ended at its own home.
LAST = 2**64 - 1


@dataclass
class State:
    """What a node's records lead to: what it holds under each key (home, serial), its starts and its next serial, and, where it
    forgets what ends at its own home, which home that is.
    """

    held: dict = field(default_factory=dict)
    boot: int = 0
    next: int = 1
    home: int = -1

    def epoch(self, key):
        if key in self.held:
            return self.held[key].epoch
        return LAST if key[0] == self.home and 0 < key[1] < self.next else 0

    def end(self, key, epoch):
        self.held[key] = Held("ended", epoch)
        if key[0] == self.home:
            del self.held[key]


# How many bytes the length of an attribute's value takes, by the version of its record.
VALUE_LENGTH = {1: 2, 2: 4}


class Bytes:
    """The bytes of a record that aren't read yet. The first of them is its version."""

    def __init__(self, data):
        self.data, self.at = data, 0
        version = self.number(1)
        if version not in VALUE_LENGTH:
            raise Damaged("another version")
        self.value_length = VALUE_LENGTH[version]

    def take(self, count):
        if self.at + count > len(self.data):
            raise Damaged("a record breaks off")
        self.at += count
        return self.data[self.at - count : self.at]

    def number(self, count):
        return int.from_bytes(self.take(count), "big")

    def key(self):
        return self.number(1), self.number(8)

    def session(self):
        """The attributes of a session; secret, context, times, interval and mark stand before them."""
        self.take(16 + 1 + 8 + 8 + 4 + 1)
        attributes = {}
        for _ in range(self.number(2)):
            name = self.take(self.number(2)).decode()
            attributes[name] = self.take(self.number(self.value_length))
        return attributes


def read_disk(path):
    """A disk's generation and entries, or none where it isn't open."""
    data = open(path, "rb").read() if os.path.exists(path) else b""
    if len(data) < 17 or data[0] != OPEN:
        return None
    if data[1:8] != DISK_FRONT:
        raise Damaged(f"{path}: another front")
    entries, at = [], 16
    while at < len(data) and data[at] == OPEN:
        length = int.from_bytes(data[at + 1 : at + 5], "big")
        entries.append(data[at + 5 : at + 5 + length])
        at += 5 + length
    if at >= len(data):
        raise Damaged(f"{path}: it ends at a gate's place")
    return int.from_bytes(data[8:16], "big"), entries


def current_entries(path):
    disks = [disk for disk in (read_disk(path), read_disk(path + ".b")) if disk]
    return max(disks)[1] if disks else []


def replay_commit(state, record):
    named = record.number(1)
    if named == 1:
        key = record.key()
        state.held[key] = Held("active", state.epoch(key), record.session())
    elif named == 2:
        key = record.key()
        state.end(key, state.epoch(key))
    birth = record.number(1)
    if birth:
        key = record.key()
        if birth == 1:
            state.held[key] = Held("active", 1, record.session())
        else:
            state.end(key, 1)
        state.next += 1


def replay_state(state, record):
    key, kind, epoch = record.key(), record.number(1), record.number(8)
    if kind == 1:
        state.held[key] = Held("active", epoch, record.session())
    elif kind == 2:
        to = record.number(1)
        state.held[key] = Held("sent", epoch, record.session(), to)
    else:
        state.held[key] = Held("gone" if kind == 3 else "ended", epoch)


def replay_record(state, payload):
    record = Bytes(payload)
    kind = record.number(1)
    if kind == 1:
        state.boot = record.number(8)
    elif kind == 2:
        replay_commit(state, record)
    elif kind == 3:
        key = record.key()
        state.end(key, state.epoch(key))
    elif kind == 4:
        key, epoch, to = record.key(), record.number(8), record.number(1)
        state.held[key] = Held("sent", epoch, record.session(), to)
    elif kind == 5:
        key, epoch, _ = record.key(), record.number(8), record.number(1)
        state.held[key] = Held("active", epoch, record.session())
    elif kind == 6:
        key, epoch = record.key(), record.number(8)
        state.held[key] = Held("gone", epoch)
    elif kind == 7:
        replay_state(state, record)
    elif kind == 8:
        state.boot, state.next = record.number(8), record.number(8)
    elif kind == 9:
        state.home, state.boot = record.number(1), record.number(8)
    elif kind == 10:
        state.home, state.boot, state.next = record.number(1), record.number(8), record.number(8)
    else:
        raise Damaged("a record of no kind")
    if record.at != len(payload):
        raise Damaged("bytes behind a record")


def replay(path):
    """The state that the journal at a path leads to."""
    state = State()
    for payload in current_entries(path):
        replay_record(state, payload)
    return state


def live_copies(states):
    """The copies of each session that count: active ones, and those on the way to a node that hasn't taken them."""
    copies = {}
    for number, state in enumerate(states):
        for key, held in state.held.items():
            on_its_way = held.how == "sent" and states[held.to].epoch(key) < held.epoch
            if held.how == "active" or on_its_way:
                copies.setdefault(key, []).append((number, held))
    return copies
