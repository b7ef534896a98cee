"""A network of several machines as namespaces of this one, and a wire between them that delays, loses and cuts as it is told.

The wire is a switch over TAP devices, in a process of its own: not every kernel has netem. It wants to be in namespaces of its own
(`namespaces.run_apart`).
"""
import ctypes
import fcntl
import heapq
import itertools
import multiprocessing
import os
import random
import select
import shutil
import struct
import subprocess
import time

from lib import namespaces
from lib.namespaces import LIBC, UNSHARED, die_with_parent

CLONE_NEWNET = 0x40000000
TUNSETIFF, TAP_WITHOUT_HEADER = 0x400454CA, 0x1002


def lacks(*programs):
    """What is missing for machines in namespaces, in words; none where nothing is."""
    if not os.path.exists("/dev/net/tun"):
        return "there is no /dev/net/tun"
    return namespaces.lacks("ip", *programs)


def has_wireguard():
    """Whether the kernel has WireGuard, or wireguard-go stands in for it."""
    if not shutil.which("wg-quick"):
        return False
    tried = subprocess.run([*UNSHARED, "ip", "link", "add", "kegtry", "type", "wireguard"], capture_output=True)
    return tried.returncode == 0 or bool(shutil.which("wireguard-go"))


def run(*words):
    subprocess.run(words, check=True, stdout=subprocess.DEVNULL)


class Wire:
    """Machines of these names, at 10.77.0.1 and so on, and what befalls their wire. It is made before any thread is."""

    def __init__(self, names):
        self.names = names
        self.address = {name: f"10.77.0.{at + 1}" for at, name in enumerate(names)}
        self.delay, self.loss = multiprocessing.Value("d", 0.0), multiprocessing.Value("d", 0.0)
        self.down = multiprocessing.Array("b", len(names))
        self.home = os.open("/proc/self/ns/net", os.O_RDONLY)
        self.taps = [self.plug(name) for name in names]
        self.spaces = {name: os.open(f"/run/netns/{name}", os.O_RDONLY) for name in names}
        self.process = multiprocessing.get_context("fork").Process(target=self.switch, daemon=True)
        self.process.start()

    def plug(self, name):
        """A machine with a loopback interface and one on the wire; the wire's end of that."""
        tap = os.open("/dev/net/tun", os.O_RDWR | os.O_NONBLOCK)
        fcntl.ioctl(tap, TUNSETIFF, struct.pack("16sH22x", f"tap{name}".encode(), TAP_WITHOUT_HEADER))
        run("ip", "netns", "add", name)
        run("ip", "-n", name, "link", "set", "lo", "up")
        run("ip", "link", "set", f"tap{name}", "netns", name)
        run("ip", "-n", name, "link", "set", f"tap{name}", "name", "eth0")
        run("ip", "-n", name, "address", "add", f"{self.address[name]}/24", "dev", "eth0")
        run("ip", "-n", name, "link", "set", "eth0", "up")
        return tap

    def enter(self, name=None):
        """Has this thread be on a machine, or on none; sockets stay where they were made."""
        if LIBC.setns(self.spaces[name] if name else self.home, CLONE_NEWNET):
            raise OSError(ctypes.get_errno(), "setns")

    def cut(self, name):
        """What the machine sends, or is sent, is lost from now on; nobody is told."""
        self.down[self.names.index(name)] = 1

    def mend(self, name):
        self.down[self.names.index(name)] = 0

    def slow(self, delay, loss):
        """Each frame comes so many seconds late, and such a share of them not at all."""
        self.delay.value, self.loss.value = delay, loss

    def switch(self):
        die_with_parent()
        homes, waiting, order = {}, [], itertools.count()
        poll = select.epoll()
        for tap in self.taps:
            poll.register(tap, select.EPOLLIN)
        at_of = {tap: at for at, tap in enumerate(self.taps)}
        while True:
            wait = max(0.0, waiting[0][0] - time.monotonic()) if waiting else -1
            for tap, _ in poll.poll(wait):
                self.take(tap, at_of[tap], homes, waiting, order)
            now = time.monotonic()
            while waiting and waiting[0][0] <= now:
                _, _, at, frame = heapq.heappop(waiting)
                self.give(at, homes.get(frame[0:6]), frame)

    def take(self, tap, at, homes, waiting, order):
        """Takes the frames that a machine has sent, some of which are lost."""
        for _ in range(32):
            try:
                frame = os.read(tap, 65536)
            except BlockingIOError:
                return
            homes[frame[6:12]] = at
            if random.random() >= self.loss.value:
                heapq.heappush(waiting, (time.monotonic() + self.delay.value, next(order), at, frame))

    def give(self, at, to, frame):
        """Gives a frame to the machine that has its address, or to all others where nobody is known to have it."""
        for other, tap in enumerate(self.taps):
            if other != at and to in (None, other) and not self.down[at] and not self.down[other]:
                try:
                    os.write(tap, frame)
                except OSError:
                    pass
