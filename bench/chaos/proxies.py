"""A network that loses, delays, repeats and reorders what nodes send each other."""
import heapq
import itertools
import random
import socket
import threading
import time

LOST = 0.15
LATE = 0.3
VERY_LATE = 0.03
REPEATED = 0.15
OLD = 0.05


class Network:
    """A listener before each node. A node is told the ports of these for its peers; each connection brings one frame."""

    def __init__(self, ports, seed):
        self.ports = ports
        self.chance = random.Random(f"network {seed}")
        self.counts = {"frames": 0, "lost": 0, "late": 0, "repeated": 0, "old": 0}
        self.waiting, self.order, self.seen = [], itertools.count(), [[] for _ in ports]
        self.changed = threading.Condition()
        self.listeners = [socket.create_server(("127.0.0.1", 0)) for _ in ports]
        self.fronts = [one.getsockname()[1] for one in self.listeners]
        for node, listener in enumerate(self.listeners):
            threading.Thread(target=self.accept, args=(node, listener), daemon=True).start()
        threading.Thread(target=self.deliver, daemon=True).start()

    def accept(self, node, listener):
        while True:
            stream, _ = listener.accept()
            threading.Thread(target=self.take, args=(node, stream), daemon=True).start()

    def take(self, node, stream):
        """Takes one frame, and decides what becomes of it."""
        data = b""
        try:
            with stream:
                stream.settimeout(5)
                while piece := stream.recv(65536):
                    data += piece
        except OSError:
            return
        if not data:
            return
        with self.changed:
            self.counts["frames"] += 1
            self.seen[node].append(data)
            self.plan(node, data)
            self.changed.notify()

    def plan(self, node, data):
        if self.chance.random() < LOST:
            self.counts["lost"] += 1
        else:
            self.put(node, data, self.delay())
        if self.chance.random() < REPEATED:
            self.counts["repeated"] += 1
            self.put(node, data, self.delay() + 0.2 * self.chance.random())
        if self.chance.random() < OLD:
            self.counts["old"] += 1
            self.put(node, self.chance.choice(self.seen[node]), self.delay())

    def delay(self):
        chance = self.chance.random()
        if chance < VERY_LATE:
            self.counts["late"] += 1
            return 5 * self.chance.random()
        if chance < LATE:
            self.counts["late"] += 1
            return 0.1 * self.chance.random()
        return 0

    def put(self, node, data, delay):
        heapq.heappush(self.waiting, (time.monotonic() + delay, next(self.order), node, data))

    def deliver(self):
        while True:
            with self.changed:
                while not self.waiting or self.waiting[0][0] > time.monotonic():
                    self.changed.wait(max(0, self.waiting[0][0] - time.monotonic()) if self.waiting else None)
                _, _, node, data = heapq.heappop(self.waiting)
            try:
                with socket.create_connection(("127.0.0.1", self.ports[node]), timeout=2) as stream:
                    stream.sendall(data)
            except OSError:
                pass
