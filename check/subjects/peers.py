"""Packets between nodes: a grant before the answer to its move, a connection for each packet, sessions on their way to a node that says
nothing, or hangs, and one that all nodes want."""
import os
import select
import socket
import struct
import threading
import time

from lib.client import rest_of
from lib.contention import Clients, take_overs
from lib.expect import expect, say, wait_for
from lib.frames import move, packet
from lib.patience import deadline
from subjects.common import Cluster, hellos


def fill_backlog(port):
    """Connections for all places where they can wait to be accepted, and one more. The node, which sends its grant again each second,
    may have some of the places."""
    full = []
    while True:
        one = socket.socket()
        one.setblocking(False)
        one.connect_ex(("127.0.0.1", port))
        full.append(one)
        if not select.select([], [one], [], 0.2)[1]:
            return full


def a_move_that_is_answered_behind_its_grant():
    """The peer is this program, in the place of node 1."""
    cluster = Cluster(2)
    with socket.socket() as peer:
        peer.bind(("127.0.0.1", cluster.ports[1]))
        cluster.start(0)
        (_, first), (_, second) = cluster.count(0), cluster.count(0)
        peer.listen(1)
        expect("a move to a peer that accepts", cluster.move(0, first, 1), b"\x00")
        peer.setblocking(False)
        grant, _ = peer.accept()
        grant.setblocking(True)
        expect("what the peer was sent before", rest_of(grant)[:1], b"\xe1")
        # With its backlog full the peer takes no connection: the grant is lost once a second has passed, and the answer waits.
        full = fill_backlog(cluster.ports[1])
        begun = time.monotonic()
        expect("a move to a peer that doesn't", cluster.move(0, second, 1), b"\x00")
        expect("that its answer waited", time.monotonic() - begun > 0.5, True)
        for one in full:
            one.close()
        cluster.end()


def packet_of_nothing(number):
    """Node 1 says that it has no session of its own that this node has asked for; no request waits for that."""
    return packet(struct.pack(">BBBBBQQQ", 2, 4, 1, 0, 1, number, 1, number))


def peers_with_a_connection_for_each_packet():
    """Packets that come on a connection each are let in as clients are, many in a turn, and hold up nobody."""
    cluster = Cluster(2)
    cluster.start(0)
    begun = time.monotonic()
    for number in range(1, 1001):
        with cluster.connect(0) as stream:
            stream.sendall(packet_of_nothing(number))
    hellos(cluster, 0, "a thousand packets of a connection each")
    expect("a count behind them", cluster.count(0)[0], "1\n")
    say(f"  a thousand packets of a connection each: {time.monotonic() - begun:.2f} s")
    cluster.end()


class Grants(threading.Thread):
    """A peer that is sent sessions, and says nothing."""

    def __init__(self, peer):
        super().__init__(daemon=True)
        self.peer, self.serials, self.hangs = peer, [], False

    def rests(self):
        """Whether nothing comes for a third of a second."""
        count = len(self.serials)
        time.sleep(0.35)
        return len(self.serials) == count

    def run(self):
        while not self.hangs:
            if not select.select([self.peer], [], [], 0.05)[0]:
                continue
            stream, _ = self.peer.accept()
            with stream:
                grant = rest_of(stream)
            # A frame's head has five bytes; then version, kind, from, to, home and eight bytes of serial.
            self.serials.append(int.from_bytes(grant[10:18], "big"))


def sessions_on_their_way():
    """Of the packets of a tick 128 are sent, in turn over the seconds; and at most so many wait for a peer that doesn't accept."""
    cluster = Cluster(2)
    with socket.socket() as peer:
        peer.bind(("127.0.0.1", cluster.ports[1]))
        cluster.start(0)
        peer.listen(1024)
        grants = Grants(peer)
        grants.start()
        for serial in range(1, 301):
            cluster.count(0)
            expect("a move to a peer that says nothing", cluster.command(0, move((0, serial), 1)), b"\x00")
        # Between two ticks nothing is on its way that was sent before.
        wait_for("an end of what was sent so far", grants.rests)
        before, begun = len(grants.serials), time.monotonic()
        wait_for("that all are sent again", lambda: set(grants.serials[before:]) == set(range(1, 301)))
        sent, ticks = len(grants.serials) - before, int(time.monotonic() - begun) + 2
        expect(f"how many were sent by {ticks} ticks at most ({sent}), below 128 each", sent <= ticks * 128, True)
        # The peer hangs from now on, and its backlog is full, so that packets wait for it.
        grants.hangs = True
        grants.join()
        peer.listen(1)
        full = fill_backlog(cluster.ports[1])
        files = f"/proc/{cluster.running[0].pid}/fd"
        before, most = len(os.listdir(files)), 0
        for _ in range(40):
            most = max(most, len(os.listdir(files)))
            time.sleep(0.05)
        expect(f"files of packets that wait ({most}), at most 128 and a few", most <= 128 + 20, True)
        hellos(cluster, 0, "sessions on their way to a node that hangs")
        for one in full:
            one.close()
        cluster.end()


def a_session_that_is_wanted_at_all_nodes():
    """Where all nodes want one session it serves who waits before it goes on, each request is counted once, and nobody waits for ever."""
    cluster = Cluster(3, f"deadline = {deadline()}")
    for node in range(3):
        cluster.start(node, "--keep-alive")
    text, cookie = cluster.count(0)
    expect("the first count", text, "1\n")
    journals = [cluster.journal(node) for node in range(3)]
    clients = Clients(cluster.ports, "/shop/count", cookie, 8)

    def is_enough():
        # To read journals keeps this process from its clients.
        time.sleep(1)
        return clients.faults or take_overs(journals)[0] >= 100

    try:
        wait_for("a hundredth take-over", is_enough)
    finally:
        clients.stop()
    taken, unserved = take_overs(journals)
    expect("the faults of clients", clients.faults, [])
    expect("the answers that are none", [answer for answer in clients.answers if answer[0] != 200], [])
    counts = sorted(int(text) for _, text, _ in clients.answers)
    expect("what was counted, each number once", counts, list(range(2, len(counts) + 2)))
    expect(f"how many of {taken} take-overs served nobody ({unserved}), of 100 2 at most", unserved * 50 <= taken, True)
    waits = sorted(wait for _, _, wait in clients.answers)
    say(f"  a session that 24 clients want at 3 nodes: {len(waits)} answers, {taken} take-overs, the longest wait {waits[-1]:.2f} s")
    cluster.end()


CHECKS = (
    a_move_that_is_answered_behind_its_grant,
    peers_with_a_connection_for_each_packet,
    sessions_on_their_way,
    a_session_that_is_wanted_at_all_nodes,
)
