"""Turns: who is answered before whom, be there few or many who send, and whatever the node or its disk takes for it."""
import time

from lib.client import Kept
from lib.expect import expect, in_one_try
from lib.patience import TRIES
from lib.shims import shim
from subjects.common import COUNT, HELLO, Cluster, asks_for, reset_at_close, standing_still


def a_node_that_stands_still():
    """A node that has stood still for longer than a client may be silent, as one does whose disk does, has heard nobody: who has asked
    meanwhile is answered, and so is whoever has sent many requests along."""
    in_one_try("that all are answered who have asked meanwhile", answers_who_asked_meanwhile)


def answers_who_asked_meanwhile():
    """Whether it does, as long as this program has its time between a connection and the first bytes on it."""
    cluster = Cluster(1)
    cluster.start(0, "--keep-alive")
    try:
        with Kept(cluster.connect(0)) as many, Kept(cluster.connect(0)) as late:
            many.stream.sendall(COUNT * 500)
            expect("the first of many counts", many.answer()[0], 200)
            # It has hundreds of counts left, for which it may take as long as the other may be silent.
            with standing_still(cluster.running[0], in_its_work=True):
                late.stream.sendall(HELLO)
                time.sleep(3)
            for _ in range(499):
                expect("a count of many", many.answer()[0], 200)
            expect("a hello that came while the node stood still", late.answer()[0], 200)
        return True
    except ConnectionError:
        return False
    finally:
        cluster.end()


def ranks_of_newcomers(cluster, count, endless, newcomers):
    """The ranks of the answers to so many newcomers beside others, each of whom has sent a hundred requests by then. Whatever the
    machine does besides: what is there once the node goes on are requests of all of them, and the newcomers after them."""
    with standing_still(cluster.running[0]):
        streams = endless()
        for stream in streams:
            stream.sendall(count * 100)
        comers = [cluster.connect(0) for _ in range(newcomers)]
        for stream in comers:
            stream.sendall(count)
    ranks = []
    for stream in comers:
        with Kept(stream) as client:
            ranks.append(int(client.answer()[1]))
    for stream in streams:
        stream.close()
    return ranks


def is_greeted(stream):
    """Whether its hello is answered; the node closes a client that is silent for two seconds."""
    try:
        return stream.recv(4096)[:12] == b"HTTP/1.1 200"
    except ConnectionError:
        return False


def ranks_beside(others, newcomers, are_let_in):
    """The ranks of so many newcomers beside so many others; none where the machine has spoilt it, which stood still between somebody's
    connection and the first bytes on it."""
    cluster = Cluster(1)
    cluster.start(0, "--keep-alive")
    _, cookie = cluster.count(0)

    def connected(first=b""):
        streams = []
        for _ in range(others):
            streams.append(cluster.connect(0))
            streams[-1].sendall(first)
        return streams

    before = connected(HELLO) if are_let_in else []
    try:
        if not all([is_greeted(stream) for stream in before]):
            return None
        return ranks_of_newcomers(cluster, asks_for(cookie), (lambda: before) if are_let_in else connected, newcomers)
    finally:
        cluster.end()


def requests_of_each_in_turn():
    """Somebody who comes is answered before any other has been answered more than three times, be those few or more than a turn goes on
    with, and be they let in already or at the door as well."""
    for others, newcomers, are_let_in in ((20, 5, True), (80, 20, True), (40, 5, False)):
        ranks = next(filter(None, (ranks_beside(others, newcomers, are_let_in) for _ in range(TRIES))), None)
        expect(f"whether newcomers beside {others} were answered, in one of {TRIES} tries", ranks is not None, True)
        most = 3 * others + newcomers + 1
        expect(f"the ranks of newcomers beside {others} who send without end ({ranks}), {most} at most", max(ranks) <= most, True)


# The syncs of a process take so many microseconds longer each.
SLOW_DISK = r"""
#define _GNU_SOURCE
#include <stdlib.h>
#include <sys/syscall.h>
#include <unistd.h>
int fdatasync(int file) {
  usleep(atoi(getenv("LONGER")));
  return syscall(SYS_fdatasync, file);
}
"""


def nobody_is_late_whom_the_node_has_not_read():
    """A turn goes on with 63 connections and takes more than a second, so some of 70 clients wait for two turns, longer than a client
    may say nothing. But they have said all that they have to say: none is late, and each is answered each time."""
    cluster = Cluster(1)
    slow = shim(cluster.folder, "a slow disk", SLOW_DISK)
    if slow is None:
        return
    cluster.start(0, "--keep-alive", env=slow | {"LONGER": "600000"})
    clients = []
    for number in range(1, 5):
        while len(clients) < 70:
            clients.append(Kept(cluster.connect(0)))
            clients[-1].stream.sendall(COUNT)
        for client in clients if number > 1 else ():
            client.stream.sendall(COUNT)
        # A client waits for its own answer alone, before its next request.
        for client in clients:
            expect(f"answer {number} of a slow node", client.answer()[0], 200)
    for client in clients:
        client.stream.close()
    cluster.end()
    late = [line for line in cluster.log(0).splitlines() if "client_late" in line]
    expect("clients that a slow node took for late", late, [])


def who_has_gone_is_not_served():
    """A request whose connection was reset while the node stood still is closed before it is read, as the poll tells of the reset."""
    cluster = Cluster(1)
    cluster.start(0, "--keep-alive")
    _, cookie = cluster.count(0)
    with Kept(cluster.connect(0)) as gone:
        gone.stream.sendall(asks_for(cookie))
        expect("a count before", gone.answer(), (200, "2\n", None))
        with standing_still(cluster.running[0]):
            gone.stream.sendall(asks_for(cookie))
            reset_at_close(gone.stream)
            gone.reader.close()
            gone.stream.close()
    expect("a count behind one whose client has gone", cluster.count(0, cookie)[0], "3\n")
    cluster.end()


CHECKS = (
    a_node_that_stands_still,
    requests_of_each_in_turn,
    nobody_is_late_whom_the_node_has_not_read,
    who_has_gone_is_not_served,
)
