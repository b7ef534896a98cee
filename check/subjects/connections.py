"""Bytes on a connection: what is no request, comes in pieces, comes behind the last one, or isn't taken; connections that are kept, that
wait, and that say nothing."""
import os
import socket
import time

from lib.client import FORM, Kept, rest_of, until_read
from lib.expect import expect, in_one_try, say, wait_for
from lib.frames import command
from lib.patience import deadline
from subjects.common import (COUNT, HELLO, MARKS, USER, Cluster, asks_for, hellos, hellos_beside, hungry_client, reset_at_close, stamp,
                             standing_still)


def callers_that_do_not_go_on():
    cluster = Cluster(1)
    cluster.start(0)
    expect("a byte that begins nothing", cluster.sent(0, b"\x00")[:12], b"HTTP/1.1 400")
    expect("half a frame", cluster.sent(0, b"\xe1\x00\x00\x00\x15\x02"), b"")
    expect("a frame of 270,000 bytes", cluster.sent(0, command(b"x" * 270_000))[:1], b"")
    expect("a command of no kind", cluster.command(0, b"\x09"), b"")
    expect("a request that breaks off", cluster.sent(0, b"GET /shop/hello HTTP/1.1\r\n"), b"")
    expect("hello", cluster.get(0, "/shop/hello")[:2], (200, "Hello\n"))
    big = b"POST /shop/hello HTTP/1.1\r\nHost: h\r\nContent-Length: 1000000\r\n\r\n" + b"x" * 100000
    expect("a body that is too long", cluster.sent(0, big)[:12], b"HTTP/1.1 413")
    cluster.end()


def in_pieces(stream, data):
    for at in range(0, len(data), 5):
        stream.sendall(data[at : at + 5])
        time.sleep(0.002)


def answered_to_drops(cluster):
    """Whether who sends three bytes at a time, with a hello between, is answered, as long as it isn't silent for two seconds."""
    with cluster.connect(0) as dripping:
        try:
            for at in range(0, len(HELLO), 3):
                dripping.sendall(HELLO[at : at + 3])
                expect("hello beside one that drips", cluster.get(0, "/shop/hello")[:2], (200, "Hello\n"))
            return rest_of(dripping)[:12] == b"HTTP/1.1 200"
        except ConnectionError:
            return False


def are_both_answered(cluster):
    """Whether two that send a request in three pieces, by turns, are both answered, as long as neither is silent for two seconds."""
    streams = [cluster.connect(0) for _ in range(2)]
    try:
        for piece in (HELLO[:10], HELLO[10:20]):
            for stream in streams:
                stream.sendall(piece)
                until_read(stream)
        for stream in streams:
            stream.sendall(HELLO[20:])
        return [rest_of(stream)[:12] for stream in streams] == [b"HTTP/1.1 200"] * 2
    except ConnectionError:
        return False
    finally:
        for stream in streams:
            stream.close()


def two_that_send_in_pieces():
    """Each goes on at its own place, and is answered there."""
    cluster = Cluster(1)
    cluster.start(0)
    in_one_try("the answers to both", lambda: are_both_answered(cluster))
    cluster.end()


def clients_that_hold_up_nobody():
    cluster = Cluster(1)
    cluster.start(0)
    in_one_try("hello beside one that says nothing", lambda: hellos_beside(cluster, 1)[1])
    in_one_try("the answer to one that drips", lambda: answered_to_drops(cluster))
    form = f"user={USER}"
    fields = f"Host: h\r\nContent-Type: {FORM}\r\nContent-Length: {len(form)}"
    # Most of the answer stays at the node until it is taken.
    with hungry_client(cluster, f"POST /shop/login HTTP/1.1\r\n{fields}\r\n\r\n{form}".encode()) as hungry:
        hellos(cluster, 0, "one that takes nothing")
        expect("what it takes in the end", rest_of(hungry).endswith(f"\r\n\r\nwelcome {USER}\n".encode()), True)
    cluster.end()


def is_answered_before_the_rest(cluster):
    """Whether a client that has sent too much is answered, and has no error later on; the node reads what it sends for a second."""
    with cluster.connect(0) as stream:
        # By then the node waits for it among others, and it finds all that comes at once.
        time.sleep(0.1)
        with standing_still(cluster.running[0]):
            stream.sendall(HELLO + bytes(60000))
        try:
            answer = rest_of(stream)
        except ConnectionError:
            return False
        time.sleep(1.5)
        return answer[:12] == b"HTTP/1.1 200" and stream.getsockopt(socket.SOL_SOCKET, socket.SO_ERROR) == 0


def a_client_that_goes_on_sending():
    cluster = Cluster(1)
    cluster.start(0)
    # Each connection brings one request, and what comes behind it must not take its answer away.
    with cluster.connect(0) as stream:
        in_pieces(stream, HELLO + HELLO)
        answer = rest_of(stream)
        expect("the answers to two requests", answer.count(b"HTTP/1.1 200"), 1)
        expect("that it was the last", b"\r\nConnection: close\r\n" in answer, True)
    with cluster.connect(0) as stream:
        stream.sendall(HELLO)
        expect("an answer before the client has closed", rest_of(stream)[:12], b"HTTP/1.1 200")
    in_one_try("an answer that isn't taken away by what comes behind", lambda: is_answered_before_the_rest(cluster))
    cluster.end()


def are_answered_in_pieces(cluster):
    """Whether two requests that come in pieces are answered, as long as no piece keeps the node waiting for two seconds."""
    with Kept(cluster.connect(0)) as client:
        try:
            in_pieces(client.stream, HELLO + HELLO)
            for which in ("first", "second"):
                expect(f"the {which} of two in pieces", client.answer(), (200, "Hello\n", None))
        except ConnectionError:
            return False
    return True


def connections_that_are_kept():
    cluster = Cluster(1)
    cluster.start(0, "--keep-alive")
    in_one_try("two requests in pieces", lambda: are_answered_in_pieces(cluster))
    with Kept(cluster.connect(0)) as client:
        client.stream.sendall(b"".join(b"GET /shop/%s HTTP/1.1\r\nHost: h\r\n\r\n" % path for path in (b"hello", b"count") * 30))
        for number in range(60):
            body = "1\n" if number % 2 else "Hello\n"
            expect(f"answer {number} of 60", client.answer(), (200, body, None))
    with Kept(cluster.connect(0)) as client:
        client.stream.sendall(HELLO + b"GET /shop/hello HTTP/1.1\r\nHost: h\r\nConnection: close\r\n\r\n" + HELLO)
        expect("the answer before a close", client.answer(), (200, "Hello\n", None))
        expect("the answer with a close", client.answer(), (200, "Hello\n", "close"))
        expect("what comes behind a close", client.reader.read(), b"")
    with Kept(cluster.connect(0)) as client:
        client.stream.sendall(HELLO + b"no request\r\n\r\n")
        expect("the answer before what is none", client.answer(), (200, "Hello\n", None))
        expect("the answer to what is none", client.answer(), (400, "400 Bad Request\n", "close"))
    cluster.end()


def short_answers_that_nobody_takes():
    """Who comes where nobody else is has a socket that waits, for what is heard first and for a first answer that is short."""
    cluster = Cluster(1)
    stamp(cluster, "/count")
    body = "".join(f"<{mark}" for mark in MARKS) + "1\n" + "".join(f"{mark}>" for mark in reversed(MARKS))
    cluster.start(0, "--keep-alive")
    in_one_try("120 answers that nobody takes at first", lambda: are_taken_in_the_end(cluster, body))
    cluster.end()


def are_taken_in_the_end(cluster, body):
    """Whether a client that takes none of 120 answers at first has all of them in the end, and holds up nobody meanwhile."""
    # What is there once the node goes on is its first read.
    with standing_still(cluster.running[0]):
        hungry = hungry_client(cluster, COUNT * 120)
    with Kept(hungry) as client:
        hellos(cluster, 0, "one that takes none of its answers")
        for number in range(120):
            try:
                answer = client.answer()
            except ConnectionError:
                say(f"  the node stood still for two seconds, and took the client for a silent one after {number} answers")
                return False
            expect(f"answer {number} of 120", answer, (200, body, None))
    return True


def a_kept_connection_that_waits():
    cluster = Cluster(2, f"deadline = {deadline()}")
    for node in range(2):
        cluster.start(node, "--keep-alive")
    _, cookie = cluster.count(0)
    cluster.kill(0)
    count = asks_for(cookie)
    files = f"/proc/{cluster.running[1].pid}/fd"
    before = len(os.listdir(files))

    def connected(what):
        """Somebody who has said all this by the time that others speak."""
        client = Kept(cluster.connect(1))
        client.stream.sendall(what)
        until_read(client.stream)
        return client

    with connected(HELLO + count + HELLO) as waiting, connected(count) as ended, connected(count) as gone:
        expect("the answer before one that waits", waiting.answer(), (200, "Hello\n", None))
        ended.stream.shutdown(socket.SHUT_WR)
        hellos(cluster, 1, "three that wait")
        wait_for("that three files are open for three that wait", lambda: len(os.listdir(files)) - before == 3)
        reset_at_close(gone.stream)
        gone.reader.close()
        gone.stream.close()
        wait_for("that two are open once one has gone away", lambda: len(os.listdir(files)) - before == 2)
        with Kept(cluster.connect(1)) as heir:
            # It has the place of the one that has gone away, whose request is counted all the same, and whose answer it isn't given.
            heir.stream.sendall(count)
            hellos(cluster, 1, "another at the place of one that has gone away")
            cluster.start(0, "--keep-alive")
            expect("the answer to one that waits", waiting.answer()[:2], (200, "2\n"))
            expect("the answer to one that has ended what it sends", ended.answer()[:2], (200, "3\n"))
            expect("the answer to one at another's place", heir.answer()[:2], (200, "5\n"))
        expect("the answer behind one that has waited", waiting.answer(), (200, "Hello\n", None))
    cluster.end()


def one_that_drips_without_end():
    """A request may take ten seconds to be whole, though each time that the node looks a little more of it has come."""
    cluster = Cluster(1)
    cluster.start(0)
    begun, dripped = time.monotonic(), 0
    with cluster.connect(0) as stream:
        stream.setsockopt(socket.IPPROTO_TCP, socket.TCP_NODELAY, 1)
        stream.sendall(b"POST /shop/count HTTP/1.1\r\nHost: h\r\nContent-Length: 60000\r\n\r\n")
        try:
            # They take 30 seconds at the least, and as many more as the machine stands still.
            for dripped in range(50000):
                stream.sendall(b"x")
                time.sleep(0.0006)
        except ConnectionError:
            pass
    took = time.monotonic() - begun
    expect(f"that one who drips was closed ({dripped} bytes in {took:.1f} s)", took > 9 and dripped < 49_999, True)
    wait_for("word of it in the log", lambda: " client_late" in cluster.log(0))
    cluster.end()


def a_kept_connection_that_says_nothing():
    """It is closed after 30 seconds, with no answer to nothing."""
    cluster = Cluster(1)
    cluster.start(0, "--keep-alive")
    with Kept(cluster.connect(0)) as client:
        begun = time.monotonic()
        client.stream.sendall(HELLO)
        expect("an answer behind which a client is silent", client.answer(), (200, "Hello\n", None))
        expect("what a client hears that is silent", client.reader.read(), b"")
        took = time.monotonic() - begun
    expect(f"that it was not closed before 29 seconds, but after {took:.1f}", took > 29, True)
    cluster.end()


def a_kept_connection_that_rests():
    """Its requests are answered however they come once it has rested, and it is closed soon after its client has said that it sends no more:
    the poll tells each of these once."""
    cluster = Cluster(1)
    cluster.start(0, "--keep-alive")
    for what, last in (("rests", b""), ("has asked once more", HELLO)):
        with Kept(cluster.connect(0)) as client:
            client.stream.sendall(HELLO)
            expect("an answer before it", client.answer(), (200, "Hello\n", None))
            client.stream.sendall(HELLO * 3)
            expect("three at once", [client.answer() for _ in range(3)], [(200, "Hello\n", None)] * 3)
            begun = time.monotonic()
            client.stream.sendall(last)
            client.stream.shutdown(socket.SHUT_WR)
            if last:
                expect("the last answer", client.answer(), (200, "Hello\n", None))
            expect(f"what is heard at the end of a client that {what}", client.reader.read(), b"")
            took = time.monotonic() - begun
        expect(f"that it was closed before it had been silent for too long, after {took:.1f}", took < 25, True)
    cluster.end()


CHECKS = (
    callers_that_do_not_go_on,
    two_that_send_in_pieces,
    clients_that_hold_up_nobody,
    a_client_that_goes_on_sending,
    connections_that_are_kept,
    short_answers_that_nobody_takes,
    a_kept_connection_that_waits,
    a_kept_connection_that_rests,
    one_that_drips_without_end,
    a_kept_connection_that_says_nothing,
)
