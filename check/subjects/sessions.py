"""Where a session is: asked for at each of three nodes, moved by a command, waited for while its node is down, as large as it may be,
expired, forgotten; and the time by which all that is."""
import contextlib
import select
import time
from email.utils import parsedate_to_datetime

from lib.client import Kept, rest_of, until_read
from lib.expect import expect, in_one_try, wait_for
from lib.frames import TICK, move
from lib.journals import replay
from lib.patience import deadline, until
from lib.shims import CLOCK, shim
from subjects.common import APPLICATIONS, USER, Cluster, asks_for, compacted, login, standing_still


def goes_where_it_is_asked_for():
    cluster = Cluster(3)
    for node in range(3):
        cluster.start(node)
    body, cookie = cluster.count(0)
    expect("the first count", body, "1\n")
    for number, node in enumerate([1, 2, 0, 2, 1, 1], start=2):
        expect(f"a count at node {node}", cluster.count(node, cookie), (f"{number}\n", cookie))
    expect("a move of node 1 to node 2", cluster.move(1, cookie, 2), b"\x00")
    expect("a count behind the move", cluster.count(2, cookie), ("8\n", cookie))
    expect("a move of what is elsewhere", cluster.move(1, cookie, 0), b"\x02")
    expect("a move to itself", cluster.move(2, cookie, 2), b"\x03")
    expect("a move of an unknown session", cluster.command(2, move((0, 77), 1)), b"\x01")
    expect("a tick", cluster.command(2, TICK), b"\x00")
    cluster.kill(2)
    cluster.start(2)
    expect("a count behind kill -9 of its node", cluster.count(0, cookie), ("9\n", cookie))
    # A session that nobody has: each other node says that it has none, so a new one is made.
    body, other = cluster.count(1, "JSESSIONID=00" + "00" + "00000000000000ff" + "0" * 31 + "1")
    expect("a count of a session that was never made", body, "1\n")
    cluster.end()


def a_peer_that_is_not_there():
    cluster = Cluster(2, "deadline = 4")
    cluster.start(0)
    cluster.start(1)
    body, cookie = cluster.count(0)
    cluster.kill(0)
    with cluster.connect(1) as waiting:
        waiting.sendall(asks_for(cookie))
        until_read(waiting)
        expect("hello beside a request that waits", cluster.get(1, "/shop/hello")[:2], (200, "Hello\n"))
        answer = rest_of(waiting)
    expect("the end of a request that has waited", (answer[:12], answer[-13:]), (b"HTTP/1.1 503", b"503 Deadline\n"))
    cluster.start(0)
    # Refused again or not, it is counted once.
    answers = []
    expect("an answer behind that", until(lambda: answers.append(cluster.get(1, "/shop/count", cookie)) or answers[-1][0] == 200), True)
    expect("the session behind that", answers[-1], (200, "2\n", cookie))
    cluster.end()


def a_node_that_is_down():
    """Of the 64 requests that may wait at a node at most 32 wait for sessions of one home. The others have places left. A session that
    the node made, and that is elsewhere, is served at each of the others."""
    cluster = Cluster(3, f"deadline = {deadline()}")
    for node in range(3):
        cluster.start(node)
    (_, away), (_, near), (_, moved) = cluster.count(2), cluster.count(1), cluster.count(2)
    expect("a count of a session at another node than the one that made it", cluster.count(1, moved), ("2\n", moved))
    cluster.kill(2)
    for number, node in enumerate([0, 1, 0], start=3):
        expect("its count while that is down", cluster.count(node, moved), (f"{number}\n", moved))
    waiting = [cluster.connect(0) for _ in range(40)]
    for stream in waiting:
        stream.sendall(asks_for(away))
    wait_for("the answer to each beyond 32", lambda: len(select.select(waiting, [], [], 0)[0]) >= 8)
    refused = select.select(waiting, [], [], 0)[0]
    answers = [rest_of(stream) for stream in refused]
    expect("the answers at once", [(a[:12], a[-13:]) for a in answers], [(b"HTTP/1.1 503", b"503 ParkFull\n")] * 8)
    expect("a count of a session that is at another node", cluster.count(0, near), ("2\n", near))
    cluster.start(2)
    counts = [rest_of(stream).rsplit(b"\r\n", 1)[1] for stream in waiting if stream not in refused]
    expect("the counts of those that have waited", sorted(int(count) for count in counts), list(range(2, 34)))
    for stream in waiting:
        stream.close()
    cluster.end()


def is_served_once_the_node_goes_on():
    """Whether a request is served whose session comes while its node stands still, past the request's deadline."""
    cluster = Cluster(2, "deadline = 2")
    for node in (0, 1):
        cluster.start(node)
    _, cookie = cluster.count(1)
    here, there = cluster.running[0], cluster.running[1]
    with cluster.connect(0) as waiting, contextlib.ExitStack() as stack:
        with standing_still(there):
            waiting.sendall(asks_for(cookie))
            until_read(waiting)
            # By then it has asked the other node, which gives the session as soon as it goes on.
            time.sleep(0.5)
            stack.enter_context(standing_still(here))
        time.sleep(3)
        stack.close()
        answer = rest_of(waiting)
    cluster.end()
    return answer[:12] == b"HTTP/1.1 200" and answer[-2:] == b"2\n"


def who_waits_is_served_before_the_time_is_looked_at():
    """A request whose session is at hand isn't refused for its deadline."""
    in_one_try("that it is served", is_served_once_the_node_goes_on)


def a_session_of_65_000_bytes():
    cluster = Cluster(2)
    cluster.start(0)
    cluster.start(1)
    cookie = login(cluster, 0)
    expect("a count at the other node", cluster.count(1, cookie), ("1\n", cookie))
    expect("a move back", cluster.move(1, cookie, 0), b"\x00")
    expect("a count where it was made", cluster.count(0, cookie), ("2\n", cookie))
    cluster.kill(0)
    cluster.start(0)
    expect("a count behind kill -9", cluster.count(0, cookie), ("3\n", cookie))
    counted = compacted(cluster, 0, cookie, 3)
    cluster.kill(0)
    cluster.start(0)
    expect("a count behind a compaction and kill -9", cluster.count(0, cookie), (f"{counted + 1}\n", cookie))
    attributes = replay(cluster.journal(0)).held[(0, 1)].attributes
    expect("what the journal keeps of it", attributes, {"user": USER.encode(), "count": str(counted + 1).encode()})
    cluster.end()


def active_in(path):
    return sum(1 for held in replay(path).held.values() if held.how == "active")


def sessions_that_expire():
    """Of a thousand sessions all end, also while others are on their way to a node that is down: one a second would take a quarter of an
    hour."""
    cluster = Cluster(2)
    applications = APPLICATIONS.replace('path = "/shop"', 'path = "/shop"\ninterval = 1')
    cluster.config = cluster.describe(services=applications)
    cluster.start(0, "--keep-alive")
    with Kept(cluster.connect(0)) as client:
        for begun in range(0, 1000, 100):
            client.stream.sendall(b"GET /shop/count HTTP/1.1\r\nHost: h\r\n\r\n" * 100)
            for number in range(100):
                expect("a count that makes a session", client.answer(), (200, "1\n", None))
            if begun < 300:
                for serial in range(begun + 1, begun + 1 + 20):
                    cluster.command(0, move((0, serial), 1))
    wait_for("the end of all of them", lambda: active_in(cluster.journal(0)) == 0)
    cluster.end()


def secrets_of_sessions():
    """They are those of the file that the descriptor names, in its order, and no two sessions have the same."""
    cluster = Cluster(1)
    path = f"{cluster.folder}/secrets"
    with open(path, "wb") as file:
        file.write(b"".join(number.to_bytes(16, "big") for number in range(1, 1001)))
    cluster.config = cluster.describe(f'secrets = "{path}"')
    cluster.start(0)
    secrets = [int(cluster.get(0, "/shop/count")[2][-32:], 16) for _ in range(10)]
    expect("secrets of the file, in its order", secrets, sorted(set(secrets) & set(range(1, 1001))))
    cluster.end()


def sessions_of_the_journal(cluster, node):
    """The keys that the node knows by its journal."""
    return sorted(replay(cluster.journal(node)).held)


def keys_that_are_forgotten():
    """A node of three places: what ends where it began gives its place back, and nobody asks for a session without one."""
    cluster = Cluster(2, f"keys = 3\nforget = true\ndeadline = {deadline()}")
    cluster.start(0)
    cluster.start(1)
    cookie = None
    for _ in range(10):
        # Each login ends the session of the last one, so that one place is taken behind each.
        status, _, cookie = cluster.get(0, "/shop/login", cookie)
        expect("a login where sessions end", status, 200)
    expect("the keys behind ten logins", sessions_of_the_journal(cluster, 0), [(0, 10)])
    kept = [cluster.count(0)[1] for _ in range(2)]
    expect("a newcomer where three keys are known", cluster.get(0, "/shop/count")[0], 503)
    _, away = cluster.count(1)
    expect("a session for which there is no place", cluster.get(0, "/shop/count", away)[0], 503)
    expect("the session that stayed where it was", cluster.count(1, away)[0], "2\n")
    # With more places, and without the choice, which is the journal's from now on.
    cluster.kill(0)
    cluster.config = cluster.describe("keys = 5")
    cluster.start(0)
    expect("the session for which there is a place now", cluster.count(0, away)[0], "3\n")
    expect("the keys with it", sessions_of_the_journal(cluster, 0), [(0, 10), (0, 11), (0, 12), (1, 1)])
    # With `again` the session of the login ends, and so does the one that it begins: both began here.
    expect("one that ends where it began", cluster.get(0, "/shop/login?again", kept[0])[0], 200)
    expect("the keys without it", sessions_of_the_journal(cluster, 0), [(0, 10), (0, 12), (1, 1)])
    expect("one that ends where it came to", cluster.get(0, "/shop/login?again", away)[0], 200)
    expect("the keys, of which it is one", sessions_of_the_journal(cluster, 0), [(0, 10), (0, 12), (1, 1)])
    cluster.end()


def keys_that_are_kept():
    """Without `forget` what has ended keeps its place, until the node is given more."""
    cluster = Cluster(1, "keys = 3")
    cluster.start(0)
    cookie = None
    for _ in range(3):
        status, _, cookie = cluster.get(0, "/shop/login", cookie)
        expect("a login where there is a place", status, 200)
    expect("a login where there is none", cluster.get(0, "/shop/login", cookie)[0], 503)
    expect("the session that its login did not end", cluster.count(0, cookie), ("1\n", cookie))
    expect("the keys", sessions_of_the_journal(cluster, 0), [(0, 1), (0, 2), (0, 3)])
    cluster.kill(0)
    cluster.config = cluster.describe("keys = 4")
    cluster.start(0)
    expect("a login where there is a place again", cluster.get(0, "/shop/login", cookie)[0], 200)
    cluster.end()


def a_clock_that_is_set_back():
    """A deadline falls, and what was lost is sent again, though the machine's clock is set back by an hour, of which nobody waits. The
    dates of answers follow the clock as it is set."""
    cluster = Cluster(2, "deadline = 4")
    clock = shim(cluster.folder, "a clock that is set back", CLOCK)
    if clock is None:
        return
    clock["BESIDE"] = cluster.write("beside", "0")
    cluster.start(0)
    cluster.start(1, env=clock)
    (_, first), (_, second) = cluster.count(0), cluster.count(0)

    def waits(cookie):
        stream = cluster.connect(1)
        stream.sendall(asks_for(cookie))
        until_read(stream)
        return stream

    def beside_the_clock():
        """By how many seconds the dates of answers are before the machine's clock."""
        return time.time() - parsedate_to_datetime(cluster.ask(1, "/shop/hello").fields["date"]).timestamp()

    cluster.kill(0)
    with waits(first) as waiting:
        cluster.write("beside", "-3600")
        answer = rest_of(waiting)
        expect("the end of a request that has waited", (answer[:12], answer[-13:]), (b"HTTP/1.1 503", b"503 Deadline\n"))
        expect("that the time is set back with the clock", 3500 < beside_the_clock() < 3700, True)
    cluster.write("beside", "0")
    # This one is to be answered in time, however long the start of its node takes.
    cluster.kill(1)
    cluster.config = cluster.describe(f"deadline = {deadline()}")
    cluster.start(1, env=clock)
    with waits(second) as waiting:
        cluster.write("beside", "-3600")
        cluster.start(0)
        answer = rest_of(waiting)
        expect("the answer to one whose want was lost", (answer[:12], answer[-2:]), (b"HTTP/1.1 200", b"2\n"))
    cluster.write("beside", "3600")
    expect("that the time follows a clock that jumps ahead", -3700 < beside_the_clock() < -3500, True)
    cluster.end()


def a_clock_that_is_set_right():
    """The machine's clock was an hour ahead and is set right. A session that a node names which was started afterwards is good at one
    that has run all the while, though its interval is half an hour: both go by the clock as it is."""
    cluster = Cluster(2)
    clock = shim(cluster.folder, "a clock that is set right", CLOCK)
    if clock is None:
        return
    clock["BESIDE"] = cluster.write("beside", "3600")
    cluster.start(0, env=clock)
    cluster.start(1, env=clock)
    expect("a count while the clock is ahead", cluster.count(1)[0], "1\n")
    cluster.write("beside", "0")
    cluster.halt(0)
    cluster.start(0, env=clock)
    count, cookie = cluster.count(0)
    expect("a count at the node that was started anew", count, "1\n")
    expect("the session at the node that has run all the while", cluster.count(1, cookie)[0], "2\n")
    expect("and back", cluster.count(0, cookie)[0], "3\n")
    cluster.end()


CHECKS = (
    goes_where_it_is_asked_for,
    a_peer_that_is_not_there,
    a_node_that_is_down,
    who_waits_is_served_before_the_time_is_looked_at,
    a_session_of_65_000_bytes,
    sessions_that_expire,
    secrets_of_sessions,
    keys_that_are_forgotten,
    keys_that_are_kept,
    a_clock_that_is_set_back,
    a_clock_that_is_set_right,
)
