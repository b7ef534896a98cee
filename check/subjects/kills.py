"""A session outlives `kill -9` of its node: between requests, while a request for it comes, while a client waits for it elsewhere; and who
comes while a node is started anew is served by the one that is started."""
import socket
import subprocess
import sys

from lib.client import rest_of
from lib.expect import expect
from lib.nodes import launched, ready
from lib.patience import patience
from lib.ports import free_port
from subjects.common import APPLICATIONS, PROGRAM, Cluster, asks_for


def outlives_its_process():
    cluster = Cluster(1)
    cluster.start(0)
    body, cookie = cluster.count(0)
    expect("the first count", body, "1\n")
    for number in range(2, 6):
        cluster.kill(0)
        cluster.start(0)
        expect("a count behind kill -9", cluster.count(0, cookie), (f"{number}\n", cookie))
    cluster.halt(0)
    cluster.start(0)
    expect("a count behind a halt", cluster.count(0, cookie), ("6\n", cookie))
    cluster.end()


def counted_and_killed(cluster, node, cookie=None):
    """Starts a node, has a session counted, and kills the node."""
    cluster.start(node)
    answer = cluster.count(node, cookie)
    cluster.kill(node)
    return answer


def is_killed_while_a_request_comes():
    """What has come of it isn't counted."""
    cluster = Cluster(1)
    body, cookie = counted_and_killed(cluster, 0)
    expect("the first count", body, "1\n")
    cluster.start(0)
    with cluster.connect(0) as stream:
        stream.sendall(asks_for(cookie)[:-1])
        cluster.kill(0)
    expect("a count behind kill -9 inside a request", counted_and_killed(cluster, 0, cookie), ("2\n", cookie))


def is_killed_while_a_client_waits():
    """The session is where it was, and isn't counted. The client waits at node 1 once that has called at the port of node 0, where this
    program listens."""
    cluster = Cluster(2)
    body, cookie = counted_and_killed(cluster, 0)
    expect("the first count", body, "1\n")
    with socket.create_server(("127.0.0.1", cluster.ports[0])) as peer:
        peer.settimeout(patience())
        cluster.start(1)
        with cluster.connect(1) as stream:
            stream.sendall(asks_for(cookie))
            peer.accept()[0].close()
            cluster.kill(1)
    cluster.start(0)
    cluster.start(1)
    expect("a count behind kill -9 beside one who waits", cluster.count(1, cookie), ("2\n", cookie))
    cluster.end()


# Becomes a program to which a service manager has handed over so many listeners, from descriptor 3 on: the variables name the process
# that they are meant for.
HANDING = """
import os, sys
os.dup2(int(sys.argv[1]), 3)
os.environ.update(LISTEN_PID=str(os.getpid()), LISTEN_FDS=sys.argv[2])
os.execv(sys.argv[3], sys.argv[3:])
"""


def handed(listener, count):
    """The first words of a process to which a listener was handed over, and how it is started."""
    return [sys.executable, "-c", HANDING, str(listener.fileno()), str(count), PROGRAM], {"pass_fds": (listener.fileno(),)}


def a_listener_that_is_handed_over():
    """While a node is started anew, who connects stands at the door of the listener that a service manager keeps, and is served."""
    cluster = Cluster(1)
    with socket.create_server(("127.0.0.1", cluster.ports[0]), backlog=64) as listener:
        cookie = None
        for number in range(1, 4):
            # Nobody runs.
            with cluster.connect(0) as early:
                fields = f"Cookie: {cookie}\r\n" if cookie else ""
                early.sendall(f"GET /shop/count HTTP/1.1\r\nHost: h\r\n{fields}\r\n".encode())
                words, how = handed(listener, 1)
                process = ready(launched([*words, *cluster.words(0)], **how), 0)
                answer = rest_of(early)
                expect("the answer to one who came before the node", (answer[:12], answer[-2:]), (b"HTTP/1.1 200", f"{number}\n".encode()))
                if cookie is None:
                    cookie = answer.split(b"\r\nset-cookie: ", 1)[1].split(b";")[0].decode()
            process.kill()
            process.wait()
        # What isn't meant: two descriptors, and a listener at another port.
        other = cluster.write("other.toml", f"[cluster]\nports = [{free_port()}]\n{APPLICATIONS}")
        for what, config, count in (("two listeners", cluster.config, 2), ("a listener at another port", other, 1)):
            words, how = handed(listener, count)
            ended = subprocess.run([*words, config, f"{cluster.folder}/other{count}", "0"], capture_output=True, text=True, timeout=patience(), **how)
            expect(f"the end of a node that was handed {what}", (ended.returncode, ended.stdout, ended.stderr), (5, "", "node: Socket\n"))


CHECKS = (
    outlives_its_process,
    is_killed_while_a_request_comes,
    is_killed_while_a_client_waits,
    a_listener_that_is_handed_over,
)
