"""What the subjects of `check/nodes` have in common: clusters of the program that is tried, whose nodes all write logs, and clients that
are in somebody's way."""
import contextlib
import resource
import signal
import socket
import struct
import subprocess
import sys
import time

from lib import nodes
from lib.client import is_open
from lib.expect import expect, say, wait_for
from lib.journals import current_entries, read_disk
from lib.patience import patience

PROGRAM = nodes.program_of(sys.argv[1:], "sv_node_main")
APPLICATIONS = f"""{nodes.SAMPLES}listener = [{{ name = "tally" }}]
"""


# The logs of all nodes, and what none of them may have: the secrets of cookies, and forms.
LOGS, KEPT = set(), set()


class Cluster(nodes.Cluster):
    """So many nodes of the program, each with a log."""

    def __init__(self, count, extra="", **how):
        super().__init__(PROGRAM, count, APPLICATIONS, extra, **how)

    def launch(self, words, **how):
        return super().launch(words, stderr=subprocess.PIPE, **how)

    def start(self, node, *options, **how):
        """Starts a node with a log, which has nothing of what clients keep to themselves."""
        log = f"{self.folder}/log{node}"
        LOGS.add(log)
        super().start(node, "--log", log, *options, **how)

    def log(self, node):
        with open(f"{self.folder}/log{node}", encoding="utf-8") as file:
            return file.read()

    def ends(self, node, status, line):
        expect(f"the end of node {node}", self.ended(node), (status, "", line))

    def faults(self, what, words, status, line):
        process = self.launch(words)
        out, err = process.communicate(timeout=patience())
        expect(what, (process.returncode, out, err), (status, "", line))

    def get(self, node, path, cookie=None, form=None):
        """The status, the text and the cookie of an answer."""
        answer = self.ask(node, path, cookie, form)
        KEPT.update([answer.given[-32:]] if answer.given else [])
        KEPT.update([form] if form else [])
        return answer.status, answer.text, answer.cookie

    def count(self, node, cookie=None):
        status, text, cookie = self.get(node, "/shop/count", cookie)
        expect(f"the status of a count at node {node}", status, 200)
        return text, cookie

    def halt(self, node):
        expect(f"the end of node {node}, which is told to halt", super().halt(node), (0, "", ""))


def asks_for(cookie):
    return f"GET /shop/count HTTP/1.1\r\nHost: h\r\nCookie: {cookie}\r\n\r\n".encode()


HELLO = b"GET /shop/hello HTTP/1.1\r\nHost: h\r\n\r\n"
COUNT = b"GET /shop/count HTTP/1.1\r\nHost: h\r\n\r\n"


def hellos(cluster, node, beside):
    """Ten of them, one after the other, beside somebody who is waited for only after them."""
    begun = time.monotonic()
    for _ in range(10):
        expect(f"hello beside {beside}", cluster.get(node, "/shop/hello")[:2], (200, "Hello\n"))
    say(f"  ten hellos beside {beside}: {time.monotonic() - begun:.2f} s")


def hellos_beside(cluster, count):
    """Whether hellos are answered while the last of so many silent clients is open still: a node that they hold answers after it has
    closed them. The first of them, too, is told of, and how long it took."""
    begun = time.monotonic()
    idle = [cluster.connect(0) for _ in range(count)]
    for _ in range(10):
        expect(f"hello beside {count} that say nothing", cluster.get(0, "/shop/hello")[:2], (200, "Hello\n"))
    first, last = is_open(idle[0]), is_open(idle[-1])
    for one in idle:
        one.close()
    say(f"  {count} clients that say nothing, and ten hellos: {time.monotonic() - begun:.2f} s")
    return first, last


# Fifteen filters that write 57 bytes twice: answers of some 1,900 bytes.
MARKS = [f"{number:x}{'m' * 56}" for number in range(15)]


def stamp(cluster, pattern):
    """Has a cluster's answers to the paths of a pattern stamped."""
    filters = ", ".join(f'{{ name = "stamp-{mark}" }}' for mark in MARKS)
    mappings = ", ".join(f'{{ filter = "stamp-{mark}", pattern = "{pattern}" }}' for mark in MARKS)
    stamped = f"{APPLICATIONS}filter = [{filters}]\nfilter-mapping = [{mappings}]\n"
    cluster.config = cluster.describe(services=stamped)


def hungry_client(cluster, data):
    """A client with small segments, and little room for them, so that long answers are more than the node may send ahead."""
    hungry = socket.socket()
    hungry.setsockopt(socket.IPPROTO_TCP, socket.TCP_MAXSEG, 536)
    hungry.setsockopt(socket.SOL_SOCKET, socket.SO_RCVBUF, 4096)
    hungry.settimeout(patience())
    hungry.connect(("127.0.0.1", cluster.ports[0]))
    hungry.sendall(data)
    return hungry


def files_of_a_process(most):
    return lambda: resource.setrlimit(resource.RLIMIT_NOFILE, (most, most))


def reset_at_close(stream):
    """Has a close be a reset, and not the end of what the client sends: it can't be answered any more."""
    stream.setsockopt(socket.SOL_SOCKET, socket.SO_LINGER, struct.pack("ii", 1, 0))


def state_of(process):
    """One letter: S for one that waits, T for one that stands still (proc(5), /proc/PID/stat)."""
    with open(f"/proc/{process.pid}/stat", encoding="ascii") as file:
        return file.read().rpartition(")")[2].split()[0]


@contextlib.contextmanager
def standing_still(process, in_its_work=False):
    """A process that stands still meanwhile: it is stopped while it waits, or in whatever it does, and has stopped before anything is sent
    to it."""
    if not in_its_work:
        wait_for("that a process waits", lambda: state_of(process) == "S")
    process.send_signal(signal.SIGSTOP)
    try:
        wait_for("that a process stands still", lambda: state_of(process) == "T")
        yield
    finally:
        process.send_signal(signal.SIGCONT)


def compacted(cluster, node, cookie, counted):
    """Has a session counted until its node has written the journal anew; the last count. Each count writes the whole session, so
    that 4 MiB, which a journal may have before that, are passed by 70 counts of one of 65,000 bytes."""
    path = cluster.journal(node)

    def generations():
        return [disk[0] for disk in (read_disk(path), read_disk(f"{path}.b")) if disk]

    before = max(generations())
    for number in range(counted + 1, counted + 71):
        expect("a count of a large session", cluster.count(node, cookie), (f"{number}\n", cookie))
    expect("the generation of the journal is one higher", max(generations()), before + 1)
    expect("the greatest version of its records", max(entry[0] for entry in current_entries(path)), 2)
    expect("the least version of its records", min(entry[0] for entry in current_entries(path)), 2)
    return counted + 70


USER = "kegbramble" * 6500


def login(cluster, node):
    status, body, cookie = cluster.get(node, "/shop/login", form=f"user={USER}")
    expect("a login under a name of 65,000 bytes", (status, body), (200, f"welcome {USER}\n"))
    return cookie


def logs_that_tell_no_secrets():
    expect("whether secrets and forms were sent", len(KEPT) > 10, True)
    for log in LOGS:
        with open(log) as file:
            text = file.read()
        expect(f"whether {log} has lines", " ready node=" in text, True)
        expect(f"what {log} has of what clients keep to themselves", [kept for kept in KEPT if kept in text], [])
