"""The instructions that a node runs for a request, by valgrind's callgrind: the same for the same program and requests, whatever else the
machine does."""
import http.client
import re
from collections import Counter

from lib.expect import expect
from lib.nodes import SAMPLES, Cluster
from lib.patience import patience

# A node is asked so often in one run and in another; what the second takes more is what the requests more take.
FEW, MANY = 100, 1100

BODY = b"x" * 8192


class Watched(Cluster):
    """Two nodes, of which the first runs under callgrind."""

    def __init__(self, program):
        super().__init__(program, 2, SAMPLES, options=("--keep-alive",))

    def start_watched(self):
        self.out = f"{self.folder}/callgrind.out"
        self.plain = self.program
        self.program = "valgrind"
        words = ("--quiet", "--tool=callgrind", f"--callgrind-out-file={self.out}", self.plain, *self.options)
        try:
            self.start(0, *words)
        finally:
            self.program = self.plain
        self.start(1)

    def line(self, node):
        return http.client.HTTPConnection("127.0.0.1", self.ports[node], timeout=patience())


def answered(line, method, path, body=None, cookie=None):
    """An answer of a connection; the cookie that it sets, or else that of the request."""
    line.request(method, path, body, {"Cookie": cookie} if cookie else {})
    answer = line.getresponse()
    answer.read()
    expect(f"the status of {method} {path}", answer.status, 200)
    return (answer.getheader("Set-Cookie") or cookie or "").partition(";")[0] or None


def hellos(cluster, count):
    line = cluster.line(0)
    for _ in range(count):
        answered(line, "GET", "/shop/hello")
    line.close()


def hellos_with_a_connection_each(cluster, count):
    for _ in range(count):
        line = cluster.line(0)
        answered(line, "GET", "/shop/hello")
        line.close()


def counts(cluster, count):
    line, cookie = cluster.line(0), None
    for _ in range(count):
        cookie = answered(line, "GET", "/shop/count", cookie=cookie)
    line.close()


def counts_that_move(cluster, count):
    """Every second one is asked of the other node, so the session comes and goes for each that is asked here."""
    lines, cookie = [cluster.line(0), cluster.line(1)], None
    for number in range(2 * count):
        cookie = answered(lines[number % 2], "GET", "/shop/count", cookie=cookie)
    for line in lines:
        line.close()


def posts(cluster, count):
    line = cluster.line(0)
    for _ in range(count):
        answered(line, "POST", "/shop/hello", BODY)
    line.close()


# What is asked, by its name in the table.
ASKED = {
    "a hello, on a kept connection": hellos,
    "a hello with a connection": hellos_with_a_connection_each,
    "a count, on a kept connection": counts,
    "a count that moves": counts_that_move,
    "a POST of 8 KB, on a kept connection": posts,
}


def costs_of(path):
    """The instructions of each function itself, by the file that callgrind writes (its manual, "Callgrind Format Specification")."""
    costs, names, function, is_call = Counter(), {}, None, False
    with open(path, encoding="utf-8", errors="replace") as file:
        for text in file:
            if found := re.match(r"fn=\((\d+)\)(?: (.*))?$", text):
                function = names.setdefault(found[1], found[2])
            elif found := re.match(r"cfn=\((\d+)\)(?: (.*))?$", text):
                names.setdefault(found[1], found[2])
            elif text.startswith("calls="):
                is_call = True
            elif text[:1] in "0123456789+-*":
                if not is_call:
                    costs[function] += int(text.split()[1])
                is_call = False
    return costs


def run(program, asks, count):
    """What one life of a node takes that is asked so often."""
    cluster = Watched(program)
    cluster.start_watched()
    asks(cluster, count)
    expect("the status of the node", cluster.halt(0)[0], 0)
    cluster.end()
    return costs_of(cluster.out)


def instructions(program, asks):
    """The instructions of a request, by function."""
    few, many = run(program, asks, FEW), run(program, asks, MANY)
    return {name: (cost - few[name]) / (MANY - FEW) for name, cost in many.items() if cost > few[name]}
