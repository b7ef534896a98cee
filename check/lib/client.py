"""HTTP, and bytes, to a port of the loopback address."""
import errno
import http.client
import socket
from dataclasses import dataclass

from lib.expect import expect, wait_for
from lib.patience import patience

FORM = "application/x-www-form-urlencoded"


@dataclass
class Answer:
    """An answer: `cookie` is the one that it sets, and where it sets none, that of the request."""

    status: int
    text: str
    cookie: str
    given: str
    fields: http.client.HTTPMessage


def ask(port, path, cookie=None, body=None, method=None, fields=None, stream=None):
    """Asks on a connection of its own, or on one that is there already; a request with a body is a POST of a form."""
    line = http.client.HTTPConnection("127.0.0.1", port, timeout=patience())
    line.sock = stream
    sent = ({"Cookie": cookie} if cookie else {}) | ({"Content-Type": FORM} if body is not None else {}) | (fields or {})
    try:
        line.request(method or ("GET" if body is None else "POST"), path, body, sent)
        answer = line.getresponse()
        text = answer.read().decode(errors="replace")
    finally:
        line.close()
    given = (answer.getheader("Set-Cookie") or "").partition(";")[0] or None
    return Answer(answer.status, text, given or cookie, given, answer.headers)


def connect(port):
    return socket.create_connection(("127.0.0.1", port), timeout=patience())


def listens(port):
    """Whether anybody takes connections there."""
    try:
        connect(port).close()
        return True
    except OSError:
        return False


def rest_of(stream):
    """All that comes up to the end."""
    found = b""
    while piece := stream.recv(65536):
        found += piece
    return found


def sent(port, data):
    """What is answered to these bytes, up to the end; who listens there may close while bytes are still on their way."""
    found = b""
    with connect(port) as stream:
        try:
            stream.sendall(data)
            stream.shutdown(socket.SHUT_WR)
            while piece := stream.recv(4096):
                found += piece
        except ConnectionError:
            pass
        except OSError as error:
            expect("the error of a connection that was closed", error.errno, errno.ENOTCONN)
    return found


def is_open(stream):
    """Whether the other end has closed it, as far as can be told at once."""
    stream.setblocking(False)
    try:
        return stream.recv(1) != b""
    except BlockingIOError:
        return True


def until_read(stream):
    """Waits until the other end has read all that was sent: what others send from now on comes behind it."""
    own = f":{stream.getsockname()[1]:04X}"

    def is_read():
        with open("/proc/net/tcp", encoding="ascii") as sockets:
            # Of each socket: its number, its address, that of the other end, its state, and what is in its queues.
            rows = [line.split() for line in sockets]
        return all(row[4].endswith(":00000000") for row in rows if row[2].endswith(own))

    wait_for("that what was sent is read", is_read)


class Kept:
    """A connection on which several answers come."""

    def __init__(self, stream):
        self.stream, self.reader = stream, stream.makefile("rb")

    def __enter__(self):
        return self

    def __exit__(self, *_):
        self.reader.close()
        self.stream.close()

    def answer(self):
        """The next answer: its status, its body, and what it says of the connection."""
        first = self.reader.readline()
        if not first:
            raise ConnectionError("the node has closed the connection before an answer")
        expect("the beginning of an answer", first[:9], b"HTTP/1.1 ")
        fields = {}
        while line := self.reader.readline().strip():
            name, value = line.decode().split(": ", 1)
            fields[name.lower()] = value
        body = self.reader.read(int(fields["content-length"]))
        return int(first.split()[1]), body.decode(), fields.get("connection")
