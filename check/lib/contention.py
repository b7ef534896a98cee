"""Clients at all nodes that count in one session, and how many of its take-overs were for nobody."""
import http.client
import threading
import time

from lib.journals import current_entries
from lib.patience import patience

# The kinds of records that tell of a session: a request was answered with it, it was handed on, and it was taken over.
COMMIT, SENT, TAKEN = 2, 4, 5


def take_overs(journals):
    """How many take-overs these journals tell of, and behind how many of them the session was handed on before anybody was served. The
    journals tell of one session, and haven't been written anew."""
    taken = unserved = 0
    for path in journals:
        served = True
        for entry in current_entries(path):
            kind = entry[1]
            if kind == TAKEN:
                taken, served = taken + 1, False
            elif kind == COMMIT:
                served = True
            elif kind == SENT:
                unserved, served = unserved + (not served), True
    return taken, unserved


class Clients:
    """So many clients at each of these ports, each of which counts in the session of a cookie, one request behind the other on one
    connection, until told to stop. What each request was answered, and after how many seconds, is kept."""

    def __init__(self, ports, path, cookie, count):
        self.path, self.fields, self.stopped = path, {"Cookie": cookie}, threading.Event()
        self.answers, self.faults = [], []
        self.threads = [threading.Thread(target=self.run, args=(port,), daemon=True) for port in ports for _ in range(count)]
        for thread in self.threads:
            thread.start()

    def ask(self, connection):
        begun = time.monotonic()
        connection.request("GET", self.path, headers=self.fields)
        answer = connection.getresponse()
        text = answer.read().decode()
        self.answers.append((answer.status, text, time.monotonic() - begun))

    def run(self, port):
        connection = http.client.HTTPConnection("127.0.0.1", port, timeout=patience())
        try:
            while not self.stopped.is_set():
                self.ask(connection)
        except (OSError, http.client.HTTPException) as fault:
            self.faults.append(repr(fault))

    def stop(self):
        """Has each of them stop behind its next answer."""
        self.stopped.set()
        for thread in self.threads:
            thread.join()
