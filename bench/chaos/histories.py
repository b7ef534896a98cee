"""What clients saw of a session that counts its requests, and what they may see."""
import threading
import time
from dataclasses import dataclass


class Breach(Exception):
    """Something that must not be."""


@dataclass
class Request:
    begun: float
    ended: float = 0
    number: int = 0
    refused: bool = False


class History:
    """The requests of one session. Each that is answered is given a number: the count of the session behind it. The session may
    have begun with a login, which gives no number; then it keeps the name of its user too."""

    def __init__(self, cookie, user=None):
        self.cookie, self.user = cookie, user
        self.key = int(cookie[2:4], 16), int(cookie[4:20], 16)
        self.lock = threading.Lock()
        self.requests = [] if user else [Request(time.monotonic(), time.monotonic(), 1)]
        # When a request to end it was first sent, and when one was answered.
        self.end_begun = self.ended = None

    def begin(self):
        with self.lock:
            self.requests.append(Request(time.monotonic()))
            return self.requests[-1]

    def answered(self, request, number):
        with self.lock:
            request.ended, request.number = time.monotonic(), number
            self.look_at(request)

    def refused(self, request):
        request.refused = True

    def begin_end(self):
        """Whether this is the first who ends it."""
        with self.lock:
            is_first = self.end_begun is None
            if is_first:
                self.end_begun = time.monotonic()
            return is_first

    def end_refused(self):
        with self.lock:
            self.end_begun = None

    def end(self):
        with self.lock:
            self.ended = time.monotonic()

    def may_have_ended(self):
        with self.lock:
            return self.end_begun is not None

    def look_at(self, request):
        """No number is given twice; a request that begins behind an answer has a greater one; and no number is above the
        count of requests that had begun and weren't refused."""
        if self.ended is not None and self.ended < request.begun:
            raise Breach(f"session {self.cookie} has ended, and comes back with the number {request.number}")
        begun = 0
        for other in self.requests:
            if other is request:
                begun += 1
                continue
            begun += other.begun < request.ended and not other.refused
            if other.number == request.number:
                raise Breach(f"session {self.cookie}: the number {request.number} is given twice")
            if other.number and other.ended < request.begun and other.number > request.number:
                raise Breach(f"session {self.cookie}: {request.number} behind {other.number}")
        if request.number > begun:
            raise Breach(f"session {self.cookie}: the number {request.number} for {begun} requests")

    def look_at_the_end(self, attributes):
        """The session that is kept counts each answered request, and at most those besides whose answers were cut off."""
        if self.ended is not None:
            raise Breach(f"session {self.cookie} has ended, and is kept")
        if self.user and attributes.get("user") != self.user.encode():
            raise Breach(f"session {self.cookie} has lost its user")
        count = int(attributes.get("count", 0))
        answered = [request.number for request in self.requests if request.number]
        unknown = sum(not request.number and not request.refused for request in self.requests)
        greatest = max(answered, default=0)
        if count < greatest:
            raise Breach(f"session {self.cookie}: {greatest} was answered and {count} is kept")
        if count - len(answered) > unknown:
            raise Breach(f"session {self.cookie}: {count} is kept of {len(answered)} answers and {unknown} without one")
