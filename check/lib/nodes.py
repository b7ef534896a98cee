"""Nodes as processes, started, asked and ended as an operator does."""
import atexit
import os
import select
import shutil
import subprocess
import sys
import tempfile

from lib import TOP, client
from lib.expect import Wrong, expect, name
from lib.frames import HALT, command, key_of, move
from lib.patience import patience
from lib.ports import free_ports

# A context whose servlet counts the requests of a session.
COUNTING = """
[[context]]
path = "/shop"
servlet = [{ name = "count", patterns = ["/count"] }]
"""

# One that greets, that counts, and that has somebody log in.
SAMPLES = """
[[context]]
path = "/shop"
servlet = [
  { name = "hello", patterns = ["/hello"] },
  { name = "count", patterns = ["/count"] },
  { name = "login", patterns = ["/login"] },
]
"""


def program_of(words, crate=None):
    """The program that is named first of these words, or else that of a crate as it was proved."""
    program = os.path.abspath(words[0]) if words else f"{TOP}/crates/{crate}/out/{crate}"
    if not os.access(program, os.X_OK):
        sys.exit(f"{name()}: {program} is not built")
    return program


def new_folder():
    """A folder that goes with this process."""
    folder = tempfile.mkdtemp(prefix="check")
    atexit.register(shutil.rmtree, folder, ignore_errors=True)
    return folder


def launched(words, **how):
    """A process whose output is read, and which is gone where a check fails."""
    process = subprocess.Popen(words, stdout=subprocess.PIPE, text=True, **how)
    atexit.register(process.kill)
    return process


def ready(process, node, seconds=None):
    """Waits until a node says that it is ready, so many seconds where its program is made first."""
    if not select.select([process.stdout], [], [], seconds or patience())[0]:
        raise Wrong(f"node {node} says nothing")
    expect(f"the first line of node {node}", process.stdout.readline(), f"ready {node}\n")
    return process


class Cluster:
    """A descriptor with so many nodes, a folder for it and for their journals, and the processes of those that run. `services` are the
    contexts of the descriptor, `extra` is what stands beside the ports, and `options` are those of each node."""

    def __init__(self, program, count, services, extra="", options=(), ports=None, folder=None):
        self.program, self.services, self.options = os.path.abspath(program), services, options
        self.folder = folder or new_folder()
        self.ports = ports or free_ports(count)
        self.config = self.describe(extra)
        self.running = {}

    def describe(self, extra="", services=None, file="c.toml"):
        """Writes a descriptor; its path."""
        return self.write(file, f"[cluster]\nports = {self.ports}\n{extra}\n{services or self.services}")

    def write(self, name, text):
        path = f"{self.folder}/{name}"
        with open(path, "w", encoding="utf-8") as file:
            file.write(text)
        return path

    def journal(self, node):
        return f"{self.folder}/j{node}"

    def words(self, node):
        return [self.config, self.journal(node), str(node)]

    def launch(self, words, **how):
        return launched([self.program, *words], **how)

    def start(self, node, *options, **how):
        self.running[node] = ready(self.launch([*(options or self.options), *self.words(node)], **how), node)

    def start_all(self):
        for node in range(len(self.ports)):
            self.start(node)

    def kill(self, node):
        """`kill -9`."""
        process = self.running.pop(node)
        process.kill()
        process.wait()

    def end(self):
        for node in list(self.running):
            self.kill(node)

    def ended(self, node):
        """How a node ends that is told to or can't go on: its status, and what it says."""
        process = self.running.pop(node)
        out, err = process.communicate(timeout=patience())
        return process.returncode, out, err

    def connect(self, node):
        return client.connect(self.ports[node])

    def sent(self, node, data):
        """What the node answers to these bytes, up to the end."""
        return client.sent(self.ports[node], data)

    def command(self, node, payload):
        return self.sent(node, command(payload))

    def move(self, node, cookie, to):
        return self.command(node, move(key_of(cookie), to))

    def halt(self, node):
        """Has a node halt; how it ends."""
        expect(f"the answer to a halt of node {node}", self.command(node, HALT), b"\0")
        return self.ended(node)

    def ask(self, node, path, cookie=None, body=None, **how):
        return client.ask(self.ports[node], path, cookie, body, **how)

    def count(self, node, cookie=None):
        """Counts once more: what is told, and the session's cookie."""
        answer = self.ask(node, "/shop/count", cookie)
        expect(f"the status of a count at node {node}", answer.status, 200)
        return answer.text, answer.cookie
