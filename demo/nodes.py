"""The nodes of a descriptor as processes, for what is played over them."""
import os
import signal
import subprocess
import sys
import tempfile
import tomllib

class Wrong(Exception):
    """What can't be done, and why."""


class Cluster:
    """The nodes of a descriptor, and those of their processes that run. The journals lie in a folder of their own, which is left."""

    def __init__(self, node, config):
        with open(config, "rb") as file:
            self.ports = tomllib.load(file)["cluster"]["ports"]
        self.words = [node, config]
        self.folder = tempfile.mkdtemp(prefix="kegbramble-demo-")
        self.running = {}

    def start(self, number):
        if number in self.running:
            raise Wrong(f"node {number} runs already")
        words = [*self.words, f"{self.folder}/j{number}", str(number)]
        node = subprocess.Popen(words, stdout=subprocess.PIPE, text=True)
        if node.stdout.readline() != f"ready {number}\n":
            node.wait()
            raise Wrong(f"node {number} did not start; does another process have port {self.ports[number]}?")
        self.running[number] = node
        return "ready"

    def kill(self, number):
        if number not in self.running:
            raise Wrong(f"node {number} doesn't run")
        node = self.running.pop(number)
        node.kill()
        node.wait()
        return "killed"

    def end(self):
        for number in list(self.running):
            self.kill(number)
        print(f"demo: the journals are in {self.folder}", file=sys.stderr)


def run(work, node, config):
    """Does some work over a cluster; no node is left running, also where this process is told to end."""
    for number in (signal.SIGINT, signal.SIGTERM):
        signal.signal(number, lambda caught, _: sys.exit(128 + caught))
    cluster = Cluster(os.path.abspath(node), os.path.abspath(config))
    try:
        work(cluster)
    finally:
        cluster.end()
