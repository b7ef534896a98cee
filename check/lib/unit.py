"""Nodes as the unit of deploy/ calls them, and what they and `kegctl` say."""
import os
import re
import shlex
import shutil
import subprocess
import threading

from lib import TOP
from lib.expect import Wrong, expect
from lib.kegctl import caller
from lib.nodes import Cluster, launched, ready
from lib.patience import patience

# Where the unit expects the program, the descriptor and the journals.
PROGRAM, CONFIG, JOURNALS = "/usr/local/bin/kegbramble-node", "/etc/kegbramble/cluster.toml", "/var/lib/kegbramble"

# What a node before 0.10.0 doesn't know of the unit's options.
NEWER = ("--existing", "--greet", "--name-causes")


def command_of(key):
    """The words of a line of the unit, as systemd passes them on."""
    with open(f"{TOP}/deploy/kegbramble@.service", encoding="utf-8") as file:
        line = re.search(rf"^{key}=(.*)$", file.read(), re.MULTILINE)[1]
    return [word.replace("$$", "$") for word in shlex.split(line)]


def of_old(text):
    """The words of a node without those options."""
    return " ".join(word for word in text.split(" ") if word not in NEWER)


class Unit(Cluster):
    """A cluster whose nodes are called by the unit's line, over the journals of a folder. `said` is what each has said on standard error,
    line by line, since its cluster began; `programs` are those of nodes that run another one, which may be of before 0.10.0."""

    def __init__(self, program, kegctl, count, services, extra="", ports=None, folder=None, journals=None, env=None):
        super().__init__(program, count, services, extra, ports=ports, folder=folder)
        self.journals, self.env = journals or self.folder, env or dict(os.environ)
        self.control, self.kegctl = kegctl, caller(kegctl)
        self.programs, self.said, self.readers = {}, {}, {}

    def journal(self, node):
        return f"{self.journals}/journal{node}"

    def metrics(self, node):
        return f"--metrics {self.folder}/kegbramble{node}.prom"

    def make(self, *nodes):
        for node in nodes:
            status, _, err = self.kegctl("init", self.config, self.journal(node), node)
            expect(f"init of node {node}", (status, err), (0, ""))

    def call(self, node, options):
        """A process of the node, called as the unit calls it, with these words in KEGBRAMBLE_OPTIONS."""
        program = self.programs.get(node)
        line = [
            (of_old(word) if program else word)
            .replace(PROGRAM, program or self.program)
            .replace(CONFIG, self.config)
            .replace(JOURNALS, self.journals)
            .replace("%i", str(node))
            for word in command_of("ExecStart")
        ]
        process = launched(line, stderr=subprocess.PIPE, env=self.env | {"KEGBRAMBLE_OPTIONS": options})
        said = self.said.setdefault(node, [])
        self.readers[node] = threading.Thread(target=lambda: said.extend(line.rstrip("\n") for line in process.stderr), daemon=True)
        self.readers[node].start()
        return process

    def start(self, node, options=None):
        self.running[node] = ready(self.call(node, self.metrics(node) if options is None else options), node)

    def begin(self, node, options=None):
        """Starts a node that may end by itself; the process."""
        self.running[node] = self.call(node, self.metrics(node) if options is None else options)
        return self.running[node]

    def ended(self, node):
        """How a node ended: its status, and its fault as the last line of standard error has it."""
        process = self.running.pop(node)
        try:
            status = process.wait(timeout=patience())
        except subprocess.TimeoutExpired as late:
            raise Wrong(f"node {node} goes on, where it should have ended") from late
        self.readers[node].join(patience())
        last = self.said[node][-1] if self.said[node] else ""
        return status, last.partition(": ")[2] if status else ""

    def refused(self, node, options=None):
        """How a node ends that doesn't serve: its status, its fault, and the lines of its log that say why."""
        before = len(self.said.setdefault(node, []))
        if self.begin(node, options).stdout.readline():
            raise Wrong(f"node {node} serves, where it should have ended")
        status, fault = self.ended(node)
        return status, fault, self.errors(node, before)

    def found_out(self, node, fault, wanted):
        """How a node ends of which the others know better: its status, and the lines of its log that say why, each of which is wanted. It
        ends before it serves, but where none of them answers in time: then once it is greeted. Not all may have said so by then."""
        before = len(self.said.setdefault(node, []))
        self.begin(node)
        status, found = self.ended(node)
        why = self.errors(node, before)
        expect(f"the fault of node {node}", found, fault)
        expect(f"that {why} are some of {wanted}", set() < set(why) <= set(wanted), True)
        return status, why

    def errors(self, node, since):
        return [self.plain(line) for line in self.said[node][since:] if " error " in line and " failed " not in line]

    def halt(self, node):
        expect(f"the status of kegctl halt {node}", self.kegctl("halt", self.ports[node])[0], 0)
        expect(f"the end of node {node}", self.ended(node)[0], 0)

    def drain(self, node):
        """What `kegctl drain --halt` says, after which the node is gone."""
        status, out, err = self.kegctl("drain", self.config, node, self.journal(node), "--halt", "--seconds", int(patience()))
        expect(f"the drain of node {node}, which says {out!r}", (status, err), (0, ""))
        expect(f"the end of node {node}", self.ended(node)[0], 0)
        return out

    def restart(self, node):
        self.halt(node)
        self.start(node)

    @staticmethod
    def plain(line):
        """A line of a log without its time."""
        return line.split(" ", 1)[1]

    def has_said(self, node, what):
        """The lines of a node's log that have this, without their times."""
        return [self.plain(line) for line in self.said.get(node, []) if what in line]

    def copy(self, node, name):
        """Copies both files of a node's journal beside the journals."""
        for end in ("", ".b"):
            shutil.copy(self.journal(node) + end, f"{self.folder}/{name}{end}")

    def put_back(self, node, name):
        for end in ("", ".b"):
            shutil.copy(f"{self.folder}/{name}{end}", self.journal(node) + end)
