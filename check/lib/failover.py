"""Three machines that keep each journal three times and run each node where its lock is, and a fourth with nginx in front, as
docs/FAILOVER.md has them: its steps are pasted, on machines with a systemd each."""
import hashlib
import http.client
import os
import re
import shutil
import socket
import ssl
import subprocess
import sys
import threading
import time

from lib import TOP, booted, client
from lib.booted_machines import Machine, Wire
from lib.expect import Wrong, expect, wait_for
from lib.journals import replay
from lib.network import run
from lib.pages import blocks
from lib.patience import patience
from lib.three_machines import Client, check_counts

PAGE, STEPS = "FAILOVER.md", "Three machines, step by step"
WORK, HOME, BIN = "/run/work", "/run/home", "/run/bin"
NODES = range(3)
DOOR = 7443
# That of deploy/failover/cluster.toml.
DEADLINE = 20
GEO_REPLICATION = "/usr/lib/x86_64-linux-gnu/glusterfs/gsyncd"
# Where nodes are reached, and where machines are.
NODE, MACHINE, FRONT = "10.77.0.{}", "10.77.0.1{}", "10.77.0.4"

STAND_INS = {
    # A machine by its address; the words are done by its shell.
    "ssh": """#!/bin/bash
address=${1#root@}; shift
exec nsenter --target "$(cat /run/first/$address)" --mount --uts --ipc --net --pid --cgroup --wdns=/root bash -c "$*"
""",
    "scp": """#!/bin/bash
[ "$1" = -p ] && shift
to=${*: -1}
for file in "${@:1:$#-1}"; do
  place=${to#*:}
  case $place in */) place=$place$(basename "$file") ;; esac
  ssh "${to%%:*}" "cat >$place; chmod $(stat -c %a "$file") $place" <"$file" || exit 1
done
""",
}


def paste(text):
    """Has a shell do this in the clone; what it says. Packages are those of this machine."""
    done = subprocess.run(["bash", "-ec", text.replace("apt-get install -y", "true")], cwd=WORK, capture_output=True, text=True, stdin=subprocess.DEVNULL)
    if done.returncode:
        raise Wrong(f"status {done.returncode} of\n{text}\n{done.stdout}{done.stderr}")
    return done.stdout


def written(path, text):
    with open(path, "w", encoding="utf-8") as file:
        file.write(text)
    os.chmod(path, 0o755)


def installed(prefix, node, kegctl):
    """What `./run install` leaves, as far as machines need it."""
    for folder in ("bin", "lib/systemd/system", "lib/kegbramble"):
        os.makedirs(f"{prefix}/{folder}")
    for program, name in ((node, "kegbramble-node"), (kegctl, "kegctl")):
        booted.bring(program, f"{prefix}/bin/{name}", f"/usr/local/bin/{name}")
    for unit in ("kegbramble@.service", "kegbramble-init@.service", "kegbramble-watchdog@.service"):
        shutil.copy(f"{TOP}/deploy/{unit}", f"{prefix}/lib/systemd/system")
    shutil.copy(f"{TOP}/deploy/watchdog", f"{prefix}/lib/kegbramble")


def furnished(node, kegctl):
    """The clone, what the first step installs, and what stands in for ssh and scp."""
    for folder in (WORK, HOME, BIN, "/run/first"):
        os.makedirs(folder)
    for name, text in STAND_INS.items():
        written(f"{BIN}/{name}", text)
    os.environ.update(PATH=f"{BIN}:{os.environ['PATH']}", HOME=HOME)
    shutil.copytree(f"{TOP}/deploy", f"{WORK}/deploy")
    shutil.copy("/bin/true", f"{WORK}/run")
    installed(f"{HOME}/kegbramble-files/usr/local", node, kegctl)


class Failover:
    """The machines, what they run and what is asked of them. Their disks are in memory, or in a folder."""

    def __init__(self, node, kegctl, disks=None):
        run("mount", "-t", "tmpfs", "-o", "mode=755", "tmpfs", "/run")
        furnished(node, kegctl)
        self.wire = Wire()
        self.machines = [Machine(self.wire, f"m{at}", MACHINE.format(at + 1), disks) for at in range(3)]
        self.front = Machine(self.wire, "front", FRONT)
        # Where a machine's copies stand elsewhere than the page has them at first.
        self.folders = {}
        self.tls = None

    def boot(self, *machines):
        """Boots machines side by side."""
        threads = [threading.Thread(target=machine.boot) for machine in machines]
        for thread in threads:
            thread.start()
        for thread in threads:
            thread.join()
        for machine in machines:
            written(f"/run/first/{machine.address}", str(machine.first()))

    def up(self):
        """Boots all, and pastes the steps of the page."""
        self.boot(*self.machines, self.front)
        for machine in self.machines:
            self.spare(machine)
        *steps, look = blocks(PAGE, STEPS, 7)
        for step in steps:
            paste(step)
        self.tls = ssl.create_default_context(cafile=f"{HOME}/kegbramble-ca/ca.pem")
        self.tls.load_cert_chain(f"{HOME}/kegbramble-ca/front.crt", f"{HOME}/kegbramble-ca/front.key")
        self.tls.check_hostname = False
        return paste(look)

    @staticmethod
    def spare(machine):
        """glusterd asks geo-replication, which nobody wants here, for its version, and that takes it many seconds."""
        machine.said(f"printf '#!/bin/sh\\necho gsyncd 0\\n' >{GEO_REPLICATION}")

    def install(self, machine):
        """Pastes the page's second step for one machine alone."""
        self.spare(machine)
        step = blocks(PAGE, STEPS, 7)[1]
        paste(re.sub(r"for m in .*; do", f"for m in root@{machine.address}; do", step))

    def tell(self):
        """Says on standard error what the machines have, when a check fails."""
        for machine in self.machines:
            if machine.process:
                done = machine.tried("systemctl --no-pager --failed; gluster volume heal kegbramble info; "
                                     "journalctl --no-pager -o short-precise -u 'kegbramble@*' | grep -vE 'WARNING|ALERT|Locked' | tail -n 25", patience())
                print(f"-- {machine.name}\n{done.stdout}{done.stderr}", file=sys.stderr)

    # Where nodes are, and what copies have.

    def is_at(self, number, machine):
        return machine.process is not None and "inet" in machine.tried(f"ip -n keg{number} -4 address show dev eth0").stdout

    def place(self, number):
        """The machine that runs a node."""
        found = []
        wait_for(f"a machine that runs node {number}", lambda: found.extend(one for one in self.machines if self.is_at(number, one)) or found)
        return found[0]

    def nodes_at(self, machine):
        return [number for number in NODES if self.is_at(number, machine)]

    # What is asked of them.

    def connect(self, address, port, timeout=None):
        """From the front server's machine."""
        self.wire.enter(self.front)
        try:
            return socket.create_connection((address, port), timeout=timeout or patience())
        finally:
            self.wire.enter()

    def ask(self, where, cookie=None, path="/shop/count"):
        """Posts at a node's door, or with "front" at the front server. Status, text and cookie; status 0 if it breaks, or if a door
        is silent for two seconds, as that of a machine that died without a word."""
        try:
            if where == "front":
                stream = self.connect("127.0.0.1", 8080)
            else:
                stream = self.connect(NODE.format(where + 1), DOOR, 2)
                stream.settimeout(2)
                stream = self.tls.wrap_socket(stream)
            answer = client.ask(0, path, cookie and f"JSESSIONID={cookie}", body="", stream=stream)
            return answer.status, answer.text, re.match(r"JSESSIONID=([0-9a-f]+)", answer.cookie)[1] if answer.cookie else None
        except (OSError, http.client.HTTPException):
            return 0, "", cookie

    def journal(self, number, machine):
        """A machine's copy of a node's journal."""
        return f"{machine.brick}/{self.folders.get(machine, 'kegbramble')}/journal{number}"

    def kept(self, number):
        """What a node's journal leads to, as the machine has it that runs the node."""
        return replay(self.journal(number, self.place(number))).held

    def is_whole(self):
        """Each machine is there, and has all of each journal, as GlusterFS has it."""
        up = [machine for machine in self.machines if machine.process]
        said = up[0].tried("timeout 60 gluster volume heal kegbramble info").stdout if len(up) == 3 else ""
        return said.count("Status: Connected") == 3 and said.count("Number of entries: 0") == 3

    def copies_agree(self):
        """All machines have the same bytes of each journal."""
        for number in NODES:
            for end in ("", ".b"):
                copies = set()
                for machine in self.machines:
                    with open(self.journal(number, machine) + end, "rb") as file:
                        copies.add(hashlib.sha256(file.read()).hexdigest())
                if len(copies) > 1:
                    return False
        return True


class Once(Client):
    """A client of a context with `once`: a POST that the front server sends again counts once."""

    tries_of_front = 1

    def take(self, number, tries):
        """A request that broke off may wait at a node, and count after a later one was answered; but once at most."""
        skipped = number - self.told - 1
        if not 0 <= skipped <= self.open:
            raise Wrong(f"told {number} after {self.told}, with {self.open} asks that broke off and haven't counted: {self.cookie}")
        self.told, self.skipped, self.open = number, self.skipped + skipped, self.open - skipped


class Asker(threading.Thread):
    """Somebody who counts in a session of his own, at a node's door or at the front server, until told to stop."""

    def __init__(self, machines, home, where):
        super().__init__(daemon=True)
        self.client, self.home, self.where = Once(machines, home), home, where
        self.log, self.fault, self.stopped = [], None, threading.Event()
        self.start()

    def run(self):
        try:
            while not self.stopped.wait(0.05):
                begun = time.monotonic()
                kind = self.client.ask(self.where)
                self.log.append((begun, time.monotonic(), kind))
        except Exception as fault:
            self.fault = fault

    def served_after(self, moment):
        """When the first request since this moment was answered with 200; none if it wasn't yet."""
        return next((ended for begun, ended, kind in list(self.log) if begun >= moment and kind == 200), None)

    def longest_gap(self, since, until):
        """The longest time without such an answer between two moments."""
        marks = [since, *(ended for _, ended, kind in list(self.log) if kind == 200 and since < ended < until), until]
        return max(later - earlier for earlier, later in zip(marks, marks[1:]))


class Load:
    """So many askers at each node's door, and at the front server for sessions of each node. At its end each session has one live copy,
    with the number that was told last, and all machines have the same bytes."""

    def __init__(self, machines, doors=2, fronts=1):
        self.machines = machines
        wheres = [(home, home) for home in NODES for _ in range(doors)] + [(home, "front") for home in NODES for _ in range(fronts)]
        self.askers = [Asker(machines, home, where) for home, where in wheres]

    def of(self, homes):
        """Those at the doors of these nodes."""
        return [asker for asker in self.askers if asker.where in homes]

    def look(self):
        for asker in self.askers:
            if asker.fault:
                raise asker.fault

    def served(self, since, askers=None):
        """Waits until each of them was served since a moment; how many seconds after it the last one was."""
        askers = self.askers if askers is None else askers

        def are_served():
            self.look()
            return all(asker.served_after(since) for asker in askers)

        wait_for(f"answers to {[asker.where for asker in askers]}", are_served)
        return max((asker.served_after(since) - since for asker in askers), default=0.0)

    def nobody_is_served(self, since):
        self.look()
        return not any(asker.served_after(since) for asker in self.askers)

    def stop(self):
        for asker in self.askers:
            asker.stopped.set()
        for asker in self.askers:
            asker.join()
        self.look()

    def settle(self):
        """What came of it, in words."""
        self.stop()
        clients = [asker.client for asker in self.askers]
        if any(client.open for client in clients):
            # What still waits at a node is given up by then.
            time.sleep(DEADLINE + 1)
        check_counts(self.machines, clients)
        wait_for("whole copies", self.machines.is_whole)
        wait_for("the same bytes on all machines", self.machines.copies_agree)
        told = sum(client.told for client in clients)
        skipped = sum(client.skipped for client in clients)
        front = [kind for asker in self.askers if asker.where == "front" for _, _, kind in asker.log]
        slowest = max((ended - begun for asker in self.askers if asker.where == "front" for begun, ended, _ in asker.log), default=0.0)
        return (f"{len(clients)} sessions counted to {told}, {skipped} of it without an answer; at the front server {len(front)} requests, "
                f"{sum(kind != 200 for kind in front)} of them not served, the slowest in {slowest:.1f} s")
