"""Three machines with a node and haproxy each, and a fourth with nginx in front, as deploy/machines has them, in namespaces."""
import csv
import http.client
import os
import re
import shutil
import signal
import socket
import subprocess
import time

from lib import TOP, client
from lib.expect import Wrong, expect, wait_for
from lib.frames import command, key_of, move
from lib.journals import replay
from lib.namespaces import mount_over
from lib.network import Wire
from lib.nodes import ready
from lib.patience import patience

DEPLOY = f"{TOP}/deploy/machines"
ROOM = "/run/kegbramble"
CONFIG = f"{DEPLOY}/cluster.toml"
PORTS = [18080, 18081, 18082]
PACKETS, HTTP = 7440, 7443
DEADLINE = 5


def script(name, *words):
    """Runs a program of deploy/machines; what it says."""
    done = subprocess.run([f"{DEPLOY}/{name}", *words], capture_output=True, text=True)
    expect(f"the status of {name} {' '.join(words)}: {done.stderr}", done.returncode, 0)
    return done.stdout


class Machines:
    """The machines, what runs on them and what is asked of them. They want the namespaces of `namespaces.run_apart`, over whose folders for
    what runs, logs and nginx's settings they lay their own."""

    def __init__(self, node, kegctl):
        mount_over("/run", "/var/log/nginx", "/var/lib/nginx")
        shutil.copytree("/etc/nginx", f"{ROOM}/nginx", symlinks=True)
        subprocess.run(["mount", "--bind", f"{ROOM}/nginx", "/etc/nginx"], check=True)
        self.node, self.kegctl = node, kegctl
        self.certs, self.keys = f"{ROOM}/certs", f"{ROOM}/keys"
        self.wire = Wire(["m0", "m1", "m2", "front"])
        self.names, self.front = self.wire.names[:3], "front"
        self.nodes, self.proxies, self.nginx = {}, {}, None
        self.link = "tls"
        # As the unit has it.
        self.words = ["--keep-alive", "--greet"]
        self.log = open(f"{ROOM}/log", "a", encoding="utf-8")
        script("certificates", "make", self.certs, "3")

    # What runs on the machines.

    def spawn(self, name, *words, env=None, **kinds):
        return subprocess.Popen(["ip", "netns", "exec", name, *words], env={**os.environ, **(env or {})}, **{"stderr": self.log, **kinds})

    def own(self, number, name):
        """A file of a machine's own."""
        os.makedirs(f"{ROOM}/{number}", exist_ok=True)
        return f"{ROOM}/{number}/{name}"

    def journal(self, number):
        return self.own(number, "journal")

    def start_node(self, number):
        words = [self.node, *self.words, CONFIG, self.journal(number), str(number)]
        node = self.spawn(self.names[number], *words, stdout=subprocess.PIPE, text=True)
        self.nodes[number] = ready(node, number)

    def kill_node(self, number):
        node = self.nodes.pop(number)
        node.kill()
        node.wait()

    def address(self, at):
        return f"10.88.0.{at + 1}" if self.link == "wireguard" else f"10.77.0.{at + 1}"

    def settings(self, number):
        """What stands in /etc/default/haproxy, and what is this room's own."""
        given = {"KEGBRAMBLE_NODE": str(number), "KEGBRAMBLE_ADDRESS": self.address(number), "KEGBRAMBLE_CERTS": self.certs,
                 "KEGBRAMBLE_RUN": os.path.dirname(self.own(number, "")), "KEGBRAMBLE_LINK": self.link,
                 "KEGBRAMBLE_INTERFACE": f"keg{number}", "KEGBRAMBLE_FRONT": self.address(3)}
        return given | {f"KEGBRAMBLE_MACHINE_{at}": self.address(at) for at in range(3)}

    def start_proxy(self, number):
        words = ["haproxy", "-W", "-f", f"{DEPLOY}/haproxy.cfg"]
        self.proxies[number] = self.spawn(self.names[number], *words, env=self.settings(number), stdout=self.log)

    def reload_proxy(self, number):
        """As `systemctl reload haproxy`: workers of before end, and nobody of theirs comes in any more."""
        before = self.workers(number)
        self.proxies[number].send_signal(signal.SIGUSR2)
        wait_for("haproxy's new worker", lambda: self.workers(number) - before and not self.workers(number) & before)

    def workers(self, number):
        master = self.proxies[number].pid
        with open(f"/proc/{master}/task/{master}/children", encoding="utf-8") as file:
            return set(map(int, file.read().split()))

    def kill_proxy(self, number):
        """Ends haproxy at once, and all that it has under way."""
        for worker in self.workers(number):
            os.kill(worker, signal.SIGKILL)
        proxy = self.proxies.pop(number)
        proxy.kill()
        proxy.wait()

    def start_front(self):
        """Debian's nginx, with the file and the certificate in their places."""
        with open(f"{DEPLOY}/nginx.conf", encoding="utf-8") as file:
            site = file.read()
        if self.link == "wireguard":
            # As the page has it.
            site = re.sub(r"(?m)^ *proxy_ssl_.*\n", "", site).replace("https://", "http://").replace("10.77.", "10.88.")
        with open("/etc/nginx/conf.d/kegbramble.conf", "w", encoding="utf-8") as file:
            file.write(site)
        os.makedirs("/etc/nginx/kegbramble", exist_ok=True)
        for name in ("ca.pem", "crl.pem", "front.crt", "front.key"):
            shutil.copy(f"{self.certs}/{name}", "/etc/nginx/kegbramble")
        self.nginx = self.spawn(self.front, "nginx", "-g", "daemon off;", stdout=self.log)
        wait_for("nginx", lambda: self.is_open(self.front, "127.0.0.1", 8080))

    def stop_front(self):
        self.nginx.terminate()
        self.nginx.wait(patience())

    def up(self):
        for number in range(3):
            self.start_proxy(number)
            self.start_node(number)
        self.start_front()
        self.wait_for_links()

    def wait_for_links(self):
        for number in range(3):
            wait_for(f"machine {number}'s links to the others", lambda: self.links(number)[0] == 0)

    def links(self, number):
        """What kegbramble-links says on a machine: its status, and a line for each other machine."""
        done = subprocess.run([f"{DEPLOY}/links", self.own(number, "admin.sock")], capture_output=True, text=True)
        return done.returncode, done.stdout.splitlines()

    def refused(self, number):
        """How often the doors of a machine have refused what came to them, after the handshake: denied or not understood."""
        with socket.socket(socket.AF_UNIX) as line:
            line.connect(self.own(number, "admin.sock"))
            line.sendall(b"show stat\n")
            rows = list(csv.DictReader(line.makefile(encoding="utf-8")))
        return sum(int(row["dreq"]) + int(row["ereq"]) for row in rows if row["svname"] == "FRONTEND" and row["# pxname"] in ("packets", "http"))

    # What is asked of them.

    def connect(self, name, address, port, timeout=None):
        self.wire.enter(name)
        try:
            return socket.create_connection((address, port), timeout=timeout or patience())
        finally:
            self.wire.enter()

    def is_open(self, name, address, port):
        try:
            self.connect(name, address, port, 1).close()
            return True
        except OSError:
            return False

    def ask(self, where, cookie=None, path="/shop/count"):
        """Asks a node on its own machine, or with "front" the front server there. Status, text and cookie; status 0 where it breaks."""
        name, port = (self.front, 8080) if where == "front" else (self.names[where], PORTS[where])
        try:
            answer = client.ask(port, path, cookie and f"JSESSIONID={cookie}", stream=self.connect(name, "127.0.0.1", port))
            return answer.status, answer.text, re.match(r"JSESSIONID=([0-9a-f]+)", answer.cookie)[1] if answer.cookie else None
        except (OSError, http.client.HTTPException):
            return 0, "", cookie

    def order(self, number, payload):
        """What a node answers to a command, given on its own machine."""
        with self.connect(self.names[number], "127.0.0.1", PORTS[number]) as line:
            line.sendall(command(payload))
            return line.recv(1)

    def kegctl_on(self, number, *words):
        """kegctl on the machine of a node, as by ssh: its status and what it says."""
        done = subprocess.run(["ip", "netns", "exec", self.names[number], self.kegctl, *map(str, words)], capture_output=True, text=True)
        return done.returncode, done.stdout, done.stderr

    def kept(self, number):
        """What a node's journal leads to, by a reader of its own."""
        return replay(self.journal(number)).held


class Client:
    """A session, and what its client was told. No number may come twice, and none be left out but those of asks that broke off."""

    # The front server asks up to so many machines where one breaks off, and each may count, where the context has no `once`.
    tries_of_front = 3

    def __init__(self, machines, home):
        self.machines, self.told, self.open, self.cookie = machines, 0, 0, None
        self.answers, self.times, self.skipped = {}, [], 0
        self.ask_until_served(home)

    @property
    def key(self):
        return key_of(self.cookie)

    def ask(self, where):
        """Counts once more; the status, 503 with its reason as a text."""
        begun = time.monotonic()
        status, text, cookie = self.machines.ask(where, self.cookie)
        took = time.monotonic() - begun
        if self.cookie and cookie != self.cookie:
            raise Wrong(f"the session {self.cookie} was lost after {self.told}")
        self.cookie = cookie
        kind = text.split()[-1] if status == 503 and text.split() else status
        self.answers[kind] = self.answers.get(kind, 0) + 1
        tries = self.tries_of_front if where == "front" else 1
        if status == 200:
            self.take(int(text), tries)
            self.times.append(took)
        elif status != 503 or where == "front":
            # It may have been counted; what a node refuses was not.
            self.open += tries
        return kind

    def take(self, number, tries):
        if not self.told < number <= self.told + self.open + tries:
            raise Wrong(f"told {number} after {self.told}, with {self.open} asks that broke off: {self.cookie}")
        self.skipped += number - self.told - 1
        self.told, self.open = number, 0

    def ask_until_served(self, where):
        wait_for(f"the session {self.cookie} at {where}", lambda: self.ask(where) == 200)

    def move(self, number, to):
        """Has a node hand the session over; what it answers, 0 where it did."""
        return self.machines.order(number, move(self.key, to))[0]


def answers_of(clients):
    found = {}
    for client in clients:
        for kind, count in client.answers.items():
            found[kind] = found.get(kind, 0) + count
    return found


def check_counts(machines, clients):
    """Each session goes on at each machine with the next number; the journals have one live copy of each, with that number."""
    for client in clients:
        for where in range(3):
            client.ask_until_served(where)

    # A grant that is not acknowledged yet leaves what was sent where it came from.
    wait_for("one live copy of each session, with the number that was told last", lambda: live(machines, clients) == {
        client.key: [("active", client.told)] for client in clients})


def live(machines, clients):
    """Of each client's session, how nodes have a copy of it that lives, and what it counts."""
    kept = [machines.kept(number) for number in range(3)]

    def copies(key):
        found = [held.get(key) for held in kept]
        return [(one.how, int(one.attributes["count"])) for one in found if one and one.how in ("active", "sent")]

    return {client.key: copies(client.key) for client in clients}


def mostly_served(clients):
    """That most were answered: none has to be refused, but on a machine with many times its load many wait for more than the deadline."""
    answers = answers_of(clients)
    if answers.get(200, 0) < sum(answers.values()) / 2:
        raise Wrong(f"few were served: {answers}")


def start_wireguard(machines):
    """The machines and the front server by the configurations of deploy/machines/wireguard, each under a name of its own: the kernel
    keeps such names apart by machine, wireguard-go doesn't."""
    script("wireguard", machines.keys, *(machines.wire.address[name] for name in machines.wire.names))
    for number, name in enumerate(machines.wire.names):
        config = f"{machines.keys}/keg{number}.conf"
        shutil.copy(f"{machines.keys}/{number}.conf", config)
        done = subprocess.run(["ip", "netns", "exec", name, "wg-quick", "up", config], capture_output=True, text=True)
        expect(f"wg-quick on {name} ({done.stderr})", done.returncode, 0)


def join_by_wireguard(machines):
    """Has WireGuard encrypt what haproxy did, and starts the doors and the front server for that."""
    start_wireguard(machines)
    machines.stop_front()
    for number in range(3):
        machines.kill_proxy(number)
    machines.link = "wireguard"
    for number in range(3):
        machines.start_proxy(number)
    machines.start_front()
    machines.wait_for_links()
