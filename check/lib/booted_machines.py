"""Machines with a systemd each, on one wire: they lose their power and keep their disks, are cut off, stand still, and go on.

They want the namespaces of `namespaces.run_apart`, with a folder in memory at /run. A machine is a control group, in which namespaces
for processes, mounts and the network are; its disk is a layer over this machine's files.
"""
import os
import secrets
import shutil
import signal
import subprocess

from lib import booted, namespaces
from lib.expect import Wrong, wait_for
from lib.namespaces import LIBC
from lib.network import CLONE_NEWNET, run

ROOM = "/run/machines"
GROUPS = "/run/groups"
UNSHARED = ["unshare", "--pid", "--mount", "--uts", "--ipc", "--cgroup", "--fork", "--kill-child"]

BOOT = (
    r"""
set -eu
mkdir -p "$1/up" "$1/work" "$1/root"
cd "$1"
mount -t overlay overlay -o lowerdir=/,upperdir=up,workdir=work root
cd root
"""
    + booted.DEVICES
    + r"""
mount -t tmpfs tmpfs tmp
mknod -m 666 dev/fuse c 10 229
mkdir -p srv/brick
mount --bind "$2" srv/brick
[ -e etc/booted ] || { rm -rf etc/systemd/system/*.wants; ln -s /dev/null etc/systemd/system/console-getty.service; >etc/booted; }
"""
    + booted.START.replace("UNIT", "multi-user.target")
)


# What a kernel may not allow of the machines' network.
TRIED = "ip link add wire type bridge; ip link add one type veth peer name other; ip link add link one type macvlan"


def lacks(*programs):
    """What is missing for such machines, on which these programs are called; none if nothing is."""
    missing = booted.missing("nsenter", *programs) or namespaces.lacks()
    return missing or namespaces.refused(namespaces.UNSHARED, "sh", "-ec", TRIED)


def leave(group):
    """Removes a control group, which the kernel keeps, and those below; whether it could, as it can't while something runs there."""
    try:
        for folder, _, _ in os.walk(group, topdown=False):
            os.rmdir(folder)
    except OSError:
        return False
    return True


class Wire:
    """The bridge that all machines are on. Machines that were made are gone with it."""

    def __init__(self):
        for folder in (ROOM, GROUPS):
            os.makedirs(folder)
        run("mount", "-t", "cgroup2", "cgroup2", GROUPS)
        run("ip", "link", "add", "wire", "type", "bridge")
        run("ip", "link", "set", "wire", "up")
        # Those of a run that was killed.
        for name in os.listdir(GROUPS):
            if name.startswith("kegbramble-"):
                leave(f"{GROUPS}/{name}")
        self.home = os.open("/proc/self/ns/net", os.O_RDONLY)
        self.machines = []

    def enter(self, machine=None):
        """Has this thread be on a machine, or on none; sockets stay where they were made."""
        if LIBC.setns(machine.space if machine else self.home, CLONE_NEWNET):
            raise OSError("setns")

    def end(self):
        for machine in self.machines:
            if machine.process:
                machine.die()


class Machine:
    """A machine by its name and address, which boots by `boot`. It has a disk at /srv/brick, in memory or in a folder."""

    def __init__(self, wire, name, address, disks=None):
        self.wire, self.name, self.address, self.process = wire, name, address, None
        self.folder = f"{ROOM}/{name}"
        self.group = f"{GROUPS}/kegbramble-{name}-{secrets.token_hex(4)}"
        self.brick = f"{disks or ROOM}/{name}/brick"
        os.makedirs(self.folder)
        os.makedirs(self.brick)
        self.space = None
        wire.machines.append(self)

    def plug(self):
        run("ip", "netns", "add", self.name)
        run("ip", "link", "add", f"to-{self.name}", "type", "veth", "peer", "name", "eth0", "netns", self.name)
        run("ip", "-n", self.name, "address", "add", f"{self.address}/24", "dev", "eth0")
        run("ip", "-n", self.name, "link", "set", "eth0", "up")
        run("ip", "link", "set", f"to-{self.name}", "up", "master", "wire")
        self.space = os.open(f"/run/netns/{self.name}", os.O_RDONLY)

    def unplug(self):
        """Interfaces that stand on the machine's are gone with it at once, and not when the kernel comes to it."""
        os.close(self.space)
        run("ip", "link", "delete", f"to-{self.name}")
        run("ip", "netns", "delete", self.name)

    def boot(self):
        self.plug()
        os.mkdir(self.group)
        joined = ["sh", "-ec", 'echo $$ >"$0"; exec "$@"', f"{self.group}/cgroup.procs"]
        words = [*joined, "ip", "netns", "exec", self.name, *UNSHARED, "bash", "-c", BOOT, "boot", self.folder, self.brick]
        with open(f"{self.folder}/console", "ab") as console:
            self.process = subprocess.Popen(words, stdin=subprocess.DEVNULL, stdout=console, stderr=console)
        wait_for(f"{self.name}'s boot", self.is_up)

    def is_up(self):
        """Units may be started; some may wait for more."""
        try:
            return self.tried("systemctl is-active basic.target").stdout.strip() == "active"
        except (OSError, IndexError):
            return False

    def first(self):
        """The first process of the machine, as it is known here."""
        with open(f"/proc/{self.process.pid}/task/{self.process.pid}/children", encoding="ascii") as file:
            return int(file.read().split()[0])

    def place(self, path):
        """A path of the machine, as it is called here."""
        return f"/proc/{self.first()}/root{path}"

    def entered(self):
        """The words before a command that is to be done on the machine."""
        return ["nsenter", "--target", str(self.first()), "--mount", "--uts", "--ipc", "--net", "--pid", "--cgroup", "--wdns=/root"]

    def tried(self, command, timeout=None):
        """What comes of a command of the machine's shell."""
        return subprocess.run([*self.entered(), "bash", "-c", command], capture_output=True, text=True, stdin=subprocess.DEVNULL, timeout=timeout)

    def said(self, command, timeout=None):
        """What a command says that does well."""
        done = self.tried(command, timeout)
        if done.returncode:
            raise Wrong(f"{self.name}: {command}: status {done.returncode}\n{done.stdout}{done.stderr}")
        return done.stdout

    # What befalls it.

    def cut(self):
        """Nothing comes to it or from it any more; nobody is told."""
        run("ip", "link", "set", f"to-{self.name}", "nomaster")

    def mend(self):
        run("ip", "link", "set", f"to-{self.name}", "master", "wire")

    def die(self):
        """It loses its power: nothing of it is sent any more, and all of it ends at once."""
        self.cut()
        self.thaw()
        os.kill(self.first(), signal.SIGKILL)
        self.process.wait()
        self.process = None
        self.unplug()
        wait_for(f"the end of all of {self.name}", lambda: leave(self.group))

    def lose_disk(self):
        """It is dead, and another one is put in its place, on which nothing is."""
        for folder in (self.folder, self.brick):
            shutil.rmtree(folder, ignore_errors=True)
        os.makedirs(self.folder)
        os.makedirs(self.brick)

    def freeze(self):
        """All of it stands still, as a machine does that its host has paused."""
        self.write("cgroup.freeze", "1")
        wait_for(f"that {self.name} stands still", lambda: "frozen 1" in self.read("cgroup.events"))

    def thaw(self):
        self.write("cgroup.freeze", "0")

    def write(self, name, text):
        with open(f"{self.group}/{name}", "w", encoding="ascii") as file:
            file.write(text)

    def read(self, name):
        with open(f"{self.group}/{name}", encoding="ascii") as file:
            return file.read()
