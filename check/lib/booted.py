"""A machine of one's own with a systemd, which plays steps and is gone afterwards.

systemd is started in namespaces, over a layer on this machine's files. That takes root, a systemd that is installed and a kernel that
allows it.
"""
import os
import re
import shutil
import subprocess
import tempfile

from lib import namespaces
from lib.expect import Wrong, skip
from lib.patience import patience

SYSTEMD = "/lib/systemd/systemd"
UNSHARED = ["unshare", "--pid", "--mount", "--uts", "--ipc", "--net", "--cgroup", "--fork", "--kill-child"]

# Below the root of a new machine, which is the folder at hand: what a kernel gives, and devices.
DEVICES = r"""
mount -t proc proc proc
mount -t sysfs sysfs sys
mount -t cgroup2 cgroup2 sys/fs/cgroup
mount -t tmpfs tmpfs run
mount -t tmpfs tmpfs dev
mkdir dev/shm dev/pts
mknod -m 666 dev/null c 1 3; mknod -m 666 dev/zero c 1 5; mknod -m 666 dev/full c 1 7; mknod -m 666 dev/random c 1 8
mknod -m 666 dev/urandom c 1 9; mknod -m 666 dev/tty c 5 0; mknod -m 600 dev/console c 5 1; mknod -m 666 dev/ptmx c 5 2
ln -s /proc/self/fd dev/fd; ln -s fd/0 dev/stdin; ln -s fd/1 dev/stdout; ln -s fd/2 dev/stderr
mkdir -p old
ip link set lo up
"""

# That folder becomes the root, and systemd begins with a unit.
START = r"""
pivot_root . old
umount -l old
mount --make-rshared /
exec env -i container=other PATH=/usr/sbin:/usr/bin:/sbin:/bin \
  /lib/systemd/systemd --system --unit=UNIT --log-target=journal --show-status=no
"""

# A machine whose root is a layer over this one's, with /mnt for the room.
BOOT = (
    r"""
set -eu
mount -t tmpfs tmpfs "$1/layer"
cd "$1/layer"
mkdir up work root
mount -t overlay overlay -o lowerdir=/,upperdir=up,workdir=work root
cd root
"""
    + DEVICES
    + r"""
mkdir -p mnt
mount --bind "$1" mnt
rm -rf etc/systemd/system/*.wants
cp "$1"/units/* etc/systemd/system/
"""
    + START.replace("UNIT", "steps.target")
)

# What a kernel may not allow of that.
TRIED = r"""
mount -t cgroup2 cgroup2 /sys/fs/cgroup
mount -t tmpfs tmpfs /mnt
cd /mnt
mkdir up work root
mount -t overlay overlay -o lowerdir=/,upperdir=up,workdir=work root
mknod -m 666 root/dev/null.tried c 1 3
"""

SERVICE = """[Service]
Type=oneshot
ExecStart=/bin/bash /mnt/steps
ExecStopPost=/bin/systemctl poweroff --no-block
StandardOutput=append:/mnt/said
StandardError=append:/mnt/trouble
"""

# `until_so 'STEP'` waits until a step does well.
UNTIL_SO = r"""
until_so() { local tenths; for ((tenths = 0; tenths < TENTHS; tenths++)); do eval "$1" && return; sleep 0.1; done; }
"""

TARGET = """[Unit]
Wants=steps.service
AllowIsolate=yes
"""


def missing(*programs):
    """What is missing for such a machine, on which these programs are called; none where nothing is."""
    if lacks := namespaces.not_installed(SYSTEMD, "systemctl", "ip", "curl", "useradd", *programs):
        return lacks
    return namespaces.refused(UNSHARED, "sh", "-ec", TRIED)


def bring(program, place, seen=None):
    """Copies a program to a place, which the machine sees as another one. One that is a script over a program beside it brings that along."""
    with open(program, "rb") as file:
        text = file.read()
    beside = re.search(rb"(\S+\.made) ", text) if text.startswith(b"#!") else None
    if beside:
        shutil.copy(beside[1], f"{place}.made")
        os.chmod(f"{place}.made", 0o755)
        text = text.replace(beside[1], f"{seen or place}.made".encode())
    with open(place, "wb") as file:
        file.write(text)
    os.chmod(place, 0o755)


class Room:
    """A folder that the machine has as /mnt."""

    def __init__(self, path):
        self.path = path
        os.chmod(path, 0o755)
        os.mkdir(f"{path}/layer")
        os.mkdir(f"{path}/units")

    def bring(self, program, name):
        bring(program, f"{self.path}/{name}", f"/mnt/{name}")

    def write(self, name, text):
        with open(f"{self.path}/{name}", "w", encoding="utf-8") as file:
            file.write(text)

    def read(self, name):
        """What a file has; nothing where it isn't there."""
        try:
            with open(f"{self.path}/{name}", encoding="utf-8") as file:
                return file.read()
        except FileNotFoundError:
            return ""

    def play(self, steps):
        """What these steps of a shell say on the machine, with the units that the room has, until it has shut down."""
        steps = UNTIL_SO.replace("TENTHS", str(int(10 * patience()))) + steps
        for name, text in (("boot", BOOT), ("units/steps.service", SERVICE), ("units/steps.target", TARGET), ("steps", steps)):
            self.write(name, text)
        with open(f"{self.path}/console", "w", encoding="utf-8") as console:
            words = [*UNSHARED, "bash", f"{self.path}/boot", self.path]
            boot = subprocess.Popen(words, stdin=subprocess.DEVNULL, stdout=console, stderr=console)
            try:
                boot.wait(timeout=3 * patience())
            except subprocess.TimeoutExpired:
                boot.kill()
                boot.wait()
        return "".join(f"{line.rstrip()}\n" for line in self.read("said").splitlines())

    def trouble(self):
        """What the machine and the steps said of what went wrong."""
        return self.read("console") + self.read("trouble")


def played(lacks, furnish, steps, wanted):
    """Whether these steps were played, in a room that was furnished for them: they have to say what is wanted. Where something lacks for
    the machine, that is said."""
    if lacks:
        skip(f"all of it: {lacks}")
        return False
    with tempfile.TemporaryDirectory(prefix="booted") as path:
        room = Room(path)
        furnish(room)
        said = room.play(steps)
        if said != wanted:
            raise Wrong(f"wanted\n{wanted}got\n{said}beside which was said\n{room.trouble()}")
    return True
