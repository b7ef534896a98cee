"""A program that goes on in namespaces of its own for processes, mounts and the network, so that the kernel ends and removes all that it
has started and made, however the program ends."""
import ctypes
import fcntl
import os
import shutil
import signal
import socket
import struct
import subprocess
import sys

from lib.expect import skip

LIBC = ctypes.CDLL(None, use_errno=True)
PR_SET_PDEATHSIG = 1
UNSHARED = ["unshare", "--net", "--pid", "--mount", "--fork", "--kill-child", "--mount-proc"]
# Set in the program's second life, in namespaces of its own.
APART = "KEGBRAMBLE_APART"


def not_installed(*programs):
    """The first of these programs that isn't here, in words; none where all are."""
    return next((f"{program} isn't installed" for program in programs if not shutil.which(program)), None)


def refused(unshared, *words):
    """Why these words can't be called in such namespaces, in words; none where they can."""
    if os.geteuid() != 0:
        return "it takes root"
    if lacks := not_installed("unshare", "mount"):
        return lacks
    tried = subprocess.run([*unshared, *words], capture_output=True, text=True)
    return f"no namespaces: {tried.stderr.strip()}" if tried.returncode else None


def lacks(*programs):
    """What is missing for namespaces in which these programs are called, in words; none where nothing is."""
    return refused(UNSHARED, "mount", "-t", "tmpfs", "tmpfs", "/run") or not_installed(*programs)


def is_apart():
    return APART in os.environ


def die_with_parent():
    LIBC.prctl(PR_SET_PDEATHSIG, signal.SIGKILL)


def run_apart():
    """Runs this program with the same words in namespaces of its own; its exit status."""
    inner = subprocess.Popen([*UNSHARED, sys.executable, *sys.argv], env={**os.environ, APART: "1"}, preexec_fn=die_with_parent)

    def end(number, _):
        sys.exit(128 + number)

    for number in (signal.SIGTERM, signal.SIGHUP, signal.SIGINT):
        signal.signal(number, end)
    try:
        return inner.wait()
    finally:
        inner.kill()
        inner.wait()


def apart(missing, work):
    """Does the work of a check in namespaces of its own, or skips all of it where something is missing for it, as `lacks` says."""
    if is_apart():
        work()
    elif missing:
        skip(f"all of it: {missing}")
    else:
        sys.exit(run_apart())


def loopback_up():
    """Brings up the loopback interface of these namespaces (netdevice(7))."""
    with socket.socket(socket.AF_INET, socket.SOCK_DGRAM) as one:
        # SIOCSIFFLAGS, with IFF_UP and IFF_RUNNING.
        fcntl.ioctl(one, 0x8914, struct.pack("16sh14x", b"lo", 0x41))


def mount_over(*places):
    """Lays an empty folder in memory over each of these places that is there."""
    for place in places:
        if os.path.isdir(place):
            subprocess.run(["mount", "-t", "tmpfs", "-o", "mode=755", "tmpfs", place], check=True)
