"""Ports of the loopback address that nobody has, and that no other check is given as long as this process runs.

They lie below those that the system gives to whoever connects, so that no client takes the port of a node that is down for a while. A
port is a check's own by an abstract socket of its number (unix(7)), which ends with the process, as namespaces of the network go.
"""
import errno
import random
import socket

from lib.expect import Wrong

OWNED = []
LOWEST = 10_000


def highest():
    """Below the system's own (ip(7))."""
    with open("/proc/sys/net/ipv4/ip_local_port_range", encoding="ascii") as file:
        low = int(file.read().split()[0])
    return low - 1 if low > LOWEST + 1000 else 32_767


def is_owned(port):
    """Makes a port this process's own; whether it was nobody's."""
    mark = socket.socket(socket.AF_UNIX)
    try:
        mark.bind(f"\0kegbramble-check-{port}")
    except OSError as fault:
        mark.close()
        if fault.errno != errno.EADDRINUSE:
            raise
        return False
    OWNED.append(mark)
    return True


def is_free(port):
    try:
        socket.create_server(("127.0.0.1", port)).close()
        return True
    except OSError:
        return False


def free_ports(count):
    found, last = [], highest()
    for _ in range(10_000):
        if len(found) == count:
            return found
        port = random.randint(LOWEST, last)
        if is_owned(port) and is_free(port):
            found.append(port)
    raise Wrong(f"no {count} ports are free between {LOWEST} and {last}")


def free_port():
    return free_ports(1)[0]
