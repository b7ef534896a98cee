"""More clients than a node has places or files for: those that say nothing, or take nothing, give way to who comes."""
import os
import resource
import socket
import threading
import time

from lib.client import rest_of
from lib.expect import expect, in_one_try, say, skip
from lib.patience import brief_deadline
from subjects.common import HELLO, Cluster, asks_for, files_of_a_process, hellos, hellos_beside, hungry_client, stamp


def all_files():
    """Has this process, and those that it starts, have as many files as they may; how many these are."""
    _, most = resource.getrlimit(resource.RLIMIT_NOFILE)
    resource.setrlimit(resource.RLIMIT_NOFILE, (most, most))
    return most


def a_thousand_clients():
    most = all_files()
    if most < 1300:
        skip(f"a thousand clients, since a process may have {most} files here")
        return
    cluster = Cluster(1)
    cluster.start(0)
    in_one_try("all of 300 that say nothing are open", lambda: hellos_beside(cluster, 300) == (True, True))
    # Those that have been silent for longest give way.
    in_one_try("the first of 1,100 is closed and the last is open", lambda: hellos_beside(cluster, 1100) == (False, True))
    cluster.end()


def as_many_clients_as_files():
    """Long before a thousand: the oldest gives way as well."""
    cluster = Cluster(1)
    cluster.start(0, preexec_fn=files_of_a_process(40))
    in_one_try("the first of 60 is closed and the last is open", lambda: hellos_beside(cluster, 60) == (False, True))
    cluster.end()


def connects_without_end(port, ends):
    """Connects and says nothing, again and again, until it is told to end: more than a thousand are open at once."""
    held = []
    while not ends.is_set():
        one = socket.socket()
        one.setblocking(False)
        one.connect_ex(("127.0.0.1", port))
        held.append(one)
        if len(held) > 1200:
            held.pop(0).close()
        # Without a pause there would be as many at the door as the system lets, each time somebody comes.
        time.sleep(0.0003)
    for one in held:
        one.close()


def a_flood_of_newcomers_who_say_nothing():
    """They hold up nobody: who comes between them is let in in turn."""
    all_files()
    cluster = Cluster(1)
    cluster.start(0)
    ends = threading.Event()
    flood = threading.Thread(target=connects_without_end, args=(cluster.ports[0], ends), daemon=True)
    flood.start()
    try:
        time.sleep(0.5)
        hellos(cluster, 0, "newcomers without end who say nothing")
    finally:
        ends.set()
        flood.join()
    cluster.end()


def takes_its_place():
    """Whether somebody is answered beside clients that hold as many files as a node may have and don't take their answers, while most of
    these are held still: a node that they hold up answers once they are closed, after their 30 seconds."""
    cluster = Cluster(1)
    stamp(cluster, "/hello")
    cluster.start(0, "--keep-alive", preexec_fn=files_of_a_process(20))
    files = f"/proc/{cluster.running[0].pid}/fd"
    alone = len(os.listdir(files))
    hungry = [hungry_client(cluster, HELLO * 150) for _ in range(16)]
    time.sleep(3)
    before = len(os.listdir(files)) - alone
    expect("the status of a login beside clients that take nothing", cluster.get(0, "/shop/login", form="user=me")[0], 200)
    after = len(os.listdir(files)) - alone
    for stream in hungry:
        stream.close()
    cluster.end()
    say(f"  a login beside {before} clients that take nothing, of whom {after} are held behind it")
    return 0 < before < 2 * after


def clients_that_take_nothing():
    """The first of them gives way, and nobody waits for the end of their 30 seconds."""
    in_one_try("that nobody waited", takes_its_place)


def clients_that_ask(cluster, cookies, count):
    """So many clients, each of which asks for one of two sessions as soon as it has come."""
    clients = []
    for number in range(count):
        stream = cluster.connect(1)
        stream.sendall(asks_for(cookies[number % 2]))
        clients.append(stream)
    return clients


def goes_on_without_files():
    """Whether a node runs on that has no files left, as long as the one that drips has dripped before the requests are refused."""
    cluster = Cluster(3, f"deadline = {9 + brief_deadline()}")
    cluster.start(1, preexec_fn=files_of_a_process(50))
    cookies = []
    for home in (0, 2):
        cluster.start(home)
        cookies.append(cluster.count(home)[1])
        cluster.kill(home)
    # A client that has said nothing gives way where files are spent. So these have asked, and the node has heard them, before others come.
    waiting = clients_that_ask(cluster, cookies, 25)
    cluster.get(1, "/shop/hello")
    waiting += clients_that_ask(cluster, cookies, 35)
    # Each byte of the one that drips has the node look once more whether there is room.
    waiting[0].setsockopt(socket.IPPROTO_TCP, socket.TCP_NODELAY, 1)
    try:
        for _ in range(1300):
            waiting[0].sendall(b"x")
            time.sleep(0.002)
    except ConnectionError:
        expect("that the node runs", cluster.running[1].poll(), None)
        cluster.end()
        return False
    expect("that the node runs", cluster.running[1].poll(), None)
    used = cpu_seconds(cluster.running[1])
    time.sleep(1)
    expect("processor time of a node that has no files left, below half of it", cpu_seconds(cluster.running[1]) - used < 0.5, True)
    answers = [rest_of(stream)[:12] for stream in waiting[1:20]]
    expect("the answers to those that have waited", set(answers), {b"HTTP/1.1 503"})
    expect("hello behind them", cluster.get(1, "/shop/hello")[:2], (200, "Hello\n"))
    for stream in waiting:
        stream.close()
    cluster.end()
    return True


def no_files_left():
    """All files that it may have are held by requests that wait, and by one that drips: the node waits, and goes on."""
    in_one_try("that it has dripped long enough", goes_on_without_files)


def cpu_seconds(process):
    with open(f"/proc/{process.pid}/stat", encoding="ascii") as file:
        fields = file.read().rsplit(")", 1)[1].split()
    return (int(fields[11]) + int(fields[12])) / os.sysconf("SC_CLK_TCK")


CHECKS = (
    a_thousand_clients,
    as_many_clients_as_files,
    a_flood_of_newcomers_who_say_nothing,
    clients_that_take_nothing,
    no_files_left,
)
