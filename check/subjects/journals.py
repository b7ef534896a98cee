"""The files of a journal: how long they get, one of the program before, a disk that is full, and a journal that another process has."""
import http.client
import os
import resource
import shutil
import signal

from lib import TOP
from lib.client import listens
from lib.expect import expect, wait_for
from lib.journals import current_entries, replay
from lib.nodes import ready
from lib.ports import free_ports
from subjects.common import APPLICATIONS, Cluster, compacted, login


def a_journal_that_is_written_anew():
    """A node does so when it is started, if it finds records, and once more than 4,194,304 bytes are in use. The numbers are those of the
    journal's format: a file has 16 bytes before its entries and 1 after them, an entry 5 bytes before its record. A session of a user
    of 65,000 bytes takes 65,050 bytes, and with a count of two digits 65,063. So the record of a start and its entry take 15 bytes,
    and those of each count 65,080, or 65,081 with two digits: a record has 2 bytes, each of the two sessions that it can name 1, and
    the one that there is 9 and itself. A file that is written anew has 17 bytes, 23 of the counters, and 25 and itself of the session:
    65,115 before the first count, 65,128 later.

    The second start writes that to the second file, and 63 counts make it 65,115 + 9 * 65,080 + 54 * 65,081 = 4,165,209 bytes, 64 make
    it 4,230,290: then the first file is written anew. Each count found 456 bytes, or 455, too few of the 65,536 zeros that the one before
    had laid out: so 64 times 65,536 zeros were added to 65,115 bytes. The next start adds zeros to the first file for its record, writes
    the second file anew, and the last count adds zeros there."""
    cluster = Cluster(1)
    cluster.start(0)
    cookie = login(cluster, 0)
    cluster.kill(0)

    def lengths_behind(counts):
        cluster.start(0)
        for number in counts:
            expect("a count of a large session", cluster.count(0, cookie), (f"{number}\n", cookie))
        cluster.halt(0)
        return [os.path.getsize(f"{cluster.folder}/{name}") for name in ("j0", "j0.b")]

    expect("the lengths of both files behind 64 counts", lengths_behind(range(1, 65)), [65_128, 65_115 + 64 * 65_536])
    expect("the lengths behind one more", lengths_behind([65]), [65_128 + 65_536, 65_128 + 65_536])


def a_journal_of_the_program_before():
    cluster = Cluster(1)
    for name in ("j0", "j0.b"):
        shutil.copy(f"{TOP}/check/journal_of_version_1/{name}", cluster.folder)
    expect("the versions of its records", {entry[0] for entry in current_entries(cluster.journal(0))}, {1})
    first = "JSESSIONID=00" + "00" + f"{1:016x}" + f"{1:032x}"
    cluster.start(0)
    expect("a count of its first session", cluster.count(0, first), ("3\n", first))
    cluster.kill(0)
    cluster.start(0)
    expect("a count behind kill -9", cluster.count(0, first), ("4\n", first))
    cookie = login(cluster, 0)
    compacted(cluster, 0, cookie, 0)
    cluster.kill(0)
    cluster.start(0)
    expect("a count behind a compaction and kill -9", cluster.count(0, first), ("5\n", first))
    held = replay(cluster.journal(0)).held
    expect("its second session, which nobody has asked for", held[(0, 2)].attributes, {"count": b"1"})
    cluster.end()


def small_files():
    signal.signal(signal.SIGXFSZ, signal.SIG_IGN)
    resource.setrlimit(resource.RLIMIT_FSIZE, (600, 600))


def a_disk_that_is_full():
    cluster = Cluster(1)
    cluster.start(0, preexec_fn=small_files)
    body, cookie = cluster.count(0)
    counted = 1
    try:
        while True:
            body, _ = cluster.count(0, cookie)
            counted += 1
            expect("a count while there is room", body, f"{counted}\n")
    except (http.client.HTTPException, OSError):
        pass
    expect("counts before the disk was full, more than 1", counted > 1, True)
    cluster.ends(0, 4, "node: Device\n")
    cluster.start(0)
    body, _ = cluster.count(0, cookie)
    # The step that failed may be there or not: it was never answered.
    expect("the count behind a full disk", body in (f"{counted + 1}\n", f"{counted + 2}\n"), True)
    cluster.end()


def a_journal_that_another_process_has():
    """A journal is locked for as long as a node runs, be it under whatever port or number."""
    cluster = Cluster(2)
    journal = cluster.journal(0)
    cluster.start(0)
    _, cookie = cluster.count(0)
    for path in (journal, f"{journal}.b"):
        expect(f"who may read and write {path}", oct(os.stat(path).st_mode & 0o777), "0o600")

    def images():
        return [open(path, "rb").read() for path in (journal, f"{journal}.b")]

    before = images()
    ports = free_ports(2)
    elsewhere = cluster.write("elsewhere.toml", f"[cluster]\nports = {ports}\n{APPLICATIONS}")
    for what, words in (
        ("the same words at another port", [elsewhere, journal, "0"]),
        ("another number", [elsewhere, journal, "1"]),
        ("the files the other way round", [elsewhere, f"{journal}.b", "0"]),
    ):
        cluster.faults(what, words, 6, "node: Locked\n")
        expect(f"the files behind {what}", images(), before)
    expect("a count of the node that has them", cluster.count(0, cookie), ("2\n", cookie))
    cluster.kill(0)
    cluster.config, cluster.ports = elsewhere, ports
    cluster.start(0)
    expect("a count once that node was killed", cluster.count(0, cookie), ("3\n", cookie))
    cluster.end()


def a_node_that_waits_for_its_journal():
    """With --wait a second process doesn't listen while another has the journal, and goes on with it once that has ended."""
    cluster = Cluster(1)
    cluster.start(0)
    _, cookie = cluster.count(0)
    ports, log = free_ports(1), cluster.write("waiting.log", "")
    elsewhere = cluster.write("elsewhere.toml", f"[cluster]\nports = {ports}\n{APPLICATIONS}")
    waiting = cluster.launch(["--wait", "--log", log, elsewhere, cluster.journal(0), "0"])
    wait_for("the start of a node that waits", lambda: "info starting" in open(log, encoding="utf-8").read())
    for count in ("2\n", "3\n"):
        expect("a count of the node that has the journal", cluster.count(0, cookie), (count, cookie))
        expect("whether the other one listens, and how it ended", (listens(ports[0]), waiting.poll()), (False, None))
    cluster.kill(0)
    cluster.config, cluster.ports, cluster.running[0] = elsewhere, ports, ready(waiting, 0)
    expect("a count of the node that waited", cluster.count(0, cookie), ("4\n", cookie))
    cluster.end()


CHECKS = (
    a_journal_that_is_written_anew,
    a_journal_of_the_program_before,
    a_disk_that_is_full,
    a_journal_that_another_process_has,
    a_node_that_waits_for_its_journal,
)
