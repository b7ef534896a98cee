"""How a node ends that can't run: each fault with its status, in the order in which they are found."""
import http.client
import os
import socket

from lib.nodes import ready
from subjects.common import APPLICATIONS, Cluster


def faults():
    """Those of files, and of secrets that end; all others are in the table below."""
    cluster = Cluster(1)
    words = [cluster.config, cluster.journal(0), "0"]
    short = cluster.write("short", "0123456789abcdef")
    few = cluster.write("few.toml", f"[cluster]\nports = {cluster.ports}\nsecrets = \"{short}\"\n{APPLICATIONS}")
    cluster.faults("a word that is no text", [words[0], b"\xff", "0"], 2, "node: Arguments\n")
    cluster.faults("a journal in no folder", [words[0], "/not/there/j", "0"], 4, "node: Device\n")
    with open(words[1], "wb") as file:
        file.write(b"\xa5 no journal at all")
    cluster.faults("a file that is no journal", words, 4, "node: Damaged\n")
    os.remove(words[1])
    cluster.start(0)
    cluster.faults("a port that is taken", [words[0], f"{cluster.folder}/other", "0"], 5, "node: Socket\n")
    cluster.halt(0)
    # The first request takes the only secret that is there, and the second finds none.
    cluster.running[0] = ready(cluster.launch([few, *words[1:]]), 0)
    try:
        for _ in range(2):
            cluster.get(0, "/shop/hello")
    except (http.client.HTTPException, OSError):
        pass
    cluster.ends(0, 5, "node: Secrets\n")


SHOP = """context = [{ path = "/shop" }]
"""


NOBODY = """
[[context]]
path = "/shop"
servlet = [{ name = "nobody", patterns = ["/nobody"] }]
"""


NO_SECRETS = """
[cluster]
ports = [PORT]
secrets = "/not/there"
"""


# What a node is started with, its descriptor with PORT for its port, and how it ends: each row has its own fault and those of all rows
# behind it. A journal in a folder that isn't there comes behind them all, and another listens at the port.
FAULTS = [
    ("two words", "NONE JOURNAL", "cluster =", 2, "Arguments"),
    ("five words", "--keep-alive NONE JOURNAL 9 9", "cluster =", 2, "Arguments"),
    ("a first word of four that there is not", "--kept NONE JOURNAL 9", "cluster =", 2, "Arguments"),
    ("a NUMBER that is none", "NONE JOURNAL +9", "cluster =", 2, "Arguments"),
    ("no CONFIG", "NONE JOURNAL 9", "cluster =", 3, "Unreadable"),
    ("no TOML", "CONFIG JOURNAL 9", "cluster =", 3, "NotToml"),
    ("a context without a path", "CONFIG JOURNAL 9", "[[context]]", 3, "MissingField"),
    ("a context that is a number", "CONFIG JOURNAL 9", "context = 1", 3, "WrongKind"),
    ("a key that there is not", "CONFIG JOURNAL 9", 'context = [{ path = "/shop", name = 1 }]', 3, "UnknownName"),
    ("a path without a slash", "CONFIG JOURNAL 9", 'context = [{ path = "shop" }]', 3, "BadPattern"),
    ("two contexts of one path", "CONFIG JOURNAL 9", 'context = [{ path = "/shop" }, { path = "/shop" }]', 3, "Duplicate"),
    ("a list of no ports", "CONFIG JOURNAL 9", SHOP + "cluster = { ports = [] }", 3, "LimitExceeded"),
    ("no ports", "CONFIG JOURNAL 9", NOBODY, 3, "Ports"),
    ("a NUMBER of no node", "CONFIG JOURNAL 1", NO_SECRETS + NOBODY, 2, "Arguments"),
    ("an object that there is none of", "CONFIG JOURNAL 0", NO_SECRETS + NOBODY, 3, "MissingObject"),
    ("no secrets", "CONFIG JOURNAL 0", SHOP + NO_SECRETS, 5, "Secrets"),
    ("a port that is taken", "CONFIG JOURNAL 0", SHOP + "[cluster]\nports = [PORT]", 5, "Socket"),
]


def faults_in_their_order():
    cluster = Cluster(1)
    with socket.create_server(("127.0.0.1", cluster.ports[0])):
        for what, words, descriptor, status, name in FAULTS:
            cluster.write("c.toml", descriptor.replace("PORT", str(cluster.ports[0])))
            paths = {"NONE": "/not/there/c.toml", "CONFIG": cluster.config, "JOURNAL": "/not/there/j0"}
            cluster.faults(what, [paths.get(word, word) for word in words.split()], status, f"node: {name}\n")


CHECKS = (faults, faults_in_their_order)
