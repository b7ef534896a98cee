"""nginx and haproxy in front of nodes, by their files in deploy/."""
import re
import subprocess

from lib import TOP
from lib.client import listens
from lib.expect import Wrong
from lib.patience import patience, until


def read(name):
    """The text of a file of deploy/."""
    with open(f"{TOP}/deploy/{name}", encoding="utf-8") as file:
        return file.read()


def replaced(text, *pairs):
    """The text with the first of each pair, which is there, as the second."""
    for old, new in pairs:
        if old not in text:
            raise Wrong(f"deploy/ has no {old!r}")
        text = text.replace(old, new)
    return text


def at_ports(text, ports, front):
    nodes = [(f"127.0.0.1:1808{number}", f"127.0.0.1:{port}") for number, port in enumerate(ports)]
    return replaced(text, *nodes, ("127.0.0.1:8080", f"127.0.0.1:{front}"))


def with_once(text):
    """The file with its line for a context that has `once`."""
    if "kegbramble_once {\n" in text:
        return replaced(text, ("map $uri $kegbramble_once {\n", 'map $uri $kegbramble_once {\n    "~^/shop(?:/|$)" 1;\n'))
    return replaced(text, ("    #   http-request set-var(txn.once)", "    http-request set-var(txn.once)"))


def nginx(folder, ports, front, deadline, changed=lambda text: text):
    """The words that start nginx by its file in deploy/, for nodes at these ports with such a deadline."""
    text = at_ports(changed(read("nginx.conf")), ports, front)
    text = replaced(
        text,
        ("/var/log/nginx/kegbramble.log", f"{folder}/access.log"),
        ("proxy_read_timeout 32s", f"proxy_read_timeout {deadline + 2}s"),
        ("proxy_next_upstream_timeout 29s", f"proxy_next_upstream_timeout {deadline - 1}s"),
    )
    paths = "".join(f"{what}_temp_path {folder}/{what};\n" for what in ("client_body", "proxy", "fastcgi", "uwsgi", "scgi"))
    with open(f"{folder}/nginx.conf", "w", encoding="utf-8") as file:
        file.write(
            f"worker_processes 2;\npid {folder}/nginx.pid;\nerror_log {folder}/error.log warn;\nuser root;\n"
            f"events {{ worker_connections 1024; }}\nhttp {{\n{paths}{text}\n}}\n"
        )
    return ["nginx", "-p", folder, "-c", f"{folder}/nginx.conf", "-g", "daemon off;"]


def haproxy(folder, ports, front, deadline, changed=lambda text: text):
    """The same of haproxy."""
    text = at_ports(changed(read("haproxy.cfg")), ports, front)
    text = replaced(
        text,
        ("    log global\n    option httplog\n", ""),
        ("timeout server 32s", f"timeout server {deadline + 2}s"),
        ("timeout client 40s", f"timeout client {deadline + 10}s"),
        ("timeout queue 60s", f"timeout queue {deadline + 10}s"),
        ("retries 30", f"retries {deadline}"),
    )
    text = re.sub(r"    (?:log /dev/log local0|chroot .*|stats socket .*|user .*|group .*)\n", "", text)
    with open(f"{folder}/haproxy.cfg", "w", encoding="utf-8") as file:
        file.write(text)
    return ["haproxy", "-q", "-db", "-f", f"{folder}/haproxy.cfg"]


FRONTS = {"nginx": nginx, "haproxy": haproxy}


class Server:
    """A server that is started by these words, and takes connections at this port."""

    def __init__(self, words, port):
        self.process = subprocess.Popen(words)
        if not until(lambda: self.process.poll() is not None or listens(port)) or self.process.poll() is not None:
            raise Wrong(f"{words[0]} doesn't answer")

    def end(self):
        self.process.terminate()
        self.process.wait(timeout=patience())
