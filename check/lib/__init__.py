"""What the checks of this folder have in common, said once.

A check is a program of this folder, without an ending, whose docstring says what it tries, how it is called and how long it takes. It
ends with status 0, or at the first wrong answer with status 1 and a line on standard error that says what was found in place of what. A
new one looks like this:

    #!/usr/bin/env python3
    \"\"\"Counts at a node that is killed.

        check/some_name NODE [CHECK ..]     the program of a node; CHECK is the name of a function below, all where none is named
    \"\"\"
    import sys

    from lib.expect import ended_by, expect, try_each
    from lib.nodes import COUNTING, Cluster

    def outlives_its_process(program):
        cluster = Cluster(program, 1, COUNTING)
        cluster.start(0)
        ...
        cluster.end()

    ended_by(lambda: try_each([outlives_its_process], sys.argv[2:], sys.argv[1]))

and has a line in `programs` of check/all, and one in the table of docs/CONTRIBUTING.md. Its modules:

    expect          what is wanted, what is said, how a check ends; what lacks for it, which is skipped
    patience        what is waited for, and how long: the only place for that. It grows with the machine's load. No check has a number of
                    seconds of its own that a machine with much to do can miss; a deadline of a node that is tried is met by order (who is
                    answered what), and one that isn't is long (`patience.deadline()`)
    ports           ports that nobody has, and no other check is given meanwhile
    nodes           a cluster's descriptor, its nodes as processes, and who asks them: start, kill, halt, count, move
    client          HTTP and bytes over a socket
    frames          commands and packets as bytes
    journals        a reader of journals, apart from the nodes' own code
    shims, strace   libraries that stand in for what the system does (a disk that is slow, memory that is refused), and who watches it
    namespaces      a program that goes on in namespaces of its own; `network` has machines there, `three_machines` our nodes on them,
                    `booted` one with a systemd, `booted_machines` several that lose their power, and `failover` our nodes on those
    front_servers   nginx and haproxy by their files in deploy/
    browser, pages, sources, toolchain     a Chromium; what documents have their readers paste; sums over sources; which rt it is
"""
import os

# The repository.
TOP = os.path.dirname(os.path.dirname(os.path.dirname(os.path.abspath(__file__))))
